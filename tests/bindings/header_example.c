/* Runs the example in the header's comment and compares what it leaves with document 01. */
#include <stdio.h>
#include <string.h>

#include "segment_cache.h"

static int same(const char *what, int holds) {
    if (!holds) fprintf(stderr, "header example: %s differ\n", what);
    return holds;
}

/* What is left of a record, told with this remaining time, as a lifetime to copy it with. */
static int left_is(uint64_t remaining, size_t len, uint64_t seconds, uint64_t nanoseconds) {
    uint64_t lifetime[SEGMENT_CACHE_LIFETIME_WORDS];
    const uint64_t record[SEGMENT_CACHE_RECORD_WORDS] = {1, 0, 0, 4, 4, 1, 5, 2, remaining, 59,
                                                         7, 7};
    return segment_cache_lifetime_left(lifetime, record) == len && lifetime[0] == seconds &&
           lifetime[1] == nanoseconds;
}

/* The record at a position of the example's bytes ends there; end 0 where none is read. */
static int ends(const uint64_t *setting, const uint8_t *bytes, size_t position, uint64_t end) {
    uint64_t record[SEGMENT_CACHE_STORED_WORDS];
    uint64_t refusal = segment_cache_record_at(setting, SEGMENT_CACHE_SETTING_WORDS, bytes, 12, position,
                                               record, SEGMENT_CACHE_STORED_WORDS);
    return refusal == 0 && record[SEGMENT_CACHE_STORED_READ] == (end != 0) &&
           record[SEGMENT_CACHE_STORED_LOCATION] == (end ? position : 0) &&
           record[SEGMENT_CACHE_STORED_END] == end;
}

/* The example's set as a file and loaded from it: the file's bytes, and what the areas hold then. */
static int travels(const uint64_t *set, const uint64_t *index, const uint64_t *starts,
                   const uint64_t *lengths, const uint8_t *arena) {
    static const uint8_t counts[50] = {44, 0, 0, 0, 1, 0, 1, 1, 0, 0, 0, 0, 0, 0, 0, 0, 0,
                                       0,  0, 7, 1, 0, 2, 0, 0, 0, 2, 0, 0, 0, 0, 0, 0, 0,
                                       2,  0, 0, 0, 0, 0, 0, 0, 8, 0, 0, 0, 0, 0, 0, 0};
    static const uint8_t words[38] = {8,  0, 0, 0, 2, 0, 12, 0, 0, 0, 0, 0, 0, 0, 64, 0, 0, 0, 3,
                                      0,  1, 1, 0, 0, 0, 0,  0, 0, 0, 0, 1, 0, 0, 0,  0, 0, 0, 8};
    static const uint8_t rest[12] = {0, 0, 0, 0, 4, 0, 12, 0, 0, 0, 5, 0};
    static const uint64_t least[SEGMENT_CACHE_NEEDS_WORDS] = {8, 0, 256, 256, 12};
    uint8_t file[160] = {0}, bytes[12];
    uint64_t size[1], needs[SEGMENT_CACHE_NEEDS_WORDS], loaded[SEGMENT_CACHE_SET_WORDS];
    uint64_t index2[8], filter2[1], starts2[256], lengths2[256];
    file[158] = 77;
    return segment_cache_file_bytes(set, 15, starts, 256, lengths, 256, size, 1) == 0 &&
           size[0] == 158 &&
           segment_cache_write_file(set, 15, index, 8, filter2, 0, starts, 256, lengths, 256, arena,
                                    4096, file, 157, size, 1) == SEGMENT_CACHE_AREA_TOO_SHORT &&
           segment_cache_write_file(set, 15, index, 8, filter2, 0, starts, 256, lengths, 256, arena,
                                    4096, file, 160, size, 1) == 0 &&
           size[0] == 158 && memcmp(file, counts, 50) == 0 && memcmp(file + 50, words, 38) == 0 &&
           memcmp(file + 134, rest, 12) == 0 && memcmp(file + 146, arena, 12) == 0 &&
           file[158] == 77 && segment_cache_file_needs(file, 158, needs, 5) == 0 &&
           memcmp(needs, least, sizeof least) == 0 &&
           segment_cache_load_file(file, 159, index2, 8, filter2, 0, starts2, 256, lengths2, 256,
                                   bytes, 12, loaded, 15) == SEGMENT_CACHE_FILE_FRAMING &&
           segment_cache_load_file(file, 158, index2, 8, filter2, 0, starts2, 256, lengths2, 256,
                                   bytes, 12, loaded, 15) == 0 &&
           loaded[SEGMENT_CACHE_SET_FILLED] == 12 && index2[0] == 0x101 && index2[1] == 0x10000 &&
           index2[2] == 0x800 && starts2[0] == 0 && lengths2[0] == 12 && starts2[255] == 0 &&
           memcmp(bytes, arena, 12) == 0;
}

/* The example's set on paper: its lines, and what lies behind the page; an area one byte short is refused. */
static int is_printed(const uint64_t *set, const uint64_t *index, const uint64_t *starts,
                      const uint64_t *lengths, const uint8_t *arena) {
    static const char lines[] = "       0 61                       4142                        10\n"
                                "       1 62                                                never\n";
    static uint8_t page[SEGMENT_CACHE_PAGE_BYTES + 1], blank[SEGMENT_CACHE_LINE_BYTES];
    uint64_t pages[1] = {7}, told[1] = {7};
    memset(page, 77, sizeof page);
    memset(blank, ' ', sizeof blank);
    blank[SEGMENT_CACHE_LINE_BYTES - 1] = '\n';
    int well = segment_cache_sheet_pages(set, 15, index, 8, starts, 256, lengths, 256, arena, 4096,
                                         told, 1) == 0 &&
               told[0] == 1 &&
               segment_cache_print_sheet(set, 15, index, 8, starts, 256, lengths, 256, arena, 4096,
                                         page, SEGMENT_CACHE_PAGE_BYTES - 1, pages,
                                         1) == SEGMENT_CACHE_AREA_TOO_SHORT &&
               pages[0] == 7 && page[0] == 77 &&
               segment_cache_print_sheet(set, 15, index, 8, starts, 256, lengths, 256, arena, 4096,
                                         page, sizeof page, pages, 1) == 0 &&
               pages[0] == 1 && memcmp(page, lines, 2 * SEGMENT_CACHE_LINE_BYTES) == 0 &&
               page[SEGMENT_CACHE_PAGE_BYTES] == 77;
    for (size_t i = 2; i < SEGMENT_CACHE_PAGE_LINES; i++)
        well &= memcmp(page + i * SEGMENT_CACHE_LINE_BYTES, blank, sizeof blank) == 0;
    return well;
}

int main(void) {
#include "header_example.inc"
    static const uint8_t records[12] = {1, 2, 10, 0, 0x61, 0x41, 0x42, 1, 0, 0xff, 0xff, 0x62};
    static const uint64_t needed[SEGMENT_CACHE_AREA_WORDS] = {8, 0, 256, 256, 1};
    int well = same("area words", memcmp(need, needed, sizeof needed) == 0);
    well &= same("records", memcmp(arena, records, sizeof records) == 0);
    well &= same("index words", index[0] == 0x8181 && index[1] == 0x10000 && index[2] == 0x800);
    well &= same("places", place[0] == 1 && place[1] == 7);
    well &= same("segments", set[SEGMENT_CACHE_SET_SEGMENTS] == 1 && starts[0] == 0 && lengths[0] == 12);
    well &= same("steps", ends(set, arena, 0, 7) && ends(set, arena, 7, 12) && ends(set, arena, 12, 0));
    well &= same("the last answer", span[0] == 1 && span[1] == 12 && span[2] == 0);
    well &= same("files", travels(set, index, starts, lengths, arena));
    well &= same("sheets", is_printed(set, index, starts, lengths, arena));
    well &= same("word counts", segment_cache_builder_words() == SEGMENT_CACHE_BUILDER_WORDS &&
                                    segment_cache_set_words() == SEGMENT_CACHE_SET_WORDS);
    well &= same("lifetimes left", left_is(SEGMENT_CACHE_REMAINING_NEVER, 0, 0, 0) &&
                                       left_is(SEGMENT_CACHE_REMAINING_FINITE, 2, 59, 7) &&
                                       left_is(SEGMENT_CACHE_REMAINING_NOTHING, 2, 0, 0));
    well &= same("names", strcmp(segment_cache_refusal_name(12), "RecordMismatch") == 0 &&
                              strcmp(segment_cache_refusal_name(15), "FileContent") == 0 &&
                              strcmp(segment_cache_refusal_name(16), "unknown") == 0);
    well &= same("names of sheets", strcmp(segment_cache_sheet_refusal_name(15), "FileContent") == 0 &&
                                        strcmp(segment_cache_sheet_refusal_name(16), "FieldTooLong") == 0 &&
                                        strcmp(segment_cache_sheet_refusal_name(17), "unknown") == 0);
    return well ? 0 : 1;
}
