/*
 * Prints the chart room sheet of a set: reads the set's file from standard input, of any size, into areas as
 * long as it needs. A file that is refused, or a set that does not fit a sheet, is a message, and the status
 * is 1.
 */
#include <stdio.h>
#include <stdlib.h>

#include "segment_cache.h"

static void fail(const char *what) {
    fprintf(stderr, "sheet: %s\n", what);
    exit(1);
}

static void must(uint64_t refusal) {
    if (refusal == SEGMENT_CACHE_ACCEPTED) return;
    fprintf(stderr, "sheet: %s (refusal %d)\n", segment_cache_sheet_refusal_name(refusal),
            (int)refusal);
    exit(1);
}

/* A lent pointer is never null, so that an area of no elements has one all the same. */
static void *area(uint64_t elements, size_t size) {
    void *area = malloc(elements == 0 ? size : elements * size);
    if (!area) fail("no memory");
    return area;
}

/* All of standard input; its length is told. */
static uint8_t *read_all(size_t *len) {
    size_t room = 1 << 16, got;
    uint8_t *file = area(room, 1);
    *len = 0;
    while ((got = fread(file + *len, 1, room - *len, stdin)) > 0) {
        *len += got;
        if (*len < room) continue;
        room *= 2;
        file = realloc(file, room);
        if (!file) fail("no memory");
    }
    if (ferror(stdin)) fail("standard input can't be read");
    return file;
}

struct set {
    uint64_t words[SEGMENT_CACHE_SET_WORDS], needs[SEGMENT_CACHE_NEEDS_WORDS];
    uint64_t *index, *starts, *lengths;
    uint8_t *arena;
};

/* The filter is not asked for a sheet. */
static void load(struct set *set, const uint8_t *file, size_t file_len) {
    const uint64_t *needs = set->needs;
    must(segment_cache_file_needs(file, file_len, set->needs, SEGMENT_CACHE_NEEDS_WORDS));
    set->index = area(needs[SEGMENT_CACHE_NEEDS_INDEX], 8);
    set->starts = area(needs[SEGMENT_CACHE_NEEDS_STARTS], 8);
    set->lengths = area(needs[SEGMENT_CACHE_NEEDS_LENGTHS], 8);
    set->arena = area(needs[SEGMENT_CACHE_NEEDS_ARENA], 1);
    uint64_t *filter = area(needs[SEGMENT_CACHE_NEEDS_FILTER], 8);
    must(segment_cache_load_file(file, file_len, set->index, needs[SEGMENT_CACHE_NEEDS_INDEX], filter,
                                 needs[SEGMENT_CACHE_NEEDS_FILTER], set->starts,
                                 needs[SEGMENT_CACHE_NEEDS_STARTS], set->lengths,
                                 needs[SEGMENT_CACHE_NEEDS_LENGTHS], set->arena,
                                 needs[SEGMENT_CACHE_NEEDS_ARENA], set->words,
                                 SEGMENT_CACHE_SET_WORDS));
    free(filter);
}

/* The page area is as long as the walk needs; the set's own number of records may be less than that. */
static void print(const struct set *set) {
    const uint64_t *needs = set->needs;
    uint64_t pages[1];
    must(segment_cache_sheet_pages(set->words, SEGMENT_CACHE_SET_WORDS, set->index,
                                   needs[SEGMENT_CACHE_NEEDS_INDEX], set->starts,
                                   needs[SEGMENT_CACHE_NEEDS_STARTS], set->lengths,
                                   needs[SEGMENT_CACHE_NEEDS_LENGTHS], set->arena,
                                   needs[SEGMENT_CACHE_NEEDS_ARENA], pages, 1));
    size_t page_len = pages[0] * SEGMENT_CACHE_PAGE_BYTES;
    uint8_t *page = area(page_len, 1);
    must(segment_cache_print_sheet(set->words, SEGMENT_CACHE_SET_WORDS, set->index,
                                   needs[SEGMENT_CACHE_NEEDS_INDEX], set->starts,
                                   needs[SEGMENT_CACHE_NEEDS_STARTS], set->lengths,
                                   needs[SEGMENT_CACHE_NEEDS_LENGTHS], set->arena,
                                   needs[SEGMENT_CACHE_NEEDS_ARENA], page, page_len, pages, 1));
    if (fwrite(page, 1, page_len, stdout) != page_len || fflush(stdout) != 0)
        fail("standard output can't be written");
    free(page);
}

int main(void) {
    static struct set set;
    size_t file_len;
    uint8_t *file = read_all(&file_len);
    load(&set, file, file_len);
    free(file);
    print(&set);
    free(set.index);
    free(set.starts);
    free(set.lengths);
    free(set.arena);
    return 0;
}
