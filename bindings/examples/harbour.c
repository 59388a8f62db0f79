/*
 * Depths by cell and notes of a harbour, some with a lapse time: built, asked before and after they
 * lapse, stepped through segment by segment, rebuilt after a new survey, written as a file and loaded.
 * Prints what it finds; any call that is refused unexpectedly ends it with status 1.
 */
#include <stdio.h>
#include <stdlib.h>
#include <string.h>

#include "segment_cache.h"

#define ARENA_BYTES 1024
#define SEGMENT_TARGET 32
#define MINUTES 60
#define FILE_BYTES 512

static uint8_t arena[ARENA_BYTES];

/* A set with its areas. The longest set here has 4 records: one bucket. */
struct set {
    uint64_t words[SEGMENT_CACHE_SET_WORDS];
    uint64_t index[8], filter[1];
    uint64_t starts[SEGMENT_CACHE_SEGMENT_WORDS], lengths[SEGMENT_CACHE_SEGMENT_WORDS];
};

struct note {
    const char *key, *value;
    uint64_t minutes; /* 0: it never lapses */
};

static const struct note notes[4] = {
    {"cell 1204", "11.4 m", 90},
    {"cell 1205", "10.9 m", 30},
    {"berth 7", "mud, 9.1 m alongside", 0},
    {"Aurora", "air draft 28.2 m", 360},
};

static const uint8_t *bytes(const char *text) { return (const uint8_t *)text; }

static void must(uint64_t refusal, const char *call) {
    if (refusal == SEGMENT_CACHE_ACCEPTED) return;
    fprintf(stderr, "harbour: %s refused: %s\n", call, segment_cache_refusal_name(refusal));
    exit(1);
}

static size_t lifetime_of(uint64_t *lifetime, uint64_t minutes) {
    segment_cache_lifetime(lifetime, minutes * MINUTES, 0);
    return minutes == 0 ? 0 : SEGMENT_CACHE_LIFETIME_WORDS;
}

static uint64_t put(uint64_t *builder, struct set *set, const struct note *note) {
    uint64_t lifetime[SEGMENT_CACHE_LIFETIME_WORDS], place[SEGMENT_CACHE_PLACE_WORDS];
    size_t key_len = strlen(note->key);
    size_t lifetime_len = lifetime_of(lifetime, note->minutes);
    return segment_cache_push(builder, SEGMENT_CACHE_BUILDER_WORDS,
                              segment_cache_hash(bytes(note->key), key_len), bytes(note->key),
                              key_len, bytes(note->value), strlen(note->value), lifetime,
                              lifetime_len, set->index, 8, set->filter, 1, arena, ARENA_BYTES,
                              place, SEGMENT_CACHE_PLACE_WORDS);
}

/* Asks the library how long the areas must be; those of `struct set` have to do. */
static void check_areas(const uint64_t *setting, size_t records) {
    uint64_t need[SEGMENT_CACHE_AREA_WORDS];
    must(segment_cache_area_words(setting, SEGMENT_CACHE_SETTING_WORDS, records, need,
                                  SEGMENT_CACHE_AREA_WORDS),
         "area_words");
    printf("%zu records: index %d, filter %d, scratch %d words\n", records,
           (int)need[SEGMENT_CACHE_AREA_INDEX], (int)need[SEGMENT_CACHE_AREA_FILTER],
           (int)need[SEGMENT_CACHE_AREA_SCRATCH]);
    if (need[SEGMENT_CACHE_AREA_INDEX] > 8 || need[SEGMENT_CACHE_AREA_FILTER] > 1) exit(1);
}

static void build(struct set *set) {
    uint64_t setting[SEGMENT_CACHE_SETTING_WORDS], builder[SEGMENT_CACHE_BUILDER_WORDS];
    uint64_t scratch[1];
    segment_cache_setting_with_relative_expiry(setting, MINUTES, 0);
    segment_cache_setting_filter_bits(setting, 8);
    check_areas(setting, 4);
    must(segment_cache_open(setting, SEGMENT_CACHE_SETTING_WORDS, 4, builder,
                            SEGMENT_CACHE_BUILDER_WORDS, set->index, 8, set->filter, 1,
                            set->starts, SEGMENT_CACHE_SEGMENT_WORDS, set->lengths,
                            SEGMENT_CACHE_SEGMENT_WORDS, arena, ARENA_BYTES),
         "open");
    for (int i = 0; i < 3; i++) must(put(builder, set, &notes[i]), "push");
    printf("%s again: %s\n", notes[0].key,
           segment_cache_refusal_name(put(builder, set, &notes[0])));
    must(put(builder, set, &notes[3]), "push");
    must(segment_cache_finish(builder, SEGMENT_CACHE_BUILDER_WORDS, SEGMENT_TARGET, set->index, 8,
                              set->starts, SEGMENT_CACHE_SEGMENT_WORDS, set->lengths,
                              SEGMENT_CACHE_SEGMENT_WORDS, scratch, 1, arena, ARENA_BYTES,
                              set->words, SEGMENT_CACHE_SET_WORDS),
         "finish");
    printf("built: %d records, %d segments, %d bytes\n",
           (int)set->words[SEGMENT_CACHE_SET_ENTRIES], (int)set->words[SEGMENT_CACHE_SET_SEGMENTS],
           (int)set->words[SEGMENT_CACHE_SET_FILLED]);
}

static void ask(struct set *set, const char *name, const char *key, uint64_t tick) {
    uint64_t span[SEGMENT_CACHE_SPAN_WORDS];
    size_t key_len = strlen(key);
    must(segment_cache_get(set->words, SEGMENT_CACHE_SET_WORDS,
                           segment_cache_hash(bytes(key), key_len), bytes(key), key_len, tick,
                           set->index, 8, set->filter, 1, set->starts, SEGMENT_CACHE_SEGMENT_WORDS,
                           set->lengths, SEGMENT_CACHE_SEGMENT_WORDS, arena, ARENA_BYTES, span,
                           SEGMENT_CACHE_SPAN_WORDS),
         "get");
    if (span[SEGMENT_CACHE_SPAN_FOUND])
        printf("%s, minute %d: %s is %.*s\n", name, (int)tick, key,
               (int)span[SEGMENT_CACHE_SPAN_LENGTH],
               (const char *)arena + span[SEGMENT_CACHE_SPAN_AT]);
    else
        printf("%s, minute %d: %s is not known\n", name, (int)tick, key);
}

static void take_mark(struct set *set, const char *key) {
    uint64_t accessed[1];
    size_t key_len = strlen(key);
    must(segment_cache_take_accessed(set->words, SEGMENT_CACHE_SET_WORDS,
                                     segment_cache_hash(bytes(key), key_len), bytes(key), key_len,
                                     set->index, 8, set->filter, 1, set->starts,
                                     SEGMENT_CACHE_SEGMENT_WORDS, set->lengths,
                                     SEGMENT_CACHE_SEGMENT_WORDS, arena, ARENA_BYTES, accessed, 1),
         "take_accessed");
    printf("%s was %s\n", key, accessed[0] ? "asked" : "not asked");
}

/* The first record from a slot on; 0 at the end of the walk. */
static int step(const struct set *set, size_t from, uint64_t tick, uint64_t *record) {
    must(segment_cache_next_entry(set->words, SEGMENT_CACHE_SET_WORDS, from, tick, set->index, 8,
                                  set->starts, SEGMENT_CACHE_SEGMENT_WORDS, set->lengths,
                                  SEGMENT_CACHE_SEGMENT_WORDS, arena, ARENA_BYTES, record,
                                  SEGMENT_CACHE_RECORD_WORDS),
         "next_entry");
    return record[SEGMENT_CACHE_RECORD_FOUND] == 1;
}

static void walk(const struct set *set, uint64_t tick) {
    uint64_t record[SEGMENT_CACHE_RECORD_WORDS];
    for (size_t from = 0; step(set, from, tick, record);
         from = record[SEGMENT_CACHE_RECORD_SLOT] + 1) {
        printf("slot %d: %.*s", (int)record[SEGMENT_CACHE_RECORD_SLOT],
               (int)record[SEGMENT_CACHE_RECORD_KEY_LENGTH],
               (const char *)arena + record[SEGMENT_CACHE_RECORD_KEY_AT]);
        if (record[SEGMENT_CACHE_RECORD_REMAINING] == SEGMENT_CACHE_REMAINING_NEVER)
            printf(" never lapses\n");
        else if (record[SEGMENT_CACHE_RECORD_REMAINING] == SEGMENT_CACHE_REMAINING_FINITE)
            printf(" has %d s left\n", (int)record[SEGMENT_CACHE_RECORD_REMAINING_SECONDS]);
        else
            printf(" has lapsed\n");
    }
}

static void print_stored(size_t segment, const uint8_t *records, const uint64_t *record) {
    printf("segment %d, bytes %d to %d: %.*s", (int)segment,
           (int)record[SEGMENT_CACHE_STORED_LOCATION], (int)record[SEGMENT_CACHE_STORED_END],
           (int)record[SEGMENT_CACHE_STORED_KEY_LENGTH],
           (const char *)records + record[SEGMENT_CACHE_STORED_KEY_AT]);
    if (record[SEGMENT_CACHE_STORED_DEADLINE] == SEGMENT_CACHE_NEVER)
        printf(" never lapses\n");
    else
        printf(" lapses at minute %d\n", (int)record[SEGMENT_CACHE_STORED_DEADLINE]);
}

/* Each segment from its front on, without the index: a record begins where the one before it ends. */
static void step_segments(const struct set *set) {
    uint64_t record[SEGMENT_CACHE_STORED_WORDS];
    for (size_t i = 0; i < set->words[SEGMENT_CACHE_SET_SEGMENTS]; i++) {
        const uint8_t *records = arena + set->starts[i];
        for (size_t at = 0; at < set->lengths[i]; at = record[SEGMENT_CACHE_STORED_END]) {
            must(segment_cache_record_at(set->words, SEGMENT_CACHE_SETTING_WORDS, records,
                                         set->lengths[i], at, record, SEGMENT_CACHE_STORED_WORDS),
                 "record_at");
            if (!record[SEGMENT_CACHE_STORED_READ]) exit(1); /* bytes that are no record */
            print_stored(i, records, record);
        }
    }
}

static void count(const struct set *set) {
    uint64_t stats[SEGMENT_CACHE_STATS_WORDS], retained[1], load[1];
    must(segment_cache_stats(set->words, SEGMENT_CACHE_SET_WORDS, stats, SEGMENT_CACHE_STATS_WORDS),
         "stats");
    must(segment_cache_modeled_retained_bytes(stats, SEGMENT_CACHE_STATS_WORDS, retained, 1),
         "modeled_retained_bytes");
    must(segment_cache_index_load_bps(stats, SEGMENT_CACHE_STATS_WORDS, load, 1), "index_load_bps");
    printf("%d bytes held, %d.%02d %% of the slots taken\n", (int)retained[0], (int)load[0] / 100,
           (int)load[0] % 100);
}

/* After a new survey of one cell the segment of the depths is dropped: the new depth is copied behind the
   filled part of the arena, and the other depth with what is left of its time. The other records stay
   where they are, with their deadlines. */
static const struct note survey = {"cell 1205", "10.7 m", 30};

static void reuse(uint64_t *state, struct set *set, const uint64_t *record) {
    uint64_t place[SEGMENT_CACHE_PLACE_WORDS];
    const uint8_t *key = arena + record[SEGMENT_CACHE_RECORD_KEY_AT];
    size_t key_len = record[SEGMENT_CACHE_RECORD_KEY_LENGTH];
    must(segment_cache_push_reused(
             state, SEGMENT_CACHE_REBUILD_WORDS, segment_cache_hash(key, key_len), key, key_len,
             arena + record[SEGMENT_CACHE_RECORD_VALUE_AT],
             record[SEGMENT_CACHE_RECORD_VALUE_LENGTH], record[SEGMENT_CACHE_RECORD_LOCATION],
             record[SEGMENT_CACHE_RECORD_HEADER_BYTES], set->index, 8, set->filter, 1, set->starts,
             SEGMENT_CACHE_SEGMENT_WORDS, set->lengths, SEGMENT_CACHE_SEGMENT_WORDS, arena,
             ARENA_BYTES, place, SEGMENT_CACHE_PLACE_WORDS),
         "push_reused");
}

static void copy(uint64_t *state, struct set *set, const uint8_t *key, size_t key_len,
                 const uint8_t *value, size_t value_len, const uint64_t *lifetime,
                 size_t lifetime_len) {
    uint64_t place[SEGMENT_CACHE_PLACE_WORDS];
    must(segment_cache_push_copied(
             state, SEGMENT_CACHE_REBUILD_WORDS, segment_cache_hash(key, key_len), key, key_len, value,
             value_len, lifetime, lifetime_len, set->index, 8, set->filter, 1, set->starts,
             SEGMENT_CACHE_SEGMENT_WORDS, set->lengths, SEGMENT_CACHE_SEGMENT_WORDS, arena,
             ARENA_BYTES, place, SEGMENT_CACHE_PLACE_WORDS),
         "push_copied");
}

/* Copies a record that still lives, with what is left of its time. `record` was told at the tick that was
   given to rebuild_open, from which the lifetime counts. Told five minutes before, it would have five
   minutes more left, and its copy would show a lapsed depth for so long. */
static void copy_record(uint64_t *state, struct set *set, const uint64_t *record) {
    uint64_t lifetime[SEGMENT_CACHE_LIFETIME_WORDS];
    uint8_t key[32], value[32]; /* what is copied may not stand in the arena */
    size_t key_len = record[SEGMENT_CACHE_RECORD_KEY_LENGTH];
    size_t value_len = record[SEGMENT_CACHE_RECORD_VALUE_LENGTH];
    size_t lifetime_len = segment_cache_lifetime_left(lifetime, record);
    if (key_len > sizeof key || value_len > sizeof value) exit(1);
    memcpy(key, arena + record[SEGMENT_CACHE_RECORD_KEY_AT], key_len);
    memcpy(value, arena + record[SEGMENT_CACHE_RECORD_VALUE_AT], value_len);
    copy(state, set, key, key_len, value, value_len, lifetime, lifetime_len);
}

static int is_kept(const uint64_t *record) {
    return record[SEGMENT_CACHE_RECORD_LOCATION] >> 32 == 1;
}

static int is_surveyed(const uint64_t *record) {
    return record[SEGMENT_CACHE_RECORD_KEY_LENGTH] == strlen(survey.key) &&
           memcmp(arena + record[SEGMENT_CACHE_RECORD_KEY_AT], survey.key, strlen(survey.key)) == 0;
}

static int has_lapsed(const uint64_t *record) {
    return record[SEGMENT_CACHE_RECORD_REMAINING] == SEGMENT_CACHE_REMAINING_NOTHING;
}

/* Fills a rebuild that was opened at this tick, by walks at the same tick: records of segment 1 are taken
   over, other live ones copied, and the survey's depth is added. */
static void fill(uint64_t *state, const struct set *source, struct set *set, uint64_t tick) {
    uint64_t record[SEGMENT_CACHE_RECORD_WORDS], lifetime[SEGMENT_CACHE_LIFETIME_WORDS];
    for (size_t from = 0; step(source, from, tick, record);
         from = record[SEGMENT_CACHE_RECORD_SLOT] + 1)
        if (is_kept(record)) reuse(state, set, record);
    for (size_t from = 0; step(source, from, tick, record);
         from = record[SEGMENT_CACHE_RECORD_SLOT] + 1)
        if (!is_kept(record) && !is_surveyed(record) && !has_lapsed(record))
            copy_record(state, set, record);
    size_t lifetime_len = lifetime_of(lifetime, survey.minutes);
    copy(state, set, bytes(survey.key), strlen(survey.key), bytes(survey.value),
         strlen(survey.value), lifetime, lifetime_len);
}

/* The tick goes on from that of the source, since its deadlines count in it. */
static void rebuild(const struct set *source, struct set *set, uint64_t tick) {
    static const uint8_t keep[2] = {0, 1};
    uint64_t state[SEGMENT_CACHE_REBUILD_WORDS], totals[SEGMENT_CACHE_TOTALS_WORDS], scratch[1];
    must(segment_cache_rebuild_open(
             source->words, SEGMENT_CACHE_SET_WORDS, source->starts, SEGMENT_CACHE_SEGMENT_WORDS,
             source->lengths, SEGMENT_CACHE_SEGMENT_WORDS, arena, ARENA_BYTES, 4, ARENA_BYTES, keep,
             2, tick, state, SEGMENT_CACHE_REBUILD_WORDS, set->index, 8, set->filter, 1,
             set->starts, SEGMENT_CACHE_SEGMENT_WORDS, set->lengths, SEGMENT_CACHE_SEGMENT_WORDS),
         "rebuild_open");
    fill(state, source, set, tick);
    must(segment_cache_rebuild_finish(state, SEGMENT_CACHE_REBUILD_WORDS, set->index, 8,
                                      set->starts, SEGMENT_CACHE_SEGMENT_WORDS, set->lengths,
                                      SEGMENT_CACHE_SEGMENT_WORDS, scratch, 1, arena, ARENA_BYTES,
                                      set->words, SEGMENT_CACHE_SET_WORDS, totals,
                                      SEGMENT_CACHE_TOTALS_WORDS),
         "rebuild_finish");
    printf("rebuilt: %d records, %d segments; %d records reused, %d bytes copied\n",
           (int)set->words[SEGMENT_CACHE_SET_ENTRIES], (int)set->words[SEGMENT_CACHE_SET_SEGMENTS],
           (int)totals[SEGMENT_CACHE_TOTALS_REUSED_ENTRIES],
           (int)totals[SEGMENT_CACHE_TOTALS_COPIED_RECORD_BYTES]);
}

/* The set as a file; its length is returned. */
static size_t write_file(const struct set *set, uint8_t *file) {
    uint64_t size[1];
    must(segment_cache_file_bytes(set->words, SEGMENT_CACHE_SET_WORDS, set->starts,
                                  SEGMENT_CACHE_SEGMENT_WORDS, set->lengths,
                                  SEGMENT_CACHE_SEGMENT_WORDS, size, 1),
         "file_bytes");
    if (size[0] > FILE_BYTES) exit(1);
    must(segment_cache_write_file(set->words, SEGMENT_CACHE_SET_WORDS, set->index, 8, set->filter, 1,
                                  set->starts, SEGMENT_CACHE_SEGMENT_WORDS, set->lengths,
                                  SEGMENT_CACHE_SEGMENT_WORDS, arena, ARENA_BYTES, file, FILE_BYTES,
                                  size, 1),
         "write_file");
    printf("written: a file of %d bytes\n", (int)size[0]);
    return size[0];
}

/* Loads a file into the arena, where that ends every other set. */
static void load_file(const uint8_t *file, size_t file_len, struct set *set) {
    uint64_t needs[SEGMENT_CACHE_NEEDS_WORDS];
    printf("without its last byte: %s\n",
           segment_cache_refusal_name(segment_cache_file_needs(file, file_len - 1, needs,
                                                               SEGMENT_CACHE_NEEDS_WORDS)));
    must(segment_cache_file_needs(file, file_len, needs, SEGMENT_CACHE_NEEDS_WORDS), "file_needs");
    printf("its needs: index %d, filter %d words, arena %d bytes\n",
           (int)needs[SEGMENT_CACHE_NEEDS_INDEX], (int)needs[SEGMENT_CACHE_NEEDS_FILTER],
           (int)needs[SEGMENT_CACHE_NEEDS_ARENA]);
    must(segment_cache_load_file(file, file_len, set->index, 8, set->filter, 1, set->starts,
                                 SEGMENT_CACHE_SEGMENT_WORDS, set->lengths,
                                 SEGMENT_CACHE_SEGMENT_WORDS, arena, ARENA_BYTES, set->words,
                                 SEGMENT_CACHE_SET_WORDS),
         "load_file");
    printf("loaded: %d records, %d segments, %d bytes\n",
           (int)set->words[SEGMENT_CACHE_SET_ENTRIES], (int)set->words[SEGMENT_CACHE_SET_SEGMENTS],
           (int)set->words[SEGMENT_CACHE_SET_FILLED]);
}

/* Marks don't travel: what was asked before the file was written is not asked in the loaded set. */
static void travel(const struct set *set) {
    static uint8_t file[FILE_BYTES];
    static struct set loaded;
    load_file(file, write_file(set, file), &loaded);
    take_mark(&loaded, "Aurora");
    ask(&loaded, "loaded", "cell 1205", 59);
    ask(&loaded, "loaded", "cell 1205", 60);
    ask(&loaded, "loaded", "Aurora", 359);
    take_mark(&loaded, "Aurora");
    walk(&loaded, 31);
    step_segments(&loaded);
}

int main(void) {
    static struct set first;
    build(&first);
    ask(&first, "first", "cell 1205", 0);
    ask(&first, "first", "cell 1205", 29);
    ask(&first, "first", "cell 1205", 30);
    ask(&first, "first", "berth 7", 70000);
    ask(&first, "first", "cell 1206", 0);
    take_mark(&first, "cell 1205");
    take_mark(&first, "Aurora");
    walk(&first, 30);
    step_segments(&first);
    count(&first);
    static struct set second;
    rebuild(&first, &second, 30);
    ask(&second, "second", "cell 1205", 59);
    ask(&second, "second", "cell 1205", 60);
    ask(&second, "second", "cell 1204", 89);
    ask(&second, "second", "cell 1204", 90);
    ask(&second, "second", "Aurora", 359);
    ask(&second, "second", "Aurora", 360);
    ask(&first, "first", "cell 1204", 31);
    walk(&second, 31);
    step_segments(&second);
    travel(&second);
    return 0;
}
