/*
 * A set as a file beside a plain copy of the same bytes: writing and loading through the C interface. Prints a table in
 * Markdown. Times are processor times of the thread; a row has the best round of each and the ratios of single rounds.
 */
#define _POSIX_C_SOURCE 200809L
#include <stdio.h>
#include <stdlib.h>
#include <string.h>
#include <time.h>

#include "segment_cache.h"

#define ROUNDS 9
#define KEY_BYTES 16
#define VALUE_BYTES 32

struct set {
    uint64_t words[15], *index, *filter, starts[256], lengths[256];
    size_t index_len, filter_len, arena_len;
    uint8_t *arena;
};

static void must(uint64_t refusal, const char *what) {
    if (!refusal) return;
    fprintf(stderr, "error: %s: refusal %d\n", what, (int)refusal);
    exit(1);
}

static void *lent(size_t bytes) {
    void *area = malloc(bytes + 1);
    if (!area) exit(2);
    memset(area, 0x5a, bytes + 1);
    return area;
}

static double now(void) {
    struct timespec time;
    clock_gettime(CLOCK_THREAD_CPUTIME_ID, &time);
    return (double)time.tv_sec * 1e9 + (double)time.tv_nsec;
}

static void build(struct set *set, int packed, uint64_t bits, size_t records) {
    uint64_t setting[6], needs[5], builder[13], place[2], *scratch;
    segment_cache_setting_with_relative_expiry(setting, 60, 0);
    setting[4] = (uint64_t)packed;
    setting[5] = bits;
    must(segment_cache_area_words(setting, 6, records, needs, 5), "area_words");
    set->index_len = needs[0];
    set->filter_len = needs[1];
    set->arena_len = records * (KEY_BYTES + VALUE_BYTES + 4);
    set->index = lent(set->index_len * 8);
    set->filter = lent(set->filter_len * 8);
    set->arena = lent(set->arena_len);
    scratch = lent(needs[4] * 8);
    must(segment_cache_open(setting, 6, records, builder, 13, set->index, set->index_len, set->filter, set->filter_len,
                            set->starts, 256, set->lengths, 256, set->arena, set->arena_len), "open");
    for (size_t i = 0; i < records; i++) {
        uint8_t key[KEY_BYTES] = {0}, value[VALUE_BYTES];
        snprintf((char *)key, KEY_BYTES, "cell %08zu", i);
        memset(value, (int)i, VALUE_BYTES);
        must(segment_cache_push(builder, 13, segment_cache_hash(key, KEY_BYTES), key, KEY_BYTES, value, VALUE_BYTES, NULL, 0,
                                set->index, set->index_len, set->filter, set->filter_len, set->arena, set->arena_len, place, 2), "push");
    }
    must(segment_cache_finish(builder, 13, 100663296, set->index, set->index_len, set->starts, 256, set->lengths, 256, scratch,
                              needs[4], set->arena, set->arena_len, set->words, 15), "finish");
    free(scratch);
}

struct best {
    double time, low, high;
};

static void count(struct best *best, double time, double copy) {
    if (time < best->time) best->time = time;
    if (time / copy < best->low) best->low = time / copy;
    if (time / copy > best->high) best->high = time / copy;
}

static void row(const char *name, const struct best *best, double copy, size_t bytes) {
    printf("| %s | %.3f | %.3f | %.2f | %.2f to %.2f |\n", name, copy / (double)bytes, best->time / (double)bytes,
           best->time / copy, best->low, best->high);
}

/* Rounds in which the copy, the write and the load take turns, and one before them that is not counted. */
static void measure(const char *name, int packed, uint64_t bits, size_t records) {
    struct set set, unit;
    uint64_t bytes[1], span[3];
    build(&set, packed, bits, records);
    must(segment_cache_file_bytes(set.words, 15, set.starts, 256, set.lengths, 256, bytes, 1), "file_bytes");
    size_t size = bytes[0];
    uint8_t *file = lent(size), *copied = lent(size);
    unit = set;
    unit.index = lent(set.index_len * 8);
    unit.filter = lent(set.filter_len * 8);
    unit.arena = lent(set.arena_len);
    struct best write = {1e18, 1e18, 0}, load = {1e18, 1e18, 0};
    double copy = 1e18;
    for (int round = 0; round <= ROUNDS; round++) {
        double t0 = now();
        memcpy(copied, file, size);
        double t1 = now();
        must(segment_cache_write_file(set.words, 15, set.index, set.index_len, set.filter, set.filter_len, set.starts, 256, set.lengths,
                                      256, set.arena, set.arena_len, file, size, bytes, 1), "write_file");
        double t2 = now();
        must(segment_cache_load_file(file, size, unit.index, unit.index_len, unit.filter, unit.filter_len, unit.starts, 256,
                                     unit.lengths, 256, unit.arena, unit.arena_len, unit.words, 15), "load_file");
        double t3 = now();
        if (!round) continue;
        if (t1 - t0 < copy) copy = t1 - t0;
        count(&write, t2 - t1, t1 - t0);
        count(&load, t3 - t2, t1 - t0);
    }
    uint8_t key[KEY_BYTES] = {0};
    snprintf((char *)key, KEY_BYTES, "cell %08zu", records - 1);
    must(segment_cache_get(unit.words, 15, segment_cache_hash(key, KEY_BYTES), key, KEY_BYTES, 0, unit.index, unit.index_len, unit.filter,
                           unit.filter_len, unit.starts, 256, unit.lengths, 256, unit.arena, unit.arena_len, span, 3), "get");
    if (!span[0] || span[2] != VALUE_BYTES || copied[0] != file[0]) exit(1);
    char label[96];
    snprintf(label, sizeof label, "write, %s, %zu records, %zu bytes", name, records, size);
    row(label, &write, copy, size);
    snprintf(label, sizeof label, "load, %s, %zu records, %zu bytes", name, records, size);
    row(label, &load, copy, size);
    free(file), free(copied), free(set.index), free(set.filter), free(set.arena), free(unit.index), free(unit.filter), free(unit.arena);
}

int main(void) {
    printf("| | memcpy, ns a byte | call, ns a byte | ratio | in single rounds |\n|---|---:|---:|---:|---:|\n");
    measure("packed", 1, 8, 1024);
    measure("packed", 1, 8, 1048576);
    measure("words", 0, 8, 1048576);
    return 0;
}
