/*
 * What a poor hash costs: the same records under several hashes, asked through the C interface. Prints a
 * table in Markdown. Buckets walked are counted, from the slots that pushes answer; times are processor
 * times of the thread, as multiples of those with segment_cache_hash in the same round.
 */
#define _POSIX_C_SOURCE 200809L
#include <stdio.h>
#include <stdlib.h>
#include <string.h>
#include <time.h>

#include "segment_cache.h"

#define ROUNDS 3
#define KEY_BYTES 8
#define VALUE_BYTES 8
#define PASSES 5          /* of a round the best of so many counts */
#define PASS_SECONDS 0.02 /* a pass of lookups takes at least so long */

struct key {
    uint8_t bytes[KEY_BYTES];
    size_t len;
    uint64_t number;
};

static void name_key(struct key *key, uint64_t number) {
    key->len = (size_t)snprintf((char *)key->bytes, KEY_BYTES, "c%05d", (int)number);
    key->number = number;
}

static void number_key(struct key *key, uint64_t number) {
    for (key->len = 0; key->len < 4; key->len++) key->bytes[key->len] = (uint8_t)(number >> 8 * key->len);
    key->number = number;
}

static uint64_t finished(const struct key *key) { return segment_cache_hash(key->bytes, key->len); }

static uint64_t fnv_1a(const struct key *key) {
    uint64_t hash = 0xcbf29ce484222325u;
    for (size_t i = 0; i < key->len; i++) hash = (hash ^ key->bytes[i]) * 0x100000001b3u;
    return hash;
}

static uint64_t fnv_1a_32(const struct key *key) {
    uint32_t hash = 0x811c9dc5u;
    for (size_t i = 0; i < key->len; i++) hash = (hash ^ key->bytes[i]) * 0x1000193u;
    return hash;
}

static uint64_t own_number(const struct key *key) { return key->number; }

static uint64_t constant(const struct key *key) {
    (void)key;
    return 0x9e3779b97f4a7c15u;
}

static const struct {
    const char *name;
    uint64_t (*of)(const struct key *key);
    size_t most; /* records that it is tried with; where all are alike, the time to build grows as their square */
} hashes[] = {
    {"segment_cache_hash", finished, 65536}, {"FNV-1a, 64 bits", fnv_1a, 65536},
    {"FNV-1a, 32 bits", fnv_1a_32, 1024},    {"the number itself", own_number, 1024},
    {"one constant", constant, 65536},
};
enum { HASHES = sizeof hashes / sizeof hashes[0] };

/* Records under one hash. Keys [0, records) are stored, [records, 2 * records) are not. */
struct trial {
    size_t records, buckets;
    const struct key *keys;
    uint64_t *hash, *slot, *order;
    uint64_t setting[SEGMENT_CACHE_SETTING_WORDS], set[SEGMENT_CACHE_SET_WORDS];
    uint64_t need[SEGMENT_CACHE_AREA_WORDS];
    uint64_t *index, *filter, *starts, *lengths, *scratch;
    uint8_t *arena;
    size_t arena_len;
};

static void must(uint64_t refusal, const char *call) {
    if (refusal == SEGMENT_CACHE_ACCEPTED) return;
    fprintf(stderr, "hashes: %s refused: %s\n", call, segment_cache_refusal_name(refusal));
    exit(1);
}

static void *room(size_t count, size_t size) {
    void *memory = calloc(count ? count : 1, size);
    if (!memory) exit(1);
    return memory;
}

static double now(void) {
    struct timespec time;
    clock_gettime(CLOCK_THREAD_CPUTIME_ID, &time);
    return (double)time.tv_sec + (double)time.tv_nsec * 1e-9;
}

/* Lends areas for so many records and works out the hashes. */
static void begin(struct trial *t, const struct key *keys, size_t records, int hash) {
    t->records = records;
    t->keys = keys;
    segment_cache_setting_without_expiry(t->setting);
    must(segment_cache_area_words(t->setting, SEGMENT_CACHE_SETTING_WORDS, records, t->need,
                                  SEGMENT_CACHE_AREA_WORDS),
         "area_words");
    t->buckets = t->need[SEGMENT_CACHE_AREA_INDEX] / 8;
    t->index = room(t->need[SEGMENT_CACHE_AREA_INDEX], sizeof *t->index);
    t->filter = room(t->need[SEGMENT_CACHE_AREA_FILTER], sizeof *t->filter);
    t->starts = room(SEGMENT_CACHE_SEGMENT_WORDS, sizeof *t->starts);
    t->lengths = room(SEGMENT_CACHE_SEGMENT_WORDS, sizeof *t->lengths);
    t->scratch = room(t->need[SEGMENT_CACHE_AREA_SCRATCH], sizeof *t->scratch);
    t->arena_len = records * (KEY_BYTES + VALUE_BYTES + 4);
    t->arena = room(t->arena_len, 1);
    t->slot = room(records, sizeof *t->slot);
    t->hash = room(2 * records, sizeof *t->hash);
    for (size_t i = 0; i < 2 * records; i++) t->hash[i] = hashes[hash].of(&keys[i]);
    /* Lookups jump: the order is a full round of a generator modulo a power of two. */
    t->order = room(records, sizeof *t->order);
    for (size_t i = 1; i < records; i++) t->order[i] = (t->order[i - 1] * 5 + 12345) % records;
}

static void end(struct trial *t) {
    free(t->index), free(t->filter), free(t->starts), free(t->lengths), free(t->scratch);
    free(t->arena), free(t->slot), free(t->hash), free(t->order);
}

/* Fills and freezes the set; the seconds that a push takes. */
static double build(struct trial *t) {
    static const uint8_t value[VALUE_BYTES] = "10.9 m";
    uint64_t builder[SEGMENT_CACHE_BUILDER_WORDS], place[SEGMENT_CACHE_PLACE_WORDS], lifetime[2];
    must(segment_cache_open(t->setting, SEGMENT_CACHE_SETTING_WORDS, t->records, builder,
                            SEGMENT_CACHE_BUILDER_WORDS, t->index, t->need[0], t->filter, t->need[1],
                            t->starts, SEGMENT_CACHE_SEGMENT_WORDS, t->lengths,
                            SEGMENT_CACHE_SEGMENT_WORDS, t->arena, t->arena_len),
         "open");
    double began = now();
    for (size_t i = 0; i < t->records; i++) {
        must(segment_cache_push(builder, SEGMENT_CACHE_BUILDER_WORDS, t->hash[i], t->keys[i].bytes,
                                t->keys[i].len, value, VALUE_BYTES, lifetime, 0, t->index, t->need[0],
                                t->filter, t->need[1], t->arena, t->arena_len, place,
                                SEGMENT_CACHE_PLACE_WORDS),
             "push");
        t->slot[i] = place[SEGMENT_CACHE_PLACE_SLOT];
    }
    double took = now() - began;
    must(segment_cache_finish(builder, SEGMENT_CACHE_BUILDER_WORDS, SEGMENT_CACHE_MAX_SEGMENT_TARGET,
                              t->index, t->need[0], t->starts, SEGMENT_CACHE_SEGMENT_WORDS, t->lengths,
                              SEGMENT_CACHE_SEGMENT_WORDS, t->scratch, t->need[4], t->arena,
                              t->arena_len, t->set, SEGMENT_CACHE_SET_WORDS),
         "finish");
    return took / (double)t->records;
}

/* The seconds of a get in one pass, of stored keys (found 1) or of others (found 0). */
static double ask(struct trial *t, uint64_t found) {
    uint64_t span[SEGMENT_CACHE_SPAN_WORDS];
    size_t count = 0, base = found ? 0 : t->records;
    double began = now(), took = 0;
    while (took < PASS_SECONDS) {
        for (size_t some = 0; some < 64; some++, count++) {
            size_t i = base + t->order[count % t->records];
            must(segment_cache_get(t->set, SEGMENT_CACHE_SET_WORDS, t->hash[i], t->keys[i].bytes,
                                   t->keys[i].len, 0, t->index, t->need[0], t->filter, t->need[1],
                                   t->starts, SEGMENT_CACHE_SEGMENT_WORDS, t->lengths,
                                   SEGMENT_CACHE_SEGMENT_WORDS, t->arena, t->arena_len, span,
                                   SEGMENT_CACHE_SPAN_WORDS),
                 "get");
            if (span[SEGMENT_CACHE_SPAN_FOUND] != found) exit(1);
        }
        took = now() - began;
    }
    return took / (double)count;
}

static double best_of_asking(struct trial *t, uint64_t found) {
    double best = ask(t, found);
    for (int pass = 1; pass < PASSES; pass++) {
        double took = ask(t, found);
        if (took < best) best = took;
    }
    return best;
}

/* One build is enough where it takes seconds. */
static double best_of_building(struct trial *t) {
    double best = build(t);
    for (int pass = 1; pass < PASSES && best * (double)t->records < 1; pass++) {
        double took = build(t);
        if (took < best) best = took;
    }
    return best;
}

/* hash * buckets div 2^64, by halves. */
static size_t first_bucket(const struct trial *t, uint64_t hash) {
    uint64_t low = (hash & 0xffffffffu) * t->buckets, high = (hash >> 32) * t->buckets;
    return (size_t)((high + (low >> 32)) >> 32);
}

struct walks {
    size_t first_buckets, longest; /* buckets that a walk of a stored key begins in; the longest such walk */
    double hit, miss;              /* buckets walked on average */
};

/* A key stands in the bucket of its slot; a walk for another key ends in the first bucket with room. */
static struct walks count_walks(const struct trial *t) {
    struct walks walks = {0, 0, 0, 0};
    unsigned char *begun = room(t->buckets, 1), *filled = room(t->buckets, 1);
    for (size_t i = 0; i < t->records; i++) {
        size_t first = first_bucket(t, t->hash[i]), last = t->slot[i] / 8;
        size_t walked = (last + t->buckets - first) % t->buckets + 1;
        walks.hit += (double)walked / (double)t->records;
        if (walked > walks.longest) walks.longest = walked;
        if (!begun[first]) walks.first_buckets++;
        begun[first] = 1;
        filled[last]++;
    }
    for (size_t i = t->records; i < 2 * t->records; i++) {
        size_t bucket = first_bucket(t, t->hash[i]), walked = 1;
        while (filled[bucket] == 8) bucket = (bucket + 1) % t->buckets, walked++;
        walks.miss += (double)walked / (double)t->records;
    }
    free(begun), free(filled);
    return walks;
}

static int by_size(const void *left, const void *right) {
    double a = *(const double *)left, b = *(const double *)right;
    return (a > b) - (a < b);
}

/* A cell with the lowest and the highest of the rounds. */
static void print_rounds(const double *times, const double *bases) {
    double ratios[ROUNDS];
    for (int i = 0; i < ROUNDS; i++) ratios[i] = times[i] / bases[i];
    qsort(ratios, ROUNDS, sizeof *ratios, by_size);
    int digits = ratios[ROUNDS - 1] < 10 ? 2 : 0;
    printf(" %.*f to %.*f |", digits, ratios[0], digits, ratios[ROUNDS - 1]);
}

struct times {
    double push[ROUNDS], hit[ROUNDS], miss[ROUNDS];
};

/* All hashes with the same keys; rounds go over all of them in turn. */
static void compare(const char *kind, const struct key *keys, size_t records) {
    static struct trial trials[HASHES];
    static struct times times[HASHES];
    for (int h = 0; h < HASHES; h++)
        if (records <= hashes[h].most) begin(&trials[h], keys, records, h);
    for (int round = 0; round < ROUNDS; round++)
        for (int h = 0; h < HASHES; h++) {
            if (records > hashes[h].most) continue;
            int again = round == 0 || times[h].push[0] * (double)records < 1;
            times[h].push[round] = again ? best_of_building(&trials[h]) : times[h].push[0];
            times[h].hit[round] = best_of_asking(&trials[h], 1);
            times[h].miss[round] = best_of_asking(&trials[h], 0);
        }
    for (int h = 0; h < HASHES; h++) {
        if (records > hashes[h].most) continue;
        struct walks walks = count_walks(&trials[h]);
        printf("| %zu | %s | %s | %zu of %zu | %.2f, %zu | %.2f |", records, kind, hashes[h].name,
               walks.first_buckets, trials[h].buckets, walks.hit, walks.longest, walks.miss);
        print_rounds(times[h].push, times[0].push);
        print_rounds(times[h].hit, times[0].hit);
        print_rounds(times[h].miss, times[0].miss);
        printf("\n");
        end(&trials[h]);
    }
}

int main(void) {
    static struct key keys[2 * 65536];
    static const size_t sizes[] = {1024, 65536};
    printf("| records | keys | hash | first buckets | buckets walked by a hit, longest | by a miss |"
           " push | get hit | get miss |\n|---:|---|---|---:|---:|---:|---:|---:|---:|\n");
    for (int kind = 0; kind < 2; kind++) {
        for (uint64_t i = 0; i < 2 * 65536; i++) (kind ? number_key : name_key)(&keys[i], i);
        for (int s = 0; s < 2; s++)
            compare(kind ? "4-byte numbers" : "c00000, c00001, ..", keys, sizes[s]);
    }
    return 0;
}
