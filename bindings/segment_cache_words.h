/*
 * Words of segment_cache.h: refusals by number, limits, what each word of a state or an answer is, and
 * helpers that fill settings and lifetimes, so that nobody does it by hand; and a hash for keys.
 */
#ifndef SEGMENT_CACHE_WORDS_H
#define SEGMENT_CACHE_WORDS_H

#include <stddef.h>
#include <stdint.h>

enum segment_cache_refusal {
    SEGMENT_CACHE_ACCEPTED = 0,
    SEGMENT_CACHE_INVALID_BUCKET_OCCUPANCY = 1, /* occupancy is not 1 to 7 */
    SEGMENT_CACHE_ZERO_EXPIRY_TICK = 2,         /* the tick length is zero */
    SEGMENT_CACHE_CAPACITY_OVERFLOW = 3,        /* more records than announced or allowed, fewer at
                                                   finish, wrong number of keep flags, segment not
                                                   kept, no empty slot, a size past 64 bits */
    SEGMENT_CACHE_DUPLICATE_KEY = 4,            /* the key is in the builder; rebuilds take it twice */
    SEGMENT_CACHE_EXPIRY_DISABLED = 5,          /* a lifetime where the setting has no expiry */
    SEGMENT_CACHE_EXPIRY_OUT_OF_RANGE = 6,      /* the deadline would be past tick 65,534 */
    SEGMENT_CACHE_ARENA_TOO_LARGE = 7,          /* more than 256 segments */
    SEGMENT_CACHE_INVALID_SEGMENT_TARGET = 8,   /* target is not 1 to 100,663,296 */
    SEGMENT_CACHE_INVALID_NANOSECONDS = 9,      /* 1,000,000,000 nanoseconds or more */
    SEGMENT_CACHE_AREA_TOO_SHORT = 10,          /* an area or the arena's rest is too short, or the
                                                   arena too long at open or load_file */
    SEGMENT_CACHE_INVALID_STATE = 11,           /* state and areas contradict each other, or words have
                                                   a wrong number or form */
    SEGMENT_CACHE_RECORD_MISMATCH = 12,         /* no such record at the location to reuse */
    SEGMENT_CACHE_FILE_FRAMING = 13,            /* a block runs past the file's end, or bytes follow
                                                   the fifth */
    SEGMENT_CACHE_FILE_KINDS = 14,              /* a kind is missing, unknown or out of place */
    SEGMENT_CACHE_FILE_CONTENT = 15,            /* a number of the file is out of its bounds, a block's
                                                   length doesn't fit the counts, or the segments'
                                                   lengths don't add up */
    SEGMENT_CACHE_FIELD_TOO_LONG = 16           /* a key or value has more bytes than its columns of a
                                                   chart room sheet show */
};

/* ---- limits and lengths in words */

#define SEGMENT_CACHE_MAX_RECORDS 1048576u
#define SEGMENT_CACHE_MAX_ARENA_BYTES 1073741824u
#define SEGMENT_CACHE_MAX_SEGMENT_TARGET 100663296u
#define SEGMENT_CACHE_NEVER 65535u /* the deadline of a record that never lapses */
#define SEGMENT_CACHE_SETTING_WORDS 6
#define SEGMENT_CACHE_LIFETIME_WORDS 2 /* length 0: never */
#define SEGMENT_CACHE_BUILDER_WORDS 13
#define SEGMENT_CACHE_SET_WORDS 15
#define SEGMENT_CACHE_REBUILD_WORDS 22
#define SEGMENT_CACHE_SEGMENT_WORDS 256
#define SEGMENT_CACHE_AREA_WORDS 5
#define SEGMENT_CACHE_NEEDS_WORDS 5
#define SEGMENT_CACHE_PLACE_WORDS 2
#define SEGMENT_CACHE_SPAN_WORDS 3
#define SEGMENT_CACHE_RECORD_WORDS 12
#define SEGMENT_CACHE_STORED_WORDS 9
#define SEGMENT_CACHE_STATS_WORDS 8
#define SEGMENT_CACHE_TOTALS_WORDS 4
#define SEGMENT_CACHE_FIELD_BYTES 12 /* the longest key and value on a chart room sheet */
#define SEGMENT_CACHE_LINE_BYTES 65  /* a line of it, with its line feed */
#define SEGMENT_CACHE_PAGE_LINES 50
#define SEGMENT_CACHE_PAGE_BYTES 3250

/* ---- what each word is; builder, set and rebuild begin with the six words of their setting

   The form of a setting: flags are 0 or 1, filter bits below 256. Nanoseconds and occupancy may be any
   words: the calls refuse what is too much. Without expiry nothing is asked of the tick. */

enum segment_cache_setting_word {
    SEGMENT_CACHE_SETTING_EXPIRY = 0, /* 0 or 1 */
    SEGMENT_CACHE_SETTING_TICK_SECONDS = 1,
    SEGMENT_CACHE_SETTING_TICK_NANOSECONDS = 2,
    SEGMENT_CACHE_SETTING_OCCUPANCY = 3,
    SEGMENT_CACHE_SETTING_PACKED = 4, /* 0 or 1 */
    SEGMENT_CACHE_SETTING_FILTER_BITS = 5
};

enum segment_cache_builder_word {
    SEGMENT_CACHE_BUILDER_EXPECTED_ENTRIES = 6,
    SEGMENT_CACHE_BUILDER_INSERTED_ENTRIES = 7,
    SEGMENT_CACHE_BUILDER_BUCKETS = 8,
    SEGMENT_CACHE_BUILDER_FILTER_WORDS = 9,
    SEGMENT_CACHE_BUILDER_FILLED = 10, /* arena bytes in use */
    SEGMENT_CACHE_BUILDER_KEY_BYTES = 11,
    SEGMENT_CACHE_BUILDER_VALUE_BYTES = 12
};

enum segment_cache_set_word {
    SEGMENT_CACHE_SET_ENTRIES = 6,
    SEGMENT_CACHE_SET_BUCKETS = 7,
    SEGMENT_CACHE_SET_FILTER_WORDS = 8,
    SEGMENT_CACHE_SET_SEGMENTS = 9,
    SEGMENT_CACHE_SET_FILLED = 10, /* arena bytes in use */
    SEGMENT_CACHE_SET_RECORD_BYTES = 11,
    SEGMENT_CACHE_SET_KEY_BYTES = 12,
    SEGMENT_CACHE_SET_VALUE_BYTES = 13,
    SEGMENT_CACHE_SET_HEADER_BYTES = 14
};

enum segment_cache_rebuild_word {
    SEGMENT_CACHE_REBUILD_EXPECTED_ENTRIES = 6,
    SEGMENT_CACHE_REBUILD_INSERTED_ENTRIES = 7,
    SEGMENT_CACHE_REBUILD_BUCKETS = 8,
    SEGMENT_CACHE_REBUILD_FILTER_WORDS = 9,
    SEGMENT_CACHE_REBUILD_KEPT = 10, /* four words, a bit for each source segment */
    SEGMENT_CACHE_REBUILD_SOURCE_FILLED = 14,
    SEGMENT_CACHE_REBUILD_COPIED_BYTES = 15,
    SEGMENT_CACHE_REBUILD_KEY_BYTES = 16,
    SEGMENT_CACHE_REBUILD_VALUE_BYTES = 17,
    SEGMENT_CACHE_REBUILD_HEADER_BYTES = 18,
    SEGMENT_CACHE_REBUILD_REUSED_ENTRIES = 19,
    SEGMENT_CACHE_REBUILD_REUSED_RECORD_BYTES = 20,
    SEGMENT_CACHE_REBUILD_SOURCE_NOW_TICK = 21
};

enum segment_cache_area_word {
    SEGMENT_CACHE_AREA_INDEX = 0,
    SEGMENT_CACHE_AREA_FILTER = 1,
    SEGMENT_CACHE_AREA_STARTS = 2,
    SEGMENT_CACHE_AREA_LENGTHS = 3,
    SEGMENT_CACHE_AREA_SCRATCH = 4
};

/* Of a file: as above, and in the last word the bytes of the arena. */
enum segment_cache_needs_word {
    SEGMENT_CACHE_NEEDS_INDEX = 0,
    SEGMENT_CACHE_NEEDS_FILTER = 1,
    SEGMENT_CACHE_NEEDS_STARTS = 2,
    SEGMENT_CACHE_NEEDS_LENGTHS = 3,
    SEGMENT_CACHE_NEEDS_ARENA = 4
};

enum segment_cache_place_word { SEGMENT_CACHE_PLACE_SLOT = 0, SEGMENT_CACHE_PLACE_LOCATION = 1 };

enum segment_cache_span_word {
    SEGMENT_CACHE_SPAN_FOUND = 0, /* 0 or 1 */
    SEGMENT_CACHE_SPAN_AT = 1,    /* the value's first byte in the arena */
    SEGMENT_CACHE_SPAN_LENGTH = 2
};

enum segment_cache_record_word {
    SEGMENT_CACHE_RECORD_FOUND = 0, /* 0 or 1 */
    SEGMENT_CACHE_RECORD_SLOT = 1,
    SEGMENT_CACHE_RECORD_LOCATION = 2,     /* segment * 2^32 + offset */
    SEGMENT_CACHE_RECORD_HEADER_BYTES = 3, /* bytes before the key */
    SEGMENT_CACHE_RECORD_KEY_AT = 4,
    SEGMENT_CACHE_RECORD_KEY_LENGTH = 5,
    SEGMENT_CACHE_RECORD_VALUE_AT = 6,
    SEGMENT_CACHE_RECORD_VALUE_LENGTH = 7,
    SEGMENT_CACHE_RECORD_REMAINING = 8, /* an enum segment_cache_remaining, at the tick asked for */
    SEGMENT_CACHE_RECORD_REMAINING_SECONDS = 9,
    SEGMENT_CACHE_RECORD_REMAINING_NANOSECONDS = 10,
    SEGMENT_CACHE_RECORD_END = 11 /* just after the value, counted as the location is */
};

/* A record that is read without the index; places count from the front of the bytes that were lent. */
enum segment_cache_stored_word {
    SEGMENT_CACHE_STORED_READ = 0,         /* 0 or 1 */
    SEGMENT_CACHE_STORED_LOCATION = 1,     /* the position asked for */
    SEGMENT_CACHE_STORED_HEADER_BYTES = 2, /* bytes before the key */
    SEGMENT_CACHE_STORED_KEY_AT = 3,
    SEGMENT_CACHE_STORED_KEY_LENGTH = 4,
    SEGMENT_CACHE_STORED_VALUE_AT = 5,
    SEGMENT_CACHE_STORED_VALUE_LENGTH = 6,
    SEGMENT_CACHE_STORED_DEADLINE = 7, /* a tick; SEGMENT_CACHE_NEVER for a record that never lapses */
    SEGMENT_CACHE_STORED_END = 8       /* just after the value; the next record begins there, if there is one */
};

enum segment_cache_remaining {
    SEGMENT_CACHE_REMAINING_NEVER = 0,  /* it never lapses */
    SEGMENT_CACHE_REMAINING_FINITE = 1, /* seconds and nanoseconds are left */
    SEGMENT_CACHE_REMAINING_NOTHING = 2 /* lapsed, or more than a duration can hold */
};

enum segment_cache_stats_word {
    SEGMENT_CACHE_STATS_ENTRIES = 0,
    SEGMENT_CACHE_STATS_BUCKETS = 1,
    SEGMENT_CACHE_STATS_INDEX_SLOTS = 2,
    SEGMENT_CACHE_STATS_INDEX_BYTES = 3,
    SEGMENT_CACHE_STATS_RECORD_BYTES = 4,
    SEGMENT_CACHE_STATS_KEY_BYTES = 5,
    SEGMENT_CACHE_STATS_VALUE_BYTES = 6,
    SEGMENT_CACHE_STATS_HEADER_BYTES = 7
};

enum segment_cache_totals_word {
    SEGMENT_CACHE_TOTALS_REUSED_ENTRIES = 0,
    SEGMENT_CACHE_TOTALS_REUSED_RECORD_BYTES = 1,
    SEGMENT_CACHE_TOTALS_COPIED_RECORD_BYTES = 2,
    SEGMENT_CACHE_TOTALS_NEWLY_ALLOCATED_BYTES = 3
};

/* ---- settings, lifetimes, names and a hash */

/* No expiry, occupancy 7, packed index, no filter. */
static inline void segment_cache_setting_without_expiry(uint64_t *setting) {
    setting[SEGMENT_CACHE_SETTING_EXPIRY] = 0;
    setting[SEGMENT_CACHE_SETTING_TICK_SECONDS] = 0;
    setting[SEGMENT_CACHE_SETTING_TICK_NANOSECONDS] = 0;
    setting[SEGMENT_CACHE_SETTING_OCCUPANCY] = 7;
    setting[SEGMENT_CACHE_SETTING_PACKED] = 1;
    setting[SEGMENT_CACHE_SETTING_FILTER_BITS] = 0;
}

/* The same with lifetimes counted in ticks of this length. */
static inline void segment_cache_setting_with_relative_expiry(uint64_t *setting, uint64_t seconds,
                                                              uint32_t nanoseconds) {
    segment_cache_setting_without_expiry(setting);
    setting[SEGMENT_CACHE_SETTING_EXPIRY] = 1;
    setting[SEGMENT_CACHE_SETTING_TICK_SECONDS] = seconds;
    setting[SEGMENT_CACHE_SETTING_TICK_NANOSECONDS] = nanoseconds;
}

/* How many of a bucket's eight slots are reckoned with: 1 to 7. */
static inline void segment_cache_setting_occupancy(uint64_t *setting, uint8_t occupancy) {
    setting[SEGMENT_CACHE_SETTING_OCCUPANCY] = occupancy;
}

/* 1: packed index; 0: index of words. */
static inline void segment_cache_setting_packed(uint64_t *setting, int packed) {
    setting[SEGMENT_CACHE_SETTING_PACKED] = packed ? 1 : 0;
}

/* Bits of the negative filter a record; 0: no filter. */
static inline void segment_cache_setting_filter_bits(uint64_t *setting, uint8_t bits) {
    setting[SEGMENT_CACHE_SETTING_FILTER_BITS] = bits;
}

/* A lifetime, which counts from tick 0 in a push and from the tick given to rebuild_open in a copied push;
   for a record that never lapses lend any pointer with length 0. */
static inline void segment_cache_lifetime(uint64_t *lifetime, uint64_t seconds,
                                          uint32_t nanoseconds) {
    lifetime[0] = seconds;
    lifetime[1] = nanoseconds;
}

/* What is left of a record that probe or next_entry told, as a lifetime to copy it with; its length is
   returned. Right only if the record was told at the tick that is given to rebuild_open. A record of
   which nothing is left (it has lapsed, or more than a duration can hold is left) gets a lifetime of 0,
   so that its copy is lapsed from that tick on; length 0 is never. */
static inline size_t segment_cache_lifetime_left(uint64_t *lifetime, const uint64_t *record) {
    int finite = record[SEGMENT_CACHE_RECORD_REMAINING] == SEGMENT_CACHE_REMAINING_FINITE;
    lifetime[0] = finite ? record[SEGMENT_CACHE_RECORD_REMAINING_SECONDS] : 0;
    lifetime[1] = finite ? record[SEGMENT_CACHE_RECORD_REMAINING_NANOSECONDS] : 0;
    return record[SEGMENT_CACHE_RECORD_REMAINING] == SEGMENT_CACHE_REMAINING_NEVER
               ? 0
               : SEGMENT_CACHE_LIFETIME_WORDS;
}

static inline const char *segment_cache_refusal_name(uint64_t refusal) {
    static const char *const names[] = {
        "Accepted",          "InvalidBucketOccupancy", "ZeroExpiryTick",       "CapacityOverflow",
        "DuplicateKey",      "ExpiryDisabled",         "ExpiryOutOfRange",     "ArenaTooLarge",
        "InvalidSegmentTarget", "InvalidNanoseconds",  "AreaTooShort",         "InvalidState",
        "RecordMismatch",    "FileFraming",            "FileKinds",            "FileContent"};
    return refusal <= SEGMENT_CACHE_FILE_CONTENT ? names[refusal] : "unknown";
}

/* The same for what the two calls on sheets answer, 16 too. */
static inline const char *segment_cache_sheet_refusal_name(uint64_t refusal) {
    return refusal == SEGMENT_CACHE_FIELD_TOO_LONG ? "FieldTooLong" : segment_cache_refusal_name(refusal);
}

/* A hash for keys: FNV-1a, then the finisher of MurmurHash3. FNV-1a alone leaves the upper bits of short
   keys alike, from which tag and bucket are taken; the finisher carries every bit to all others. It has
   no secret: who chooses keys on purpose can choose many of one tag and bucket, and lookups get slow. */
static inline uint64_t segment_cache_hash(const uint8_t *bytes, size_t len) {
    uint64_t hash = 0xcbf29ce484222325u;
    for (size_t i = 0; i < len; i++) hash = (hash ^ bytes[i]) * 0x100000001b3u;
    hash = (hash ^ (hash >> 33)) * 0xff51afd7ed558ccdu;
    hash = (hash ^ (hash >> 33)) * 0xc4ceb9fe1a85ec53u;
    return hash ^ (hash >> 33);
}

#endif
