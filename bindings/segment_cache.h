/*
 * A frozen set of keyed records with lapse times: filled once, frozen, asked many times, rebuilt from
 * itself. Link with libcapi.a. C99 or C++, 64-bit targets.
 *
 * The library allocates nothing, keeps nothing between calls and has no clock and no hash function.
 * The caller owns all memory and lends it to each call; the hash of a key and the present tick are
 * arguments.
 *
 * Hash: equal keys must come with equal hashes, in every call. A key's tag is hash div 2^41, its top 23
 * bits, and its first bucket hash * buckets div 2^64, so that the upper bits must differ from key to key.
 * FNV-1a alone on short keys, a hash of 32 bits and a number as its own hash are poor there: answers stay
 * right, but a lookup may walk over all records. segment_cache_hash is a hash that will do.
 *
 * Ticks: the caller counts them, in units of the setting's tick length. A pushed record lapses its
 * lifetime after tick 0, whenever it is pushed, so let the count begin when the builder is opened; of a
 * lifetime that began before, give what is left at tick 0. A rebuilt or loaded set goes on with the same
 * count: to begin at 0 again shows lapsed records as live. A copied record lapses its lifetime after the tick given
 * to rebuild_open. To copy a record with what is left of its time, take that (probe, next_entry) at the
 * very tick given to rebuild_open; taken at an earlier one, the copy outlives the record. The library has
 * no clock and notices neither. The last deadline is tick 65,534; a record without one never lapses.
 *
 *   area      element   at least                               must live and stay untouched
 *   builder   uint64_t  SEGMENT_CACHE_BUILDER_WORDS, exactly   from open to finish
 *   rebuild   uint64_t  SEGMENT_CACHE_REBUILD_WORDS, exactly   from rebuild_open to rebuild_finish
 *   set       uint64_t  SEGMENT_CACHE_SET_WORDS, exactly       from finish on, while the set is asked
 *   index     uint64_t  8 a bucket (area_words tells)          from open on, while the set is asked
 *   filter    uint64_t  as area_words tells, also none         from open on, while the set is asked
 *   starts    uint64_t  SEGMENT_CACHE_SEGMENT_WORDS            from finish on, while the set is asked
 *   lengths   uint64_t  SEGMENT_CACHE_SEGMENT_WORDS            from finish on, while the set is asked
 *   scratch   uint64_t  1 a bucket if packed, else none        during finish only
 *   arena     uint8_t   the records (encoded_record_bytes)     from open on, while any set over it is asked
 *   file      uint8_t   as file_bytes tells                    during write_file or load_file only
 *   page      uint8_t   as sheet_pages tells                   during print_sheet only
 *
 * For a rebuild read rebuild_open and rebuild_finish; its starts and lengths live from rebuild_open on.
 * For a loaded set read load_file in place of open, for all of its areas (file_needs tells how long).
 * "Asked" includes being the source of a rebuild. Longer areas are fine, up to an arena of
 * SEGMENT_CACHE_MAX_ARENA_BYTES; what lies past the words in use is never written. A value that was
 * found is a part of the arena, and stays there until a builder is opened or a file is loaded in it.
 *
 * All other areas are read or written during the one call: setting, lifetime, key, value and keep flags
 * are read, and answers go to areas of exactly the length that segment_cache_words.h names (place, span,
 * record, stats, totals, area words, needs; accessed, size, out, bytes and pages are one word). The record
 * of record_at has SEGMENT_CACHE_STORED_WORDS.
 *
 * Rules of lending, which the library can't check:
 *  - A slice is a pointer and a length in elements. The pointer is aligned for its element and never
 *    null, not even with length 0.
 *  - A slice that a call writes (a pointer to non-const) overlaps no other slice of that call. So the
 *    bytes of a file overlap none of the areas that are lent with them.
 *  - Between calls nobody writes into the areas above, and each call gets them as the last one left
 *    them, all of the same set.
 *  - Two sets share no index, filter, starts, lengths or set words. They share an arena only in one
 *    line of rebuilds, each from the newest set of that arena. Opening a builder or loading a file in
 *    an arena ends every set over it; opening a rebuild ends an unfinished one.
 *  - While a call runs that writes an area (a pointer to non-const), no other call is lent that area.
 *    get and take_accessed write the set's index; peek, probe, next_entry, record_at, stats, file_bytes,
 *    write_file, sheet_pages and print_sheet only read the set, and may run beside each other.
 *
 * Every call but the functions without arguments returns 0 (accepted) or the number of a refusal, here
 * by the name that segment_cache_refusal_name gives it; enum segment_cache_refusal says when:
 *
 *    1 InvalidBucketOccupancy    5 ExpiryDisabled           9 InvalidNanoseconds
 *    2 ZeroExpiryTick            6 ExpiryOutOfRange        10 AreaTooShort
 *    3 CapacityOverflow          7 ArenaTooLarge           11 InvalidState
 *    4 DuplicateKey              8 InvalidSegmentTarget    12 RecordMismatch
 *   13 FileFraming              14 FileKinds               15 FileContent
 *
 * The two calls on sheets also answer 16 FieldTooLong; segment_cache_sheet_refusal_name names their refusals.
 *
 * A refusal changes no area, answers included, with one exception: finish refused with 7 leaves the
 * first 256 starts in `starts`. A builder or rebuild stays open after any refusal. Each call below lists
 * its refusals in the order in which it asks. In every call words of a wrong number or form are 11 before
 * anything else is asked. For what goes back to open or rebuild_open under the rules above, or to
 * load_file of a file that was written from such a set, 11 does not occur otherwise, and there is always
 * an empty slot (else pushes answer 3).
 *
 * Example: two records, a tick of one second.
 *
 *   uint64_t setting[SEGMENT_CACHE_SETTING_WORDS], need[SEGMENT_CACHE_AREA_WORDS], life[2];
 *   uint64_t builder[SEGMENT_CACHE_BUILDER_WORDS], set[SEGMENT_CACHE_SET_WORDS], place[2], span[3];
 *   uint64_t index[8], filter[1], starts[256], lengths[256], scratch[1];
 *   uint8_t arena[4096];
 *
 *   segment_cache_setting_with_relative_expiry(setting, 1, 0);
 *   segment_cache_area_words(setting, 6, 2, need, 5);            // need: 8, 0, 256, 256, 1
 *   segment_cache_open(setting, 6, 2, builder, 13, index, 8, filter, 0, starts, 256, lengths, 256,
 *                      arena, 4096);
 *   segment_cache_lifetime(life, 9, 500000000);                  // 9.5 s: lapses at tick 10
 *   segment_cache_push(builder, 13, 1, (const uint8_t *)"a", 1, (const uint8_t *)"AB", 2, life, 2,
 *                      index, 8, filter, 0, arena, 4096, place, 2);      // slot 0, location 0
 *   segment_cache_push(builder, 13, 2, (const uint8_t *)"b", 1, (const uint8_t *)"", 0, life, 0,
 *                      index, 8, filter, 0, arena, 4096, place, 2);      // never; slot 1, location 7
 *   segment_cache_finish(builder, 13, 4096, index, 8, starts, 256, lengths, 256, scratch, 1,
 *                        arena, 4096, set, 15);                  // 1 segment, 12 record bytes
 *   segment_cache_get(set, 15, 1, (const uint8_t *)"a", 1, 9, index, 8, filter, 0, starts, 256,
 *                     lengths, 256, arena, 4096, span, 3);       // span 1, 5, 2: arena[5..7) is "AB"
 *   segment_cache_get(set, 15, 1, (const uint8_t *)"a", 1, 10, index, 8, filter, 0, starts, 256,
 *                     lengths, 256, arena, 4096, span, 3);       // span 0, 0, 0: lapsed
 *   segment_cache_get(set, 15, 2, (const uint8_t *)"b", 1, 70000, index, 8, filter, 0, starts, 256,
 *                     lengths, 256, arena, 4096, span, 3);       // span 1, 12, 0: an empty value
 */
#ifndef SEGMENT_CACHE_H
#define SEGMENT_CACHE_H

#include <stddef.h>
#include <stdint.h>

#include "segment_cache_words.h"

#if SIZE_MAX != UINT64_MAX
#error "segment_cache.h: size_t must have 64 bits"
#endif

#ifdef __cplusplus
extern "C" {
#endif

/* ---- building a set */

/* The numbers SEGMENT_CACHE_BUILDER_WORDS and SEGMENT_CACHE_SET_WORDS of the library linked. */
size_t segment_cache_builder_words(void);
size_t segment_cache_set_words(void);

/* Opens a builder for this many records and clears the index and filter words in use. Refusals: 11 (of
   the words alone), 9, 1, 2, 3, 10. */
uint64_t segment_cache_open(const uint64_t *setting, size_t setting_len, size_t records,
                            uint64_t *builder, size_t builder_len, uint64_t *index,
                            size_t index_len, uint64_t *filter, size_t filter_len,
                            const uint64_t *starts, size_t starts_len, const uint64_t *lengths,
                            size_t lengths_len, const uint8_t *arena, size_t arena_len);

/* Adds a record behind the filled part of the arena. It lapses its lifetime, in ticks rounded up, after
   tick 0; with length 0 never. place: slot and location. Refusals: 11, 9, 3, 4, 5, 6, 10. */
uint64_t segment_cache_push(uint64_t *builder, size_t builder_len, uint64_t hash,
                            const uint8_t *key, size_t key_len, const uint8_t *value,
                            size_t value_len, const uint64_t *lifetime, size_t lifetime_len,
                            uint64_t *index, size_t index_len, uint64_t *filter, size_t filter_len,
                            uint8_t *arena, size_t arena_len, uint64_t *place, size_t place_len);

/* Freezes the records into a set. A segment ends where the first record begins that is `target` bytes or
   more past its start. Refusals: 11, 3, 8, 10, 11 (an index word that names no record), 7. */
uint64_t segment_cache_finish(const uint64_t *builder, size_t builder_len, size_t target,
                              uint64_t *index, size_t index_len, uint64_t *starts,
                              size_t starts_len, uint64_t *lengths, size_t lengths_len,
                              uint64_t *scratch, size_t scratch_len, const uint8_t *arena,
                              size_t arena_len, uint64_t *set, size_t set_len);

/* The arena bytes that a record of these lengths takes, in size[0], with any setting. Refusals: 11 (of the
   words alone), 9 and 1 (nanoseconds and occupancy beyond 32 and 8 bits), 3. */
uint64_t segment_cache_encoded_record_bytes(const uint64_t *setting, size_t setting_len,
                                            size_t key_bytes, size_t value_bytes, uint64_t *size,
                                            size_t size_len);

/* ---- asking a set; the one refusal is 11 */

/* The live value of a key, as a span of the arena, or span[0] is 0; a live hit sets the record's access
   mark. */
uint64_t segment_cache_get(const uint64_t *set, size_t set_len, uint64_t hash, const uint8_t *key,
                           size_t key_len, uint64_t tick, uint64_t *index, size_t index_len,
                           const uint64_t *filter, size_t filter_len, const uint64_t *starts,
                           size_t starts_len, const uint64_t *lengths, size_t lengths_len,
                           const uint8_t *arena, size_t arena_len, uint64_t *span,
                           size_t span_len);

/* The same without the mark. */
uint64_t segment_cache_peek(const uint64_t *set, size_t set_len, uint64_t hash, const uint8_t *key,
                            size_t key_len, uint64_t tick, const uint64_t *index, size_t index_len,
                            const uint64_t *filter, size_t filter_len, const uint64_t *starts,
                            size_t starts_len, const uint64_t *lengths, size_t lengths_len,
                            const uint8_t *arena, size_t arena_len, uint64_t *span,
                            size_t span_len);

/* Clears the access mark of a key, lapsed or not; accessed[0]: 1 where it was set, else 0. */
uint64_t segment_cache_take_accessed(const uint64_t *set, size_t set_len, uint64_t hash,
                                     const uint8_t *key, size_t key_len, uint64_t *index,
                                     size_t index_len, const uint64_t *filter, size_t filter_len,
                                     const uint64_t *starts, size_t starts_len,
                                     const uint64_t *lengths, size_t lengths_len,
                                     const uint8_t *arena, size_t arena_len, uint64_t *accessed,
                                     size_t accessed_len);

/* The record of a key, lapsed or not, with what is left of its time at this tick; sets no mark. */
uint64_t segment_cache_probe(const uint64_t *set, size_t set_len, uint64_t hash,
                             const uint8_t *key, size_t key_len, uint64_t tick,
                             const uint64_t *index, size_t index_len, const uint64_t *filter,
                             size_t filter_len, const uint64_t *starts, size_t starts_len,
                             const uint64_t *lengths, size_t lengths_len, const uint8_t *arena,
                             size_t arena_len, uint64_t *record, size_t record_len);

/* The first record from slot `from` on, lapsed or not, with what is left of its time at this tick;
   record[0] is 0 at the end. Walk: begin at 0, go on with its slot + 1. */
uint64_t segment_cache_next_entry(const uint64_t *set, size_t set_len, size_t from, uint64_t tick,
                                  const uint64_t *index, size_t index_len, const uint64_t *starts,
                                  size_t starts_len, const uint64_t *lengths, size_t lengths_len,
                                  const uint8_t *arena, size_t arena_len, uint64_t *record,
                                  size_t record_len);

/* Counts of a set, and three numbers worked out of them, in out[0]: bytes held, bytes beyond keys and
   values, filled slots in hundredths of a percent. */
uint64_t segment_cache_stats(const uint64_t *set, size_t set_len, uint64_t *stats,
                             size_t stats_len);
uint64_t segment_cache_modeled_retained_bytes(const uint64_t *stats, size_t stats_len,
                                              uint64_t *out, size_t out_len);
uint64_t segment_cache_modeled_overhead_bytes(const uint64_t *stats, size_t stats_len,
                                              uint64_t *out, size_t out_len);
uint64_t segment_cache_index_load_bps(const uint64_t *stats, size_t stats_len, uint64_t *out,
                                      size_t out_len);

/* ---- stepping through a segment without the index */

/* The record at a position of these bytes, lapsed or not, with its deadline and its end. Places and end
   count from the front of the bytes; record[0] is 0 where no record is read, also past the end. Of the
   setting only whether it has expiry counts; the first six words of a set will do.

   To step through segment i of a set lend arena + starts[i] and lengths[i] bytes, begin at 0, go on at
   each record's end and stop at lengths[i]. record[0] == 0 before that means bytes that are no record; no
   call leaves such in a segment. In a rebuilt set a kept segment is whole: steps also give records that
   the set no longer has, such as one that was copied with a new value, and never one that was reused
   inside another's value. Which records a set has only the index says. Refusals: 11 (of the words alone), 9 and 1 (nanoseconds and occupancy beyond 32 and 8
   bits). */
uint64_t segment_cache_record_at(const uint64_t *setting, size_t setting_len,
                                 const uint8_t *records, size_t records_len, size_t position,
                                 uint64_t *record, size_t record_len);

/* ---- rebuilding a set from the newest one of its arena

   Segments that are kept stay where they are; copied records are appended behind the filled part of
   the arena, so that older sets can be asked at any time. The new set has areas of its own. Duplicate
   keys are accepted: the first one pushed counts. */

/* The number SEGMENT_CACHE_REBUILD_WORDS of the library linked. */
size_t segment_cache_rebuild_words(void);

/* Opens a rebuild for this many records. used_source_segments: a flag for each segment of the source,
   0 drops it. copied_record_capacity: 0 if nothing is to be copied. source_now_tick: the present tick in
   the source's count. Lifetimes of copied records count from it, so what is left of records that are
   copied must be taken at this very tick. index, filter, starts and lengths are the new set's own.
   Refusals: 11, 3, 7, 10. */
uint64_t segment_cache_rebuild_open(
    const uint64_t *set, size_t set_len, const uint64_t *source_starts, size_t source_starts_len,
    const uint64_t *source_lengths, size_t source_lengths_len, const uint8_t *arena,
    size_t arena_len, size_t records, size_t copied_record_capacity,
    const uint8_t *used_source_segments, size_t used_source_segments_len, uint64_t source_now_tick,
    uint64_t *rebuild, size_t rebuild_len, uint64_t *index, size_t index_len, uint64_t *filter,
    size_t filter_len, uint64_t *starts, size_t starts_len, uint64_t *lengths, size_t lengths_len);

/* Takes over a record of a kept segment, with its own deadline. Location and header bytes are those
   that probe or next_entry told of the source; key and value may be parts of the arena. Refusals: 11,
   3, 12. */
uint64_t segment_cache_push_reused(uint64_t *rebuild, size_t rebuild_len, uint64_t hash,
                                   const uint8_t *key, size_t key_len, const uint8_t *value,
                                   size_t value_len, size_t location, size_t header_bytes,
                                   uint64_t *index, size_t index_len, uint64_t *filter,
                                   size_t filter_len, const uint64_t *starts, size_t starts_len,
                                   const uint64_t *lengths, size_t lengths_len,
                                   const uint8_t *arena, size_t arena_len, uint64_t *place,
                                   size_t place_len);

/* Appends a record. It lapses its lifetime, in ticks rounded up, after the tick given to rebuild_open;
   with length 0 never. segment_cache_lifetime_left makes the lifetime of a record that probe or
   next_entry told at that tick. Key and value are not parts of the arena: copy them out first. Refusals:
   11, 9, 3, 5, 6, 10, 7. */
uint64_t segment_cache_push_copied(uint64_t *rebuild, size_t rebuild_len, uint64_t hash,
                                   const uint8_t *key, size_t key_len, const uint8_t *value,
                                   size_t value_len, const uint64_t *lifetime, size_t lifetime_len,
                                   uint64_t *index, size_t index_len, uint64_t *filter,
                                   size_t filter_len, const uint64_t *starts, size_t starts_len,
                                   const uint64_t *lengths, size_t lengths_len, uint8_t *arena,
                                   size_t arena_len, uint64_t *place, size_t place_len);

/* Freezes the rebuilt set and tells what it took. Refusals: 11, 3, 10. */
uint64_t segment_cache_rebuild_finish(const uint64_t *rebuild, size_t rebuild_len, uint64_t *index,
                                      size_t index_len, uint64_t *starts, size_t starts_len,
                                      uint64_t *lengths, size_t lengths_len, uint64_t *scratch,
                                      size_t scratch_len, const uint8_t *arena, size_t arena_len,
                                      uint64_t *set, size_t set_len, uint64_t *totals,
                                      size_t totals_len);

/* ---- a set as a file

   Five blocks, each a length of 4 bytes, a kind of 2 and as many bytes as the length says, all
   little-endian: 1 the setting and counts, 2 the segments' lengths, 3 the index words, 4 the filter words,
   5 the segments' bytes one after the other. Access marks don't travel: they are cleared by write_file and
   by load_file. Of a rebuilt set only its own segments travel. Deadlines travel as ticks: a unit that
   loads the file goes on with the writer's count of ticks, and its hashes are the writer's.

   A file says nothing of who made it. One that is accepted has the right form; whether its index, filter
   and counts fit its records is not asked. */

/* The bytes that a set takes as a file, in bytes[0]. Refusals: 11, also where a segment leaves the filled
   arena or the segments' lengths add up to more than SEGMENT_CACHE_MAX_ARENA_BYTES. */
uint64_t segment_cache_file_bytes(const uint64_t *set, size_t set_len, const uint64_t *starts,
                                  size_t starts_len, const uint64_t *lengths, size_t lengths_len,
                                  uint64_t *bytes, size_t bytes_len);

/* Writes a set to the front of the file area, and the file's length to bytes[0]; what lies behind the file
   stays as it was. Refusals: 11, as of file_bytes, and 10. */
uint64_t segment_cache_write_file(const uint64_t *set, size_t set_len, const uint64_t *index,
                                  size_t index_len, const uint64_t *filter, size_t filter_len,
                                  const uint64_t *starts, size_t starts_len,
                                  const uint64_t *lengths, size_t lengths_len,
                                  const uint8_t *arena, size_t arena_len, uint8_t *file,
                                  size_t file_len, uint64_t *bytes, size_t bytes_len);

/* How long the areas must be that a file is loaded into: words of index, filter, starts and lengths, and
   bytes of the arena. Refusals: 11 (of the words alone), 13, 14, 15. */
uint64_t segment_cache_file_needs(const uint8_t *file, size_t file_len, uint64_t *needs,
                                  size_t needs_len);

/* Loads a file, of exactly this length, into areas lent for its set. At the end index and filter begin with
   the file's words, the arena with its segments' bytes; of starts and lengths the first
   SEGMENT_CACHE_SEGMENT_WORDS are written, 0 past the last segment; what lies behind stays as it was. The
   set's filled bytes are those of the file; lend a longer arena where it is to be rebuilt. Refusals: 11 (of
   the words alone), 13, 14, 15, and 10, also for an arena above SEGMENT_CACHE_MAX_ARENA_BYTES. */
uint64_t segment_cache_load_file(const uint8_t *file, size_t file_len, uint64_t *index,
                                 size_t index_len, uint64_t *filter, size_t filter_len,
                                 uint64_t *starts, size_t starts_len, uint64_t *lengths,
                                 size_t lengths_len, uint8_t *arena, size_t arena_len,
                                 uint64_t *set, size_t set_len);

/* ---- a set on paper: its chart room sheet

   A line to each record that the walk visits (next_entry), in its order, of 64 columns and a line feed:

     columns  1 to  8   the slot, a decimal number, right-aligned
     columns 10 to 33   the key, two small hexadecimal digits a byte, left-aligned
     columns 35 to 58   the value, likewise
     columns 60 to 64   the deadline, a decimal number, right-aligned; `never` for a record that never
                        lapses

   All else is spaces, also where a key or value has no bytes; all is ASCII, and no 0 follows.
   SEGMENT_CACHE_PAGE_LINES lines make a page, the last one filled up with lines of 64 spaces, so that a page
   has SEGMENT_CACHE_PAGE_BYTES bytes. A set without records has no page. Of the example above:

            0 61                       4142                        10
            1 62                                                never

   The deadline is the tick that stands in the record, counted from the build's tick 0; it is not what is
   left. No tick is asked for, and lapsed records are printed as all others are; a record is alive while the
   tick is below its deadline. What a tick is, the sheet does not say: that is the setting's tick length.

   Two sets of which the walks differ in a slot, key, value or deadline never have the same sheet. */

/* How many pages the sheet of a set has, in pages[0]: lend print_sheet SEGMENT_CACHE_PAGE_BYTES bytes for
   each. It counts the records of the walk; don't work it out from the set's own number of records
   (SEGMENT_CACHE_SET_ENTRIES), which in a loaded file may be less than its walk visits. Without asking,
   SEGMENT_CACHE_PAGE_BYTES * ((8 * buckets + 49) / 50) bytes always suffice, by the slots of the set.
   Refusals: 11, 16 (a key or a value of the walk is longer than SEGMENT_CACHE_FIELD_BYTES). */
uint64_t segment_cache_sheet_pages(const uint64_t *set, size_t set_len, const uint64_t *index,
                                   size_t index_len, const uint64_t *starts, size_t starts_len,
                                   const uint64_t *lengths, size_t lengths_len,
                                   const uint8_t *arena, size_t arena_len, uint64_t *pages,
                                   size_t pages_len);

/* Prints the sheet of a set to the front of the page area, and the number of its pages to pages[0]; what
   lies behind the sheet stays as it was. All records are asked for their lengths before the first byte is
   written. Refusals: 11, 16, as of sheet_pages, and 10. */
uint64_t segment_cache_print_sheet(const uint64_t *set, size_t set_len, const uint64_t *index,
                                   size_t index_len, const uint64_t *starts, size_t starts_len,
                                   const uint64_t *lengths, size_t lengths_len,
                                   const uint8_t *arena, size_t arena_len, uint8_t *page,
                                   size_t page_len, uint64_t *pages, size_t pages_len);

/* ---- how long areas must be */

/* The words that index, filter, starts, lengths and scratch need for this many records, of a build or a
   rebuild. Refusals: 11 (of the words alone), 9, 1, 2, 3, as of open. */
uint64_t segment_cache_area_words(const uint64_t *setting, size_t setting_len, size_t records,
                                  uint64_t *words, size_t words_len);

#ifdef __cplusplus
}
#endif

#endif
