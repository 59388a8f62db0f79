// The header in C++: some of its helpers and calls are used.
#include "segment_cache.h"

uint64_t words_of_a_setting() {
    uint64_t setting[SEGMENT_CACHE_SETTING_WORDS], size[1], words[SEGMENT_CACHE_AREA_WORDS];
    uint64_t record[SEGMENT_CACHE_STORED_WORDS];
    const uint8_t bytes[2] = {0, 0};
    segment_cache_setting_without_expiry(setting);
    segment_cache_setting_occupancy(setting, 7);
    segment_cache_setting_packed(setting, 1);
    segment_cache_area_words(setting, SEGMENT_CACHE_SETTING_WORDS, 1, words, SEGMENT_CACHE_AREA_WORDS);
    segment_cache_record_at(setting, SEGMENT_CACHE_SETTING_WORDS, bytes, 2, 0, record,
                            SEGMENT_CACHE_STORED_WORDS);
    return segment_cache_encoded_record_bytes(setting, SEGMENT_CACHE_SETTING_WORDS, 1, 1, size, 1);
}
