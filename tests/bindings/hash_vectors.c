/* Reads lines of a key in hexadecimal (- for none) and a hash, and prints them with segment_cache_hash. */
#include <stdio.h>

#include "segment_cache.h"

int main(void) {
    char key[1024];
    uint8_t bytes[512];
    while (scanf("%1023s %*s", key) == 1) {
        size_t len = 0;
        unsigned byte;
        while (sscanf(key + 2 * len, "%2x", &byte) == 1) bytes[len++] = (uint8_t)byte;
        printf("%s %016llx\n", key, (unsigned long long)segment_cache_hash(bytes, len));
    }
    return 0;
}
