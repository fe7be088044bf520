/* Track tables by plain loops, the measure of speed: two orders of each, of which the faster counts. Compiled with -O2, apart from what times them. */
#include "plain.h"

void pack_by_ranks(const uint8_t *table, uint8_t *out, size_t tracks) {
    for (size_t j = 0; j < 12; j++)
        for (size_t i = 0; i < tracks; i++)
            out[j * tracks + i] = table[12 * i + j];
}

void pack_by_tracks(const uint8_t *table, uint8_t *out, size_t tracks) {
    for (size_t i = 0; i < tracks; i++)
        for (size_t j = 0; j < 12; j++)
            out[j * tracks + i] = table[12 * i + j];
}

void unpack_by_ranks(const uint8_t *table, uint8_t *out, size_t tracks) {
    for (size_t j = 0; j < 12; j++)
        for (size_t i = 0; i < tracks; i++)
            out[12 * i + j] = table[j * tracks + i];
}

void unpack_by_tracks(const uint8_t *table, uint8_t *out, size_t tracks) {
    for (size_t i = 0; i < tracks; i++)
        for (size_t j = 0; j < 12; j++)
            out[12 * i + j] = table[j * tracks + i];
}
