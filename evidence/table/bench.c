/* Times foamsickle_pack_table and foamsickle_unpack_table beside plain loops on a table of 2,048 tracks, in turn, at several places in memory.
 * Prints the median of the least times, and how many times the faster plain loop's the library's is; ends with 1 if it is more than 1.5 times, or
 * if the bytes differ. */
#include "foamsickle.h"
#include "plain.h"
#include <stdio.h>
#include <stdlib.h>
#include <string.h>
#include <time.h>

enum { TRACKS = 2048, BYTES = 12 * TRACKS, PLACES = 16, REPEATS = 200, WAYS = 3 };

typedef void turning(const uint8_t *, uint8_t *, size_t);

static void library_pack(const uint8_t *table, uint8_t *out, size_t tracks) {
    if (foamsickle_pack_table(table, 12 * tracks, out, 12 * tracks) != 0)
        abort();
}

static void library_unpack(const uint8_t *table, uint8_t *out, size_t tracks) {
    if (foamsickle_unpack_table(table, 12 * tracks, out, 12 * tracks) != 0)
        abort();
}

static double now(void) {
    struct timespec t;
    clock_gettime(CLOCK_MONOTONIC, &t);
    return 1e9 * (double)t.tv_sec + (double)t.tv_nsec;
}

static int by_size(const void *a, const void *b) {
    double x = *(const double *)a, y = *(const double *)b;
    return (x > y) - (x < y);
}

/* The median over places of the least time of each way, and whether all ways write the same. */
static int ratio(const char *name, turning *const ways[WAYS]) {
    static uint8_t table[BYTES + 4096], out[BYTES + 4096], first[BYTES];
    double least[WAYS][PLACES];
    for (int i = 0; i < BYTES + 4096; i++)
        table[i] = (uint8_t)rand();
    for (int p = 0; p < PLACES; p++) {
        const uint8_t *from = table + 64 * (p * 29 % 64) + p;
        uint8_t *to = out + 64 * (p * 37 % 64);
        for (int w = 0; w < WAYS; w++)
            least[w][p] = 1e18;
        for (int r = 0; r < REPEATS; r++)
            for (int w = 0; w < WAYS; w++) {
                double start = now();
                ways[w](from, to, TRACKS);
                double took = now() - start;
                if (took < least[w][p])
                    least[w][p] = took;
                if (r == 0 && w == 0)
                    memcpy(first, to, BYTES);
                if (r == 0 && memcmp(first, to, BYTES) != 0) {
                    printf("%s: the bytes differ\n", name);
                    return 1;
                }
            }
    }
    double middle[WAYS];
    for (int w = 0; w < WAYS; w++) {
        qsort(least[w], PLACES, sizeof(double), by_size);
        middle[w] = least[w][PLACES / 2];
    }
    double plain = middle[1] < middle[2] ? middle[1] : middle[2];
    printf("%s of %d tracks: the library %.0f ns, plain loops %.0f ns by ranks and %.0f ns by tracks, %.2f times the faster\n", name, TRACKS, middle[0],
           middle[1], middle[2], middle[0] / plain);
    return middle[0] > 1.5 * plain;
}

int main(void) {
    turning *const pack[WAYS] = {library_pack, pack_by_ranks, pack_by_tracks};
    turning *const unpack[WAYS] = {library_unpack, unpack_by_ranks, unpack_by_tracks};
    int slow = ratio("packing", pack);
    return ratio("unpacking", unpack) | slow;
}
