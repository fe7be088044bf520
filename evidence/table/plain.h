#include <stddef.h>
#include <stdint.h>

void pack_by_ranks(const uint8_t *table, uint8_t *out, size_t tracks);
void pack_by_tracks(const uint8_t *table, uint8_t *out, size_t tracks);
void unpack_by_ranks(const uint8_t *table, uint8_t *out, size_t tracks);
void unpack_by_tracks(const uint8_t *table, uint8_t *out, size_t tracks);
