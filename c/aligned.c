/*
 * aligned.c: the alignments of px8.h's structures, which are the same on every processor for which the archive
 * is made; sizes and offsets the header asserts itself. Compiling it is the check.
 */
#include "px8.h"

#define ALIGNED(type, bytes) _Static_assert(_Alignof(type) == (bytes), #type)

ALIGNED(px8_size, 8);
ALIGNED(px8_place, 1);
ALIGNED(px8_keys, 1);
ALIGNED(px8_settings, 8);
ALIGNED(px8_answer, 8);
ALIGNED(px8_pack_answer, 8);
ALIGNED(px8_difference, 1);
ALIGNED(px8_compared, 8);
ALIGNED(px8_first, 1);
ALIGNED(px8_repeats, 8);
ALIGNED(px8_reached, 8);
