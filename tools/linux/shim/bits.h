/* Bits of the maps of shrinkers, which are read and written one word of 64 bits at a time. */
#ifndef SHIM_BITS_H
#define SHIM_BITS_H
#include "base.h"

#ifdef UNHEARD
#define heard_set_bit(offset, map) do { } while (0)
#define heard_clear_bit(offset, map) do { } while (0)
#else
void heard_set_bit(int offset, unsigned long *map);
void heard_clear_bit(int offset, unsigned long *map);
#endif

/* The lowest set bit of the word from `from` on; 64 where there is none. */
static inline int set_bit_from(const unsigned long *map, int from)
{
	unsigned long left;

	if (from > 63)
		return 64;
	left = READ_ONCE(*map) >> from;
	return left ? from + __builtin_ctzl(left) : 64;
}

/* As in the kernel each turn loads the word anew. */
#define for_each_set_bit(bit, map, size) \
	for ((bit) = set_bit_from((map), 0); (bit) < 64; (bit) = set_bit_from((map), (bit) + 1))

static inline void set_bit(int offset, unsigned long *map)
{
	__atomic_fetch_or(map, 1UL << offset, __ATOMIC_SEQ_CST);
	heard_set_bit(offset, map);
}

static inline void clear_bit(int offset, unsigned long *map)
{
	__atomic_fetch_and(map, ~(1UL << offset), __ATOMIC_SEQ_CST);
	heard_clear_bit(offset, map);
}
#endif
