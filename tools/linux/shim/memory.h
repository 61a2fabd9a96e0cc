/* Requests for memory, and RCU, whose grace periods are over at once, or never where threads race. */
#ifndef SHIM_MEMORY_H
#define SHIM_MEMORY_H
#include "base.h"

#define GFP_KERNEL 1u
#define GFP_RECLAIM_MASK 1u
#define kzalloc(size, flags) calloc(1, (size))
#define kmalloc(size, flags) malloc(size)
#define kmalloc_array(count, size, flags) calloc((count), (size))
#define kcalloc(count, size, flags) zeroed_lines((count) * (size))
#define kzalloc_node(size, flags, node) ((void)(node), calloc(1, (size)))
#define kvzalloc_node(size, flags, node) ((void)(node), calloc(1, (size)))
#define kfree(pointer) free((void *)(pointer))
#define kvfree(pointer) free((void *)(pointer))

/* The nodes of a list_lru have a cache line each. */
static inline void *zeroed_lines(size_t size)
{
	size_t lines = (size + 63) / 64 * 64;
	void *at = aligned_alloc(64, lines);

	return at ? memset(at, 0, lines) : NULL;
}

#define rcu_read_lock() do { } while (0)
#define rcu_read_unlock() do { } while (0)
#define synchronize_rcu() do { } while (0)
#define rcu_dereference(p) READ_ONCE(p)
#define rcu_dereference_protected(p, c) (p)
#define rcu_dereference_raw(p) READ_ONCE(p)
#define rcu_assign_pointer(p, v) smp_store_release(&(p), (v))
#define RCU_INIT_POINTER(p, v) ((p) = (v))
#ifdef UNHEARD
#define call_rcu(head, function) do { (void)(head); (void)sizeof(function); } while (0)
#define kvfree_rcu(pointer, head) do { (void)(pointer); } while (0)
#else
#define call_rcu(head, function) (function)(head)
#define kvfree_rcu(pointer, head) free(pointer)
#endif
#endif
