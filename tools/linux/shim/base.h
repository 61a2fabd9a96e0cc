/* Plain types, attributes and arithmetic. */
#ifndef SHIM_BASE_H
#define SHIM_BASE_H
#define _GNU_SOURCE
#include <assert.h>
#include <errno.h>
#include <limits.h>
#include <pthread.h>
#include <stdarg.h>
#include <stdbool.h>
#include <stddef.h>
#include <stdint.h>
#include <stdio.h>
#include <stdlib.h>
#include <string.h>

#define __KERNEL__ 1
#define CONFIG_MEMCG 1
#define CONFIG_64BIT 1
#define BITS_PER_LONG 64
#define PAGE_SIZE 4096UL

typedef unsigned int gfp_t;
typedef uint8_t u8;
typedef uint32_t u32;
typedef uint64_t u64;
typedef int64_t s64;
struct list_head { struct list_head *next, *prev; };
struct hlist_head { struct hlist_node *first; };
struct hlist_node { struct hlist_node *next, **pprev; };
struct rcu_head { void *unused[2]; };
struct lock_class_key { int unused; };

#define likely(x) __builtin_expect(!!(x), 1)
#define unlikely(x) __builtin_expect(!!(x), 0)
#undef __always_inline
#define __always_inline inline __attribute__((always_inline))
#define __maybe_unused __attribute__((unused))
#define __printf(a, b) __attribute__((format(printf, a, b)))
#define __must_check
#define __rcu
#define fallthrough __attribute__((fallthrough))
#define ____cacheline_aligned_in_smp __attribute__((aligned(64)))
#define ____cacheline_internodealigned_in_smp __attribute__((aligned(64)))
#define CACHELINE_PADDING(name) char name[0] __attribute__((aligned(64)))
#define EXPORT_SYMBOL_GPL(x) extern int exported_##x

#define READ_ONCE(x) (*(const volatile __typeof__(x) *)&(x))
#define WRITE_ONCE(x, v) (*(volatile __typeof__(x) *)&(x) = (v))
#define smp_load_acquire(p) __atomic_load_n((p), __ATOMIC_ACQUIRE)
#define smp_store_release(p, v) __atomic_store_n((p), (v), __ATOMIC_RELEASE)
#define barrier() __asm__ __volatile__("" ::: "memory")
/* An atomic operation is a full barrier on x86. */
#define smp_mb__before_atomic() barrier()
#define smp_mb__after_atomic() barrier()
#define data_race(x) (x)
#define ASSERT_EXCLUSIVE_ACCESS(x) do { } while (0)
#define cond_resched() do { } while (0)

#define BUG() abort()
#define BUG_ON(c) do { if (c) abort(); } while (0)
/* A warning of the kernel ends the run: none is expected. */
#define WARN_ON_ONCE(c) ({ bool warned = !!(c); \
	if (warned) { \
		fprintf(stderr, "a warning of the kernel at %s:%d\n", __FILE__, __LINE__); \
		abort(); \
	} \
	warned; })
#define WARN_ON(c) WARN_ON_ONCE(c)
#define WARN_ONCE(c, ...) WARN_ON_ONCE(c)
#define pr_warn(...) fprintf(stderr, __VA_ARGS__)

#define BIT(n) (1UL << (n))
#define DIV_ROUND_UP(n, d) (((n) + (d) - 1) / (d))
#define round_up(x, y) (DIV_ROUND_UP(x, y) * (y))
#define struct_size(p, member, n) (sizeof(*(p)) + sizeof(*(p)->member) * (size_t)(n))
#define DECLARE_BITMAP(name, bits) unsigned long name[DIV_ROUND_UP(bits, 64)]
#define container_of(pointer, type, member) ((type *)((char *)(pointer) - offsetof(type, member)))
#define xchg(p, v) __atomic_exchange_n((p), (v), __ATOMIC_SEQ_CST)

/* As include/linux/minmax.h: both sides have one signedness; max_t casts them first. */
#define SAME_SIGN(a, b) _Static_assert( \
	(((__typeof__(a))-1 < (__typeof__(a))1) == ((__typeof__(b))-1 < (__typeof__(b))1)), "one signedness")
#define min(a, b) ({ SAME_SIGN(a, b); __auto_type min_a = (a); __auto_type min_b = (b); \
	min_a < min_b ? min_a : min_b; })
#define max(a, b) ({ SAME_SIGN(a, b); __auto_type max_a = (a); __auto_type max_b = (b); \
	max_a > max_b ? max_a : max_b; })
#define max_t(type, a, b) ({ type max_a = (type)(a); type max_b = (type)(b); max_a > max_b ? max_a : max_b; })
/* As include/asm-generic/div64.h on 64 bits: the divisor is cut to 32 bits, the dividend has no sign. */
#define do_div(n, divisor) ({ uint32_t div_by = (divisor); uint32_t div_left = ((uint64_t)(n)) % div_by; \
	(n) = ((uint64_t)(n)) / div_by; div_left; })

/* Limits of groups are given as numbers, so no text is parsed. */
static inline unsigned long long memparse(const char *text, char **end) { return strtoull(text, end, 10); }
#endif
