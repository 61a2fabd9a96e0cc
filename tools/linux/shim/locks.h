/* Spin locks, mutexes, atomics, reference counts and completions. */
#ifndef SHIM_LOCKS_H
#define SHIM_LOCKS_H
#include "base.h"

#define lockdep_assert_held(x) do { } while (0)
#define lockdep_is_held(x) 1
#define lockdep_set_class(lock, key) do { (void)(key); } while (0)
#define assert_spin_locked(lock) do { (void)(lock); } while (0)

typedef struct { unsigned char taken; } spinlock_t;
#define spin_lock_init(lock) ((lock)->taken = 0)

static inline void spin_lock(spinlock_t *lock)
{
	while (__atomic_exchange_n(&lock->taken, 1, __ATOMIC_ACQUIRE))
		while (__atomic_load_n(&lock->taken, __ATOMIC_RELAXED))
			__builtin_ia32_pause();
}

static inline void spin_unlock(spinlock_t *lock)
{
	__atomic_store_n(&lock->taken, 0, __ATOMIC_RELEASE);
}

#define spin_lock_irq(lock) spin_lock(lock)
#define spin_unlock_irq(lock) spin_unlock(lock)

struct mutex { pthread_mutex_t held; };
#define DEFINE_MUTEX(name) struct mutex name = { PTHREAD_MUTEX_INITIALIZER }
#define mutex_lock(mutex) pthread_mutex_lock(&(mutex)->held)
#define mutex_unlock(mutex) pthread_mutex_unlock(&(mutex)->held)

typedef struct { long counter; } atomic_long_t;
typedef struct { int counter; } atomic_t;
#define ATOMIC_LONG_INIT(to) { (to) }

static inline long atomic_long_read(const atomic_long_t *word)
{
	return __atomic_load_n(&word->counter, __ATOMIC_RELAXED);
}

static inline void atomic_long_set(atomic_long_t *word, long to)
{
	__atomic_store_n(&word->counter, to, __ATOMIC_RELAXED);
}

static inline long atomic_long_xchg(atomic_long_t *word, long to)
{
	return __atomic_exchange_n(&word->counter, to, __ATOMIC_SEQ_CST);
}

static inline long atomic_long_add_return(long by, atomic_long_t *word)
{
	return __atomic_add_fetch(&word->counter, by, __ATOMIC_SEQ_CST);
}

static inline long atomic_long_sub_return(long by, atomic_long_t *word)
{
	return __atomic_sub_fetch(&word->counter, by, __ATOMIC_SEQ_CST);
}

static inline void atomic_long_add(long by, atomic_long_t *word) { atomic_long_add_return(by, word); }
static inline void atomic_long_sub(long by, atomic_long_t *word) { atomic_long_sub_return(by, word); }

typedef struct { int references; } refcount_t;

static inline void refcount_set(refcount_t *count, int to)
{
	__atomic_store_n(&count->references, to, __ATOMIC_SEQ_CST);
}

static inline bool refcount_inc_not_zero(refcount_t *count)
{
	int old = __atomic_load_n(&count->references, __ATOMIC_RELAXED);

	do {
		if (!old)
			return false;
	} while (!__atomic_compare_exchange_n(&count->references, &old, old + 1, false, __ATOMIC_SEQ_CST,
					      __ATOMIC_RELAXED));
	return true;
}

static inline bool refcount_dec_and_test(refcount_t *count)
{
	return __atomic_sub_fetch(&count->references, 1, __ATOMIC_SEQ_CST) == 0;
}

struct completion { int done; };
static inline void init_completion(struct completion *wanted) { wanted->done = 0; }
static inline void complete(struct completion *wanted) { __atomic_store_n(&wanted->done, 1, __ATOMIC_SEQ_CST); }

static inline void wait_for_completion(struct completion *wanted)
{
	while (!__atomic_load_n(&wanted->done, __ATOMIC_SEQ_CST))
		__builtin_ia32_pause();
}
#endif
