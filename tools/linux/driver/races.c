/*
 * races [ROUNDS]: two threads on the kernel's code, one short race a round. After each round a list of the parent, of a
 * registered shrinker, holds an object, so its bit must be set; the rounds are counted where it is clear.
 */
#include "driver.h"
#include <sched.h>

struct lists { struct list_lru lru; struct shrinker *shrinker; };

static struct mem_cgroup *parent, *child;
static struct lists *lists;
static struct list_head object;
/* how often the shrinker was asked to count */
static int counted;

static unsigned long count_lists(struct shrinker *shrinker, struct shrink_control *control)
{
	unsigned long held = list_lru_shrink_count(&((struct lists *)shrinker->private_data)->lru, control);

	counted++;
	return held ? held : SHRINK_EMPTY;
}

static enum lru_status keep_item(struct list_head *item, struct list_lru_one *list, spinlock_t *lock, void *of)
{
	(void)item;
	(void)list;
	(void)lock;
	(void)of;
	return LRU_SKIP;
}

static unsigned long scan_lists(struct shrinker *shrinker, struct shrink_control *control)
{
	return list_lru_shrink_walk(&((struct lists *)shrinker->private_data)->lru, control, keep_item, NULL);
}

static struct lists *new_lists(void)
{
	struct lists *made = calloc(1, sizeof(*made));

	made->shrinker = shrinker_alloc(SHRINKER_MEMCG_AWARE | SHRINKER_NUMA_AWARE, "lists");
	made->shrinker->count_objects = count_lists;
	made->shrinker->scan_objects = scan_lists;
	made->shrinker->private_data = made;
	if (list_lru_init_memcg(&made->lru, made->shrinker))
		abort();
	shrinker_register(made->shrinker);
	return made;
}

static void free_lists(void)
{
	shrinker_free(lists->shrinker);
	list_lru_destroy(&lists->lru);
	free(lists);
}

static unsigned long *map_of_parent(void) { return unit_at(parent->number, 0, 0)->map; }

/* The child's list is there and is empty, as is the parent's, whose bit is clear. */
static void new_child(void)
{
	child = groups[new_group(parent->number)];
	memcg_list_lru_alloc(child, &lists->lru, GFP_KERNEL);
	*map_of_parent() = 0;
}

static void new_child_with_object(void)
{
	new_child();
	list_lru_add(&lists->lru, &object, 0, child);
}

static void set_bit_of_parent(void) { *map_of_parent() = 1UL << lists->shrinker->id; }
static void free_the_id(void) { set_bit_of_parent(); free_lists(); }
static void do_nothing(void) { }

static void walk_parent(void) { shrink_slab(GFP_KERNEL, 0, parent, 0); }
static void add_to_parent(void) { list_lru_add(&lists->lru, &object, 0, parent); }

static void splice_child(void)
{
	WRITE_ONCE(child->owner, parent);
	memcg_reparent_list_lrus(child, parent);
}

/* The object's group is loaded before the list is, as list_lru_add_obj does. */
static void add_for_child(void) { list_lru_add(&lists->lru, &object, 0, READ_ONCE(child->owner)); }

static void take_id_and_add(void)
{
	lists = new_lists();
	memcg_list_lru_alloc(parent, &lists->lru, GFP_KERNEL);
	add_to_parent();
}

static const struct race {
	const char *what;
	void (*before)(void), (*one)(void), (*other)(void), (*after)(void);
	/* how many readings of the clock each thread begins later at most */
	int spread[2];
} races[] = {
	{ "a walk clears the bit of an empty list || an object is added to it",
	  set_bit_of_parent, walk_parent, add_to_parent, do_nothing, { 300, 300 } },
	{ "a child's list is moved to its parent || a walk of the parent",
	  new_child_with_object, walk_parent, splice_child, free_last_group, { 300, 300 } },
	{ "a child's list is moved to its parent || an object of the child is added",
	  new_child, splice_child, add_for_child, free_last_group, { 300, 300 } },
	{ "a walk meets the bit of a freed id || the id is taken again and an object added",
	  free_the_id, walk_parent, take_id_and_add, do_nothing, { 2000, 100 } },
};

static const struct race *racing;
static int turn, arrived;
static unsigned long long start;

/* Waits until the word is another than `than`, and lets others run where that takes long. */
static int wait_for_change(int *word, int than)
{
	int now, turns;

	for (turns = 0; (now = __atomic_load_n(word, __ATOMIC_ACQUIRE)) == than; turns++)
		if (turns > 2000)
			sched_yield();
		else
			__builtin_ia32_pause();
	return now;
}

/* Both sides begin at one reading of the processors' clock, each a few steps later at random. */
static void wait_for_start(int side)
{
	static unsigned int seeds[2] = { 1, 7 };
	unsigned long long begin = start + rand_r(&seeds[side]) % racing->spread[side];

	while (__builtin_ia32_rdtsc() < begin)
		;
}

static void *run_other(void *arg)
{
	int now = 0;

	while ((now = wait_for_change(&turn, now)) > 0) {
		wait_for_start(1);
		racing->other();
		__atomic_store_n(&arrived, now, __ATOMIC_RELEASE);
	}
	return arg;
}

static void race_once(int now)
{
	start = __builtin_ia32_rdtsc() + 1000;
	__atomic_store_n(&turn, now, __ATOMIC_RELEASE);
	wait_for_start(0);
	racing->one();
	wait_for_change(&arrived, now - 1);
}

/* Whether the parent's list lost its bit, and so a walk of the parent doesn't ask the shrinker. */
static bool is_bit_lost(int id)
{
	if (lists->shrinker->id != id || list_lru_count_one(&lists->lru, 0, parent) != 1)
		abort();
	if (*map_of_parent() >> id & 1)
		return false;
	counted = 0;
	walk_parent();
	if (counted)
		abort();
	return true;
}

static long run_race(const struct race *race, long rounds)
{
	static int now;
	long lost = 0, round;
	int id;

	racing = race;
	lists = new_lists();
	memcg_list_lru_alloc(parent, &lists->lru, GFP_KERNEL);
	id = lists->shrinker->id;
	for (round = 0; round < rounds; round++) {
		race->before();
		race_once(++now);
		lost += is_bit_lost(id);
		list_lru_del(&lists->lru, &object, 0, parent);
		race->after();
	}
	free_lists();
	return lost;
}

int main(int count, char **words)
{
	long rounds = count > 1 ? atol(words[1]) : 200000;
	pthread_t thread;
	size_t at;

	new_group(0);
	parent = groups[new_group(0)];
	INIT_LIST_HEAD(&object);
	if (pthread_create(&thread, NULL, run_other, NULL))
		abort();
	for (at = 0; at < sizeof(races) / sizeof(races[0]); at++)
		printf("%s: the bit was lost in %ld of %ld rounds\n", races[at].what, run_race(&races[at], rounds),
		       rounds);
	__atomic_store_n(&turn, -1, __ATOMIC_RELEASE);
	pthread_join(thread, NULL);
	return 0;
}
