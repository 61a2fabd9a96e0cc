/* A pool of units: a shrinker that knows no groups, whose owner has free units on each node, or all on node 0. */
#include "driver.h"

static struct pool {
	struct shrinker *shrinker;
	unsigned long floor, free[MAX_NODES];
	bool flat;
} pools[MAX_POOLS];
static int pool_count;

static unsigned long *units_of(struct pool *pool, int node) { return &pool->free[pool->flat ? 0 : node]; }

static unsigned long count_units(struct shrinker *shrinker, struct shrink_control *control)
{
	struct pool *pool = shrinker->private_data;
	unsigned long counted = *units_of(pool, control->nid);

	printf("pool count %d %lu\n", shrinker->id, counted);
	if (!counted)
		return SHRINK_EMPTY;
	return counted <= pool->floor ? 0 : counted;
}

static unsigned long reclaim_units(struct shrinker *shrinker, struct shrink_control *control)
{
	unsigned long *units = units_of(shrinker->private_data, control->nid);
	unsigned long freed = control->nr_to_scan < *units ? control->nr_to_scan : *units;

	*units -= freed;
	printf("pool scan %d %lu %lu\n", shrinker->id, control->nr_to_scan, freed);
	return freed;
}

/* The number of a new pool. A shrinker that knows no groups has no id of the kernel's, and here its pool's number. */
int new_pool(int seeks, long batch, unsigned long floor, bool flat)
{
	struct shrinker *shrinker = shrinker_alloc(flat ? 0 : SHRINKER_NUMA_AWARE, "pool%d", pool_count);
	struct pool *pool = &pools[pool_count];

	if (!shrinker || pool_count == MAX_POOLS)
		abort();
	*pool = (struct pool){ .shrinker = shrinker, .floor = floor, .flat = flat };
	shrinker->seeks = seeks;
	shrinker->batch = batch;
	shrinker->count_objects = count_units;
	shrinker->scan_objects = reclaim_units;
	shrinker->private_data = pool;
	shrinker->id = pool_count;
	shrinker_register(shrinker);
	return pool_count++;
}

/* The owner holds back what would make its free units more than `most`. */
void release_units(int number, int node, unsigned long more, unsigned long most)
{
	unsigned long *units = units_of(&pools[number], node);

	if (*units + more > most) {
		printf("full %lu\n", *units);
		return;
	}
	*units += more;
	printf("released\n");
}

void grab_unit(int number, int node)
{
	unsigned long *units = units_of(&pools[number], node);

	printf("%s\n", *units ? "grabbed" : "bare");
	if (*units)
		--*units;
}

/* The free units and the deferred words, each that isn't 0; a flat pool has one of each. */
void show_pools(void)
{
	int number, node;

	for (number = 0; number < pool_count; number++)
		for (node = 0; node < (pools[number].flat ? 1 : nr_node_ids); node++) {
			unsigned long word = atomic_long_read(&pools[number].shrinker->nr_deferred[node]);

			if (pools[number].free[node])
				printf("units %d %d %lu\n", number, node, pools[number].free[node]);
			if (word)
				printf("deferred %d %d %lu\n", number, node, word);
		}
}

void drop_pools(void)
{
	while (pool_count)
		shrinker_free(pools[--pool_count].shrinker);
}
