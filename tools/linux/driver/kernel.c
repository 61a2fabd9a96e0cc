/* The kernel's files as they stand, and doors to what is static in them. */
#include "driver.h"
#include <mm/shrinker.c>
#include <mm/list_lru.c>

unsigned long pass_of(struct shrink_control *control, struct shrinker *shrinker, int priority)
{
	return do_shrink_slab(control, shrinker, priority);
}

struct list_lru_one *list_of(struct list_lru *lru, int node, int group)
{
	return list_lru_from_memcg_idx(lru, node, group ? group : -1);
}

void forget_shrinkers(void)
{
	memset(&shrinker_idr, 0, sizeof(shrinker_idr));
	shrinker_nr_max = 0;
	INIT_LIST_HEAD(&shrinker_list);
}
