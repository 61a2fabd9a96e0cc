/* What the kernel's code does in a walk and in a pass, heard at its trace points and at its bits. */
#include "driver.h"

struct mem_cgroup *walked_group;
int walked_node;
struct pass last_pass;

/* The id of a bit in the maps of the walk's group and node; -1 for another's. */
static int id_of_bit(const unsigned long *map, int offset)
{
	struct shrinker_info *info = walked_group ? walked_group->nodeinfo[walked_node]->shrinker_info : NULL;
	int index;

	for (index = 0; info && index < info->map_nr_max / 64; index++)
		if (info->unit[index]->map == map)
			return index * 64 + offset;
	return -1;
}

void heard_set_bit(int offset, unsigned long *map)
{
	int id = id_of_bit(map, offset);

	if (id >= 0)
		printf("set %d\n", id);
}

void heard_clear_bit(int offset, unsigned long *map)
{
	int id = id_of_bit(map, offset);

	if (id >= 0)
		printf("clear %d\n", id);
}

void heard_find(int id, bool found)
{
	if (walked_group)
		printf("find %d %s\n", id, found ? "yes" : "no");
}

/* What stands before an event of a shrinker that knows no groups. */
static const char *kind_of(struct shrinker *shrinker)
{
	return shrinker->flags & SHRINKER_MEMCG_AWARE ? "" : "pool ";
}

void trace_mm_shrink_slab_start(struct shrinker *shrinker, struct shrink_control *control, long nr, long freeable,
				unsigned long long delta, long total, int priority)
{
	(void)control;
	(void)priority;
	last_pass = (struct pass){ .delta = delta, .total = total, .started = true };
	if (walked_group)
		printf("%sstart %d %lu %ld\n", kind_of(shrinker), shrinker->id, (unsigned long)nr, freeable);
}

void trace_mm_shrink_slab_end(struct shrinker *shrinker, int node, unsigned long freed, long nr, long new_nr,
			      long left)
{
	(void)node;
	(void)nr;
	(void)left;
	if (walked_group)
		printf("%send %d %ld %lu %lu\n", kind_of(shrinker), shrinker->id, last_pass.scanned, freed,
		       (unsigned long)new_nr);
}

void count_vm_events(int item, long by)
{
	(void)item;
	last_pass.scanned += by;
}
