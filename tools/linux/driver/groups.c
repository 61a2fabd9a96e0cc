/* Groups: made as mem_cgroup_alloc and mem_cgroup_css_online do, and taken offline as mem_cgroup_css_offline does. */
#include "driver.h"

int nr_node_ids = 1;
struct mem_cgroup *root_mem_cgroup;
struct mem_cgroup *groups[MAX_GROUPS];
int group_count;

struct mem_cgroup *next_group(struct mem_cgroup *top, struct mem_cgroup *at)
{
	if (at->first_child)
		return at->first_child;
	for (; at != top; at = at->parent)
		if (at->next_sibling)
			return at->next_sibling;
	return NULL;
}

struct mem_cgroup *mem_cgroup_from_slab_obj(void *object)
{
	(void)object;
	return root_mem_cgroup;
}

static void add_child(struct mem_cgroup *parent, struct mem_cgroup *child)
{
	struct mem_cgroup **at = &parent->first_child;

	while (*at)
		at = &(*at)->next_sibling;
	*at = child;
}

/* The number of a new group below another. The first one is the root, whose kmemcg_id is -1. */
int new_group(int parent)
{
	struct mem_cgroup *group = calloc(1, sizeof(*group));
	int node;

	if (!group || group_count == MAX_GROUPS)
		abort();
	group->number = group_count;
	group->owner = group;
	group->css.cgroup = &group->place;
	for_each_node(node)
		group->nodeinfo[node] = calloc(1, sizeof(struct mem_cgroup_per_node));
	if (group_count) {
		group->kmemcg_id = group_count;
		group->parent = groups[parent];
		group->place.level = group->parent->place.level + 1;
		add_child(group->parent, group);
	} else {
		group->kmemcg_id = -1;
		root_mem_cgroup = group;
	}
	if (alloc_shrinker_info(group))
		abort();
	group->css.flags |= CSS_ONLINE;
	groups[group_count] = group;
	return group_count++;
}

/* memcg_reparent_objcgs: objects of the group, and those that it took over, become its parent's; then their lists. */
void splice_group(int number)
{
	struct mem_cgroup *group = groups[number];
	int other;

	for (other = 0; other < group_count; other++)
		if (groups[other]->owner == group)
			groups[other]->owner = group->parent;
	memcg_reparent_list_lrus(group, group->parent);
}

/* offline_css clears CSS_ONLINE last. */
void offline_group(int number)
{
	splice_group(number);
	reparent_shrinker_deferred(groups[number]);
	groups[number]->css.flags &= ~CSS_ONLINE;
}

/* Takes the group that was made last from the tree. */
void free_last_group(void)
{
	struct mem_cgroup *group = groups[--group_count], **at;
	int node;

	if (group->parent) {
		for (at = &group->parent->first_child; *at != group; at = &(*at)->next_sibling)
			;
		*at = group->next_sibling;
	}
	free_shrinker_info(group);
	for_each_node(node)
		free(group->nodeinfo[node]);
	free(group);
	groups[group_count] = NULL;
}

/* The map and deferred words of an id's unit, or NULL where no id of that unit was ever in use. */
struct shrinker_info_unit *unit_at(int group, int node, int id)
{
	struct shrinker_info *info = groups[group]->nodeinfo[node]->shrinker_info;

	return id < info->map_nr_max ? info->unit[id / 64] : NULL;
}
