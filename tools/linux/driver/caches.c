/* A cache: a shrinker with the lists that it counts and scans, and the objects that its owner knows by birth and key. */
#include "driver.h"

struct cache *caches[MAX_CACHES];

enum policy policy_of(const char *word)
{
	return !strcmp(word, "clock") ? CLOCK : !strcmp(word, "halt") ? HALT : PLAIN;
}

static unsigned long count_cache(struct shrinker *shrinker, struct shrink_control *control)
{
	struct cache *cache = shrinker->private_data;
	unsigned long counted = list_lru_shrink_count(&cache->lists, control);

	if (walked_group)
		printf("count %d %lu\n", shrinker->id, counted);
	if (!counted)
		return SHRINK_EMPTY;
	return counted <= cache->floor ? 0 : counted;
}

static void note_freed(struct cache *cache, struct object *object)
{
	size_t more = strlen(object->key) + 16;

	if (cache->freed_length + more > cache->freed_size) {
		cache->freed_size = 2 * (cache->freed_length + more);
		cache->freed = realloc(cache->freed, cache->freed_size);
		if (!cache->freed)
			abort();
	}
	cache->freed_length += sprintf(cache->freed + cache->freed_length, " %d:%s", object->birth, object->key);
}

static enum lru_status visit_item(struct list_head *item, struct list_lru_one *list, spinlock_t *lock, void *of)
{
	struct cache *cache = of;
	struct object *object = container_of(item, struct object, on_list);

	(void)lock;
	cache->visits++;
	if (cache->policy == CLOCK && object->pinned)
		return LRU_SKIP;
	if (cache->policy == CLOCK && object->marked) {
		object->marked = false;
		return LRU_ROTATE;
	}
	if (cache->policy == HALT && object->pinned) {
		cache->stopped = true;
		return LRU_STOP;
	}
	list_lru_isolate(list, item);
	object->marked = object->pinned = false;
	note_freed(cache, object);
	return LRU_REMOVED;
}

static void begin_scan(struct cache *cache)
{
	cache->visits = 0;
	cache->stopped = false;
	cache->freed_length = 0;
	cache->freed[0] = 0;
}

static unsigned long scan_cache(struct shrinker *shrinker, struct shrink_control *control)
{
	struct cache *cache = shrinker->private_data;
	unsigned long asked = control->nr_to_scan, freed;

	if (cache->fs && !(control->gfp_mask & GFP_FS)) {
		printf("scan %d %lu stop\n", shrinker->id, asked);
		return SHRINK_STOP;
	}
	begin_scan(cache);
	freed = list_lru_shrink_walk(&cache->lists, control, visit_item, cache);
	printf("scan %d %lu %ld %lu %s%s\n", shrinker->id, asked, cache->visits, freed,
	       cache->stopped ? "stopped" : "whole", cache->freed);
	return freed;
}

unsigned long scan_list(struct cache *cache, int group, int node, unsigned long *budget)
{
	begin_scan(cache);
	return list_lru_walk_one(&cache->lists, node, groups[group], visit_item, cache, budget);
}

static struct object **bucket_of(struct cache *cache, int birth, int node, const char *key)
{
	unsigned int print = birth * 31 + node;

	for (; *key; key++)
		print = print * 16777619u ^ (unsigned char)*key;
	return &cache->objects[(print ^ print >> 15) % BUCKETS];
}

struct object *find_object(struct cache *cache, int birth, int node, const char *key)
{
	struct object *object = *bucket_of(cache, birth, node, key);

	while (object && (object->birth != birth || object->node != node || strcmp(object->key, key)))
		object = object->next;
	return object;
}

struct object *new_object(struct cache *cache, int birth, int node, const char *key)
{
	struct object **bucket = bucket_of(cache, birth, node, key);
	struct object *object = calloc(1, sizeof(*object));

	if (!object || strlen(key) >= sizeof(object->key))
		abort();
	INIT_LIST_HEAD(&object->on_list);
	object->birth = birth;
	object->node = node;
	strcpy(object->key, key);
	object->next = *bucket;
	*bucket = object;
	return object;
}

/* The id of a new cache. */
int new_cache(int number, enum policy policy, int seeks, long batch, unsigned long floor, bool fs)
{
	struct cache *cache = calloc(1, sizeof(*cache));
	struct shrinker *shrinker = shrinker_alloc(SHRINKER_MEMCG_AWARE | SHRINKER_NUMA_AWARE, "cache%d", number);

	if (!cache || !shrinker)
		abort();
	shrinker->seeks = seeks;
	shrinker->batch = batch;
	shrinker->count_objects = count_cache;
	shrinker->scan_objects = scan_cache;
	shrinker->private_data = cache;
	cache->shrinker = shrinker;
	cache->policy = policy;
	cache->floor = floor;
	cache->fs = fs;
	cache->freed_size = 4096;
	cache->freed = calloc(1, cache->freed_size);
	if (!cache->freed || list_lru_init_memcg(&cache->lists, shrinker))
		abort();
	shrinker_register(shrinker);
	caches[number] = cache;
	return shrinker->id;
}

/* The owner frees the shrinker, and then takes each object from its list. How many these were. */
long drop_cache(int number)
{
	struct cache *cache = caches[number];
	struct object *object, *next;
	long drained = 0;
	int bucket;

	shrinker_free(cache->shrinker);
	for (bucket = 0; bucket < BUCKETS; bucket++)
		for (object = cache->objects[bucket]; object; object = next) {
			next = object->next;
			drained += list_lru_del(&cache->lists, &object->on_list, object->node,
						groups[object->birth]->owner);
			free(object);
		}
	list_lru_destroy(&cache->lists);
	free(cache->freed);
	free(cache);
	caches[number] = NULL;
	return drained;
}

static void show_list(int number, int node, int group)
{
	struct list_lru_one *list = list_of(&caches[number]->lists, node, group);
	struct object *object;

	if (!list || (!list->nr_items && list_empty(&list->list)))
		return;
	printf("list %d %d %d %ld", number, node, group, list->nr_items);
	list_for_each_entry(object, &list->list, on_list)
		printf(" %d:%s:%s:%s", object->birth, object->key, object->marked ? "marked" : "clean",
		       object->pinned ? "pinned" : "loose");
	printf("\n");
}

/* Each list that isn't empty, from its head. */
void show_lists(void)
{
	int number, node, group;

	for (number = 0; number < MAX_CACHES; number++)
		for (node = 0; caches[number] && node < nr_node_ids; node++)
			for (group = 0; group < group_count; group++)
				show_list(number, node, group);
}

static void show_unit(int node, int group, int index, struct shrinker_info_unit *unit)
{
	int offset;

	if (unit->map[0])
		printf("bit %d %d %d %016lx\n", node, group, index, unit->map[0]);
	for (offset = 0; offset < 64; offset++)
		if (atomic_long_read(&unit->nr_deferred[offset]))
			printf("deferred %d %d %d %lu\n", index * 64 + offset, node, group,
			       (unsigned long)atomic_long_read(&unit->nr_deferred[offset]));
}

/* The maps and deferred words that aren't 0. */
void show_words(void)
{
	int node, group, index;

	for_each_node(node)
		for (group = 0; group < group_count; group++) {
			struct shrinker_info *info = groups[group]->nodeinfo[node]->shrinker_info;

			for (index = 0; index < info->map_nr_max / 64; index++)
				show_unit(node, group, index, info->unit[index]);
		}
}
