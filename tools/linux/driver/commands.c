/* The commands, one a line, each with its answer on standard output. */
#include "driver.h"

void reset(int nodes)
{
	int number;

	for (number = 0; number < MAX_CACHES; number++)
		if (caches[number])
			drop_cache(number);
	drop_pools();
	free_told_shrinkers();
	while (group_count)
		free_last_group();
	forget_charges();
	forget_shrinkers();
	nr_node_ids = nodes;
	new_group(0);
}

static void do_reset(char **words) { reset(atoi(words[1])); }
static void do_group(char **words) { printf("group %d\n", new_group(atoi(words[1]))); }
static void do_limit(char **words) { limit_group(atoi(words[1]), words[2]); }
static void do_charge(char **words) { charge(atoi(words[1])); }
static void do_uncharge(char **words) { uncharge(atoi(words[1])); }
static void do_usage(char **words) { (void)words; show_usage(); }
static void do_lists(char **words) { (void)words; show_lists(); }
static void do_words(char **words) { (void)words; show_words(); }
static void do_told(char **words) { (void)words; new_told_shrinkers(); }
static void do_grab(char **words) { grab_unit(atoi(words[1]), atoi(words[2])); }
static void do_pools(char **words) { (void)words; show_pools(); }

static void do_cache(char **words)
{
	printf("cache %d\n", new_cache(atoi(words[1]), policy_of(words[2]), atoi(words[3]), atol(words[4]),
				       strtoul(words[5], NULL, 10), !strcmp(words[6], "fs")));
}

static void do_unregister(char **words) { printf("drained %ld\n", drop_cache(atoi(words[1]))); }
static void do_policy(char **words) { caches[atoi(words[1])]->policy = policy_of(words[2]); }

static void do_pool(char **words)
{
	printf("pool %d\n", new_pool(atoi(words[1]), atol(words[2]), strtoul(words[3], NULL, 10), !strcmp(words[4], "flat")));
}

static void do_release(char **words)
{
	release_units(atoi(words[1]), atoi(words[2]), strtoul(words[3], NULL, 10), strtoul(words[4], NULL, 10));
}

static void do_add(char **words)
{
	struct cache *cache = caches[atoi(words[1])];
	int birth = atoi(words[2]), node = atoi(words[3]);
	struct mem_cgroup *owner = groups[birth]->owner;
	struct object *object = find_object(cache, birth, node, words[4]);

	if (!object) {
		object = new_object(cache, birth, node, words[4]);
		if (memcg_list_lru_alloc(owner, &cache->lists, GFP_KERNEL))
			abort();
	}
	printf("%s\n", list_lru_add(&cache->lists, &object->on_list, node, owner) ? "added" : "exists");
}

/* The object that a command names, or NULL, with the answer given, where it is on no list. */
static struct object *listed_object(char **words)
{
	struct object *object = find_object(caches[atoi(words[1])], atoi(words[2]), atoi(words[3]), words[4]);

	if (object && !list_empty(&object->on_list))
		return object;
	printf("miss\n");
	return NULL;
}

static void do_look(char **words)
{
	struct object *object = listed_object(words);

	if (!object)
		return;
	object->marked = true;
	printf("hit\n");
}

static void do_drop(char **words)
{
	struct object *object = listed_object(words);

	if (!object)
		return;
	if (object->pinned) {
		printf("pinned\n");
		return;
	}
	object->marked = false;
	if (!list_lru_del(&caches[atoi(words[1])]->lists, &object->on_list, object->node, groups[object->birth]->owner))
		abort();
	printf("dropped\n");
}

static void do_pin(char **words)
{
	struct object *object = listed_object(words);

	if (!object)
		return;
	object->pinned = !strcmp(words[0], "pin");
	printf("done\n");
}

static void do_scan(char **words)
{
	struct cache *cache = caches[atoi(words[1])];
	unsigned long left = strtoul(words[4], NULL, 10);
	unsigned long freed = scan_list(cache, atoi(words[2]), atoi(words[3]), &left);

	printf("scan %lu %ld %lu %s\n", strtoul(words[4], NULL, 10) - left, cache->visits, freed,
	       cache->stopped ? "stopped" : "whole");
}

/* One visit at the head, after which the lock is given back. */
static void do_visit(char **words)
{
	struct cache *cache = caches[atoi(words[1])];
	unsigned long one = 1, freed = scan_list(cache, atoi(words[2]), atoi(words[3]), &one);

	printf("visit %ld %lu %s%s\n", cache->visits, freed, cache->stopped ? "stopped" : "whole", cache->freed);
}

static void do_count(char **words)
{
	printf("count %lu\n", list_lru_count_one(&caches[atoi(words[1])]->lists, atoi(words[3]), groups[atoi(words[2])]));
}

static void do_drain(char **words)
{
	struct cache *cache = caches[atoi(words[1])];
	struct mem_cgroup *owner = groups[atoi(words[2])]->owner;
	int node = atoi(words[3]);
	struct list_lru_one *list = list_of(&cache->lists, node, owner->number);
	long drained = 0;

	for (; list && !list_empty(&list->list); drained++) {
		struct object *object = list_first_entry(&list->list, struct object, on_list);

		object->marked = object->pinned = false;
		list_lru_del(&cache->lists, &object->on_list, node, owner);
	}
	printf("drained %ld\n", drained);
}

static void do_splice(char **words) { splice_group(atoi(words[1])); printf("spliced\n"); }
static void do_offline(char **words) { offline_group(atoi(words[1])); }

static void do_shrink(char **words)
{
	gfp_t flags = strcmp(words[4], "nofs") ? GFP_KERNEL | GFP_FS : GFP_KERNEL;
	struct shrinker_info *info;
	unsigned long freed;
	int index;

	walked_group = groups[atoi(words[1])];
	walked_node = atoi(words[2]);
	info = walked_group->nodeinfo[walked_node]->shrinker_info;
	if (!mem_cgroup_is_root(walked_group) && mem_cgroup_online(walked_group))
		for (index = 0; index < info->map_nr_max / 64; index++)
			printf("map %d %016lx\n", index, info->unit[index]->map[0]);
	freed = shrink_slab(flags, walked_node, walked_group, atoi(words[3]));
	walked_group = NULL;
	printf("walked %lu\n", freed);
}

static void do_defer(char **words)
{
	int id = atoi(words[1]);
	struct shrinker_info_unit *unit = unit_at(atoi(words[3]), atoi(words[2]), id);

	atomic_long_set(&unit->nr_deferred[id % 64], (long)strtoul(words[4], NULL, 10));
}

static void do_sync(char **words)
{
	(void)words;
	printf(".\n");
	fflush(stdout);
}

/* each with the number of its words */
static const struct { const char *name; int words; void (*run)(char **words); } commands[] = {
	{ "reset", 2, do_reset },	/* NODES; the root is there afterwards */
	{ "group", 2, do_group },	/* PARENT */
	{ "limit", 3, do_limit },	/* GROUP max|LIMIT */
	{ "charge", 2, do_charge },	/* GROUP */
	{ "uncharge", 2, do_uncharge },	/* GROUP */
	{ "usage", 1, do_usage },
	{ "cache", 7, do_cache },	/* CACHE POLICY SEEKS BATCH FLOOR fs|any */
	{ "unregister", 2, do_unregister },	/* CACHE */
	{ "policy", 3, do_policy },	/* CACHE POLICY */
	{ "add", 5, do_add },		/* CACHE BIRTH NODE KEY, and so the four that follow */
	{ "look", 5, do_look },
	{ "drop", 5, do_drop },
	{ "pin", 5, do_pin },
	{ "unpin", 5, do_pin },
	{ "scan", 5, do_scan },		/* CACHE GROUP NODE ASKED */
	{ "visit", 4, do_visit },	/* CACHE GROUP NODE */
	{ "count", 4, do_count },	/* CACHE GROUP NODE */
	{ "drain", 4, do_drain },	/* CACHE GROUP NODE */
	{ "splice", 2, do_splice },	/* GROUP */
	{ "offline", 2, do_offline },	/* GROUP */
	{ "shrink", 5, do_shrink },	/* GROUP NODE PRIORITY fs|nofs */
	{ "defer", 5, do_defer },	/* ID NODE GROUP AMOUNT */
	{ "pool", 5, do_pool },		/* SEEKS BATCH FLOOR nodes|flat */
	{ "release", 5, do_release },	/* POOL NODE UNITS MOST, MOST being what may be free at most */
	{ "grab", 3, do_grab },		/* POOL NODE */
	{ "pools", 1, do_pools },
	{ "told", 1, do_told },		/* makes the shrinkers that `pass` is about */
	{ "pass", 7, told_pass },	/* COUNT NR PRIORITY SEEKS BATCH all|CALLS */
	{ "lists", 1, do_lists },
	{ "words", 1, do_words },
	{ "sync", 1, do_sync },		/* answers a dot, when all before is done */
};

bool run_command(char *line)
{
	char *words[8], *rest = NULL, *word;
	size_t at;
	int count = 0;

	for (word = strtok_r(line, " \n", &rest); word && count < 8; word = strtok_r(NULL, " \n", &rest))
		words[count++] = word;
	for (at = 0; count && at < sizeof(commands) / sizeof(commands[0]); at++)
		if (!strcmp(words[0], commands[at].name) && count == commands[at].words) {
			commands[at].run(words);
			return true;
		}
	return false;
}
