/* What the parts of the driver share. It runs commands, one a line, on the kernel's code; `commands.c` has them. */
#ifndef DRIVER_H
#define DRIVER_H
#include "shim.h"
#include <linux/list.h>
#include <linux/list_lru.h>
#include <linux/shrinker.h>

#define MAX_GROUPS 256
#define MAX_CACHES 250
#define MAX_POOLS 64
#define GFP_FS 2u

/* kernel.c: the kernel's files, and what stands in them under a static name */
unsigned long pass_of(struct shrink_control *control, struct shrinker *shrinker, int priority);
struct list_lru_one *list_of(struct list_lru *lru, int node, int group);
void forget_shrinkers(void);

/* groups.c */
extern struct mem_cgroup *groups[MAX_GROUPS];
extern int group_count;
int new_group(int parent);
void splice_group(int group);
void offline_group(int group);
void free_last_group(void);
struct shrinker_info_unit *unit_at(int group, int node, int id);

/* charges.c, with the kernel's page counter */
void limit_group(int group, const char *limit);
void charge(int group);
void uncharge(int group);
void show_usage(void);
void forget_charges(void);

/* caches.c */
enum policy { PLAIN, CLOCK, HALT };
struct object {
	struct list_head on_list;
	struct object *next;
	int birth, node;
	bool marked, pinned;
	char key[65];
};
#define BUCKETS 4096
struct cache {
	struct shrinker *shrinker;
	struct list_lru lists;
	struct object *objects[BUCKETS];
	enum policy policy;
	unsigned long floor;
	bool fs;
	/* of the last scan */
	long visits;
	bool stopped;
	char *freed;
	size_t freed_length, freed_size;
};
extern struct cache *caches[MAX_CACHES];
enum policy policy_of(const char *word);
int new_cache(int number, enum policy policy, int seeks, long batch, unsigned long floor, bool fs);
long drop_cache(int number);
struct object *find_object(struct cache *cache, int birth, int node, const char *key);
struct object *new_object(struct cache *cache, int birth, int node, const char *key);
/* A scan outside a pass: what it freed; it takes what it spent from `budget`. */
unsigned long scan_list(struct cache *cache, int group, int node, unsigned long *budget);
void show_lists(void);
void show_words(void);

/* pools.c */
int new_pool(int seeks, long batch, unsigned long floor, bool flat);
void release_units(int pool, int node, unsigned long units, unsigned long most);
void grab_unit(int pool, int node);
void show_pools(void);
void drop_pools(void);

/* events.c: what the kernel's code did in a walk, told in order while `walked_group` isn't NULL */
extern struct mem_cgroup *walked_group;
extern int walked_node;
/* what the last pass computed */
struct pass { unsigned long long delta; long total, scanned; bool started; };
extern struct pass last_pass;

/* passes.c: passes over shrinkers that count and answer as they are told */
void new_told_shrinkers(void);
void free_told_shrinkers(void);
void told_pass(char **words);

/* commands.c */
void reset(int nodes);
bool run_command(char *line);
#endif
