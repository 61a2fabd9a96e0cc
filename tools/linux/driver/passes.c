/* Passes alone, over two shrinkers that count and answer as they are told: one that knows groups, and one that doesn't. */
#include "driver.h"

static struct shrinker *plain, *aware;
/* what they are told, and how often they were asked to scan */
static struct { unsigned long count; long answered, asked; } told;

static unsigned long told_count(struct shrinker *shrinker, struct shrink_control *control)
{
	(void)shrinker;
	(void)control;
	return told.count ? told.count : SHRINK_EMPTY;
}

static unsigned long told_scan(struct shrinker *shrinker, struct shrink_control *control)
{
	(void)shrinker;
	if (told.answered >= 0 && told.asked >= told.answered)
		return SHRINK_STOP;
	told.asked++;
	return control->nr_to_scan;
}

static struct shrinker *told_shrinker(unsigned int flags)
{
	struct shrinker *shrinker = shrinker_alloc(flags, "told");

	if (!shrinker)
		abort();
	shrinker->count_objects = told_count;
	shrinker->scan_objects = told_scan;
	shrinker_register(shrinker);
	return shrinker;
}

void new_told_shrinkers(void)
{
	plain = told_shrinker(SHRINKER_NUMA_AWARE);
	aware = told_shrinker(SHRINKER_NUMA_AWARE | SHRINKER_MEMCG_AWARE);
}

void free_told_shrinkers(void)
{
	if (!plain)
		return;
	shrinker_free(plain);
	shrinker_free(aware);
	plain = aware = NULL;
}

struct result { struct pass pass; long asked; unsigned long next; };

static struct result one_pass(struct shrinker *shrinker, struct mem_cgroup *group, atomic_long_t *word, char **words)
{
	struct shrink_control control = { .gfp_mask = GFP_KERNEL | GFP_FS, .nid = 0, .memcg = group };
	struct result result;

	told.count = strtoul(words[1], NULL, 10);
	told.answered = strcmp(words[6], "all") ? atol(words[6]) : -1;
	told.asked = 0;
	shrinker->seeks = atoi(words[4]);
	shrinker->batch = atol(words[5]);
	atomic_long_set(word, (long)strtoul(words[2], NULL, 10));
	last_pass = (struct pass){ .started = false };
	pass_of(&control, shrinker, atoi(words[3]));
	result.pass = last_pass;
	result.asked = told.asked;
	result.next = atomic_long_read(word);
	return result;
}

/* Makes one pass over the shrinker's own deferred word and one over that of a group, which give the same. */
void told_pass(char **words)
{
	struct result own = one_pass(plain, NULL, &plain->nr_deferred[0], words);
	struct result of_group = one_pass(aware, groups[1], &unit_at(1, 0, aware->id)->nr_deferred[aware->id], words);

	if (own.asked != of_group.asked || own.next != of_group.next || own.pass.scanned != of_group.pass.scanned)
		abort();
	if (of_group.pass.started)
		printf("pass %llu %ld %ld %ld %lu\n", of_group.pass.delta, of_group.pass.total, of_group.asked,
		       of_group.pass.scanned, of_group.next);
	else
		printf("empty\n");
}
