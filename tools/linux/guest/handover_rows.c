/* What became of the lists of handover: which have no bit, and what a list without a bit does to its group. */
#define _GNU_SOURCE
#include <fcntl.h>
#include <stdio.h>
#include <stdlib.h>
#include <string.h>
#include <sys/stat.h>
#include <sys/wait.h>
#include <unistd.h>

#include "handover.h"

#define IDS_MOST 256
#define NAMES 60000

/* asked[n][id]: whether a walk of p<n> asked the shrinker with this id */
static char asked[PAIRS_MOST][IDS_MOST];

static unsigned long number_of(int pair)
{
	char path[256];
	struct stat found = { 0 };

	snprintf(path, sizeof(path), GROUPS "/p%d", pair);
	stat(path, &found);
	return found.st_ino;
}

/* Walks p<pair> and notes which shrinkers of file systems it asked. */
void look(int pair)
{
	char line[1024], group[64];
	FILE *trace;

	close(open(TRACING "/trace", O_WRONLY | O_TRUNC));
	put("1", TRACING "/tracing_on");
	put("4096", GROUPS "/p%d/memory.reclaim", pair);
	put("0", TRACING "/tracing_on");
	snprintf(group, sizeof(group), "group=%lu ", number_of(pair));
	memset(asked[pair], 0, IDS_MOST);
	trace = fopen(TRACING "/trace", "r");
	while (trace && fgets(line, sizeof(line), trace)) {
		char *id = strstr(line, " id=");

		if (id && strstr(line, "pass:") && strstr(line, group) && strstr(line, "super_cache_count")) {
			int number = atoi(id + 4);

			if (number >= 0 && number < IDS_MOST)
				asked[pair][number] = 1;
		}
	}
	if (trace)
		fclose(trace);
}

static long slab_reclaimable(int pair)
{
	static const char name[] = "slab_reclaimable ";
	char path[256], line[256];
	long value = -1;
	FILE *file;

	sleep(3); /* the kernel gathers the numbers every two seconds */
	snprintf(path, sizeof(path), GROUPS "/p%d/memory.stat", pair);
	file = fopen(path, "r");
	while (file && fgets(line, sizeof(line), file))
		if (!strncmp(line, name, strlen(name)))
			value = atol(line + strlen(name));
	if (file)
		fclose(file);
	return value;
}

/* Looks up names that aren't there, from a process in p<pair>: as many dentries on its list of a disk. */
static void fill(int pair, int disk)
{
	int process = fork();

	if (process == 0) {
		char path[256];
		struct stat found;

		put("0", GROUPS "/p%d/cgroup.procs", pair);
		for (int name = 0; name < NAMES; name++) {
			snprintf(path, sizeof(path), "/r%d/none%d_%d", disk, pair, name);
			stat(path, &found);
		}
		put("0", GROUPS "/cgroup.procs");
		_exit(0);
	}
	waitpid(process, NULL, 0);
}

/* Runs a process of 2 MiB in p<pair> at a limit of 6 MiB; whether it was killed. */
static int is_killed(int pair)
{
	int process, status;

	put("6M", GROUPS "/p%d/memory.max", pair);
	process = fork();
	if (process == 0) {
		volatile char *memory = malloc(2 << 20);

		put("0", GROUPS "/p%d/cgroup.procs", pair);
		for (long at = 0; memory && at < 2 << 20; at += 4096)
			memory[at] = 1;
		put("0", GROUPS "/cgroup.procs");
		_exit(0);
	}
	waitpid(process, &status, 0);
	put("max", GROUPS "/p%d/memory.max", pair);
	return WIFSIGNALED(status);
}

/* Marks in the kept events which group and shrinker come now, and that events in between weren't kept. */
static void mark(int pair, int disk, int id)
{
	char text[128];

	put("1", KEPT "/tracing_on");
	put("gap", KEPT "/trace_marker");
	snprintf(text, sizeof(text), "group /p%d %lu", pair, number_of(pair));
	put(text, KEPT "/trace_marker");
	snprintf(text, sizeof(text), "shrinker %d ext4 on /r%d", id, disk);
	put(text, KEPT "/trace_marker");
}

/* Fills p<pair>'s list of one disk, asks for its memory, and tells the row. Of the walks those of the first reclaim are kept. */
static void show(int pair, int id, int disk, const char *kind)
{
	long filled, reclaimed, dropped;

	printf("filling and reclaiming p%d, %s\n", pair, kind);
	put("-memory", GROUPS "/p%d/cgroup.subtree_control", pair);
	mark(pair, disk, id);
	fill(pair, disk);
	filled = slab_reclaimable(pair);
	for (int turn = 0; turn < 10; turn++) {
		put("64M", GROUPS "/p%d/memory.reclaim", pair);
		put("0", KEPT "/tracing_on");
	}
	reclaimed = slab_reclaimable(pair);
	for (int turn = 0; turn < 3; turn++)
		put("2", "/proc/sys/vm/drop_caches");
	dropped = slab_reclaimable(pair);
	tell("row %s p%d %d %d %ld %ld %ld %s\n", kind, pair, disk, id, filled, reclaimed, dropped,
	     is_killed(pair) ? "OOM-killed" : "ran");
}

/* How many groups' walks asked the shrinker with an id. */
static int askers(int id)
{
	int count = 0;

	for (int pair = 0; pair < pairs; pair++)
		count += asked[pair][id];
	return count;
}

/* Whether an id is a disk's: most groups' walks asked it. */
static int is_disk(int id) { return askers(id) > pairs / 2; }

/* The disk with an id: ids rise with the disks. */
static int disk_of(int id)
{
	int disk = 0;

	for (int lower = 0; lower < id; lower++)
		disk += is_disk(lower);
	return disk;
}

/* Tells of each list without a bit, shows the first one beside a list that has its bit, and counts them. */
int count_lost(int *lists)
{
	int lost = 0, other;

	*lists = 0;
	for (int id = 0; id < IDS_MOST; id++)
		*lists += is_disk(id) ? pairs : 0;
	for (int pair = 0; pair < pairs; pair++)
		for (int id = 0; id < IDS_MOST; id++) {
			if (!is_disk(id) || asked[pair][id])
				continue;
			printf("a walk of p%d did not ask shrinker %d, and %d of %d groups' walks did\n", pair, id, askers(id), pairs);
			if (lost++)
				continue;
			for (other = 0; !asked[other][id]; other++)
				;
			show(pair, id, disk_of(id), "lost");
			show(other, id, disk_of(id), "other");
		}
	return lost;
}
