/* The race of handover: groups are handed over while files of theirs are closed. */
#define _GNU_SOURCE
#include <errno.h>
#include <fcntl.h>
#include <pthread.h>
#include <sched.h>
#include <signal.h>
#include <stdio.h>
#include <stdlib.h>
#include <string.h>
#include <sys/stat.h>
#include <sys/syscall.h>
#include <sys/wait.h>
#include <time.h>
#include <unistd.h>

#include "handover.h"

#define CLOSERS 2

/* children handed over so far in this round, as the probe shows */
static volatile int handed_over;
static volatile int watching, all_closed;

static double now(void)
{
	struct timespec time;

	clock_gettime(CLOCK_MONOTONIC, &time);
	return time.tv_sec + time.tv_nsec / 1e9;
}

static int file_of(int pair, int disk) { return 100 + pair * disks + disk; }

/* Counts the children that were handed over, which tells when the next one's turn is near. */
static void *watch(void *unused)
{
	static char text[65536];
	int pipe = open(TRACING "/instances/next/trace_pipe", O_RDONLY | O_NONBLOCK);
	long count;

	if (pipe < 0)
		perror("trace_pipe");
	while (read(pipe, text, sizeof(text)) > 0)
		;
	watching = 1;
	while (!all_closed) {
		count = read(pipe, text, sizeof(text) - 1);
		if (count <= 0) {
			sched_yield();
			continue;
		}
		text[count] = 0;
		for (char *at = text; (at = strstr(at, "above=")); at++)
			handed_over += strncmp(at, "above=1\n", 8) != 0;
	}
	close(pipe);
	return unused;
}

/* Closes the files of one pair that are due; whether some stay open. A due time is 0 before the pair's turn, -1 once closed. */
static int close_due(int pair, int first, double *due, unsigned int *seed)
{
	int open = 0;

	for (int disk = first; disk < disks; disk += CLOSERS) {
		double *at = &due[pair * disks + disk];

		if (*at == 0)
			*at = now() + (rand_r(seed) % (spread + 1)) / 1e6;
		if (*at > 0 && now() >= *at) {
			close(file_of(pair, disk));
			*at = -1;
		}
		open |= *at > 0;
	}
	return open;
}

/* Closes the files of every CLOSERS-th disk, each about when its group is handed over. */
static void *close_files(void *first)
{
	unsigned int seed = round_now * 131 + (long)first + 7;
	double *due = calloc(pairs * disks, sizeof(double)), begun = now();
	int low = 0;

	while (low < pairs) {
		/* after five seconds the probe saw all that it will see */
		int turn = now() > begun + 5 ? pairs - 1 : handed_over;

		for (int pair = low; pair <= turn && pair < pairs; pair++)
			if (!close_due(pair, (long)first, due, &seed) && pair == low)
				low++;
	}
	free(due);
	return NULL;
}

/* In the child of a pair, with our descriptors: makes its files. */
static void make_files(int pair)
{
	char path[256];

	if (put("0", GROUPS "/p%d/c/cgroup.procs", pair))
		_exit(1);
	for (int disk = 0; disk < disks; disk++) {
		int file;

		snprintf(path, sizeof(path), "/r%d/f%d_%d", disk, round_now, pair);
		file = open(path, O_CREAT | O_RDWR, 0644);
		if (file < 0)
			_exit(2);
		dup2(file, file_of(pair, disk));
		close(file);
	}
	_exit(0);
}

int make_pair(int pair)
{
	char path[256];
	int process, status;

	snprintf(path, sizeof(path), GROUPS "/p%d", pair);
	if (mkdir(path, 0755))
		return 1;
	put("+memory", "%s/cgroup.subtree_control", path);
	strcat(path, "/c");
	if (mkdir(path, 0755))
		return 1;
	process = syscall(SYS_clone, CLONE_FILES | SIGCHLD, 0, 0, 0, 0);
	if (process == 0)
		make_files(pair);
	waitpid(process, &status, 0);
	return status;
}

/* Removes all children while their files are closed. */
void hand_over(void)
{
	pthread_t watcher, closers[CLOSERS];
	char path[256];

	handed_over = watching = all_closed = 0;
	pthread_create(&watcher, NULL, watch, NULL);
	while (!watching)
		usleep(1000);
	for (long first = 0; first < CLOSERS; first++)
		pthread_create(&closers[first], NULL, close_files, (void *)first);
	for (int pair = 0; pair < pairs; pair++) {
		snprintf(path, sizeof(path), GROUPS "/p%d/c", pair);
		while (rmdir(path) && errno == EBUSY)
			;
	}
	for (int first = 0; first < CLOSERS; first++)
		pthread_join(closers[first], NULL);
	all_closed = 1;
	pthread_join(watcher, NULL);
	usleep(400000);
}
