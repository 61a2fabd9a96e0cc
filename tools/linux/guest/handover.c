/* Groups go away while files of theirs are closed by a process of another group, and then: which lists have no bit?
 *
 *   handover PAIRS DISKS ROUNDS SPREAD PORT
 *
 * A pair is a group p<n> with one child c. A process in the child makes a file on each disk and leaves the descriptors to us.
 * Then the child is removed, and its files are closed about when the kernel hands its lists to p<n>, up to SPREAD
 * microseconds later. Each close puts one dentry on a list of list_lru, so p<n> has one dentry on its list of each disk at the end.
 * If a walk of p<n> does not ask the disk's shrinker, that list holds an object and has no bit.
 *
 * The rounds end with the first in which a bit is lost. For one group that lost its bit and one that did not, PORT gets a row:
 * slab_reclaimable after 60,000 negative dentries, after ten reclaims, after three drop_caches, and what became of a process.
 */
#define _GNU_SOURCE
#include <errno.h>
#include <fcntl.h>
#include <stdarg.h>
#include <stdio.h>
#include <stdlib.h>
#include <string.h>
#include <sys/resource.h>
#include <unistd.h>

#include "handover.h"

int pairs, disks, round_now;
long spread;
static int rounds;
static const char *port;

/* Writes a text to a file, whose path is made by the format. */
int put(const char *text, const char *format, ...)
{
	char path[256];
	va_list words;
	int file, status;

	va_start(words, format);
	vsnprintf(path, sizeof(path), format, words);
	va_end(words);
	file = open(path, O_WRONLY | O_APPEND);
	if (file < 0)
		return -errno;
	status = write(file, text, strlen(text)) < 0 ? -errno : 0;
	close(file);
	return status;
}

/* Writes a formatted line to the port. */
void tell(const char *format, ...)
{
	char line[256];
	va_list words;

	va_start(words, format);
	vsnprintf(line, sizeof(line), format, words);
	va_end(words);
	if (put(line, "%s", port))
		printf("the port takes nothing: %s", line);
}

static int run_round(int *lists)
{
	put("1", KEPT "/tracing_on");
	for (int pair = 0; pair < pairs; pair++)
		if (make_pair(pair)) {
			printf("p%d could not be made\n", pair);
			exit(1);
		}
	usleep(300000);
	hand_over();
	put("0", KEPT "/tracing_on");
	for (int pair = 0; pair < pairs; pair++)
		look(pair);
	return count_lost(lists);
}

/* Makes room for the next round, whose groups have the same names. */
static void clear_round(void)
{
	char path[256];

	for (int pair = 0; pair < pairs; pair++) {
		for (int disk = 0; disk < disks; disk++) {
			snprintf(path, sizeof(path), "/r%d/f%d_%d", disk, round_now, pair);
			unlink(path);
		}
		snprintf(path, sizeof(path), GROUPS "/p%d", pair);
		rmdir(path);
	}
	put("2", "/proc/sys/vm/drop_caches");
	close(open(KEPT "/trace", O_WRONLY | O_TRUNC));
}

int main(int argc, char **argv)
{
	struct rlimit files = { 65536, 65536 };
	int lost = 0, lists = 0, all = 0;

	if (argc != 6)
		return 2;
	pairs = atoi(argv[1]), disks = atoi(argv[2]), rounds = atoi(argv[3]), spread = atol(argv[4]), port = argv[5];
	setvbuf(stdout, NULL, _IONBF, 0);
	if (pairs < 1 || pairs > PAIRS_MOST || setrlimit(RLIMIT_NOFILE, &files))
		return 2;
	put("0", TRACING "/tracing_on");
	for (round_now = 0; round_now < rounds && !lost; round_now++) {
		if (round_now)
			clear_round();
		lost = run_round(&lists);
		all += lists;
		printf("round %d: %d of %d lists with an object and no bit\n", round_now + 1, lost, lists);
	}
	tell("sum %d of %d lists held an object and had no bit, in %d rounds of %d groups on %d disks\n", lost, all, round_now,
	     pairs, disks);
	return 0;
}
