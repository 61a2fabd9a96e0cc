/* What the guest's shell is too slow for.
 *
 *   load files FOLDER COUNT    makes empty files and closes them: as many dentries and inodes, unreferenced
 *   load names FOLDER COUNT    looks up names that aren't there: as many negative dentries
 *   load again FOLDER COUNT    looks the files up again, which marks their dentries referenced
 *   load memory MIB SECONDS    touches memory and holds it
 */
#include <fcntl.h>
#include <stdio.h>
#include <stdlib.h>
#include <string.h>
#include <sys/mman.h>
#include <sys/stat.h>
#include <unistd.h>

static int hold(size_t size, unsigned int seconds)
{
	char *at = mmap(NULL, size, PROT_READ | PROT_WRITE, MAP_PRIVATE | MAP_ANONYMOUS, -1, 0);

	if (at == MAP_FAILED)
		return 1;
	for (size_t k = 0; k < size; k += 4096)
		at[k] = 1;
	sleep(seconds);
	return 0;
}

static int make_file(const char *path)
{
	int file = open(path, O_CREAT | O_RDWR, 0644);

	if (file < 0) {
		perror(path);
		return 1;
	}
	close(file);
	return 0;
}

int main(int argc, char **argv)
{
	char path[256];
	struct stat found;

	if (argc != 4)
		return 2;
	if (!strcmp(argv[1], "memory"))
		return hold((size_t)atol(argv[2]) << 20, (unsigned int)atol(argv[3]));
	for (long number = 0; number < atol(argv[3]); number++) {
		snprintf(path, sizeof(path), "%s/%s%ld", argv[2], strcmp(argv[1], "names") ? "f" : "no", number);
		if (!strcmp(argv[1], "files") && make_file(path))
			return 1;
		stat(path, &found);
	}
	return 0;
}
