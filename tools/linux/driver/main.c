/* Runs the commands of standard input on the kernel's code. */
#include "driver.h"

int main(void)
{
	static char line[512];

	reset(1);
	while (fgets(line, sizeof(line), stdin))
		if (!run_command(line)) {
			fprintf(stderr, "no command: %s\n", line);
			return 2;
		}
	reset(1);
	return 0;
}
