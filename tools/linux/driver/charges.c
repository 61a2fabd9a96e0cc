/* The usage of each group, by the kernel's page counter. */
#include "driver.h"
#include <mm/page_counter.c>

static struct page_counter counters[MAX_GROUPS];

/* Makes the group's counter, with `max` or a number as its limit. */
void limit_group(int group, const char *limit)
{
	page_counter_init(&counters[group], group ? &counters[groups[group]->parent->number] : NULL, false);
	if (strcmp(limit, "max") && page_counter_set_max(&counters[group], strtoul(limit, NULL, 10)))
		abort();
}

void charge(int group)
{
	struct page_counter *full = NULL;

	if (page_counter_try_charge(&counters[group], 1, &full))
		printf("charged\n");
	else
		printf("refused %ld %ld\n", (long)(full - counters), page_counter_read(full));
}

void uncharge(int group) { page_counter_uncharge(&counters[group], 1); }

void show_usage(void)
{
	int group;

	for (group = 0; group < group_count; group++)
		printf("usage %d %ld\n", group, page_counter_read(&counters[group]));
}

void forget_charges(void) { memset(counters, 0, sizeof(counters)); }
