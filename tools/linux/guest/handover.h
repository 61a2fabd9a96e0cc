/* What the files of handover share. */
#ifndef HANDOVER_H
#define HANDOVER_H

#define GROUPS "/sys/fs/cgroup"
#define TRACING "/sys/kernel/tracing"
#define KEPT TRACING "/instances/kept"
#define PAIRS_MOST 256

extern int pairs, disks, round_now;
extern long spread;

int put(const char *text, const char *format, ...);
void tell(const char *format, ...);
int make_pair(int pair);
void hand_over(void);
void look(int pair);
int count_lost(int *lists);

#endif
