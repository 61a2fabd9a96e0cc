// What scheduler.c and breakpoints.c share.
#ifndef SCHEDULER_H
#define SCHEDULER_H

enum exit_status { ALL_WAIT = 96, TOO_LONG = 97, UNREADY = 98, TOO_MANY = 99 };

// What a step is. A thread that waits, joins or ends can't keep its turn.
enum kind { STEP = 's', MADE = 'm', WAITS = 'w', JOINS = 'j', ENDS = 'e' };

// Ends the process with a line on standard error that begins with `scheduler: `.
void give_up(int status, const char *reason) __attribute__((noreturn));

// One step of this thread, at the atomic instruction with this number or at none (-1), after which another thread may go on.
void step(enum kind kind, int site);

// Says that this thread's compare and exchange with this number changed nothing.
void note_miss(int site);

// Puts a breakpoint on each atomic instruction that a file lists.
void set_breakpoints(const char *path);

#endif
