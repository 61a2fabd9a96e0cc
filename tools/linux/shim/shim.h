/*
 * What mm/shrinker.c, mm/list_lru.c and mm/page_counter.c of Linux 6.12 need from the rest of the kernel, for user
 * space on x86-64. Names and meanings are the kernel's; no line is. `prepare` makes each header that these files name,
 * and that isn't taken from the kernel, a file that includes this one.
 *
 * UNHEARD leaves out the calls by which the driver hears what the kernel's code does, and gives back no memory that
 * another thread may still read: for threads that race.
 */
#ifndef SHIM_H
#define SHIM_H
#include "base.h"
#include "locks.h"
#include "memory.h"
#include "bits.h"
#include "arrays.h"
#include "groups.h"
#include "tracing.h"
#endif
