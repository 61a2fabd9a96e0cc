/* Trace points and counters, where the driver listens; the shrinkers' debugfs is switched off. */
#ifndef SHIM_TRACING_H
#define SHIM_TRACING_H
#include "base.h"

struct shrinker;
struct shrink_control;
#define SLABS_SCANNED 0
#ifdef UNHEARD
#define trace_mm_shrink_slab_start(...) do { } while (0)
#define trace_mm_shrink_slab_end(shrinker, node, freed, nr, new_nr, left) do { (void)(new_nr); } while (0)
#define count_vm_events(item, by) do { } while (0)
#else
void trace_mm_shrink_slab_start(struct shrinker *shrinker, struct shrink_control *control, long nr, long freeable,
				unsigned long long delta, long total, int priority);
void trace_mm_shrink_slab_end(struct shrinker *shrinker, int node, unsigned long freed, long nr, long new_nr,
			      long left);
void count_vm_events(int item, long by);
#endif

struct dentry;
static inline int shrinker_debugfs_name_alloc(struct shrinker *shrinker, const char *format, va_list arguments)
{
	(void)shrinker;
	(void)format;
	(void)arguments;
	return 0;
}
static inline void shrinker_debugfs_name_free(struct shrinker *shrinker) { (void)shrinker; }
static inline int shrinker_debugfs_add(struct shrinker *shrinker) { (void)shrinker; return 0; }
static inline struct dentry *shrinker_debugfs_detach(struct shrinker *shrinker, int *id)
{
	(void)shrinker;
	*id = -1;
	return NULL;
}
static inline void shrinker_debugfs_remove(struct dentry *entry, int id) { (void)entry; (void)id; }
#endif
