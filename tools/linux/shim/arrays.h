/* The idr of shrinkers and the xarray of lists, as flat arrays behind the names that the kernel's files use. */
#ifndef SHIM_ARRAYS_H
#define SHIM_ARRAYS_H
#include "base.h"

#ifdef UNHEARD
#define heard_find(id, found) do { } while (0)
#else
void heard_find(int id, bool found);
#endif

#define IDR_MAX 1024
struct idr { void *at[IDR_MAX]; };
#define DEFINE_IDR(name) struct idr name

/* The lowest free id, as the kernel's. */
static inline int idr_alloc(struct idr *idr, void *pointer, int start, int end, gfp_t flags)
{
	int id;

	(void)end;
	(void)flags;
	for (id = start; id < IDR_MAX; id++)
		if (!idr->at[id]) {
			idr->at[id] = pointer;
			return id;
		}
	return -ENOSPC;
}

static inline void *idr_remove(struct idr *idr, int id)
{
	void *was = idr->at[id];

	idr->at[id] = NULL;
	return was;
}

static inline void *idr_find(struct idr *idr, int id)
{
	void *found = id >= 0 && id < IDR_MAX ? READ_ONCE(idr->at[id]) : NULL;

	heard_find(id, found != NULL);
	return found;
}

#define XARRAY_MAX 512
struct xarray { void *at[XARRAY_MAX]; };
struct xa_state { struct xarray *array; unsigned long xa_index; int error; void *xa_alloc; };
#define XA_FLAGS_LOCK_IRQ 0
#define XA_STATE(name, of, index) struct xa_state name = { (of), (index), 0, NULL }
#define xa_init_flags(of, flags) memset((of), 0, sizeof(*(of)))
#define xas_lock_irq(state) do { (void)(state); } while (0)
#define xas_unlock_irq(state) do { (void)(state); } while (0)
#define xas_lock_irqsave(state, flags) do { (void)(state); (flags) = 0; } while (0)
#define xas_unlock_irqrestore(state, flags) do { (void)(state); (void)(flags); } while (0)

static inline void *xa_load(struct xarray *of, unsigned long index)
{
	return index < XARRAY_MAX ? READ_ONCE(of->at[index]) : NULL;
}

static inline void *xa_erase_irq(struct xarray *of, unsigned long index)
{
	void *was = xa_load(of, index);

	if (index < XARRAY_MAX)
		of->at[index] = NULL;
	return was;
}

static inline void xas_set(struct xa_state *state, unsigned long index) { state->xa_index = index; }
static inline void xas_set_err(struct xa_state *state, int error) { state->error = error; }
static inline int xas_error(struct xa_state *state) { return state->error; }
static inline bool xas_nomem(struct xa_state *state, gfp_t flags) { (void)state; (void)flags; return false; }
static inline void *xas_load(struct xa_state *state) { return xa_load(state->array, state->xa_index); }

static inline void xas_store(struct xa_state *state, void *pointer)
{
	if (state->xa_index < XARRAY_MAX)
		state->array->at[state->xa_index] = pointer;
	else
		state->error = -EINVAL;
}

#define xas_for_each(state, pointer, last) \
	for ((state)->xa_index = 0; (state)->xa_index < XARRAY_MAX; (state)->xa_index++) \
		if (((pointer) = xas_load(state)))
#define xa_for_each(of, index, pointer) \
	for ((index) = 0; (index) < XARRAY_MAX; (index)++) \
		if (((pointer) = xa_load((of), (index))))
#endif
