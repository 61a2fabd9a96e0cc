/* Memory nodes and memory groups. */
#ifndef SHIM_GROUPS_H
#define SHIM_GROUPS_H
#include "base.h"

#define MAX_NODES 4
extern int nr_node_ids;
#define for_each_node(node) for ((node) = 0; (node) < nr_node_ids; (node)++)
#define N_NORMAL_MEMORY 0
#define for_each_node_state(node, state) for_each_node(node)

struct cgroup { int level; };
#define CSS_ONLINE 1u
struct cgroup_subsys_state { struct cgroup *cgroup; unsigned int flags; };
struct shrinker_info;
struct mem_cgroup_per_node { struct shrinker_info *shrinker_info; };

struct mem_cgroup {
	struct cgroup_subsys_state css;
	int kmemcg_id;
	struct mem_cgroup *parent;
	struct mem_cgroup_per_node *nodeinfo[MAX_NODES];
	struct mem_cgroup *first_child, *next_sibling;
	/* to which group its objects belong, which offlining changes */
	struct mem_cgroup *owner;
	struct cgroup place;
	int number;
};

extern struct mem_cgroup *root_mem_cgroup;
/* The group after `at` in the subtree of `top`, in preorder. */
struct mem_cgroup *next_group(struct mem_cgroup *top, struct mem_cgroup *at);
/* `list_lru_add_obj` and `list_lru_del_obj` alone ask for it, and nobody calls them here. */
struct mem_cgroup *mem_cgroup_from_slab_obj(void *object);
#define page_to_nid(page) 0
#define virt_to_page(at) (at)

#define mem_cgroup_from_css(of) container_of(of, struct mem_cgroup, css)
static inline struct mem_cgroup *parent_mem_cgroup(struct mem_cgroup *group) { return group->parent; }
static inline bool mem_cgroup_is_root(struct mem_cgroup *group) { return group == root_mem_cgroup; }
static inline bool mem_cgroup_online(struct mem_cgroup *group) { return group->css.flags & CSS_ONLINE; }
static inline int memcg_kmem_id(struct mem_cgroup *group) { return group ? group->kmemcg_id : -1; }
static inline bool mem_cgroup_disabled(void) { return false; }
static inline bool mem_cgroup_kmem_disabled(void) { return false; }
static inline bool memcg_kmem_online(void) { return true; }

static inline struct mem_cgroup *mem_cgroup_iter(struct mem_cgroup *top, struct mem_cgroup *at, void *cookie)
{
	(void)cookie;
	if (!top)
		top = root_mem_cgroup;
	return at ? next_group(top, at) : top;
}

static inline void mem_cgroup_iter_break(struct mem_cgroup *top, struct mem_cgroup *at) { (void)top; (void)at; }
#define css_for_each_descendant_pre(at, top) \
	for ((at) = (top); (at); (at) = ({ \
		struct mem_cgroup *css_next = next_group(mem_cgroup_from_css(top), mem_cgroup_from_css(at)); \
		css_next ? &css_next->css : NULL; }))

int alloc_shrinker_info(struct mem_cgroup *group);
void free_shrinker_info(struct mem_cgroup *group);
void set_shrinker_bit(struct mem_cgroup *group, int node, int id);
void reparent_shrinker_deferred(struct mem_cgroup *group);
unsigned long shrink_slab(gfp_t flags, int node, struct mem_cgroup *group, int priority);
#endif
