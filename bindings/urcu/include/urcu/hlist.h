/* A list whose head is one pointer, under liburcu's names. */
#ifndef URCU_OVER_RCU_HLIST_H
#define URCU_OVER_RCU_HLIST_H
#include <stddef.h>
#include <urcu/compiler.h>
struct cds_hlist_node {
    struct cds_hlist_node *next, *prev; /* prev of the first: the head */
};
struct cds_hlist_head {
    struct cds_hlist_node *next;
};
#define CDS_HLIST_HEAD(name) struct cds_hlist_head name = {NULL}
#define CDS_HLIST_HEAD_INIT(name) {NULL}
static inline void CDS_INIT_HLIST_HEAD(struct cds_hlist_head *list) { list->next = NULL; }
static inline int cds_hlist_empty(const struct cds_hlist_head *head) { return !head->next; }
static inline void cds_hlist_add_head(struct cds_hlist_node *it, struct cds_hlist_head *head) {
    it->next = head->next;
    it->prev = (struct cds_hlist_node *)head;
    if (it->next) it->next->prev = it;
    head->next = it;
}
/* The place that points to it: the head's or a node's. Both begin with that pointer, and it is read
 * and written as such, as the two have no type in common. */
static inline struct cds_hlist_node **cds_hlist_place_of_(struct cds_hlist_node *it) {
    return (struct cds_hlist_node **)it->prev;
}
static inline void cds_hlist_del(struct cds_hlist_node *it) {
    if (it->next) it->next->prev = it->prev;
    *cds_hlist_place_of_(it) = it->next;
}
#define cds_hlist_entry(at, type, member) caa_container_of(at, type, member)
#define cds_hlist_entry_safe(at, type, member) \
    __extension__({ \
        __typeof__(at) cds_at_ = (at); \
        cds_at_ ? cds_hlist_entry(cds_at_, type, member) : (type *)NULL; \
    })
#define cds_hlist_of_(at, it, member) cds_hlist_entry_safe(at, __typeof__(*(it)), member)
#define cds_hlist_for_each(at, head) for (at = (head)->next; at; at = at->next)
#define cds_hlist_for_each_safe(at, then, head) \
    for (at = (head)->next; at && (then = at->next, 1); at = then)
#define cds_hlist_for_each_entry(it, at, head, member) \
    for (at = (head)->next; at && (it = cds_hlist_of_(at, it, member), 1); at = at->next)
#define cds_hlist_for_each_entry_safe(it, at, then, head, member) \
    for (at = (head)->next; at && (then = at->next, it = cds_hlist_of_(at, it, member), 1); \
         at = then)
#define cds_hlist_for_each_entry_2(it, head, member) \
    for (it = cds_hlist_of_((head)->next, it, member); it; \
         it = cds_hlist_of_(it->member.next, it, member))
#define cds_hlist_for_each_entry_safe_2(it, then, head, member) \
    for (it = cds_hlist_of_((head)->next, it, member); \
         it && (then = cds_hlist_of_(it->member.next, it, member), 1); it = then)
#endif
