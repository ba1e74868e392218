/* A doubly linked circular list, under liburcu's names. */
#ifndef URCU_OVER_RCU_LIST_H
#define URCU_OVER_RCU_LIST_H
#include <stddef.h>
#include <urcu/compiler.h>
struct cds_list_head {
    struct cds_list_head *next, *prev;
};
#define CDS_LIST_HEAD_INIT(name) {&(name), &(name)}
#define CDS_LIST_HEAD(name) struct cds_list_head name = {&(name), &(name)}
static inline void CDS_INIT_LIST_HEAD(struct cds_list_head *list) {
    list->next = list->prev = list;
}

static inline void cds_list_link_(struct cds_list_head *a, struct cds_list_head *b) {
    a->next = b;
    b->prev = a;
}
static inline void cds_list_add(struct cds_list_head *it, struct cds_list_head *head) {
    cds_list_link_(it, head->next);
    cds_list_link_(head, it);
}
static inline void cds_list_add_tail(struct cds_list_head *it, struct cds_list_head *head) {
    cds_list_link_(head->prev, it);
    cds_list_link_(it, head);
}
static inline void __cds_list_del(struct cds_list_head *before, struct cds_list_head *after) {
    cds_list_link_(before, after);
}
static inline void cds_list_del(struct cds_list_head *it) { cds_list_link_(it->prev, it->next); }
static inline void cds_list_del_init(struct cds_list_head *it) {
    cds_list_del(it);
    CDS_INIT_LIST_HEAD(it);
}
static inline void cds_list_move(struct cds_list_head *it, struct cds_list_head *head) {
    cds_list_del(it);
    cds_list_add(it, head);
}
static inline void cds_list_replace(const struct cds_list_head *old, struct cds_list_head *it) {
    cds_list_link_(it, old->next);
    cds_list_link_(old->prev, it);
}
static inline int cds_list_empty(const struct cds_list_head *head) { return head->next == head; }
static inline void cds_list_splice(struct cds_list_head *more, struct cds_list_head *head) {
    if (cds_list_empty(more)) return;
    struct cds_list_head *first = more->next, *last = more->prev;
    cds_list_link_(last, head->next);
    cds_list_link_(head, first);
}
static inline void cds_list_replace_init(struct cds_list_head *old, struct cds_list_head *it) {
    if (cds_list_empty(old)) {
        CDS_INIT_LIST_HEAD(it);
        return;
    }
    cds_list_replace(old, it);
    CDS_INIT_LIST_HEAD(old);
}
#define cds_list_entry(at, type, member) caa_container_of(at, type, member)
#define cds_list_first_entry(head, type, member) cds_list_entry((head)->next, type, member)
#define cds_list_of_(at, it, member) cds_list_entry(at, __typeof__(*(it)), member)
#define cds_list_for_each(it, head) for (it = (head)->next; it != (head); it = it->next)
#define cds_list_for_each_prev(it, head) for (it = (head)->prev; it != (head); it = it->prev)
#define cds_list_for_each_safe(it, then, head) \
    for (it = (head)->next, then = it->next; it != (head); it = then, then = it->next)
#define cds_list_for_each_prev_safe(it, then, head) \
    for (it = (head)->prev, then = it->prev; it != (head); it = then, then = it->prev)
#define cds_list_for_each_entry(it, head, member) \
    for (it = cds_list_of_((head)->next, it, member); &it->member != (head); \
         it = cds_list_of_(it->member.next, it, member))
#define cds_list_for_each_entry_reverse(it, head, member) \
    for (it = cds_list_of_((head)->prev, it, member); &it->member != (head); \
         it = cds_list_of_(it->member.prev, it, member))
#define cds_list_for_each_entry_safe(it, then, head, member) \
    for (it = cds_list_of_((head)->next, it, member), \
        then = cds_list_of_(it->member.next, it, member); \
         &it->member != (head); it = then, then = cds_list_of_(it->member.next, it, member))
#define cds_list_for_each_entry_safe_from(it, then, head, member) \
    for (then = cds_list_of_(it->member.next, it, member); &it->member != (head); \
         it = then, then = cds_list_of_(it->member.next, it, member))
#endif
