/* uatomic with the orders of liburcu 0.15, for a program in C or C++: whether each does what it
 * says. */
#ifndef ORDERS_H
#define ORDERS_H
#include <urcu/annotate.h>
#include <urcu/uatomic.h>
static inline int orders(void) {
    unsigned long it = 1;
    int right = 1;
    uatomic_set(&it, 2);
    right &= uatomic_read(&it) == 2 && uatomic_load(&it, CMM_ACQUIRE) == 2;
    uatomic_store(&it, 3, CMM_RELEASE);
    uatomic_set(&it, uatomic_load(&it) + 1, CMM_SEQ_CST);
    right &= uatomic_load(&it, CMM_SEQ_CST_FENCE) == 4;
    right &= uatomic_xchg(&it, 5, CMM_ACQ_REL) == 4 && uatomic_xchg(&it, 6) == 5;
    right &= uatomic_cmpxchg(&it, 6, 7) == 6 && uatomic_cmpxchg(&it, 6, 8, CMM_RELAXED) == 7;
    right &= uatomic_cmpxchg(&it, 7, 8, CMM_ACQ_REL, CMM_RELAXED) == 7;
    right &= uatomic_add_return(&it, 2, CMM_SEQ_CST) == 10 && uatomic_sub_return(&it, 1) == 9;
    uatomic_inc(&it, CMM_RELAXED);
    uatomic_dec(&it);
    uatomic_add(&it, 4, CMM_RELAXED);
    uatomic_sub(&it, 1);
    uatomic_or(&it, 16, CMM_RELAXED);
    uatomic_and(&it, 24);
    cmm_annotate_define(group);
    cmm_annotate_group_mem_release(&group, &it);
    return right && it == 24 && cmm_to_c11(CMM_SEQ_CST_FENCE) == __ATOMIC_SEQ_CST;
}
#endif
