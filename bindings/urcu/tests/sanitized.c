/* What a sanitizer is told over a library that was built without it. A node is reclaimed in each way
 * that the interface has, beside readers that look at it in sections: no race is reported. With the
 * word 'late' a thread looks at a node behind its section, once it was freed: the sanitizers of
 * threads and of addresses have to report that. It prints: reclaimed in 4 ways */
#ifdef USE_QSBR
#include <urcu-qsbr.h>
#elif defined(USE_BP)
#include <urcu-bp.h>
#else
#include <urcu.h>
#endif
#include <pthread.h>
#include <stdio.h>
#include <stdlib.h>
#include <unistd.h>
#include <urcu/uatomic.h>

enum { READERS = 2, WAYS = 4, TIMES = 25 };
struct node {
    struct rcu_head head;
    unsigned long value;
};
static struct node *shown;
static int over, looks[READERS], run, step;

static struct node *fresh(void) {
    struct node *node = malloc(sizeof *node);
    if (!node) exit(2);
    node->value = 7;
    return node;
}

static void *look_on(void *it) {
    int *own = it;
    rcu_register_thread();
    while (!uatomic_read(&over)) {
        rcu_read_lock();
        struct node *node = rcu_dereference(shown);
        if (node->value != 7) abort();
        rcu_read_unlock();
        uatomic_inc(own);
#ifdef USE_QSBR
        rcu_quiescent_state();
#endif
    }
    rcu_unregister_thread();
    return it;
}

static void spoil(void *it) {
    struct node *node = it;
    node->value++;
    free(node);
}

static void spoil_node(struct rcu_head *head) {
    run++;
    spoil(caa_container_of(head, struct node, head));
}

static void reclaim(struct node *node, int way) {
    struct urcu_gp_poll_state state;
    switch (way) {
    case 0: call_rcu(&node->head, spoil_node); break;
    case 1: synchronize_rcu(); spoil(node); break;
    case 2: defer_rcu(spoil, node); break;
    default:
        state = start_poll_synchronize_rcu();
        while (!poll_state_synchronize_rcu(state)) usleep(100);
        spoil(node);
    }
}

static void let_look(void) {
    for (int i = 0; i < READERS; i++) {
        int before = uatomic_read(&looks[i]);
        while (uatomic_read(&looks[i]) < before + 2) usleep(50);
    }
}

static void *look_late(void *it) {
    rcu_register_thread();
    rcu_read_lock();
    struct node *node = rcu_dereference(shown);
    unsigned long sum = node->value;
    rcu_read_unlock();
#ifdef USE_QSBR
    rcu_thread_offline();
#endif
    uatomic_set(&step, 1);
    while (uatomic_read(&step) < 2) usleep(100);
    sum += node->value; /* too late */
    rcu_unregister_thread();
    return sum ? it : 0;
}

static int reclaim_early(void) {
    pthread_t reader;
    shown = fresh();
    if (pthread_create(&reader, 0, look_late, 0)) return 1;
    while (uatomic_read(&step) < 1) usleep(100);
    call_rcu(&rcu_xchg_pointer(&shown, fresh())->head, spoil_node);
    rcu_barrier();
    uatomic_set(&step, 2);
    pthread_join(reader, 0);
    free(shown);
    return 0;
}

int main(int argc, char **argv) {
    pthread_t readers[READERS];
    (void)argv;
    if (argc > 1) return reclaim_early();
    shown = fresh();
    for (int i = 0; i < READERS; i++)
        if (pthread_create(&readers[i], 0, look_on, &looks[i])) return 1;
    for (int i = 0; i < WAYS * TIMES; i++) {
        let_look();
        reclaim(rcu_xchg_pointer(&shown, fresh()), i % WAYS);
    }
    rcu_barrier();
    rcu_defer_barrier();
    uatomic_set(&over, 1);
    for (int i = 0; i < READERS; i++) pthread_join(readers[i], 0);
    printf("reclaimed in %d ways\n", run == TIMES ? WAYS : 0);
    free(shown);
    return 0;
}
