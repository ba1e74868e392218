/* A program over liburcu: it replaces a number that a thread reads, and frees the old ones. */
#include <pthread.h>
#include <stdio.h>
#include <stdlib.h>
#include <urcu.h>

struct number {
    int value;
    struct rcu_head head;
};

static struct number *shown;

static void free_number(struct rcu_head *head) {
    free(caa_container_of(head, struct number, head));
}

static void *read_numbers(void *wrong) {
    rcu_register_thread();
    for (int i = 0; i < 100000; i++) {
        rcu_read_lock();
        struct number *number = rcu_dereference(shown);
        *(int *)wrong += number->value < 0;
        rcu_read_unlock();
    }
    rcu_unregister_thread();
    return 0;
}

int main(void) {
    int wrong = 0;
    pthread_t reader;
    rcu_register_thread();
    shown = calloc(1, sizeof *shown);
    if (!shown || pthread_create(&reader, 0, read_numbers, &wrong)) return 1;
    for (int value = 1; value <= 1000; value++) {
        struct number *number = calloc(1, sizeof *number);
        if (!number) return 1;
        number->value = value;
        struct number *old = rcu_xchg_pointer(&shown, number);
        call_rcu(&old->head, free_number);
    }
    pthread_join(reader, 0);
    rcu_barrier();
    printf("replaced %d, read wrong %d\n", shown->value, wrong);
    free(shown);
    rcu_unregister_thread();
    return 0;
}
