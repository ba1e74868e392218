/* What liburcu's own tests do not try. usage: own TEST [N]. Status 0 where all was right. */
#include "own.h"
#include <errno.h>
#include <time.h>

struct node *shown;
unsigned long wrong, freed;
int over;

struct node *fresh(unsigned long value) {
    struct node *it = malloc(sizeof *it);
    if (!it) exit(2);
    it->value = value;
    it->twice = 2 * value;
    return it;
}

void spoil(struct node *it) {
    CMM_STORE_SHARED(it->twice, 2 * it->value + 1);
    free(it);
    uatomic_inc(&freed);
}

void ripe(struct rcu_head *head) {
    spoil(caa_container_of(head, struct node, head));
}

struct node *replace(unsigned long value) {
    return rcu_xchg_pointer(&shown, fresh(value));
}

void look(bool slowly) {
    rcu_read_lock();
    struct node *it = rcu_dereference(shown);
    unsigned long value = it->value;
    if (slowly) sched_yield();
    if (CMM_LOAD_SHARED(it->twice) != 2 * value) uatomic_inc(&wrong);
    rcu_read_unlock();
}

void rest(unsigned milliseconds) {
    struct timespec time = {milliseconds / 1000, (long)(milliseconds % 1000) * 1000000};
    while (nanosleep(&time, &time) && errno == EINTR) continue;
}

void *update(void *it) {
    for (unsigned long i = 0; !uatomic_read(&over); i++) {
        struct node *old = replace(i);
        if (i % 2) {
            synchronize_rcu();
            spoil(old);
        } else call_rcu(&old->head, ripe);
        if (i % 64 == 0) usleep(100);
    }
    return it;
}

/* ---- a thread that holds a section */

enum { BEGUN, IN, TO_LEAVE, OUT, TO_END };

static void wait_for(int *step, int value) {
    while (uatomic_read(step) != value) usleep(100);
}

static void *hold_section(void *it) {
    struct holder *holder = it;
    rcu_register_thread();
    rcu_read_lock();
    uatomic_set(&holder->step, IN);
    wait_for(&holder->step, TO_LEAVE);
    rcu_read_unlock();
    quiescent();
    uatomic_set(&holder->step, OUT);
    for (; uatomic_read(&holder->step) != TO_END; usleep(100)) quiescent();
    rcu_unregister_thread();
    return it;
}

void open_section(struct holder *holder) {
    holder->step = BEGUN;
    if (pthread_create(&holder->thread, 0, hold_section, holder)) exit(2);
    wait_for(&holder->step, IN);
}

void close_section(struct holder *holder) {
    uatomic_set(&holder->step, TO_LEAVE);
    wait_for(&holder->step, OUT);
}

void end_holder(struct holder *holder) {
    uatomic_set(&holder->step, TO_END);
    pthread_join(holder->thread, 0);
}

static const struct {
    const char *name;
    int (*run)(unsigned n);
} TESTS[] = {
    {"sections", sections}, {"waits", waits},         {"nests", nests},
    {"crowd", crowd},       {"forgets", forgets},     {"cancels", cancels},
    {"quiet", quiet},       {"callbacks", callbacks}, {"batches", batches},
    {"barriers", barriers}, {"workers", workers},     {"defers", defers},
    {"signals", signals},   {"forks", forks},         {"bare_forks", bare_forks},
    {"ends", ends},         {"chains", chains},       {"memory", memory},
    {"answers", answers},   {"values", values},       {"handlers", handlers},
    {"joins", joins},       {"engines", engines},
    {"forks_in_sections", forks_in_sections},
    {"forks_by_handlers", forks_by_handlers},
#ifndef NO_EXTRAS
    {"polls", polls},       {"reports", reports},     {"misuse", misuse},
    {"gathers", gathers},   {"barriers_alone", barriers_alone},
    {"bare_callbacks", bare_callbacks},
#endif
};

int main(int argc, char **argv) {
    unsigned n = argc > 2 ? (unsigned)atoi(argv[2]) : 0;
    shown = fresh(0);
    for (size_t at = 0; argc > 1 && at < CAA_ARRAY_SIZE(TESTS); at++)
        if (!strcmp(argv[1], TESTS[at].name)) {
            int right = TESTS[at].run(n);
            if (wrong) printf("%lu sections saw what was freed\n", wrong);
            return right && !wrong ? 0 : 1;
        }
    return 2;
}
