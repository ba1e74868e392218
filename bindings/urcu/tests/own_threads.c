/* Sections, and threads that come and go. */
#include "own.h"

enum { READERS = 3, LOOKS = 300 };
static unsigned long ready;

static void *read_on(void *it) {
    unsigned long looks = 0;
    rcu_register_thread();
    while (!uatomic_read(&over)) {
        look(true);
        quiescent();
        if (++looks == LOOKS) uatomic_inc(&ready);
    }
    rcu_unregister_thread();
    return it;
}

/* Three readers beside an updater that frees what it replaced, until each has looked often. */
int sections(unsigned n) {
    pthread_t reader[READERS];
    for (int i = 0; i < READERS; i++)
        if (pthread_create(&reader[i], 0, read_on, 0)) return 0;
    for (unsigned i = 0; i < (n ? n : 3000) || uatomic_read(&ready) < READERS; i++) {
        struct node *old = replace(i);
        synchronize_rcu();
        spoil(old);
    }
    uatomic_set(&over, 1);
    for (int i = 0; i < READERS; i++) pthread_join(reader[i], 0);
    return 1;
}

static int waiting;
static void *wait_for_one(void *it) {
    synchronize_rcu();
    uatomic_set(&waiting, 0);
    return it;
}

/* A wait ends with the section, and not before; also where the thread then stays as it is. */
int waits(unsigned n) {
    struct holder holder;
    pthread_t waiter;
    (void)n;
    for (int round = 0; round < 3; round++) {
        open_section(&holder);
        uatomic_set(&waiting, 1);
        if (pthread_create(&waiter, 0, wait_for_one, 0)) return 0;
        rest(30);
        if (!uatomic_read(&waiting)) return puts("a wait ended before the section"), 0;
        close_section(&holder);
        pthread_join(waiter, 0);
        end_holder(&holder);
    }
    return 1;
}

static int inner;
static void *nest(void *it) {
    rcu_register_thread();
    rcu_read_lock();
    rcu_read_lock();
    rcu_read_unlock();
    uatomic_set(&inner, 1);
    while (uatomic_read(&inner) == 1) usleep(100);
    rcu_read_unlock();
    rcu_unregister_thread();
    return it;
}

int nests(unsigned n) {
    pthread_t thread, waiter;
    rcu_register_thread();
    for (unsigned i = 0; i < (n ? n : 200000); i++) rcu_read_lock();
    int open = rcu_read_ongoing();
    for (unsigned i = 0; i < (n ? n : 200000); i++) rcu_read_unlock();
    rcu_unregister_thread();
    if (pthread_create(&thread, 0, nest, 0)) return 0;
    while (!uatomic_read(&inner)) usleep(100);
    uatomic_set(&waiting, 1);
    if (pthread_create(&waiter, 0, wait_for_one, 0)) return 0;
    rest(30);
    int waited = uatomic_read(&waiting);
    uatomic_set(&inner, 2);
    pthread_join(thread, 0);
    pthread_join(waiter, 0);
    if (!waited) puts("the inner end closed the section");
    return open && waited;
}

static pthread_barrier_t gate;
static void *one_of_a_crowd(void *it) {
    rcu_register_thread();
    look(false);
    offline();
    pthread_barrier_wait(&gate);
    online();
    for (int i = 0; i < 5; i++) {
        look(true);
        quiescent();
    }
    rcu_unregister_thread();
    return it;
}

/* n threads are registered at once. */
int crowd(unsigned n) {
    pthread_attr_t small;
    n = n ? n : 1000;
    pthread_t *threads = calloc(n, sizeof *threads);
    unsigned long updates = 0;
    pthread_attr_init(&small);
    pthread_attr_setstacksize(&small, 1 << 17);
    pthread_barrier_init(&gate, 0, n + 1);
    for (unsigned i = 0; i < n; i++)
        if (pthread_create(&threads[i], &small, one_of_a_crowd, 0)) return 0;
    pthread_barrier_wait(&gate);
    for (unsigned i = 0; i < 50; i++, updates += 2) {
        struct node *old = replace(i + 1);
        synchronize_rcu();
        spoil(old);
        call_rcu(&replace(i + 2)->head, ripe);
    }
    for (unsigned i = 0; i < n; i++) pthread_join(threads[i], 0);
    rcu_barrier();
    free(threads);
    return freed == updates;
}

static void *forget(void *it) {
    rcu_register_thread();
    look(false);
    call_rcu(&replace(7)->head, ripe);
    return it;
}

/* Threads that end without unregistering. */
int forgets(unsigned n) {
    n = n ? n : 2000;
    for (unsigned i = 0; i < n; i += 20) {
        pthread_t threads[20];
        for (int k = 0; k < 20; k++)
            if (pthread_create(&threads[k], 0, forget, 0)) return 0;
        for (int k = 0; k < 20; k++) pthread_join(threads[k], 0);
    }
    synchronize_rcu();
    rcu_barrier();
#ifndef NO_EXTRAS
    struct urcu_counters counters;
    EXTRA(counters)(&counters);
    if (counters.threads != 1) return printf("%d slots stay taken\n", (int)counters.threads), 0;
#endif
    return freed >= n;
}

static void *wait_for_ever(void *it) {
    for (;;) synchronize_rcu();
    return it;
}

static void *sleep_in_a_section(void *it) {
    rcu_register_thread();
    rcu_read_lock();
    uatomic_set(&waiting, 2);
    for (;;) pause();
    return it;
}

/* Threads that are cancelled in a wait, and in a section. */
int cancels(unsigned n) {
    struct holder holder;
    pthread_t waiter, reader, other;
    (void)n;
    open_section(&holder);
    if (pthread_create(&waiter, 0, wait_for_ever, 0)) return 0;
    rest(20);
    pthread_cancel(waiter);
    rest(20);
    close_section(&holder);
    end_holder(&holder);
    if (pthread_create(&reader, 0, sleep_in_a_section, 0)) return 0;
    while (uatomic_read(&waiting) != 2) usleep(100);
    if (pthread_create(&other, 0, wait_for_one, 0)) return 0;
    rest(20); /* so that it sleeps until the reader ends */
    pthread_cancel(reader);
    pthread_join(reader, 0);
    pthread_join(other, 0);
    for (int i = 0; i < 100; i++) synchronize_rcu();
    pthread_cancel(waiter); /* it may have been in no call that ends by it */
    return 1;
}

/* In the end of a key, behind the layer's own: it registers anew, and has sections. */
static pthread_key_t late_key;
static void read_late(void *left) {
    rcu_register_thread();
    uatomic_inc(&ready);
    for (int i = 0; i < 50; i++) {
        look(true);
        quiescent();
    }
    if (left > (void *)1) pthread_setspecific(late_key, (char *)left - 1);
    else rcu_unregister_thread();
}

static void *end_late(void *it) {
    rcu_register_thread();
    look(false);
    pthread_setspecific(late_key, it);
    return it;
}

/* Sections in the ends of threads, one to three times, beside an updater. */
int ends(unsigned n) {
    pthread_t updater;
    unsigned long wanted = 0;
    n = n ? n : 60;
    if (pthread_key_create(&late_key, read_late)) return 0;
    if (pthread_create(&updater, 0, update, 0)) return 0;
    for (unsigned i = 0; i < n; i++, wanted += 1 + i % 3) {
        pthread_t thread;
        if (pthread_create(&thread, 0, end_late, (void *)(1ul + i % 3))) return 0;
        pthread_join(thread, 0);
    }
    uatomic_set(&over, 1);
    pthread_join(updater, 0);
    synchronize_rcu();
    rcu_barrier();
    return uatomic_read(&ready) == wanted;
}

/* A thread that is offline, or was never registered, is not waited for. */
int quiet(unsigned n) {
    struct holder holder;
    (void)n;
    open_section(&holder);
    close_section(&holder);
    rcu_register_thread();
    for (int i = 0; i < 100; i++) {
        offline();
        online();
        quiescent();
    }
    offline();
    synchronize_rcu();
    end_holder(&holder);
    rcu_unregister_thread();
    synchronize_rcu();
    return 1;
}
