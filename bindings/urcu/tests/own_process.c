/* Signal handlers and forks. */
#include "own.h"
#include <sys/wait.h>

#ifndef USE_QSBR
static unsigned long handled;
static void read_in_handler(int number) {
    (void)number;
    look(false);
    uatomic_inc(&handled);
}

static void *register_often(void *it) {
    while (!uatomic_read(&over)) {
        rcu_register_thread();
        look(false);
        rcu_unregister_thread();
    }
    return it;
}

/* A handler reads, whatever its thread is in the midst of. */
int signals(unsigned n) {
    pthread_t updater, other;
    struct sigaction action;
    unsigned long reads = 0;
    memset(&action, 0, sizeof action);
    action.sa_handler = read_in_handler;
    sigaction(SIGUSR2, &action, 0);
    look(false);
    if (pthread_create(&updater, 0, update, 0)) return 0;
    if (pthread_create(&other, 0, register_often, 0)) return 0;
    rcu_register_thread();
    pid_t parent = getpid(), child = fork(); /* it only sends signals */
    if (child == 0)
        for (;;) {
            if (kill(parent, SIGUSR2)) _exit(0);
            sched_yield();
        }
    for (; uatomic_read(&handled) < (n ? n : 2000); reads++) look(false);
    kill(child, SIGKILL);
    waitpid(child, 0, 0);
    uatomic_set(&over, 1);
    rcu_unregister_thread();
    pthread_join(updater, 0);
    pthread_join(other, 0);
    rcu_barrier();
    return reads > 0;
}

static int forks_made;
struct allocator {
    pthread_t thread;
    int begun, handled;
};
static __thread struct allocator *me;
static void read_first(int number) {
    (void)number;
    look(false);
    if (me) uatomic_inc(&me->handled);
}

static void *allocate(void *it) {
    stack_t stack = {.ss_sp = malloc(SIGSTKSZ), .ss_size = SIGSTKSZ};
    void *blocks[8] = {0};
    me = it;
    sigaltstack(&stack, 0);
    for (unsigned i = 0; !uatomic_read(&me->handled); i++) {
        free(blocks[i % 8]);
        blocks[i % 8] = malloc(2000 + i % 3000);
        if (i == 100) uatomic_set(&me->begun, 1);
    }
    for (int i = 0; i < 8; i++) free(blocks[i]);
    stack.ss_flags = SS_DISABLE;
    sigaltstack(&stack, 0);
    free(stack.ss_sp);
    return it;
}

static void *fork_often(void *it) {
    while (!uatomic_read(&over)) {
        pid_t child = fork();
        if (child == 0) _exit(0);
        waitpid(child, 0, 0);
        uatomic_inc(&forks_made);
    }
    return it;
}

/* A handler has the first section of its thread, on a stack of its own. The thread is in the midst
 * of malloc, while another one forks, and takes malloc's locks for that. */
int handlers(unsigned n) {
    pthread_t updater, forker;
    struct sigaction action;
    n = n ? n : 300;
    memset(&action, 0, sizeof action);
    action.sa_handler = read_first;
    action.sa_flags = SA_ONSTACK;
    sigaction(SIGUSR2, &action, 0);
    if (pthread_create(&updater, 0, update, 0)) return 0;
    if (pthread_create(&forker, 0, fork_often, 0)) return 0;
    for (unsigned i = 0; i < n || uatomic_read(&forks_made) < 50; i++) {
        struct allocator it = {0};
        if (pthread_create(&it.thread, 0, allocate, &it)) return 0;
        while (!uatomic_read(&it.begun)) sched_yield();
        pthread_kill(it.thread, SIGUSR2);
        pthread_join(it.thread, 0);
    }
    uatomic_set(&over, 1);
    pthread_join(updater, 0);
    pthread_join(forker, 0);
    rcu_barrier();
    return 1;
}
#else
int signals(unsigned n) {
    (void)n;
    return 1;
}

int handlers(unsigned n) {
    (void)n;
    return 1;
}
#endif

static void *read_on(void *it) {
    rcu_register_thread();
    while (!uatomic_read(&over)) {
        look(false);
        quiescent();
    }
    rcu_unregister_thread();
    return it;
}

static int child_goes_on(void) {
    alarm(60);
    for (unsigned long k = 0; k < 50; k++) {
        look(false);
        call_rcu(&replace(k)->head, ripe);
        if (k % 10 == 0) synchronize_rcu();
    }
    rcu_barrier();
    return wrong != 0;
}

/* With liburcu's handlers the child goes on. */
int forks(unsigned n) {
    pthread_t reader[2], updater;
    int bad = 0, status;
    for (int i = 0; i < 2; i++)
        if (pthread_create(&reader[i], 0, read_on, 0)) return 0;
    if (pthread_create(&updater, 0, update, 0)) return 0;
    rcu_register_thread();
    look(false);
    for (unsigned i = 0; i < (n ? n : 15); i++) {
        rest(2);
        call_rcu_before_fork();
        pid_t child = fork();
        if (child == 0) {
            call_rcu_after_fork_child();
            _exit(child_goes_on());
        }
        call_rcu_after_fork_parent();
        offline();
        waitpid(child, &status, 0);
        online();
        bad += status != 0;
    }
    uatomic_set(&over, 1);
    rcu_unregister_thread();
    for (int i = 0; i < 2; i++) pthread_join(reader[i], 0);
    pthread_join(updater, 0);
    rcu_barrier();
    if (bad) printf("%d children did not end well\n", bad);
    return !bad;
}

static int child_reads(int waits) {
    alarm(60);
    for (int k = 0; k < 1000; k++) look(false);
    if (waits) synchronize_rcu();
    return wrong != 0;
}

/* The same where the handlers are registered before all others, and the child forks too. */
static int by_handlers;
static void before_fork(void) {
    if (by_handlers) call_rcu_before_fork();
}
static void after_fork_parent(void) {
    if (by_handlers) call_rcu_after_fork_parent();
}
static void after_fork_child(void) {
    if (by_handlers) call_rcu_after_fork_child();
}
__attribute__((constructor(101))) static void register_first(void) {
    pthread_atfork(before_fork, after_fork_parent, after_fork_child);
}

int forks_by_handlers(unsigned n) {
    pthread_t updater;
    int bad = 0, status;
    if (pthread_create(&updater, 0, update, 0)) return 0;
    by_handlers = 1;
    for (unsigned i = 0; i < (n ? n : 15); i++) {
        rest(2);
        pid_t child = fork();
        if (child == 0) {
            rcu_register_thread();
            int own = child_goes_on();
            child = fork();
            if (child == 0) _exit(child_goes_on());
            offline();
            waitpid(child, &status, 0);
            online();
            _exit(own || status);
        }
        waitpid(child, &status, 0);
        bad += status != 0;
    }
    uatomic_set(&over, 1);
    pthread_join(updater, 0);
    rcu_barrier();
    if (bad) printf("%d children did not end well\n", bad);
    return !bad;
}

/* The child of a fork in a section is in it still, and so is the parent. */
int forks_in_sections(unsigned n) {
    pthread_t updater;
    int bad = 0, status;
    rcu_register_thread();
    if (pthread_create(&updater, 0, update, 0)) return 0;
    for (unsigned i = 0; i < (n ? n : 20); i++) {
        rcu_read_lock();
        rcu_read_lock();
        struct node *it = rcu_dereference(shown);
        unsigned long value = it->value;
        pid_t child = fork();
        rest(2);
        if (CMM_LOAD_SHARED(it->twice) != 2 * value || !rcu_read_ongoing()) uatomic_inc(&wrong);
        rcu_read_unlock();
        if (CMM_LOAD_SHARED(it->twice) != 2 * value || !rcu_read_ongoing()) uatomic_inc(&wrong);
        rcu_read_unlock();
        if (child == 0) {
            alarm(60);
            offline();
            synchronize_rcu();
            online();
            _exit(wrong != 0 || child_reads(1));
        }
        offline();
        waitpid(child, &status, 0);
        online();
        bad += status != 0;
    }
    uatomic_set(&over, 1);
    rcu_unregister_thread();
    pthread_join(updater, 0);
    rcu_barrier();
    if (bad) printf("%d children did not end well\n", bad);
    return !bad;
}

#ifndef NO_EXTRAS
static int calls_run, deferred_run;
static void count_call(struct rcu_head *head) {
    free(head);
    uatomic_inc(&calls_run);
}

static void count_deferred(void *it) {
    (void)it;
    uatomic_inc(&deferred_run);
}

static void defer_some(int count) {
    for (int i = 0; i < count; i++) call_rcu(malloc(sizeof(struct rcu_head)), count_call);
    defer_rcu(count_deferred, 0);
}

static void *wait_for_callbacks(void *it) {
    rcu_barrier();
    return it;
}

static uint64_t callbacks_waiting(void) {
    struct urcu_counters now;
    EXTRA(counters)(&now);
    return now.callbacks_waiting;
}

static int child_defers(void) {
    alarm(20);
    rcu_register_thread();
    look(false);
    defer_some(50);
    rcu_barrier();
    if (calls_run != 50) printf("%d callbacks ran in the child, and not 50\n", calls_run);
    if (deferred_run != 1) printf("%d deferred calls were made in the child\n", deferred_run);
    fflush(stdout);
    return wrong || calls_run != 50 || deferred_run != 1;
}

/* Without liburcu's handlers a child has callbacks of its own, and none of its parent's: there a
 * callback and a deferred call wait for a section, and a thread waits for both by a barrier. */
int bare_callbacks(unsigned n) {
    struct holder holder;
    pthread_t waiter;
    int bad = 0, status;
    open_section(&holder);
    defer_some(1);
    if (pthread_create(&waiter, 0, wait_for_callbacks, 0)) return 0;
    while (callbacks_waiting() < 3) usleep(100); /* the last one is the barrier's marker */
    for (unsigned i = 0; i < (n ? n : 5); i++) {
        pid_t child = fork();
        if (child == 0) _exit(child_defers());
        waitpid(child, &status, 0);
        bad += status != 0;
    }
    int early = calls_run + deferred_run;
    close_section(&holder);
    end_holder(&holder);
    pthread_join(waiter, 0);
    if (bad) printf("%d children did not end well\n", bad);
    return !bad && !early && calls_run == 1 && deferred_run == 1;
}
#endif

/* Without them a child reads, and in every second one a round is made; or it execs at once. */
int bare_forks(unsigned n) {
    pthread_t reader[2], updater;
    int bad = 0, status;
    for (int i = 0; i < 2; i++)
        if (pthread_create(&reader[i], 0, read_on, 0)) return 0;
    if (pthread_create(&updater, 0, update, 0)) return 0;
    rcu_register_thread();
    for (unsigned i = 0; i < (n ? n : 30); i++) {
        rest(1);
        pid_t child = fork();
        if (child == 0) {
            if (i % 3 != 2) _exit(child_reads(i % 3));
            execl("/bin/true", "true", (char *)0);
            _exit(9);
        }
        offline();
        waitpid(child, &status, 0);
        online();
        bad += status != 0;
    }
    uatomic_set(&over, 1);
    rcu_unregister_thread();
    for (int i = 0; i < 2; i++) pthread_join(reader[i], 0);
    pthread_join(updater, 0);
    if (bad) printf("%d children did not end well\n", bad);
    return !bad;
}
