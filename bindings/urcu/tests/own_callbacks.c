/* Callbacks, deferred calls, and polls. */
#include "own.h"
#include <errno.h>
#include <malloc.h>
#include <time.h>

enum { MOST = 20000 };
struct counted {
    struct rcu_head head;
    unsigned long at, times;
};
static struct counted *all_counted;
static unsigned long next_at, out_of_order;

static void count(struct rcu_head *head) {
    struct counted *it = caa_container_of(head, struct counted, head);
    it->times++;
    if (it->at != next_at) out_of_order++;
    next_at = it->at + 1;
}

/* Each runs once, in order, and all have run after the barrier. */
int callbacks(unsigned n) {
    unsigned long other = 0;
    n = n && n < MOST ? n : MOST;
    all_counted = calloc(MOST, sizeof *all_counted);
    for (unsigned i = 0; i < n; i++) {
        all_counted[i].at = i;
        call_rcu(&all_counted[i].head, count);
        if (i % 1000 == 0) rest(5);
    }
    rcu_barrier();
    for (unsigned i = 0; i < n; i++) other += all_counted[i].times != 1;
    free(all_counted);
    if (other) printf("%lu callbacks did not run once\n", other);
    if (out_of_order) printf("%lu callbacks out of order\n", out_of_order);
    return !other && !out_of_order;
}

static int ran;
static void tell(struct rcu_head *head) {
    free(head);
    uatomic_inc(&ran);
}

#ifndef NO_EXTRAS
static void nothing_but_count(struct rcu_head *head) {
    (void)head;
    uatomic_inc(&ran);
}
#endif

/* A callback that is queued while the worker waits has to wait for a grace period of its own. */
int batches(unsigned n) {
    struct holder first, second;
    (void)n;
    for (int round = 0; round < 3; round++) {
        uatomic_set(&ran, 0);
        open_section(&first);
        call_rcu(malloc(sizeof(struct rcu_head)), tell);
        rest(40);
        open_section(&second);
        call_rcu(malloc(sizeof(struct rcu_head)), tell);
        if (uatomic_read(&ran)) return puts("a callback ran in a section"), 0;
        close_section(&first);
        rest(60);
        if (uatomic_read(&ran) > 1) return puts("a callback ran a batch early"), 0;
        end_holder(&first);
        close_section(&second);
        end_holder(&second);
        rcu_barrier();
        if (uatomic_read(&ran) != 2) return puts("a callback did not run"), 0;
    }
    return 1;
}

/* A grace period waits for a section of each engine. The threads have slots of several. */
int engines(unsigned n) {
    enum { THREADS = 16 };
    struct holder holders[THREADS];
    (void)n;
    for (int i = 0; i < THREADS; i++) open_section(&holders[i]);
    call_rcu(malloc(sizeof(struct rcu_head)), tell);
    for (int i = 0; i < THREADS - 1; i++) close_section(&holders[i]);
    rest(200);
    if (uatomic_read(&ran)) return puts("a grace period passed over a section"), 0;
    close_section(&holders[THREADS - 1]);
    for (int i = 0; i < THREADS; i++) end_holder(&holders[i]);
    rcu_barrier();
    return uatomic_read(&ran) == 1;
}

static void slowly(struct rcu_head *head) {
    rest(20);
    tell(head);
}

/* A barrier waits until callbacks have run, and not until they are taken. */
int barriers(unsigned n) {
    (void)n;
    for (int i = 0; i < 3; i++) call_rcu(malloc(sizeof(struct rcu_head)), slowly);
    rcu_barrier();
    return uatomic_read(&ran) == 3;
}

#ifndef NO_EXTRAS
/* With nothing queued a barrier is no grace period: it returns while another thread is in a section
 * (liburcu's waits for it). */
int barriers_alone(unsigned n) {
    struct holder holder;
    (void)n;
    for (int i = 0; i < 3; i++) {
        open_section(&holder);
        rcu_barrier();
        close_section(&holder);
        end_holder(&holder);
        call_rcu(malloc(sizeof(struct rcu_head)), tell);
        rcu_barrier();
        if (uatomic_read(&ran) != i + 1) return puts("a barrier did not wait"), 0;
    }
    return 1;
}
#endif

/* What callbacks queue runs too, and a barrier waits for what was queued before it. */
static struct again {
    struct rcu_head head;
    int left;
} chain = {.left = 10};
static void queue_again(struct rcu_head *head) {
    struct again *it = caa_container_of(head, struct again, head);
    uatomic_inc(&ran);
    if (--it->left) call_rcu(head, queue_again);
}

int chains(unsigned n) {
    (void)n;
    rcu_register_thread();
    rcu_read_lock();
    call_rcu(&chain.head, queue_again);
    rcu_read_unlock();
    rcu_unregister_thread();
    for (int i = 1; i <= 10; i++) {
        rcu_barrier();
        if (uatomic_read(&ran) < i) return puts("a barrier did not wait"), 0;
    }
    return uatomic_read(&ran) == 10;
}

static void nothing(struct rcu_head *head) {
    (void)head;
}

/* A callback takes no memory. */
int memory(unsigned n) {
    static struct rcu_head heads[MOST];
    (void)n;
    call_rcu(&heads[0], nothing);
    rcu_barrier();
    size_t before = mallinfo2().uordblks + mallinfo2().hblkhd;
    for (int i = 1; i < MOST; i++) call_rcu(&heads[i], nothing);
    size_t after = mallinfo2().uordblks + mallinfo2().hblkhd;
    rcu_barrier();
    return after == before;
}

#ifndef NO_EXTRAS
static double seconds(void) {
    struct timespec time;
    clock_gettime(CLOCK_MONOTONIC, &time);
    return (double)time.tv_sec + (double)time.tv_nsec / 1e9;
}

/* The least time from call_rcu to the callback's run, of some. */
static double least_wait(void) {
    static struct rcu_head heads[40];
    static int used;
    double least = 1e9;
    for (int i = 0; i < 20; i++) {
        uatomic_set(&ran, 0);
        double begun = seconds();
        call_rcu(&heads[used++], nothing_but_count);
        while (!uatomic_read(&ran)) usleep(100);
        double took = seconds() - begun;
        if (took < least) least = took;
    }
    return least;
}

/* A worker lets callbacks gather for 10 ms; where it is told so it does not. */
int gathers(unsigned n) {
    (void)n;
    double resting = least_wait();
    EXTRA(call_rcu_rest)(0);
    double awake = least_wait();
    if (resting >= 0.009 && awake < 0.009) return 1;
    return printf("%.4f s, and %.4f s\n", resting, awake), 0;
}
#endif

/* As in liburcu 0.13, the thread of a worker that is freed is left to the program. */
static void free_worker(struct call_rcu_data *worker) {
    pthread_t thread = get_call_rcu_thread(worker);
    call_rcu_data_free(worker);
    pthread_join(thread, 0);
}

static void free_workers_of_cpus(void) {
    enum { CPUS = 64 };
    pthread_t threads[CPUS];
    unsigned count = 0;
    for (int cpu = 0; cpu < CPUS; cpu++) {
        struct call_rcu_data *worker = get_cpu_call_rcu_data(cpu);
        if (worker) threads[count++] = get_call_rcu_thread(worker);
    }
    free_all_cpu_call_rcu_data();
    while (count) pthread_join(threads[--count], 0);
}

static void *end_late(void *it) {
    rest(50);
    return it;
}

/* Where it was joined before, the program's next thread has its slot. */
int joins(unsigned n) {
    struct call_rcu_data *own = create_call_rcu_data(0, -1);
    pthread_t thread = get_call_rcu_thread(own), next;
    void *answer = own;
    (void)n;
    call_rcu_data_free(own);
    if (pthread_create(&next, 0, end_late, &ran)) return 0;
    if (pthread_join(thread, &answer) || answer) return puts("another thread was joined"), 0;
    return !pthread_join(next, &answer) && answer == &ran;
}

/* What the calls of workers answer, in errno too. */
int answers(unsigned n) {
    struct call_rcu_data *own = create_call_rcu_data(URCU_CALL_RCU_RT, -1);
    (void)n;
    errno = 0;
    if (set_cpu_call_rcu_data(-1, own) != -EINVAL || errno != EINVAL) return 0;
    if (set_cpu_call_rcu_data(1 << 20, own) != -EINVAL) return 0;
    if (set_cpu_call_rcu_data(0, own) || get_cpu_call_rcu_data(0) != own) return 0;
    errno = 0;
    if (set_cpu_call_rcu_data(0, own) != -EEXIST || errno != EEXIST) return 0;
    if (create_all_cpu_call_rcu_data(0) || get_cpu_call_rcu_data(0) != own) return 0;
    if (set_cpu_call_rcu_data(0, 0) || get_cpu_call_rcu_data(0)) return 0;
    synchronize_rcu();
    free_worker(own);
    free_workers_of_cpus();
    call_rcu_data_free(0);
    call_rcu_data_free(get_default_call_rcu_data());
    return !get_thread_call_rcu_data() &&
           !pthread_equal(get_call_rcu_thread(get_default_call_rcu_data()), pthread_self());
}

static void *queue_some(void *it) {
    struct call_rcu_data *own = create_call_rcu_data(0, -1);
    set_thread_call_rcu_data(own);
    for (int i = 0; i < 500; i++) call_rcu(malloc(sizeof(struct rcu_head)), tell);
    set_thread_call_rcu_data(0);
    free_worker(own);
    return it;
}

/* Workers of processors and of threads come and go; nothing that they have is lost. */
int workers(unsigned n) {
    pthread_t threads[4];
    (void)n;
    if (create_all_cpu_call_rcu_data(0)) return 0;
    for (int i = 0; i < 500; i++) call_rcu(malloc(sizeof(struct rcu_head)), tell);
    for (int i = 0; i < 4; i++)
        if (pthread_create(&threads[i], 0, queue_some, 0)) return 0;
    for (int i = 0; i < 4; i++) pthread_join(threads[i], 0);
    free_workers_of_cpus();
    for (int i = 0; i < 500; i++) call_rcu(malloc(sizeof(struct rcu_head)), tell);
    rcu_barrier();
    return uatomic_read(&ran) == 3000 && get_call_rcu_data() == get_default_call_rcu_data() &&
           !get_cpu_call_rcu_data(0);
}

static void count_deferred(void *it) {
    uatomic_add(&ran, (int)(long)it);
}

/* Any values, and functions in turn: in the order in which they were deferred. */
static long expected[] = {0, 1, -1, -2, -3, 1, 1, 2, -2, -2};
static unsigned long deferred_at;
static void take_one(void *it, unsigned kind) {
    unsigned long at = uatomic_add_return(&deferred_at, 1) - 1;
    if ((long)it != expected[at % CAA_ARRAY_SIZE(expected)] || kind != at % 3 % 2)
        uatomic_inc(&wrong);
}
static void take_even(void *it) {
    take_one(it, 0);
}
static void take_odd(void *it) {
    take_one(it, 1);
}

static void *defer_values(void *it) {
    rcu_defer_register_thread();
    for (unsigned i = 0; i < 3000; i++)
        defer_rcu(i % 3 % 2 ? take_odd : take_even,
                  (void *)expected[i % CAA_ARRAY_SIZE(expected)]);
    rcu_defer_barrier_thread();
    rcu_defer_unregister_thread();
    return it;
}

/* By two threads, of which one waits for all. */
int values(unsigned n) {
    pthread_t thread;
    (void)n;
    if (pthread_create(&thread, 0, defer_values, 0)) return 0;
    while (!uatomic_read(&deferred_at)) {
        rcu_defer_barrier();
        usleep(100);
    }
    pthread_join(thread, 0);
    return uatomic_read(&deferred_at) == 3000;
}

static void *defer_and_end(void *it) {
    rcu_defer_register_thread();
    for (int i = 0; i < 5000; i++) defer_rcu(count_deferred, (void *)1l);
    return it;
}

/* What is deferred waits for the sections, and is made also where nobody asks. */
int defers(unsigned n) {
    struct holder holder;
    pthread_t thread;
    (void)n;
    rcu_defer_register_thread();
    open_section(&holder);
    for (int i = 0; i < 10; i++) defer_rcu(count_deferred, (void *)1l);
    rest(50);
    if (uatomic_read(&ran)) return puts("a deferred call was made in a section"), 0;
    close_section(&holder);
    end_holder(&holder);
    rcu_defer_barrier();
    if (uatomic_read(&ran) != 10) return puts("a deferred call is missing"), 0;
    for (int i = 0; i < 5000; i++) defer_rcu(count_deferred, (void *)1l);
    rcu_defer_unregister_thread();
    if (uatomic_read(&ran) != 5010) return puts("a deferred call is missing at the end"), 0;
    if (pthread_create(&thread, 0, defer_and_end, 0)) return 0;
    pthread_join(thread, 0);
    for (int i = 0; i < 500 && uatomic_read(&ran) != 10010; i++) rest(10);
    return uatomic_read(&ran) == 10010;
}

#ifndef NO_EXTRAS
/* A poll says no while a section is open that was open at its start. */
int polls(unsigned n) {
    struct holder holder;
    n = n ? n : 100;
    open_section(&holder);
    struct urcu_gp_poll_state state = start_poll_synchronize_rcu();
    rest(30);
    if (poll_state_synchronize_rcu(state)) return puts("a poll said yes in a section"), 0;
    close_section(&holder);
    end_holder(&holder);
    rcu_register_thread();
    for (unsigned i = 0; i < n; i++) {
        state = start_poll_synchronize_rcu();
        while (!poll_state_synchronize_rcu(state)) {
            quiescent();
            sched_yield();
        }
    }
    rcu_unregister_thread();
    return 1;
}
#endif
