/* Nanoseconds of each call of liburcu's interface, for one flavour: bench/urcu builds it over the
 * drop-in and over liburcu itself. A row is a name and a figure: of one thread its own time on a
 * processor, of four what one of them spends. The rows behind bytes-of-a-slot are measured after
 * 4,096 threads have registered, and left. */
#define _GNU_SOURCE
#ifdef USE_QSBR
#include <urcu-qsbr.h>
#elif defined(USE_BP)
#include <urcu-bp.h>
#else
#include <urcu.h>
#endif
#include <pthread.h>
#include <stdio.h>
#include <stdlib.h>
#include <string.h>
#include <time.h>
#include <unistd.h>
#include <urcu/uatomic.h>

enum { THREADS = 4, REGISTERED = 4096 };

static double own_time(void) {
    struct timespec time;
    clock_gettime(CLOCK_THREAD_CPUTIME_ID, &time);
    return (double)time.tv_sec * 1e9 + (double)time.tv_nsec;
}

static double wall_time(void) {
    struct timespec time;
    clock_gettime(CLOCK_MONOTONIC, &time);
    return (double)time.tv_sec * 1e9 + (double)time.tv_nsec;
}

#define MEASURE(name, n, step) \
    do { \
        double begun_ = own_time(); \
        for (long at_ = 0; at_ < (n); at_++) { step; } \
        printf("%s %.3f\n", name, (own_time() - begun_) / (double)(n)); \
    } while (0)

static void offline(void) {
#ifdef USE_QSBR
    rcu_thread_offline();
#endif
}

static void online(void) {
#ifdef USE_QSBR
    rcu_thread_online();
#endif
}

static void nothing(struct rcu_head *head) {
    (void)head;
}

static void nothing_of(void *p) {
    (void)p;
}

/* ---- four threads */

static pthread_barrier_t gate;
static struct rcu_head *heads;
enum { CALLS = 200000 };

static void *sections(void *it) {
    double *spent = it;
    rcu_register_thread();
    offline();
    pthread_barrier_wait(&gate);
    online();
    double begun = own_time();
    for (long i = 0; i < 2000000; i++) {
        rcu_read_lock();
        rcu_read_unlock();
    }
    *spent = (own_time() - begun) / 2000000;
    rcu_unregister_thread();
    return 0;
}

static void *calls(void *it) {
    long who = (long)it;
    pthread_barrier_wait(&gate);
    for (long i = 0; i < CALLS; i++) call_rcu(&heads[who * CALLS + i], nothing);
    return 0;
}

static void of_four_threads(void) {
    pthread_t threads[THREADS];
    double spent[THREADS], sum = 0;
    pthread_barrier_init(&gate, 0, THREADS);
    for (long i = 0; i < THREADS; i++) pthread_create(&threads[i], 0, sections, &spent[i]);
    for (int i = 0; i < THREADS; i++) {
        pthread_join(threads[i], 0);
        sum += spent[i];
    }
    printf("section-of-4-threads %.3f\n", sum / THREADS);
    double begun = wall_time();
    for (long i = 0; i < THREADS; i++) pthread_create(&threads[i], 0, calls, (void *)i);
    for (int i = 0; i < THREADS; i++) pthread_join(threads[i], 0);
    rcu_barrier();
    printf("callback-run-of-4-callers %.3f\n", (wall_time() - begun) / THREADS / CALLS);
}

/* ---- grace periods beside three readers */

static int over;
static void *read_on(void *it) {
    rcu_register_thread();
    while (!uatomic_read(&over)) {
        for (int i = 0; i < 100; i++) {
            rcu_read_lock();
            rcu_read_unlock();
        }
#ifdef USE_QSBR
        rcu_quiescent_state();
#endif
    }
    rcu_unregister_thread();
    return it;
}

static int compare(const void *one, const void *other) {
    unsigned long a = *(const unsigned long *)one, b = *(const unsigned long *)other;
    return (a > b) - (a < b);
}

/* The median of single calls. On a busy machine too it is that of calls whose readers ran: the mean
 * is made by those calls that waited until a reader was scheduled again. */
static void median_of_calls(const char *when) {
    static unsigned long took[20000];
    double begun = wall_time();
    unsigned long first = __builtin_ia32_rdtsc();
    long n = 0;
    for (; n < 20 || (n < 20000 && wall_time() - begun < 2e8); n++) {
        unsigned long at = __builtin_ia32_rdtsc();
        synchronize_rcu();
        took[n] = __builtin_ia32_rdtsc() - at;
    }
    double ticks = (double)(__builtin_ia32_rdtsc() - first);
    qsort(took, (size_t)n, sizeof *took, compare);
    printf("median-synchronize-beside-3%s %.3f\n", when,
           (double)took[n / 2] * (wall_time() - begun) / ticks);
}

static void beside_readers(const char *when) {
    pthread_t threads[3];
    uatomic_set(&over, 0);
    for (int i = 0; i < 3; i++) pthread_create(&threads[i], 0, read_on, 0);
    usleep(20000);
    double begun = wall_time();
    long n = 0;
    for (; n < 20 || (n < 20000 && wall_time() - begun < 2e8); n++) synchronize_rcu();
    printf("synchronize-beside-3-readers%s %.3f\n", when, (wall_time() - begun) / (double)n);
    median_of_calls(when);
    uatomic_set(&over, 1);
    for (int i = 0; i < 3; i++) pthread_join(threads[i], 0);
}

/* ---- memory */

static long resident(void) {
    long pages = 0, whole;
    FILE *file = fopen("/proc/self/statm", "r");
    if (!file || fscanf(file, "%ld %ld", &whole, &pages) != 2) exit(1);
    fclose(file);
    return pages * sysconf(_SC_PAGESIZE);
}

static pthread_barrier_t steps;
static void *stay(void *it) {
    for (int i = 0; i < 3; i++) pthread_barrier_wait(&steps);
    rcu_register_thread();
    offline();
    for (int i = 0; i < 2; i++) pthread_barrier_wait(&steps);
    rcu_unregister_thread();
    return it;
}

static void of_memory(void) {
    pthread_attr_t small;
    static pthread_t threads[REGISTERED];
    pthread_attr_init(&small);
    pthread_attr_setstacksize(&small, 1 << 16);
    pthread_barrier_init(&steps, 0, REGISTERED + 1);
    for (int i = 0; i < REGISTERED; i++)
        if (pthread_create(&threads[i], &small, stay, 0)) exit(1);
    pthread_barrier_wait(&steps);
    pthread_barrier_wait(&steps);
    long before = resident();
    pthread_barrier_wait(&steps);
    pthread_barrier_wait(&steps);
    printf("bytes-of-a-slot %.1f\n", (double)(resident() - before) / REGISTERED);
    pthread_barrier_wait(&steps);
    for (int i = 0; i < REGISTERED; i++) pthread_join(threads[i], 0);
}

int main(void) {
    heads = calloc((size_t)THREADS * CALLS, sizeof *heads);
    memset(heads, 1, (size_t)THREADS * CALLS * sizeof *heads);
    rcu_register_thread();
    MEASURE("synchronize-alone-at-first", 20000, synchronize_rcu());
    offline();
    beside_readers("-at-first");
    online();
    rcu_unregister_thread();
    of_memory();
    rcu_register_thread();
    MEASURE("section", 3000000, rcu_read_lock(); rcu_read_unlock());
    rcu_read_lock();
    MEASURE("nested-section", 3000000, rcu_read_lock(); rcu_read_unlock());
    rcu_read_unlock();
#ifdef USE_QSBR
    MEASURE("quiescent-state", 3000000, rcu_quiescent_state());
    MEASURE("offline-and-online", 1000000, rcu_thread_offline(); rcu_thread_online());
#endif
    MEASURE("synchronize-alone", 20000, synchronize_rcu());
    MEASURE("unregister-and-register", 100000, rcu_unregister_thread(); rcu_register_thread());
    offline();
    double begun = wall_time();
    MEASURE("call_rcu", CALLS, call_rcu(&heads[at_], nothing));
    rcu_barrier();
    printf("callback-run %.3f\n", (wall_time() - begun) / CALLS);
    rcu_defer_register_thread();
    MEASURE("defer_rcu", 200000, defer_rcu(nothing_of, 0));
    rcu_defer_unregister_thread();
    of_four_threads();
    beside_readers("");
    online();
    rcu_unregister_thread();
    return 0;
}
