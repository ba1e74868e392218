/* Reads and updates a second, by rcu.h and by liburcu's flavours qsbr and memb, one
 * after the other in each of many short rounds, which begin with each of them in turn. So what else
 * the machine does meets all alike: a ratio is that of a round, and the median of all. bench/c builds
 * it with liburcu's library calls (not its inline ones). Here readers renew a section each EACH
 * reads; "sections" are of two calls each, with a quiescent state in place of the renewal; "pins"
 * open and close one for EACH reads, and are idle in between. The first argument is how many rounds
 * are made, 21 where there is none. */
#define _GNU_SOURCE
#include "rcu.h"
#include <pthread.h>
#include <sched.h>
#include <stdatomic.h>
#include <stdio.h>
#include <stdlib.h>
#include <time.h>
#include <urcu/urcu-memb.h>
#include <urcu/urcu-qsbr.h>

enum { READERS = 3, UPDATERS = 4, CPUS = UPDATERS + READERS, MOST = 1000, EACH = 16, BATCH = 64 };
enum { HERE, QSBR, MEMB, LIBRARIES, SECTIONS = LIBRARIES, PINS, WAYS };

/* The headers of two flavours in one file declare the callbacks of the first alone. */
void urcu_qsbr_call_rcu(struct rcu_head *head, void (*run)(struct rcu_head *head));
void urcu_qsbr_barrier(void);

static const char *const names[WAYS] = {"here", "qsbr", "memb", "sections", "pins"};
static const double seconds = 0.1;
static int rounds = 21;

struct node {
    rcu_link_t link;
    struct rcu_head theirs;
    uint64_t value, twice;
};

static _Atomic(struct node *) shown;
static atomic_bool over;
static atomic_uint wrong;
static pthread_barrier_t start;

/* ---- rcu.h. Once in BATCH times that an updater defers, it takes a step of driving. */

struct place {
    _Alignas(128) rcu_seat_t seat;
    uint64_t quiet_at, deferred;
};
static struct place places[CPUS];
static rcu_t rcu;
static pthread_mutex_t lock = PTHREAD_MUTEX_INITIALIZER;

static void must(uint32_t fault) {
    if (fault) fprintf(stderr, "%s\n", rcu_fault_text(fault));
    if (fault) abort();
}

static void arrive(struct place *place) {
    pthread_mutex_lock(&lock);
    must(rcu_arrive(&rcu, &place->seat));
    pthread_mutex_unlock(&lock);
}

static void depart(struct place *place) {
    uint64_t moved;
    pthread_mutex_lock(&lock);
    must(rcu_depart(&rcu, &place->seat, &moved));
    pthread_mutex_unlock(&lock);
}

static void drive_for(uint64_t cookie) {
    rcu_turn_t turn;
    pthread_mutex_lock(&lock);
    must(rcu_drive_for(&rcu, cookie, &turn));
    pthread_mutex_unlock(&lock);
}

static void free_done(struct place *place) {
    for (rcu_link_t *link; (link = rcu_defer_take(&place->seat));) free(link);
    drive_for(rcu_defer_cookie(&place->seat));
}

static void defer_here(struct place *place, rcu_link_t *link) {
    must(rcu_defer_link(&place->seat, link));
    if (++place->deferred % BATCH == 0) free_done(place);
}

static void finish_here(struct place *place) {
    for (; rcu_defer_count(&place->seat); sched_yield()) free_done(place);
}

/* Processor 0 is idle, and those of the other updaters are offline: they read nothing. */
static void open_here(void) {
    must(rcu_open(CPUS, UINT64_C(1) << 62, &rcu));
    for (uint32_t cpu = 0; cpu < CPUS; cpu++) must(rcu_seat_open(&rcu, cpu, &places[cpu].seat));
    must(rcu_seat_idle(&places[0].seat));
}

static void close_here(void) {
    for (uint32_t cpu = 0; cpu < CPUS; cpu++) rcu_seat_close(&places[cpu].seat);
    rcu_close(&rcu);
}

/* ---- what is measured */

static double now(void) {
    struct timespec time;
    clock_gettime(CLOCK_MONOTONIC, &time);
    return (double)time.tv_sec + (double)time.tv_nsec * 1e-9;
}

static struct node *new_node(uint64_t value) {
    struct node *node = malloc(sizeof *node);
    if (!node) abort();
    node->value = value;
    node->twice = 2 * value;
    return node;
}

static struct node *replace(uint64_t value) {
    return atomic_exchange_explicit(&shown, new_node(value), memory_order_acq_rel);
}

static void read_once(void) {
    struct node *node = atomic_load_explicit(&shown, memory_order_acquire);
    if (node->twice != 2 * node->value) atomic_fetch_add(&wrong, 1);
}

static void free_theirs(struct rcu_head *head) {
    free((char *)head - offsetof(struct node, theirs));
}

/* A thread that reads, until all is over: how many sections it had. Each stands in cache lines of
 * its own. */
struct reader {
    _Alignas(128) pthread_t id;
    struct place *place;
    uint64_t reads;
    double took;
};

#define READS(NAME, ARRIVE, ENTER, EXIT, QUIET, DEPART)                                            \
    static void *NAME##_reads(void *it) {                                                          \
        struct reader *reader = it;                                                                \
        ARRIVE;                                                                                    \
        pthread_barrier_wait(&start);                                                              \
        double begun = now();                                                                      \
        while (!atomic_load_explicit(&over, memory_order_relaxed)) {                               \
            for (int i = 0; i < EACH; i++) {                                                       \
                ENTER;                                                                             \
                read_once();                                                                       \
                EXIT;                                                                              \
            }                                                                                      \
            QUIET;                                                                                 \
            reader->reads += EACH;                                                                 \
        }                                                                                          \
        reader->took = now() - begun;                                                              \
        DEPART;                                                                                    \
        return 0;                                                                                  \
    }

READS(own, (arrive(reader->place), rcu_seat_enter(&reader->place->seat)), , ,
      rcu_seat_renew(&reader->place->seat, &reader->place->quiet_at),
      (rcu_seat_exit(&reader->place->seat), depart(reader->place)))
READS(qsbr, urcu_qsbr_register_thread(), urcu_qsbr_read_lock(), urcu_qsbr_read_unlock(),
      urcu_qsbr_quiescent_state(), urcu_qsbr_unregister_thread())
READS(memb, urcu_memb_register_thread(), urcu_memb_read_lock(), urcu_memb_read_unlock(), ,
      urcu_memb_unregister_thread())
READS(section, arrive(reader->place), rcu_seat_enter(&reader->place->seat),
      rcu_seat_exit(&reader->place->seat),
      rcu_seat_quiesce_since(&reader->place->seat, &reader->place->quiet_at), depart(reader->place))
READS(pin, (arrive(reader->place), rcu_seat_idle(&reader->place->seat)),
      if (!i) rcu_seat_pin(&reader->place->seat), ,
      rcu_seat_unpin(&reader->place->seat), depart(reader->place))

static void *(*const reads[WAYS])(void *) = {own_reads, qsbr_reads, memb_reads, section_reads,
                                             pin_reads};

static void defer(int way, struct place *place, struct node *node) {
    if (way == QSBR) urcu_qsbr_call_rcu(&node->theirs, free_theirs);
    else if (way == MEMB) urcu_memb_call_rcu(&node->theirs, free_theirs);
    else defer_here(place, &node->link);
}

static void finish(int way, struct place *place) {
    if (way == QSBR) urcu_qsbr_barrier();
    else if (way == MEMB) urcu_memb_barrier();
    else finish_here(place);
}

/* What threads do beside the readers, each as often as the time lets it. */
enum kind { READ, UPDATE };

struct updater {
    _Alignas(128) pthread_t id;
    struct place *place;
    enum kind kind;
    int way;
    uint64_t times;
    double took;
};

static void *work(void *it) {
    struct updater *self = it;
    pthread_barrier_wait(&start);
    double begun = now();
    for (; now() < begun + seconds; self->times++) {
        defer(self->way, self->place, replace(self->times));
        if (self->kind == READ) nanosleep(&(struct timespec){0, 1000000}, 0);
    }
    self->took = now() - begun;
    finish(self->way, self->place);
    return 0;
}

/* How much was done a second: reads of one thread, updates of all. */
static double measure(enum kind kind, int way, unsigned many, unsigned others) {
    struct reader readers[READERS] = {{0}};
    struct updater updaters[UPDATERS] = {{0}};
    double all = 0, times = 0;
    atomic_store(&over, false);
    pthread_barrier_init(&start, 0, many + others);
    for (unsigned i = 0; i < many; i++) {
        readers[i].place = &places[UPDATERS + i];
        if (pthread_create(&readers[i].id, 0, reads[way], &readers[i])) abort();
    }
    for (unsigned i = 0; i < others; i++) {
        updaters[i].place = &places[i];
        updaters[i].kind = kind;
        updaters[i].way = way;
        if (pthread_create(&updaters[i].id, 0, work, &updaters[i])) abort();
    }
    for (unsigned i = 0; i < others; i++) pthread_join(updaters[i].id, 0);
    atomic_store(&over, true);
    for (unsigned i = 0; i < others; i++) times += (double)updaters[i].times / updaters[i].took;
    for (unsigned i = 0; i < many; i++) {
        pthread_join(readers[i].id, 0);
        all += (double)readers[i].reads / readers[i].took;
    }
    pthread_barrier_destroy(&start);
    return kind == READ ? all / many : times;
}

static int compare(const void *one, const void *other) {
    double a = *(const double *)one, b = *(const double *)other;
    return (a > b) - (a < b);
}

/* Sorts the figures of all rounds. Prints the median, and the quartiles around it. */
static void show_row(const char *name, double *row, int digits) {
    qsort(row, (size_t)rounds, sizeof *row, compare);
    printf(" %s %.*f [%.*f..%.*f]", name, digits, row[rounds / 2], digits, row[rounds / 4], digits,
           row[rounds * 3 / 4]);
}

static void show(const char *what, enum kind kind, unsigned many, unsigned others) {
    static double seen[WAYS][MOST], ratios[WAYS][MOST];
    int ways = kind == READ ? WAYS : LIBRARIES;
    for (int round = 0; round < rounds; round++) {
        for (int i = 0; i < ways; i++) {
            int way = (round + i) % ways;
            seen[way][round] = measure(kind, way, many, others);
        }
        for (int way = 1; way < ways; way++) ratios[way][round] = seen[0][round] / seen[way][round];
    }
    printf("%s, %u+%u:", what, many, others);
    for (int way = 0; way < ways; way++) {
        show_row(names[way], seen[way], 0);
        if (way) show_row("x", ratios[way], 2);
        fputs(way + 1 < ways ? "," : "\n", stdout);
    }
    fflush(stdout);
}

int main(int count, char **words) {
    if (count > 1) rounds = atoi(words[1]);
    if (rounds < 1 || rounds > MOST) return 2;
    open_here();
    atomic_store(&shown, new_node(0));
    for (unsigned many = 1; many <= 3; many += 2) {
        show("reads a second and reader", READ, many, 1);
        show("updates a second", UPDATE, many, 1);
    }
    show("reads a second and reader", READ, 2, 2);
    show("updates a second", UPDATE, 2, 2);
    show("updates a second", UPDATE, 0, 4);
    free(atomic_load(&shown));
    close_here();
    if (atomic_load(&wrong)) printf("read wrong: %u\n", atomic_load(&wrong));
    return atomic_load(&wrong) > 0;
}
