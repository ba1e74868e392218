/* Two threads read all the time: one renews its section, the other one pins, and may block between
 * two sections. A third thread replaces what is read, and defers the freeing by its own seat, with
 * no lock. The main thread drives grace periods while values wait. */
#include "rcu.h"
#include <inttypes.h>
#include <pthread.h>
#include <sched.h>
#include <stdatomic.h>
#include <stdio.h>
#include <stdlib.h>

enum { UPDATER, RENEWS, PINS, CPUS, UPDATES = 20000, BATCH = 32, ROOM = 64, READS_EACH = 16 };

struct setting {
    uint64_t value, twice;
};

static pthread_mutex_t lock = PTHREAD_MUTEX_INITIALIZER; /* over the engine */
static rcu_t rcu;
static rcu_seat_t seats[CPUS];
static _Atomic(struct setting *) shown;
static atomic_bool over, freed_all;
static _Atomic uint64_t wanted; /* the cookie that the updater waits for */

static void must(const char *call, uint32_t fault) {
    if (fault) fprintf(stderr, "%s: %s\n", call, rcu_fault_text(fault));
    if (fault) abort();
}

static struct setting *new_setting(uint64_t value) {
    struct setting *setting = malloc(sizeof *setting);
    if (!setting) abort();
    setting->value = value;
    setting->twice = 2 * value;
    return setting;
}

/* In a section: what is shown never goes back. */
static void read_some(uint64_t *last) {
    for (int i = 0; i < READS_EACH; i++) {
        struct setting *setting = atomic_load_explicit(&shown, memory_order_acquire);
        if (setting->twice != 2 * setting->value || setting->value < *last) abort();
        *last = setting->value;
    }
}

static void *renew_and_read(void *it) {
    uint64_t quiet_at = 0, last = 0;
    must("enter", rcu_seat_enter(&seats[RENEWS]));
    while (!atomic_load_explicit(&over, memory_order_relaxed)) {
        read_some(&last);
        RCU_SANITIZER_RELEASE(&seats[RENEWS]);
        must("renew", rcu_seat_renew(&seats[RENEWS], &quiet_at));
    }
    must("exit", rcu_seat_exit(&seats[RENEWS]));
    RCU_SANITIZER_RELEASE(&seats[RENEWS]);
    must("idle", rcu_seat_idle(&seats[RENEWS]));
    return it;
}

static void *pin_and_read(void *it) {
    uint64_t quiet_at = 0, last = 0;
    while (!atomic_load_explicit(&over, memory_order_relaxed)) {
        must("pin", rcu_seat_pin(&seats[PINS]));
        read_some(&last);
        RCU_SANITIZER_RELEASE(&seats[PINS]);
        must("repin", rcu_seat_repin(&seats[PINS], &quiet_at));
        read_some(&last);
        RCU_SANITIZER_RELEASE(&seats[PINS]);
        must("unpin", rcu_seat_unpin(&seats[PINS]));
        sched_yield();
    }
    return it;
}

/* Frees what is done, in the order of its deferral, and says for which cookie the rest waits. */
static void free_done(uint64_t *freed) {
    uint64_t values[ROOM], count;
    must("run", rcu_defer_run(&seats[UPDATER], values, ROOM, &count));
    for (int cpu = 0; cpu < CPUS; cpu++) RCU_SANITIZER_ACQUIRE(&seats[cpu]);
    for (uint64_t i = 0; i < count; i++) {
        struct setting *setting = (struct setting *)(uintptr_t)values[i];
        if (setting->value != (*freed)++) abort();
        setting->twice = 1;
        free(setting);
    }
    atomic_store(&wanted, rcu_defer_cookie(&seats[UPDATER]));
}

static void *replace_all(void *freed) {
    for (uint64_t i = 1; i <= UPDATES; i++) {
        struct setting *old = atomic_load_explicit(&shown, memory_order_relaxed);
        atomic_store_explicit(&shown, new_setting(i), memory_order_release);
        must("defer", rcu_defer(&seats[UPDATER], (uintptr_t)old));
        if (i % BATCH == 0) free_done(freed);
    }
    while (rcu_defer_count(&seats[UPDATER])) free_done(freed);
    atomic_store(&freed_all, true);
    return 0;
}

/* A step of driving, where the updater waits for a grace period. */
static void drive(void) {
    rcu_turn_t turn;
    pthread_mutex_lock(&lock);
    must("drive", rcu_drive_for(&rcu, atomic_load(&wanted), &turn));
    pthread_mutex_unlock(&lock);
    sched_yield();
}

int main(void) {
    static void *(*const works[CPUS])(void *) = {replace_all, renew_and_read, pin_and_read};
    pthread_t threads[CPUS];
    uint64_t freed = 0;
    must("open", rcu_open(CPUS, UINT64_C(1) << 62, &rcu));
    for (uint32_t cpu = 0; cpu < CPUS; cpu++) {
        must("seat", rcu_seat_open(&rcu, cpu, &seats[cpu]));
        if (cpu != UPDATER) must("arrive", rcu_arrive(&rcu, &seats[cpu]));
    }
    must("idle", rcu_seat_idle(&seats[UPDATER])); /* it reads nothing */
    must("idle", rcu_seat_idle(&seats[PINS]));    /* between its sections */
    atomic_store(&shown, new_setting(0));
    for (int cpu = 0; cpu < CPUS; cpu++)
        if (pthread_create(&threads[cpu], 0, works[cpu], &freed)) abort();
    while (!atomic_load(&freed_all)) drive();
    atomic_store(&over, true);
    for (int cpu = 0; cpu < CPUS; cpu++) pthread_join(threads[cpu], 0);
    printf("freed %" PRIu64 " of %d in the order of their deferral\n", freed, UPDATES);
    free(atomic_load(&shown));
    for (int cpu = 0; cpu < CPUS; cpu++) rcu_seat_close(&seats[cpu]);
    rcu_close(&rcu);
    return 0;
}
