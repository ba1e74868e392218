/* Slots, and the engines that they are of. Where all are taken an engine is opened, of twice as
 * many processors as the last one, up to LARGEST_ENGINE: so each thread that comes finds a slot,
 * and few are opened in vain. The oldest engines are the smallest, and are filled first: so few and
 * small ones are in a grace period. A seat is opened when its first thread comes. All stay open
 * until the process ends; a grace period takes those offline whose slots are free.
 *
 * It rests on these sentences of include/rcu.h: of rcu_seat_idle, "it opens no section, and no
 * grace period waits for it", and "what the thread did before comes before what follows the
 * collection or the begin that finds it idle"; of rcu_seat_wake, "a grace period that begins later
 * awaits the processor", and of one that found it idle "the section sees what came before its
 * begin"; and of rcu_arrive, "a grace period that begins later awaits the processor". It adds: that
 * a slot is one thread's at a time, from taking it to giving it back. */
#include "seats.h"
#include <sys/mman.h>
#include <sys/syscall.h>
#include <unistd.h>

enum { SMALLEST_ENGINE = 8 };
static const uint64_t NO_LAST_NUMBER = UINT64_C(1) << 62;

static struct engine *new_engine(uint32_t cpus) {
    struct engine *engine = room_malloc(sizeof *engine);
    void *slots = mmap(0, cpus * sizeof(struct slot), PROT_READ | PROT_WRITE,
                        MAP_PRIVATE | MAP_ANONYMOUS, -1, 0);
    if (!engine || slots == MAP_FAILED) fail("register", "out of memory");
    *engine = (struct engine){.cpus = cpus, .slots = slots};
    must("open", rcu_open(cpus, NO_LAST_NUMBER, &engine->rcu));
    return engine;
}

static struct engine *engine_with_room(void) {
    struct engine **at = &all.engines;
    uint32_t cpus = SMALLEST_ENGINE;
    for (; *at && (*at)->taken == (*at)->cpus; at = &(*at)->next)
        cpus = 2 * cpus < LARGEST_ENGINE ? 2 * cpus : LARGEST_ENGINE;
    if (!*at) *at = new_engine(cpus);
    return *at;
}

/* The seat of processor 0 is the first that is opened, and is online always. */
static bool is_of_cpu_0(const struct slot *slot) {
    return slot == slot->engine->slots;
}

static struct slot *new_slot(struct engine *engine) {
    uint32_t cpu = engine->opened++;
    struct slot *slot = &engine->slots[cpu];
    must("open a seat", rcu_seat_open(&engine->rcu, cpu, &slot->seat));
    slot->engine = engine;
    if (is_of_cpu_0(slot)) must("idle", rcu_seat_idle(&slot->seat));
    return slot;
}

static void arrive(struct slot *slot) {
    must("arrive", rcu_arrive(&slot->engine->rcu, &slot->seat));
    must("idle", rcu_seat_idle(&slot->seat));
}

static void take_free_slot(const void *registered_at) {
    struct engine *engine = engine_with_room();
    struct slot *slot = engine->free_slots;
    if (slot) engine->free_slots = slot->next;
    else slot = new_slot(engine);
    if (!rcu_seat_is_online(&slot->seat)) arrive(slot);
    if (!engine->taken++) all.used++;
    if (!self.thread) self.thread = (int)syscall(SYS_gettid);
    slot->thread = self.thread;
    slot->registered_at = registered_at;
    /* From here on grace periods that begin wait for the reader. */
    if (BY_WORD && rcu_seat_is_idle(&slot->seat)) open_seat(slot);
    self.slot = slot; /* the last step: a section may open in it */
}

void take_slot(const void *registered_at) {
    tell_end();
    hold(); /* no grace period begins between the free list and the open seat */
    if (!self.slot) take_free_slot(registered_at); /* else a signal handler has just taken one */
    let_go();
}

/* With the lock held, before a grace period begins: it looks at no free slot but that of processor
 * 0, so its cost follows the threads that are there. A thread that ends leaves its seat online, and
 * by word open, so that the next one to register makes no call on it. The first slots in the list
 * are the online ones. */
void depart_free_slots(struct engine *engine) {
    struct slot *slot = engine->free_slots;
    uint64_t moved;
    for (; slot && rcu_seat_is_online(&slot->seat); slot = slot->next) {
        if (!rcu_seat_is_idle(&slot->seat)) close_seat(slot);
        if (!is_of_cpu_0(slot)) must("depart", rcu_depart(&engine->rcu, &slot->seat, &moved));
    }
}

/* The slot of processor 0 is the first in the list: it costs a grace period as much when free. */
static void free_slot(struct slot *slot) {
    struct slot **first = &slot->engine->free_slots;
    if (*first && is_of_cpu_0(*first)) first = &(*first)->next;
    slot->next = *first;
    *first = slot;
}

/* The thread's end, or its word that it ends. A thread that ends in a section, as by its
 * cancellation, reads no more. Relaxed: the lock orders the slot's words, and the gp_thread, which
 * may sleep until this reader is quiet, looks at them under it. */
void give_back_slot(void) {
    struct slot *slot = self.slot;
    if (!slot) return;
    hold();
    if (!BY_WORD && !rcu_seat_is_idle(&slot->seat)) close_seat(slot);
    atomic_store_explicit(&slot->depth, 0, memory_order_relaxed);
    bool asked = atomic_load_explicit(&slot->wake_requested, memory_order_relaxed);
    atomic_store_explicit(&slot->wake_requested, false, memory_order_relaxed);
    free_slot(slot);
    if (!--slot->engine->taken) all.used--;
    self.slot = 0;
    let_go();
    if (asked) pthread_cond_signal(&all.quiet);
}
