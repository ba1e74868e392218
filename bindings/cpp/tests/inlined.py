"""What the header and cpp.c add to the layer's protocols, as programs of interleavings.py: the
sections inlined, and the barrier's look. For the marks of a step see the layer's model.py."""
from protocols import (GP_THREAD_OF_HANDLED, GRACE_PERIOD, PASSES, POLLER, SECTION,
                       WAKE_THE_GP_THREAD, gp_thread)

WAKES = f"""
    w = wake_requested !                  | __atomic_load_n(&place->wake_requested, __ATOMIC_SEQ_CST)
    unless w goto top
    {WAKE_THE_GP_THREAD.format(passes=PASSES)}
    goto top
"""
# A region, and one in which another one nests. What an unlock of the inner one stores leaves the
# thread in the outer one.
READER = f"""
top:
    maybe over
    d = depth            | unsigned long depth = __atomic_load_n(&place->depth, __ATOMIC_RELAXED)
    depth = 1 !          | __atomic_store_n(&place->depth, depth + 1, __ATOMIC_RELAXED)
    {SECTION}
    maybe leaves
    depth = 2
    depth = 1            | __atomic_store_n(&place->depth, depth - 1, __ATOMIC_RELAXED)
    {SECTION}
leaves:
    depth = 0 %          | __atomic_store_n(&place->depth, 0, __ATOMIC_RELEASE)
    {WAKES}
over:
"""
# Without membarrier(2) the layer's call opens the region, as it makes a fence.
READER_BY_CALLS = f"""
top:
    maybe over
    b = by_system        | is_busy() || self.beside || (BY_WORD && !by_system);
    if b goto inlined
    depth = 1
    fence !              | if (__builtin_expect(!place, 0)) return urcu_cpp_read_lock();
inlined:
    depth = 1
    {SECTION}
    depth = 0            | place ? __atomic_load_n(&place->depth, __ATOMIC_RELAXED) : 0;
    fence                | urcu_cpp_read_unlock();
    {WAKES}
over:
"""
# A signal handler, which comes at any step of a thread that takes its slot and is in a region.
# While the slot is hidden from the inlined regions, the layer's calls are made.
WITH_HANDLER = f"""
    hidden = 1           | atomic_store_explicit(&self.shown, 0, memory_order_relaxed);
    busy = 1             | atomic_store_explicit(&self.busy, was + more
    lock
    unlock
    busy = 0
    hidden = 0
    depth = 1
    {SECTION}
    depth = 0
    w = wake_requested
    unless w goto over
    hidden = 1 !         | urcu_cpp_wake_maker();
    busy = 1
    lock
    wake_requested = 0
    quiet = 1
    unlock
    signal
    busy = 0             | memory_order_relaxed); .. show_slot();
    hidden = 0           | by_calls ? 0 : self.slot, memory_order_relaxed);
over:
"""
HANDLER = f"""
    h = hidden !         | place = __atomic_load_n(&urcu_cpp_self.shown, __ATOMIC_RELAXED);
    if h goto call
inlined:
    d = depth
    if d goto nests
    depth = 1
    {SECTION}
    depth = 0
    w = wake_requested
    unless w goto over
    t = busy
    f = other.t
    must f: a handler waits for its own thread
    lock
    wake_requested = 0
    quiet = 1
    unlock
    signal
    goto over
nests:
    depth = 2
    {SECTION}
    depth = 1
    goto over
call:
    d = depth
    if d goto nests
    b = busy !           | else if (unlikely(is_busy())) open_beside();
    unless b goto inlined
    x = add beside 1 !
    {SECTION}
    x = add beside -1
over:
"""
# The barrier: if the list is empty and nothing is in hand, all that was retired has been evaluated.
RETIRES_AND_LOOKS = """
    x = swap last 1                       | push(default_worker(), head);
    lock !                                | hold();
    l = last !                            | !atomic_load(&worker->last)
    r = running !                         | !in_hand()
    unlock
    if l goto over
    if r goto over
    e = evaluated
    must e: a barrier returns before an evaluation
over:
"""
EVALUATES = """
    lock
    h = swap last 0   | atomic_exchange_explicit(&worker->last, 0, memory_order_acquire)
    running = h !     | atomic_store(&worker->running, last != 0);
    unlock
    unless h goto over
    running = 1       | atomic_store(&worker->running, count);
    evaluated = 1 %
    running = 0       | atomic_store(&worker->running, 0);
over:
"""

BARRIER = {"last": 0, "running": 0, "evaluated": 0}
PROTOCOLS = {
    "an inlined region and a grace period": (GRACE_PERIOD, [READER, gp_thread("fence all", "!")]),
    "a region and a grace period without membarrier(2)":
        ({**GRACE_PERIOD, "by_system": 0}, [READER_BY_CALLS, gp_thread("fence", "")]),
    "an inlined region, a signal handler and a grace period":
        ({**GRACE_PERIOD, "busy": 0, "hidden": 0, "beside": 0, "ended": 0},
         [WITH_HANDLER, GP_THREAD_OF_HANDLED, POLLER], {0: HANDLER}),
    "a barrier's look": (BARRIER, [RETIRES_AND_LOOKS, EVALUATES]),
}
