"""Sections inlined by urcu/sections.h, as programs of interleavings.py. For the marks of a step see
model.py."""
from protocols import (BY_STATE, GP_THREAD_OF_HANDLED, GRACE_PERIOD, PASSES, POLLER, SECTION, STATE,
                       WAKE_THE_GP_THREAD, gp_thread, gp_thread_by_state)

WAKES = f"""
    w = wake_requested !                  | __atomic_load_n(&slot->wake_requested, __ATOMIC_SEQ_CST)
    unless w goto top
    {WAKE_THE_GP_THREAD.format(passes=PASSES)}
    goto top
"""
# A section, and one in which another one nests. What an unlock of the inner one stores leaves the
# thread in the outer one.
READER = f"""
top:
    maybe over
    d = depth                | depth = __atomic_load_n(&slot->depth, __ATOMIC_RELAXED);
    depth = 1 !              | __atomic_store_n(&slot->depth, depth + 1, __ATOMIC_RELAXED);
    {SECTION}
    maybe leaves
    depth = 2
    depth = 1                | __atomic_store_n(&slot->depth, depth - 1, __ATOMIC_RELAXED);
    {SECTION}
leaves:
    depth = 0 %              | __atomic_store_n(&slot->depth, 0, __ATOMIC_RELEASE);
    {WAKES}
over:
"""
# Without membarrier(2) the library's calls open and close the section, as they make fences.
READER_BY_CALLS = f"""
top:
    maybe over
    b = by_system            | is_busy() || self.beside || (BY_WORD && !by_system);
    if b goto inlined        | if (__builtin_expect(!slot, 0)) return false;
    depth = 1
    fence !                  | if (!urcu_enters_(&urcu_##f##_reader_1)) urcu_##f##_read_lock();
inlined:
    depth = 1
    {SECTION}
    depth = 0                | if (__builtin_expect(!slot, 0)) return URCU_BY_CALL_;
    fence                    | else urcu_##f##_read_unlock();
    {WAKES}
over:
"""
# A signal handler, which comes at any step of a thread that takes its slot and is in a section.
# While the slot is hidden from the inlined sections, the library's calls are made.
WITH_HANDLER = f"""
    hidden = 1               | atomic_store_explicit(&self.shown, 0, memory_order_relaxed);
    busy = 1                 | atomic_store_explicit(&self.busy, was + more
    lock
    unlock
    busy = 0
    hidden = 0
    depth = 1
    {SECTION}
    depth = 0
    w = wake_requested
    unless w goto over
    hidden = 1 !             | if (exit == URCU_LEFT_AWAITED_) urcu_##f##_got_quiet_1();
    busy = 1
    lock
    wake_requested = 0
    quiet = 1
    unlock
    signal
    busy = 0                 | memory_order_relaxed); .. show_slot();
    hidden = 0               | by_calls ? 0 : self.slot, memory_order_relaxed);
over:
"""
HANDLER = f"""
    h = hidden !             | *slot = __atomic_load_n(&reader->shown, __ATOMIC_RELAXED);
    if h goto call
inlined:
    d = depth
    if d goto nests
    depth = 1
    {SECTION}
    depth = 0
    w = wake_requested
    unless w goto over
    t = busy
    f = other.t
    must f: a handler waits for its own thread
    lock
    wake_requested = 0
    quiet = 1
    unlock
    signal
    goto over
nests:
    depth = 2
    {SECTION}
    depth = 1
    goto over
call:
    d = depth
    if d goto nests
    b = busy !               | else if (unlikely(is_busy())) open_beside();
    unless b goto inlined
    x = add beside 1 !
    {SECTION}
    x = add beside -1
over:
"""

# In qsbr the library's call is made if another grace period has begun, and looks anew.
BY_STATE_INLINED = BY_STATE.replace("""
    b = begun %""", """
    i = begun                | __atomic_load_n(&urcu_qsbr_begun_1, __ATOMIC_ACQUIRE);
    if i is last goto top    | begun != urcu_qsbr_reader_1.begun, 0)) urcu_qsbr_quiescent_state();
    b = begun""")
# In mb a section within another one. A signal handler has some too, by the library's calls or
# inlined: it leaves the depth as it finds it.
NESTS = f"""
    n = number
    s = swap own n
    depth = 1
    {SECTION}
    d = depth                | static inline bool urcu_nests_(struct urcu_reader_1 *reader) {{
    unless d goto wrong      | if (depth) __atomic_store_n(&slot->depth, depth + 1
    depth = 2
    {SECTION}
    d = depth                | static inline bool urcu_unnests_(struct urcu_reader_1 *reader) {{
    if d is 2 goto leaves    | if (depth > 1) __atomic_store_n(&slot->depth, depth - 1
wrong:
    must no: an inner section finds no outer one
leaves:
    depth = 1
    {SECTION}
    depth = 0
    s = swap own 9
"""
NESTS_IN_HANDLER = f"""
    d = depth
    unless d goto over
    if d is 2 goto two
    depth = 2
    {SECTION}
    depth = 1
    goto over
two:
    depth = 3
    {SECTION}
    depth = 2
over:
"""
GRACE_PERIOD_BY_SEAT = """
    pointer = 1
    m = swap number 1
waits:
    a = own
    unless a goto waits
    good0 = 0
"""

PROTOCOLS_OF_INLINED = {
    "an inlined section and a grace period": (GRACE_PERIOD, [READER, gp_thread("fence all", "!")]),
    "an inlined section and a grace period without membarrier(2)":
        ({**GRACE_PERIOD, "by_system": 0}, [READER_BY_CALLS, gp_thread("fence", "")]),
    "an inlined section, a signal handler and a grace period":
        ({**GRACE_PERIOD, "busy": 0, "hidden": 0, "beside": 0, "ended": 0},
         [WITH_HANDLER, GP_THREAD_OF_HANDLED, POLLER], {0: HANDLER}),
    "an inlined quiescent state and a grace period":
        (STATE, [BY_STATE_INLINED, gp_thread_by_state("%")]),
    "an inlined section within another one of mb, a signal handler and a grace period":
        ({**STATE, "own": 9}, [NESTS, GRACE_PERIOD_BY_SEAT], {0: NESTS_IN_HANDLER}),
}
