"""The layer's protocols, as programs of interleavings.py: the steps of each thread as the code
makes them. The engine is taken at its word: it awaits a slot until a quiescent state was passed
there. For the marks of a step see model.py."""
from protocols_of_callbacks import PROTOCOLS_OF_CALLBACKS, SECTION

HELD_UP = "a thread that reads again and again holds a grace period up"

# ---- sections and grace periods.
# The thread got quiet: it looks for a request, and wakes the gp_thread; by word it passes the
# quiescent state itself.
WAKE_THE_GP_THREAD = """
    lock
    wake_requested = 0                    | atomic_store_explicit(&slot->wake_requested, false
    {passes}
    unlock                                | pthread_mutex_unlock(&all.lock); .. set_busy(-1u);
    signal !                              | pthread_cond_signal(&all.quiet)
"""
LOOK_FOR_A_REQUEST = """
    w = wake_requested !                  | atomic_load(&slot->wake_requested)
    unless w goto top
""" + WAKE_THE_GP_THREAD.format(passes="") + """
    goto top
"""
PASSES = "quiet = 1 !                         | if (BY_WORD) pass_if_out(slot);"


def reader(fence):
    return f"""
top:
    maybe over
    depth = 1 {"%" if fence else ""}      | set_depth(slot, 1)
    {fence}
    {SECTION}
    depth = 0 %       | atomic_store_explicit(&slot->depth, 0, memory_order_release)
    {fence}
    w = wake_requested !                  | atomic_load(&slot->wake_requested)
    unless w goto top
    {WAKE_THE_GP_THREAD.format(passes=PASSES)}
    goto top
over:
"""


def gp_thread(fence, needed):
    return f"""
again:
    n = other.o
    pointer = n
    lock
    quiet = 0
    {fence} !                             | if (BY_WORD && grace_period) fence_readers()
look:
    d = depth !                     | atomic_load_explicit(&slot->depth, memory_order_acquire) == 0
    if d goto looked
    quiet = 1                             | rcu_seat_repin_unfenced(&slot->seat, &number)
looked:
    q = quiet
    if q goto done
    maybe look
    m = swap wake_requested 1 !           | atomic_store(&slot->wake_requested, true)
    {fence} {needed}                            | if (BY_WORD) fence_readers()
    d = depth !                           | still_goes_on(engine)
    if d goto sleeps
    quiet = 1
    goto done
sleeps:
    wait                                  | sleep_or_report(engine)
    lock
    q = quiet
    must q: {HELD_UP}
    goto look
done:
    unlock
    good.o = 0
    unless n goto over
    o = n
    good0 = 1
    goto again
over:
"""


# ---- the same in qsbr. The engine's words are its number, and the processor's own: the number of
# its latest quiescent state, or 9 where it is idle. A thread looks which grace period began latest.
# (The number is loaded where the thread renews; no step of another word stands between the two.)
BY_STATE = f"""
top:
    maybe over
    {SECTION}
    b = begun % | unsigned long begun = atomic_load_explicit(&latest_begun, memory_order_acquire);
    n = number
    if b is last goto top                 | if (likely(begun == self.begun) || !self.online) return;
    last = b                              | self.begun = begun;
    s = swap own n %                      | rcu_seat_renew_unfenced(&slot->seat, &number)
    {LOOK_FOR_A_REQUEST.replace("top", "again")}
again:
    if last is 2 goto stays
    goto top
stays:
    maybe ended
    goto top
over:
    s = swap own 9 %                      | rcu_seat_unpin(&slot->seat)
    w = wake_requested !                  | close_seat(self.slot);
    unless w goto ended
    {WAKE_THE_GP_THREAD.format(passes="")}
ended:
"""
# ---- the same in mb, where a thread is idle but in its sections.
BY_SEAT = f"""
top:
    maybe over
    n = number                            | rcu_seat_wake_unfenced(&slot->seat, &number)
    s = swap own n %
    {SECTION}
    s = swap own 9 %                      | close_seat(slot);
    {LOOK_FOR_A_REQUEST}
over:
"""


def grace_period_by_state(number, needed=""):
    return f"""
    lock
    m = swap number {number} {needed}            | struct engine *grace_period = begin_all();
    begun = {number}                      | atomic_store_explicit(&latest_begun, grace_period
look{number}:
    a = own
    if a is {number} goto done{number}
    if a is 9 goto done{number}
    maybe look{number}
    m = swap wake_requested 1 %           | goes_on(engine, request_wake)
    a = own
    if a is {number} goto done{number}
    if a is 9 goto done{number}
    wait                                  | sleep_or_report(engine)
    lock
    goto look{number}
done{number}:
    unlock
"""


# A thread may still look for the request of the first grace period while the second one waits. In
# qsbr it may stop once it has seen that the second one began.
def gp_thread_by_state(needed):
    return f"""
    pointer = 1
    {grace_period_by_state(1)}
    good0 = 0
    {grace_period_by_state(2, needed)}
"""



# ---- a signal handler, which comes at any step of a thread that takes its slot, is in a section,
# and wakes the gp_thread.
WITH_HANDLER = f"""
    busy = 1                              | set_busy(1)
    lock
    unlock
    busy = 0                              | set_busy(-1u)
    depth = 1
    {SECTION}
    depth = 0
    w = wake_requested
    unless w goto over
    busy = 1
    lock
    wake_requested = 0
    quiet = 1
    unlock
    signal
    busy = 0
over:
"""
HANDLER = f"""
    d = depth
    if d goto nests
    b = busy !                            | if (unlikely(is_busy()))
    if b goto beside
    depth = 1
    {SECTION}
    depth = 0
    w = wake_requested
    unless w goto over
    t = busy
    f = other.t
    must f: a handler waits for its own thread
    lock
    wake_requested = 0
    quiet = 1
    unlock
    signal
    goto over
nests:
    depth = 2
    {SECTION}
    depth = 1
    goto over
beside:
    x = add beside 1 !                    | atomic_fetch_add(&all.beside, 1)
    {SECTION}
    x = add beside -1                     | atomic_fetch_sub(&all.beside, 1)
over:
"""
GP_THREAD_OF_HANDLED = """
    pointer = 1
    lock
    quiet = 0
    fence all
look:
    d = depth
    if d goto looked
    quiet = 1
looked:
    q = quiet
    if q goto looks
    maybe look
    m = swap wake_requested 1
    fence all
    d = depth
    if d goto sleeps
    quiet = 1
    goto looks
sleeps:
    wait
    lock
    goto look
looks:
    fence                                 | rcu_fence();
beside:
    b = beside !                          | while (atomic_load(&all.beside)) sched_yield();
    if b goto beside
    ended = 1                             | atomic_store_explicit(&all.ended, all.begun
    unlock
"""
# In mb, where the seat is the thread's own. No call on it comes in the midst of another one.
IN_A_CALL = "a signal handler makes a call in the midst of one"
SEAT_WITH_HANDLER = f"""
    busy = 1                              | set_busy(1)
    told calls = 1
    n = number
    told calls = 0
    s = swap own n %                      | open_seat(slot);
    depth = 1                             | set_depth(slot, 1)
    busy = 0                              | set_busy(-1u)
    {SECTION}
    busy = 1
    told calls = 1
    depth = 0 %                           | set_depth(slot, 0)
    s = swap own 9                        | close_seat(slot);
    told calls = 0
    busy = 0
"""
HANDLER_BY_SEAT = f"""
    d = depth
    if d goto nests
    b = busy !                            | if (unlikely(is_busy()))
    if b goto beside
    c = calls
    f = other.c
    must f: {IN_A_CALL}
    n = number
    s = swap own n
    depth = 1
    {SECTION}
    depth = 0
    s = swap own 9
    goto over
nests:
    o = own
    f = idle.o
    must f: a handler nests in a section that is not open
    depth = 2
    {SECTION}
    depth = 1
    goto over
beside:
    x = add beside 1 !
    {SECTION}
    x = add beside -1
over:
"""
GP_THREAD_OF_SEAT_HANDLED = """
    pointer = 1
    lock
    number = 1
    fence
waits:
    a = own
    unless a goto waits
    fence
beside:
    b = beside !
    if b goto beside
    unlock
    good0 = 0
"""
# Who polls frees what the gp_thread's grace period came after.
POLLER = """
poll:
    e = ended   | atomic_load_explicit(&all.ended, memory_order_acquire)
    unless e goto poll
    good0 = 0
"""
# Without a thread that is registered a grace period has no engine: the fence alone stands before
# the look.
HANDLER_ALONE = f"""
    x = add beside 1 !
    {SECTION}
    x = add beside -1
"""
GP_THREAD_OF_ONE_BESIDE = """
    pointer = 1
    lock
    fence !                               | rcu_fence();
beside:
    b = beside !
    if b goto beside
    unlock
    good0 = 0
"""

GRACE_PERIOD = {"depth": 0, "quiet": 0, "wake_requested": 0, "pointer": 0, "good0": 1, "good1": 1,
                "other0": 1,
                "other1": 0}
STATE = {**GRACE_PERIOD, "number": 0, "own": 0, "begun": 0}
PROTOCOLS = {
    "a section and a grace period, by membarrier":
        (GRACE_PERIOD, [reader(""), gp_thread("fence all", "!")]),
    "a section and a grace period, by the reader's fences":
        (GRACE_PERIOD, [reader("fence !"), gp_thread("fence", "")]),
    "a section and a grace period, by state": (STATE, [BY_STATE, gp_thread_by_state("%")]),
    "a section and a grace period, by seat":
        ({**STATE, "own": 9}, [BY_SEAT, gp_thread_by_state("")]),
    "a signal handler, a grace period and a poll":
        ({**GRACE_PERIOD, "busy": 0, "beside": 0, "ended": 0},
         [WITH_HANDLER, GP_THREAD_OF_HANDLED, POLLER], {0: HANDLER}),
    "a signal handler and a grace period, by seat":
        ({**STATE, "own": 9, "busy": 0, "beside": 0, "calls": 0,
          "idle0": 1, "idle1": 1, "idle9": 0},
         [SEAT_WITH_HANDLER, GP_THREAD_OF_SEAT_HANDLED], {0: HANDLER_BY_SEAT}),
    "a section beside, and a grace period of no engine":
        ({**GRACE_PERIOD, "beside": 0}, [HANDLER_ALONE, GP_THREAD_OF_ONE_BESIDE]),
    **PROTOCOLS_OF_CALLBACKS,
}
