"""The protocols of callbacks and deferred calls: see protocols.py."""
FREED = "a section reads what was freed"
# One version is shown, and the other one is freed.
SECTION = f"""
    p = pointer
    g = good.p
    must g: {FREED}
"""

# ---- callbacks. Two threads push one each (1 and 2); 'next' of each leads to the one before.
PUSHER = """
again:
    l = last
    next.ME = l %                         | do head->next = last;
    x = cas last l ME   | atomic_compare_exchange_weak_explicit(&worker->last, &last, head
    unless x goto again
    if l goto over
    lock
    signal !                              | pthread_cond_signal(&worker->work)
    unlock
over:
"""
WORKER = """
sleeps:
    lock
look:
    l = last !   | atomic_load_explicit(&worker->last, memory_order_relaxed)
    if l goto takes
    r = ran1
    unless r goto waits
    r = ran2
    if r goto over
waits:
    wait
    lock
    goto look
takes:
    unlock
    h = swap last 0   | atomic_exchange_explicit(&worker->last, 0, memory_order_acquire)
run:
    unless h goto sleeps
    r = ran.h
    f = other.r
    must f: a callback runs twice
    ran.h = 1
    h = next.h
    goto run
over:
    unlock
"""
# ---- what a callback frees. The worker takes it, and then waits for a grace period: that is to
# say, until the section that is open then has ended.
UNLINKS = """
    pointer = 1
    x = swap last 1
"""
READS_AND_RUNS = f"""
    told open = 1
    {SECTION}
    told open = 0
"""
FREES = """
    h = swap last 0 %   | atomic_exchange_explicit(&worker->last, 0, memory_order_acquire)
    o = open
    unless h goto over
waits:
    unless o goto frees
    o = open
    goto waits
frees:
    good0 = 0
over:
"""

# ---- defer_rcu: a thread adds two calls to its ring; `list` is 1 where the callback waits for the
# worker.
QUEUE = """
    a = added
    limit = a                             | ring->limit = atomic_load(&ring->added)
    o = swap list 1                       | CALL(call_rcu)(&ring->head, drain)
    f = other.o
    must f: a callback is queued twice
"""
DEFER = f"""
    call.AT = 1 MARK                      | ring->calls[at % RING] = (struct deferred)
    x = swap added AFTER MARK             | atomic_store(&ring->added, at + 1)
    q = queued                            | unlikely(!atomic_load(&ring->queued))
    if q goto added.AFTER
    x = swap queued 1 !                   | !atomic_exchange(&ring->queued, true)
    if x goto added.AFTER
    {QUEUE}
    lock
    signal
    unlock
"""
DEFERS = "\n".join(
    DEFER.replace("added.AFTER", f"added{at + 1}").replace("AFTER", str(at + 1))
    .replace("call.AT", f"call{at}").replace("MARK", "%" if at else "") + f"added{at + 1}:\n"
    for at in range(2))
DRAINS = f"""
    lock
look:
    o = list
    if o goto takes
    m = made
    if m is 2 goto over
    wait
    lock
    goto look
takes:
    o = swap list 0
    unlock
    l = limit                             | unsigned long limit = ring->limit
    m = made
calls:
    if m is l goto made
    c = call.m
    must c: a call is made before it is there
    m = after.m
    made = m                              | atomic_store_explicit(&ring->made, at + 1
    goto calls
made:
    x = swap queued 0 %                   | atomic_store(&ring->queued, false)
    a = added                             | atomic_load(&ring->added) != limit
    if a is l goto again
    x = swap queued 1 !                   | !atomic_exchange(&ring->queued, true)
    if x goto again
    {QUEUE}
again:
    lock
    goto look
over:
    unlock
"""

PROTOCOLS_OF_CALLBACKS = {
    "callbacks of two threads":
        ({"last": 0, "next1": 0, "next2": 0, "ran0": 0, "ran1": 0, "ran2": 0,
          "other0": 1, "other1": 0,
          },
         [PUSHER.replace("ME", "1"), PUSHER.replace("ME", "2"), WORKER]),
    "a callback and a section":
        ({"pointer": 0, "last": 0, "open": 0, "good0": 1, "good1": 1},
         [UNLINKS, READS_AND_RUNS, FREES]),
    "deferred calls":
        ({"call0": 0, "call1": 0, "added": 0, "queued": 0, "list": 0, "limit": 0, "made": 0,
          "after0": 1, "after1": 2, "other0": 1, "other1": 0}, [DEFERS, DRAINS]),
}
