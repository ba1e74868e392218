"""Faults of the layer: each is planted in a copy of its sources, and a test has to find it. A row
has the file, the text that is there once, what stands in its place, the flavour and the test. Where
the last field is HANGS, the test is found to hang. A fault of a header is tried with sections
inlined."""

HANGS = True
FAULTS = {
    "a wait does not wait": (
        "grace_periods.c", "uint64_t wanted = all.begun + 1;", "uint64_t wanted = all.begun;",
        "memb", "sections", False),
    "a quiescent state is passed in a section": (
        "readers_by_word.c", "memory_order_acquire) == 0 &&", "memory_order_acquire) <= 1 &&",
        "memb", "waits", False),
    "the request is gone": (
        "sections.c", "        exits(slot);\n        got_quiet(slot);", "        exits(slot);",
        "memb", "waits", HANGS),
    "the request is gone, in mb": (
        "sections.c", "        exits(slot);\n        got_quiet(slot);", "        exits(slot);",
        "mb", "waits", HANGS),
    "the request is gone, inlined": (
        "include/urcu/sections.h", "__ATOMIC_SEQ_CST) ? URCU_LEFT_AWAITED_ : URCU_LEFT_;",
        "__ATOMIC_SEQ_CST) ? URCU_LEFT_ : URCU_LEFT_;", "memb", "waits", HANGS),
    "an inlined section is none": (
        "include/urcu/sections.h",
        "depth + 1, __ATOMIC_RELAXED);\n    __atomic_signal_fence(__ATOMIC_SEQ_CST);\n    return true;",
        "depth, __ATOMIC_RELAXED);\n    return true;", "bp", "sections", False),
    "an inlined section of mb within another one does not end": (
        "include/urcu/sections.h",
        "    if (depth > 1) __atomic_store_n(&slot->depth, depth - 1, __ATOMIC_RELAXED);\n"
        "    return depth > 1;", "    return depth > 1;", "mb", "nests", HANGS),
    "an inlined quiescent state is none": (
        "include/urcu/sections.h", "    if (__builtin_expect(begun != urcu_qsbr_reader_1.begun, 0)) ",
        "    if (begun == 0) ", "qsbr", "waits", HANGS),
    "no thread of qsbr learns that a grace period began": (
        "grace_periods.c", "    tell_begun(all.begun);", "", "qsbr", "waits", HANGS),
    "the inner end of an inlined section ends it": (
        "include/urcu/sections.h", "depth - 1, __ATOMIC_RELAXED);\n        return URCU_LEFT_;",
        "0, __ATOMIC_RELAXED);\n        return URCU_LEFT_;", "memb", "nests", False),
    "a grace period ends while one is awaited": (
        "grace_periods.c", "return turn.awaited != 0;", "return turn.awaited > 1;",
        "mb", "waits", False),
    "a grace period passes over all engines but the oldest one": (
        "grace_periods.c", "uint32_t left = all.used;", "uint32_t left = all.used != 0;",
        "memb", "engines", False),
    "a section of mb is none of the engine's": (
        "sections.c", "    open_seat(slot);\n", "", "mb", "sections", False),
    "the request is gone, in qsbr": (
        "readers_by_state.c", "&number));\n    got_quiet(slot);\n", "&number));\n",
        "qsbr", "waits", HANGS),
    "the inner end of a section ends it": (
        "sections.c", "set_depth(slot, depth - 1);", "set_depth(slot, 0);",
        "memb", "nests", False),
    "a slot is given away in a section": (
        "slots.c", "if (slot) engine->free_slots = slot->next;\n    else slot",
        "if (engine->opened) slot = &engine->slots[0];\n    else slot",
        "memb", "engines", False),
    "a thread that registers leaves its seat idle": (
        "slots.c", "    if (BY_WORD && rcu_seat_is_idle(&slot->seat)) open_seat(slot);\n", "",
        "memb", "sections", False),
    "a thread that ends keeps its slot": (
        "threads.c", "    give_back_slot();\n}\n\nstatic void set_up_once",
        "}\n\nstatic void set_up_once", "memb", "forgets", False),
    "a callback runs twice": (
        "callbacks.c", "        head->func(head);\n",
        "        head->func(head);\n        head->func(head);\n", "memb", "callbacks", HANGS),
    "callbacks run backwards": (
        "callbacks.c", "struct rcu_head *first = in_order(last, &count);",
        "in_order(0, &count);\n    struct rcu_head *first = last;", "memb", "callbacks", False),
    "a callback runs a batch early": (
        "callbacks.c",
        "    hold();\n    if (!is_marker_alone(worker, first)) wait_for_grace_period();\n    let_go();\n",
        "", "memb", "batches", False),
    "a barrier with nothing queued waits for a grace period": (
        "callbacks.c", "if (!is_marker_alone(worker, first)) ", "", "memb", "barriers_alone",
        HANGS),
    "a barrier's marker takes a batch with it": (
        "callbacks.c", "first == &worker->marker && !first->next", "worker->marker.func",
        "memb", "batches", False),
    "a barrier does not wait": (
        "barriers.c", "    while (markers_left) sleep_on(&barrier_over);\n", "",
        "memb", "barriers", False),
    "a poll answers a grace period early": (
        "polls.c", "state.grace_period_id = all.begun + 1;", "state.grace_period_id = all.begun;",
        "memb", "polls", False),
    "a deferred call is made at once": (
        "deferral.c", "CALL(call_rcu)(&ring->head, drain);", "drain(&ring->head);",
        "memb", "defers", False),
    "the child of a fork keeps the parent's engines": (
        "fork.c", "    all.engines = 0;\n    all.used = 0;\n", "", "qsbr", "forks", HANGS),
    "the child of a fork in a section is in none": (
        "fork.c", "        stay_as_in(old);\n", "", "memb", "forks_in_sections", False),
    "the child of a bare fork keeps the parent's worker": (
        "fork.c", "    workers = 0;\n    atomic_store(&main_worker, 0);\n", "",
        "memb", "bare_callbacks", HANGS),
    "the child of a bare fork waits for the parent's markers": (
        "barriers.c", "    markers_left = 0;\n    pthread_cond_init", "    pthread_cond_init",
        "bp", "bare_callbacks", HANGS),
    "the child of a bare fork finds the parent's barrier": (
        "fork.c", "static void start_without_workers(void) {\n    pthread_mutex_init(&visits, 0);\n",
        "static void start_without_workers(void) {\n", "qsbr", "bare_callbacks", HANGS),
    "the child of a bare fork takes a ring's callback for queued": (
        "deferral.c", "        atomic_store(&it->queued, false);\n        it->taken", "        it->taken",
        "memb", "bare_callbacks", False),
    "the child of a bare fork makes the parent's deferred calls": (
        "deferral.c", "        atomic_store(&it->made, atomic_load(&it->added));\n", "",
        "mb", "bare_callbacks", False),
    "who forks holds the lock": (
        "fork.c", "pthread_atfork(0, 0, in_any_child)",
        "pthread_atfork(hold, let_go, in_any_child)", "memb", "handlers", HANGS),
    "a thread that ends is online still": (
        "threads.c", "    CALL(thread_offline)();\n    give_back_slot();",
        "    give_back_slot();", "qsbr", "ends", False),
    "the thread of a worker that is freed is joined": (
        "workers.c", "sleep_on(&worker_over);\n    let_go();\n",
        "sleep_on(&worker_over);\n    let_go();\n    pthread_join(worker->thread, 0);\n",
        "memb", "joins", False),
    "a worker does not rest": (
        "callbacks.c", "    if (!milliseconds) return;\n", "    return;\n",
        "memb", "gathers", False),
    "who goes offline is waited for": (
        "readers_by_state.c", "    mark_release();\n    close_seat(self.slot);",
        "    mark_release();", "qsbr", "quiet", HANGS),
    "the line of a misuse is not kept": (
        "base.c", "    keep(line);\n", "", "memb", "misuse", False),
    "a daemon's misuse is not heard": (
        "lines.c", "!is_heard(STDERR_FILENO) || ", "", "memb", "misuse", False),
    "a thread that ends in a section wakes nobody": (
        "slots.c", "    if (asked) pthread_cond_signal(&all.quiet);\n", "    (void)asked;\n",
        "memb", "cancels", HANGS),
    "a cancelled wait keeps the lock": (
        "base.c",
        "    pthread_setcancelstate(PTHREAD_CANCEL_DISABLE, &was);\n    answer = ",
        "    was = PTHREAD_CANCEL_ENABLE;\n    answer = ", "memb", "cancels", HANGS),
}
