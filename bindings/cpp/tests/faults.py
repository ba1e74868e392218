"""Faults of the header, of cpp.c and of what they want of the layer (bindings/urcu): each is planted
in a copy, and has to be found in every run. A row has the file, the text that is there once, what
stands in its place, and what finds it: a test of the wording, or MODEL, whose quotes are then not
the code's. Of what the clock or chance would have to find, the model finds that the code is not
what was tried."""

MODEL = "the model"
HEADER, CPP = "include/rcu", "src/cpp.c"
LAYER = CALLBACKS, SHOWN = "src/callbacks.c", "src/layer.h"  # of bindings/urcu
FAULTS = {
    "lock opens no region": (
        HEADER, "    __atomic_store_n(&place->depth, depth + 1, __ATOMIC_RELAXED);\n", "",
        "general_4_region"),
    "the inner unlock ends the region": (
        HEADER, "__atomic_store_n(&place->depth, depth - 1, __ATOMIC_RELAXED);",
        "__atomic_store_n(&place->depth, 0, __ATOMIC_RELAXED);", "general_3_nesting"),
    "unlock ends no region": (
        HEADER, "        __atomic_store_n(&place->depth, 0, __ATOMIC_RELEASE);\n", "",
        "process_misuse"),
    "unlock's store is relaxed": (
        HEADER, "__atomic_store_n(&place->depth, 0, __ATOMIC_RELEASE);",
        "__atomic_store_n(&place->depth, 0, __ATOMIC_RELAXED);", MODEL),
    "unlock wakes nobody": (
        HEADER, "        if (__builtin_expect(is_wake_requested, 0)) urcu_cpp_wake_maker();\n", "",
        "general_4_region"),
    "a region without membarrier(2) has no fence": (
        SHOWN, "is_busy() || self.beside || (BY_WORD && !by_system);", "is_busy() || self.beside;",
        MODEL),
    "a handler's region takes a busy thread's place": (
        SHOWN, "is_busy() || self.beside || (BY_WORD && !by_system);",
        "self.beside || (BY_WORD && !by_system);", MODEL),
    "a region beside ends as one of the place": (
        SHOWN, "is_busy() || self.beside || (BY_WORD && !by_system);",
        "is_busy() || (BY_WORD && !by_system);", MODEL),
    "try_lock opens no region": (
        HEADER, "        lock();\n        return true;", "        return true;",
        "domain_lock_opens"),
    "retire evaluates at once": (
        HEADER, "    urcu_cpp_retire(reinterpret_cast<::rcu_head*>(link), run);",
        "    run(reinterpret_cast<::rcu_head*>(link));", "general_5_region_of_another_thread"),
    "a synchronize does not wait": (
        HEADER, "    urcu_cpp_synchronize_rcu();\n", "", "func_2_3_synchronize"),
    "a barrier does not wait": (
        HEADER, "    urcu_cpp_wait_for_evaluations();\n", "", "func_4_5_barrier"),
    "retire keeps no deleter": (
        HEADER, "        over_rcu_deleter = std::move(d);\n", "", "base_3_8_kinds_of_deleters"),
    "an evaluation has no deleter": (
        HEADER, "            d = std::move(self->over_rcu_deleter);\n", "",
        "base_3_8_kinds_of_deleters"),
    "the deleter is called where the object lay": (
        HEADER, "            d(static_cast<T*>(self));",
        "            self->over_rcu_deleter = std::move(d);\n"
        "            self->over_rcu_deleter(static_cast<T*>(self));", "base_3_8_deleter_lives"),
    "rcu_retire gives no memory back": (
        HEADER, "        delete self;\n", "", "func_8_9_allocation"),
    "any type may be retired": (
        HEADER, "        static_assert(detail::is_protectable<T, D>::value,",
        "        static_assert(detail::is_protectable<T, D>::value || true,", "refused"),
    "a barrier passes over what is in hand": (
        CPP, " && !in_hand());", ");", "func_5_barrier_during_an_evaluation"),
    "a barrier passes over what is listed": (
        CPP, "(!atomic_load(&worker->last) && !in_hand())", "!in_hand()", "func_4_5_barrier"),
    "a worker does not say that it has a batch in hand": (
        CALLBACKS, "atomic_store(&worker->running, last != 0);", "atomic_store(&worker->running, 0);",
        MODEL),
    "a barrier with nothing to wait for waits": (
        CPP, "    if (nothing_waits()) return;\n", "", "func_5_barrier_alone"),
    "a barrier in a region waits for itself": (
        CPP, 'if (CALL(read_ongoing)()) fail("rcu_barrier", "the thread is in a region");\n', "\n",
        "process_misuse"),
    "a barrier sees what waits, and returns": (
        CPP, "    CALL(barrier)();\n", "", "func_4_5_barrier"),
    "no retire waits": (
        CPP, "    if (too_many && !CALL(read_ongoing)() &&", "    if (false &&",
        "beyond_pressure"),
    "a retire in a region waits": (
        CPP, "    if (too_many && !CALL(read_ongoing)() &&", "    if (too_many &&",
        "beyond_pressure_exceptions"),
    "a retire in an evaluation waits": (
        CPP, "!CALL(read_ongoing)() && self.worker != worker)", "!CALL(read_ongoing)())",
        "beyond_pressure_exceptions"),
    "a retire counts nothing": (
        CPP, "    since_taken += more;\n", "    (void)more;\n", "beyond_pressure"),
    "a second layer is not seen": (
        CPP, "    if (urcu_cpp_first_layer != &all)", "    if (false)", "archives"),
}
