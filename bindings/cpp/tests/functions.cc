// [saferecl.rcu.domain.func]: the functions.
#include "wording.h"

#include <memory>
#include <new>
#include <string>
#include <unistd.h>
#include <vector>

static std::rcu_domain* seen_early;
static int early_value;
struct before_main {
    before_main() {
        seen_early = &std::rcu_default_domain();
        {
            region mine(*seen_early);
            std::rcu_retire(new int(3), [](int* it) {
                early_value = *it;
                delete it;
            });
        }
        std::rcu_synchronize();
        std::rcu_barrier();
        early_value += 10;
    }
};
static before_main early __attribute__((init_priority(101)));

// 1: one object of static storage duration, which is there before dynamic initialization.
TEST(func_1_default_domain) {
    CHECK(&std::rcu_default_domain() == &std::rcu_default_domain() && seen_early == &dom);
    std::rcu_domain* other = nullptr;
    std::thread([&] { other = &std::rcu_default_domain(); }).join();
    CHECK(other == &dom);
    CHECK(early_value == 13); // in a constructor of the first priority
}

// 2, 3: the ends of the regions that were open come before the return.
TEST(func_2_3_synchronize) {
    int seen = 0;
    holder in_region;
    CHECK(holds_up(in_region, [&] {
        std::rcu_synchronize();
        seen = in_region.written; // plain
    }));
    CHECK(seen == 1);
}

// 2: regions that begin later hold no wait up, though they overlap without a gap.
TEST(func_2_later_regions) {
    std::atomic<bool> is_over{false};
    std::atomic<int> turn{0};
    auto chain = [&](int me) {
        dom.lock();
        while (!is_over) {
            wait_until([&] { return turn == me || is_over; });
            dom.unlock();
            dom.lock();
            turn = 1 - me;
        }
        dom.unlock();
    };
    std::thread one(chain, 0), other(chain, 1);
    for (int i = 0; i < 20; i++) std::rcu_synchronize();
    is_over = true;
    one.join();
    other.join();
    CHECK(true);
}

// 4, 5: what was scheduled before has been evaluated, and that comes before the return.
TEST(func_4_5_barrier) {
    int value = 0;
    for (int i = 0; i < 20; i++) {
        std::rcu_retire(&value, [](int* it) { ++*it; });
        std::rcu_barrier();
        CHECK(value == i + 1); // plain
    }
    std::thread([&] { std::rcu_retire(&value, [](int* it) { ++*it; }); }).join();
    std::rcu_barrier(); // of other threads, which have ended, too
    CHECK(value == 21);
    holder in_region;
    std::rcu_retire(&value, [](int* it) { ++*it; });
    CHECK(holds_up(in_region, [] { std::rcu_barrier(); }));
    CHECK(value == 22);
}

// Whether the system says that the thread sleeps.
static bool sleeps(pid_t thread) {
    std::string path = "/proc/self/task/" + std::to_string(thread) + "/stat";
    char text[400] = {};
    if (FILE* file = std::fopen(path.c_str(), "r")) {
        text[std::fread(text, 1, sizeof text - 1, file)] = 0;
        std::fclose(file);
    }
    std::string all(text);
    return all.find(") S ") != std::string::npos;
}

// 5: an evaluation that is under way is waited for.
TEST(func_5_barrier_during_an_evaluation) {
    std::atomic<int> step{0};
    std::atomic<pid_t> waiter{0};
    std::atomic<bool> is_over{false};
    int value = 0;
    std::rcu_retire(&value, [&](int* it) {
        step = 1;
        wait_until([&] { return step == 2; });
        *it = 1;
        step = 3;
    });
    wait_until([&] { return step == 1; });
    int seen = 0;
    std::thread other([&] {
        waiter = gettid();
        std::rcu_barrier();
        seen = value;
        is_over = true;
    });
    wait_until([&] { return is_over || (waiter && sleeps(waiter)); });
    bool was_early = is_over;
    step = 2;
    other.join();
    CHECK(!was_early && seen == 1);
    wait_until([&] { return step == 3; });
}

// 5: a barrier is no synchronize. If nothing is scheduled, it has nothing to wait for.
TEST(func_5_barrier_alone) {
    std::rcu_barrier();
    holder in_region;
    CHECK(!holds_up(in_region, [] { std::rcu_barrier(); }));
    region mine(dom);
    std::rcu_barrier(); // in a region of the caller's own too
    CHECK(true);
}

struct throws_on_move {
    static inline bool is_on = false;
    throws_on_move() = default;
    throws_on_move(throws_on_move&&) noexcept(false) {
        if (is_on) throw 5;
    }
    void operator()(int* it) const { ++*it; }
};

// 6, 7: the deleter is move constructible, and is called as d(p).
TEST(func_6_7_retire) {
    int calls = 0;
    auto one = std::make_unique<int>(5);
    std::rcu_retire(&calls, [one = std::move(one)](int* it) { *it += *one; });
    std::rcu_retire(static_cast<void*>(&calls), [](void* it) { *static_cast<int*>(it) += 100; });
    const int constant = 3;
    std::rcu_retire(&constant, [](const int*) {});
    void (*by_pointer)(int*) = [](int* it) { *it += 1000; };
    std::rcu_retire(&calls, by_pointer);
    std::rcu_retire(static_cast<int*>(nullptr));
    std::rcu_retire(new std::vector<int>(1000));
    std::rcu_retire(new int[10], std::default_delete<int[]>());
    std::rcu_barrier();
    CHECK(calls == 1105);
}

#ifdef OWN_NEW
// 8, 9: it may allocate, and throws what that throws; then nothing is scheduled.
TEST(func_8_9_allocation) {
    int calls = 0;
    bool is_thrown = false;
    fail_next = 1;
    try {
        std::rcu_retire(&calls, [](int* it) { ++*it; });
    } catch (const std::bad_alloc&) {
        is_thrown = true;
    }
    fail_next = 0;
    std::rcu_barrier();
    CHECK(is_thrown && calls == 0);
    long before = allocations - releases;
    for (int i = 0; i < 100; i++) std::rcu_retire(&calls, [](int* it) { ++*it; });
    std::rcu_barrier();
    CHECK(calls == 100 && allocations - releases == before); // and gives it back
}
#endif

// 9: or what the initialization of the deleter throws.
TEST(func_9_deleter_throws) {
    int calls = 0;
    bool is_thrown = false;
    throws_on_move::is_on = true;
    throws_on_move it;
    try {
        std::rcu_retire(&calls, throws_on_move()); // (its copy into the parameter is elided)
    } catch (int number) {
        is_thrown = number == 5;
    }
    throws_on_move::is_on = false;
    std::rcu_barrier();
    CHECK(is_thrown && calls == 0);
    std::rcu_retire(&calls, std::move(it));
    std::rcu_barrier();
    CHECK(calls == 1);
}
