// What stands beyond the wording: what evaluations may do, the ends of threads, signal handlers,
// the bound on what waits, and the time after main.
#include "wording.h"

#include <csignal>
#include <pthread.h>
#include <unistd.h>

struct chain : std::rcu_obj_base<chain> {
    static inline int ended = 0;
    int left;
    explicit chain(int n) : left(n) {}
    ~chain() { // a deleter locks, and retires
        region mine(dom);
        if (left) (new chain(left - 1))->retire();
        ++ended;
    }
};

TEST(beyond_deleters) {
    (new chain(5))->retire();
    for (int i = 0; i < 6; i++) std::rcu_barrier();
    CHECK(chain::ended == 6);
    int value = 0;
    std::rcu_retire(&value, [](int* it) { // and waits
        std::rcu_synchronize();
        ++*it;
    });
    std::rcu_barrier();
    CHECK(value == 1);
}

struct at_thread_end {
    ~at_thread_end() {
        region mine(dom);
        (new counted)->retire();
    }
};

TEST(beyond_threads) {
    counted::ended = 0;
    for (int i = 0; i < 300; i++)
        std::thread([] {
            static thread_local at_thread_end end;
            (void)&end;
            region mine(dom);
            (new counted)->retire();
        }).join();
    std::rcu_barrier();
    CHECK(counted::ended == 600);
    std::thread([] { dom.lock(); }).join(); // one that ends in a region holds nothing up
    std::rcu_synchronize();
    CHECK(true);
}

// A handler reads, whatever its thread is in the midst of.
struct checked : std::rcu_obj_base<checked> {
    std::atomic<int> good{1};
    ~checked() { good = 0; }
};
static std::atomic<checked*> shown{nullptr};
static std::atomic<long> handled{0}, handled_wrong{0};
static void on_signal(int) {
    region mine(dom);
    for (int i = 0; i < 20; i++)
        if (shown.load(std::memory_order_acquire)->good != 1) ++handled_wrong;
    ++handled;
}

TEST_WITH_FORKS(beyond_signals) { // (not with forks, but sanitizers put handlers off)
    shown = new checked;
    std::signal(SIGUSR1, on_signal);
    std::atomic<bool> is_over{false};
    std::thread worker([&] {
        while (!is_over) {
            dom.lock();
            dom.lock();
            dom.unlock();
            dom.unlock();
            shown.exchange(new checked)->retire();
            std::rcu_synchronize();
        }
    });
    for (long sent = 0; sent < 2000; sent++) {
        pthread_kill(worker.native_handle(), SIGUSR1);
        wait_until([&] { return handled > sent / 2; }); // two that wait may come as one
    }
    is_over = true;
    worker.join();
    std::rcu_barrier();
    CHECK(handled >= 1000 && handled_wrong == 0);
    delete shown.load();
}

extern "C" std::atomic<unsigned long> urcu_cpp_pressure_waits;

enum { MANY = 10000, MOST = 1000, LOOK_EVERY = 256 };
static void retire_many(std::atomic<int>& retired) {
    for (; retired < MANY; ++retired) (new counted)->retire();
}

// Whether a call of retire_many in another thread waits. Then it may go on.
template <class F> static bool waits(std::atomic<int>& retired, F&& call) {
    unsigned long before = urcu_cpp_pressure_waits;
    over_rcu::set_pressure(MOST, 1u << 30); // for good
    retired = 0;
    call();
    wait_until([&] { return retired == MANY || urcu_cpp_pressure_waits > before; });
    bool waited = retired < MANY;
    over_rcu::set_pressure(MOST, 0); // no more
    return waited;
}

// Beyond the bound a retire waits for evaluations, or until its time is over.
TEST(beyond_pressure) {
    std::atomic<bool> is_let_go{false};
    std::atomic<int> retired{0}, then{0};
    std::thread updater;
    std::rcu_retire(&is_let_go, [](std::atomic<bool>* it) {
        wait_until([&] { return it->load(); });
    });
    CHECK(waits(retired, [&] { updater = std::thread([&] { retire_many(retired); }); }));
    updater.join(); // as its time is over
    is_let_go = true;
    std::rcu_barrier();
    CHECK(counted::alive == 0);

    // By evaluations alone it goes on too.
    is_let_go = false;
    std::rcu_retire(&is_let_go, [](std::atomic<bool>* it) {
        wait_until([&] { return it->load(); });
    });
    unsigned long before = urcu_cpp_pressure_waits;
    over_rcu::set_pressure(MOST, 1u << 30);
    updater = std::thread([&] { retire_many(then); });
    wait_until([&] { return then == MANY || urcu_cpp_pressure_waits > before; });
    CHECK(then <= MOST + 2 * LOOK_EVERY);
    is_let_go = true;
    updater.join();
    std::rcu_barrier();
    over_rcu::set_pressure(1 << 17, 100);
}

// It does not wait where nothing could be evaluated: in a region, and in an evaluation.
TEST(beyond_pressure_exceptions) {
    std::atomic<int> retired{0};
    std::thread updater;
    CHECK(!waits(retired, [&] {
        updater = std::thread([&] {
            region mine(dom);
            retire_many(retired);
        });
    }));
    updater.join();
    std::rcu_barrier();
    CHECK(!waits(retired, [&] {
        std::rcu_retire(&retired, [](std::atomic<int>* it) { retire_many(*it); });
    }));
    std::rcu_barrier(); // ends the evaluation
    std::rcu_barrier(); // and what it retired
    CHECK(counted::alive == 0);
    over_rcu::set_pressure(1 << 17, 100);
}

// In the destructors of static objects, after main. A barrier there covers what is retired there.
static int late_value;
struct after_main {
    ~after_main() {
        {
            region mine(std::rcu_default_domain());
        }
        std::rcu_retire(new int(4), [](int* it) {
            late_value = *it;
            delete it;
        });
        std::rcu_synchronize();
        std::rcu_barrier();
        if (late_value == 4) return;
        std::puts("after main: FAILED");
        _exit(3);
    }
};
static after_main late;
