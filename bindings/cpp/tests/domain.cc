// [saferecl.rcu.domain]: the class rcu_domain.
#include "wording.h"

#include <chrono>
#include <condition_variable>
#include <type_traits>
#include <vector>

using namespace std::chrono_literals;

// 1: it is Cpp17Lockable, and a program makes none.
TEST(domain_1_lockable) {
    using std::rcu_domain;
    static_assert(!std::is_default_constructible_v<rcu_domain>);
    static_assert(!std::is_copy_constructible_v<rcu_domain>);
    static_assert(!std::is_move_constructible_v<rcu_domain>);
    static_assert(!std::is_copy_assignable_v<rcu_domain>);
    static_assert(noexcept(dom.lock()) && noexcept(dom.try_lock()) && noexcept(dom.unlock()));
    static_assert(std::is_same_v<decltype(dom.lock()), void>);
    static_assert(std::is_same_v<decltype(dom.try_lock()), bool>);
    { std::scoped_lock<rcu_domain> it(dom); }
    { std::scoped_lock it(std::rcu_default_domain()); }
    { std::lock_guard<rcu_domain> it(dom); }
    {
        std::unique_lock<rcu_domain> it(dom, std::defer_lock);
        CHECK(!it.owns_lock());
        CHECK(it.try_lock());
        it.unlock();
        it.lock();
        auto moved = std::move(it);
        CHECK(moved.owns_lock());
    }
    std::rcu_synchronize(); // all of them have left
}

TEST(domain_1_beside_other_locks) {
    std::mutex other;
    {
        std::scoped_lock both(dom, other);
        std::unique_lock<std::rcu_domain> again(dom, std::try_to_lock);
        CHECK(again.owns_lock());
    }
    std::condition_variable_any any; // whose wait leaves the region meanwhile
    std::unique_lock<std::rcu_domain> it(dom);
    CHECK(any.wait_for(it, 5ms) == std::cv_status::timeout);
    it.unlock();
    std::rcu_synchronize();
}

// lock and try_lock open a region; try_lock returns true.
TEST(domain_lock_opens) {
    for (bool by_try : {false, true}) {
        holder it(1, by_try);
        CHECK(holds_up(it, [] { std::rcu_synchronize(); }));
        holder nested(2, by_try);
        nested.leave_to(1);
        CHECK(holds_up(nested, [] { std::rcu_synchronize(); }));
    }
}

// Whether unlock evaluates is implementation-defined. It does not, and no other call does.
TEST(domain_unlock_evaluates_nothing) {
    int others = 0;
    auto me = std::this_thread::get_id();
    for (int i = 0; i < 1000; i++) {
        region mine(dom);
        std::rcu_retire(&others, [me](int* it) { *it += std::this_thread::get_id() != me; });
    }
    std::rcu_synchronize();
    std::rcu_barrier();
    CHECK(others == 1000);
}

// Calls of lock, try_lock and unlock are no data race.
TEST(domain_no_races) {
    std::vector<std::thread> all;
    for (int i = 0; i < 4; i++)
        all.emplace_back([] {
            for (int j = 0; j < 20000; j++) {
                dom.lock();
                dom.try_lock();
                dom.unlock();
                dom.unlock();
            }
        });
    for (auto& it : all) it.join();
    std::rcu_synchronize();
    CHECK(true);
}
