// [saferecl.rcu.general], and the synopsis.
#include "wording.h"

#include <memory>
#include <type_traits>
#include <vector>

// 1: RCU does not provide mutual exclusion.
TEST(general_1_no_mutual_exclusion) {
    holder one, other;
    region mine(dom);
    CHECK(true); // three threads are in regions at once
}

struct plain_one : std::rcu_obj_base<plain_one> {};
struct other_deleter {
    void operator()(void*) const {}
};
struct with_deleter : std::rcu_obj_base<with_deleter, other_deleter> {};
struct private_one : private std::rcu_obj_base<private_one> {};
struct virtual_one : virtual std::rcu_obj_base<virtual_one> {};
struct twice : plain_one, std::rcu_obj_base<twice> {};
struct twice_alike : std::rcu_obj_base<twice_alike>,
                     std::rcu_obj_base<twice_alike, other_deleter> {};
struct below : plain_one {};

// 2: which types are rcu-protectable.
TEST(general_2_protectable) {
    using over_rcu::detail::is_protectable;
    using std::default_delete;
    CHECK((is_protectable<plain_one, default_delete<plain_one>>::value));
    CHECK((is_protectable<with_deleter, other_deleter>::value));
    CHECK((!is_protectable<with_deleter, default_delete<with_deleter>>::value));
    CHECK((!is_protectable<private_one, default_delete<private_one>>::value));
    CHECK((!is_protectable<virtual_one, default_delete<virtual_one>>::value));
    CHECK((!is_protectable<twice, default_delete<twice>>::value));
    CHECK((!is_protectable<twice_alike, other_deleter>::value));
    CHECK((!is_protectable<below, default_delete<below>>::value));
}

// 3: an unlock corresponds to the lock that nesting gives it.
TEST(general_3_nesting) {
    holder deep(2);
    deep.leave_to(1); // the inner unlock leaves the outer region open
    CHECK(holds_up(deep, [] { std::rcu_synchronize(); }));
}

TEST(general_3_depth) {
    for (int i = 0; i < 100000; i++) dom.lock();
    for (int i = 0; i < 100000; i++) dom.unlock();
    std::rcu_synchronize();
    // Guards that end in the order of their begins: pairs go by nesting alone.
    auto one = std::make_unique<region>(dom);
    auto other = std::make_unique<region>(dom);
    one.reset();
    other.reset();
    std::rcu_synchronize();
    CHECK(true);
}

// 4: a region begins with a lock and ends with its unlock.
TEST(general_4_region) {
    holder it;
    CHECK(holds_up(it, [] { std::rcu_synchronize(); }));
    std::rcu_synchronize();
    CHECK(!it.requested_after_end); // who waited was woken
}

// 5: the end of a region comes before what is evaluated, unless the scheduling came before it.
TEST(general_5_region_of_another_thread) {
    std::atomic<int> seen{-1};
    holder in_region;
    auto* x = new counted;
    x->retire();
    std::rcu_retire(&seen, [&](std::atomic<int>* it) { *it = in_region.written; });
    wait_until([&] { return seen != -1 || in_region.is_awaited(); });
    CHECK(counted::alive == 1 && seen == -1);
    in_region.let_go();
    std::rcu_barrier();
    CHECK(counted::alive == 0 && seen == 1);
}

TEST(general_5_own_region) {
    take_request_back();
    auto* x = new counted;
    {
        region mine(dom);
        x->retire();
        wait_until([] { return counted::alive == 0 || is_set(own_request()); });
        CHECK(counted::alive == 1 && x->value == 7);
    }
    std::rcu_barrier();
    CHECK(counted::alive == 0);
}

// 6: each is evaluated at most once.
TEST(general_6_at_most_once) {
    counted::ended = 0;
    std::vector<std::thread> all;
    for (int i = 0; i < 3; i++)
        all.emplace_back([] {
            for (int j = 0; j < 5000; j++) (new counted)->retire();
        });
    for (auto& it : all) it.join();
    std::rcu_barrier();
    CHECK(counted::ended == 15000 && counted::alive == 0);
}

TEST(synopsis) {
    static_assert(__cpp_lib_rcu >= 202306L);
    using std::is_same_v, std::rcu_domain, std::default_delete;
    static_assert(is_same_v<decltype(&std::rcu_default_domain), rcu_domain& (*)() noexcept>);
    static_assert(is_same_v<decltype(&std::rcu_synchronize), void (*)(rcu_domain&) noexcept>);
    static_assert(is_same_v<decltype(&std::rcu_barrier), void (*)(rcu_domain&) noexcept>);
    static_assert(noexcept(std::rcu_synchronize()) && noexcept(std::rcu_barrier(dom)));
    static_assert(!noexcept(std::rcu_retire(static_cast<int*>(nullptr))));
    static_assert(is_same_v<std::rcu_obj_base<int>, std::rcu_obj_base<int, default_delete<int>>>);
    static_assert(is_same_v<rcu_domain, over_rcu::rcu_domain>);
    void (*retire)(int*, default_delete<int>, rcu_domain&) = &std::rcu_retire<int>;
    CHECK(retire != nullptr);
    std::rcu_synchronize(dom);
    std::rcu_barrier(dom);
    std::rcu_retire(new int(1), default_delete<int>(), dom);
    std::rcu_retire<int>(nullptr);
    std::rcu_barrier();
}
