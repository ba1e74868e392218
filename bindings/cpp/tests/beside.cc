// The header beside rcu.h, in either order, and beside a standard library that has its own <rcu>
// (FOLDER_HAS_RCU): then std has that one's names. It is only compiled.
#ifdef RCU_FIRST
#include <rcu>
#endif
#ifndef FOLDER_HAS_RCU
#include <rcu.h>
#endif
#include <rcu>

#ifdef FOLDER_HAS_RCU
static_assert(std::rcu_domain::is_of_the_standard_library);
static_assert(!std::is_same_v<std::rcu_domain, over_rcu::rcu_domain>);
#else
static_assert(std::is_same_v<std::rcu_domain, over_rcu::rcu_domain>);
struct rcu* handle = nullptr; // of rcu.h
#endif

struct both : over_rcu::rcu_obj_base<both> {};

void calls() {
    over_rcu::rcu_default_domain().lock();
    (new both)->retire();
    over_rcu::rcu_default_domain().unlock();
    over_rcu::rcu_retire(new int);
    over_rcu::rcu_synchronize();
    over_rcu::rcu_barrier();
}
