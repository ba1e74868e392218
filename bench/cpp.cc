// One program for each way (bench/cpp): <rcu> here; liburcu (LIBURCU, with USE_BP its flavour bp,
// with _LGPL_SOURCE inlined); libcds (CDS as its kind). It prints a row for each figure: its name,
// and nanoseconds, of the thread's own time unless the row says otherwise.
#include <algorithm>
#include <atomic>
#include <cstdint>
#include <cstdio>
#include <cstdlib>
#include <ctime>
#include <string>
#include <thread>
#include <vector>

#if defined(CDS)
#include <cds/init.h>
#include <cds/threading/model.h>
#include <cds/urcu/general_buffered.h>
#include <cds/urcu/general_threaded.h>
namespace way {
using rcu = cds::urcu::gc<cds::urcu::CDS<>>;
static rcu* only;
struct node {
    std::uint64_t value = 0, twice = 0;
};
static void start() {
    cds::Initialize();
    only = new rcu;
}
static void arrive() { cds::threading::Manager::attachThread(); }
static void depart() { cds::threading::Manager::detachThread(); }
static void enter() { rcu::access_lock(); }
static void leave() { rcu::access_unlock(); }
static void end(void* it) { delete static_cast<node*>(it); }
static void retire(node* it) { rcu::retire_ptr(it, end); }
static void retire_apart(node* it) { retire(it); }
static void synchronize() { rcu::synchronize(); }
static void barrier() { rcu::synchronize(); }
} // namespace way
#elif defined(LIBURCU)
#ifdef USE_BP
#include <urcu/urcu-bp.h>
#define CALL(name) urcu_bp_##name
#else
#include <urcu/urcu-memb.h>
#define CALL(name) urcu_memb_##name
#endif
namespace way {
struct node {
    struct rcu_head head = {};
    std::uint64_t value = 0, twice = 0;
};
struct apart {
    struct rcu_head head;
    node* it;
};
static void start() {}
#ifdef USE_BP
static void arrive() {}
static void depart() {}
#else
static void arrive() { CALL(register_thread)(); }
static void depart() { CALL(unregister_thread)(); }
#endif
static void enter() { CALL(read_lock)(); }
static void leave() { CALL(read_unlock)(); }
static void end(struct rcu_head* head) { delete reinterpret_cast<node*>(head); }
static void end_apart(struct rcu_head* head) {
    delete reinterpret_cast<apart*>(head)->it;
    delete reinterpret_cast<apart*>(head);
}
static void retire(node* it) { CALL(call_rcu)(&it->head, end); }
static void retire_apart(node* it) { CALL(call_rcu)(&(new apart{{}, it})->head, end_apart); }
static void synchronize() { CALL(synchronize_rcu)(); }
static void barrier() { CALL(barrier)(); }
} // namespace way
#else
#include <rcu>
namespace way {
struct node : std::rcu_obj_base<node> {
    std::uint64_t value = 0, twice = 0;
};
static auto& dom = std::rcu_default_domain();
static void start() {}
static void arrive() {}
static void depart() {}
static void enter() { dom.lock(); }
static void leave() { dom.unlock(); }
static void retire(node* it) { it->retire(); }
static void retire_apart(node* it) { std::rcu_retire(it); }
static void synchronize() { std::rcu_synchronize(); }
static void barrier() { std::rcu_barrier(); }
} // namespace way
#endif

using way::node;
static std::atomic<node*> shown{nullptr};
static std::atomic<long> wrong{0};

static double now(clockid_t id) {
    timespec time;
    clock_gettime(id, &time);
    return double(time.tv_sec) * 1e9 + double(time.tv_nsec);
}

// Nanoseconds of one of so many times.
template <class F> static double cost(clockid_t id, long times, F&& once) {
    double begun = now(id);
    for (long i = 0; i < times; i++) once();
    return (now(id) - begun) / double(times);
}

static void show(const char* name, double nanoseconds) {
    std::printf("%s\t%f\n", name, nanoseconds);
    std::fflush(stdout);
}

static void section() {
    way::enter();
    __atomic_signal_fence(__ATOMIC_SEQ_CST);
    way::leave();
}

static void show_retire(const char* name, void (*retire)(node*)) {
    const long many = 20000;
    std::vector<node*> nodes;
    for (long i = 0; i < many; i++) nodes.push_back(new node);
    auto next = nodes.begin();
    show(name, cost(CLOCK_THREAD_CPUTIME_ID, many, [&] { retire(*next++); }));
    way::barrier();
}

static void read_once() {
    way::enter();
    node* it = shown.load(std::memory_order_acquire);
    if (it->twice != 2 * it->value) ++wrong;
    way::leave();
}

// Reads beside one thread that updates, for a tenth of a second.
static void show_beside(int readers) {
    std::atomic<bool> is_over{false};
    std::vector<double> costs(static_cast<std::size_t>(readers)), spent(costs);
    std::vector<std::thread> all;
    double whole = now(CLOCK_PROCESS_CPUTIME_ID);
    for (std::size_t i = 0; i < costs.size(); i++)
        all.emplace_back([&, i] {
            way::arrive();
            double begun = now(CLOCK_THREAD_CPUTIME_ID);
            long reads = 0;
            for (; !is_over.load(std::memory_order_relaxed); reads++) read_once();
            spent[i] = now(CLOCK_THREAD_CPUTIME_ID) - begun;
            costs[i] = spent[i] / double(reads);
            way::depart();
        });
    long updates = 0;
    for (double end = now(CLOCK_MONOTONIC) + 1e8; now(CLOCK_MONOTONIC) < end; updates++) {
        node* added = new node;
        added->value = static_cast<std::uint64_t>(updates);
        added->twice = 2 * added->value;
        way::retire(shown.exchange(added, std::memory_order_acq_rel));
    }
    is_over = true;
    for (auto& it : all) it.join();
    way::barrier();
    whole = now(CLOCK_PROCESS_CPUTIME_ID) - whole;
    for (double it : spent) whole -= it;
    std::sort(costs.begin(), costs.end());
    std::string with = std::to_string(readers) + "+1";
    show(("a read, " + with).c_str(), costs[costs.size() / 2]);
    show(("an update and its free, " + with + ", all but the readers").c_str(),
         whole / double(updates));
}

int main() {
    way::start();
    way::arrive();
    shown = new node;
    section();
    show("a section", cost(CLOCK_THREAD_CPUTIME_ID, 2000000, section));
    way::enter();
    show("a nested section", cost(CLOCK_THREAD_CPUTIME_ID, 2000000, section));
    way::leave();
    show_retire("retire", way::retire);
    show_retire("rcu_retire, which allocates", way::retire_apart);
    show("synchronize alone, by the clock", cost(CLOCK_MONOTONIC, 5000, way::synchronize));
    show("barrier with nothing retired, by the clock", cost(CLOCK_MONOTONIC, 20, way::barrier));
    for (int readers : {1, 3}) show_beside(readers);
    std::_Exit(wrong != 0);
}
