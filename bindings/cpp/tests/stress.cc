// Readers and updaters on a list, and counts: reads of what was evaluated (early), evaluations that
// came twice, and ones that never came (lost). It ends once each updater has made its updates. Use:
// stress READERS UPDATERS UPDATES [planted]; by "planted" an updater waits for nothing, and the
// program ends once an early one was found.
#include <rcu>

#include <atomic>
#include <cstdio>
#include <cstdlib>
#include <mutex>
#include <new>
#include <thread>
#include <vector>

static std::atomic<long> early{0}, doubly{0}, evaluated{0};
static bool is_planted;

// The room of a node stays: so a look at one that was evaluated is seen, and is no fault of memory.
// (With WITH_FREE it goes: for sanitizers.)
struct recycle {
    void operator()(struct node* it) const;
};
struct node : std::rcu_obj_base<node, recycle> {
    std::atomic<bool> is_evaluated{false};
    std::atomic<node*> next{nullptr};
};
#ifndef WITH_FREE
static std::mutex rooms_lock;
static std::vector<node*> rooms;
#endif

static void spoil(node* it) {
    if (it->is_evaluated.exchange(true, std::memory_order_relaxed)) ++doubly;
    ++evaluated;
#ifdef WITH_FREE
    delete it;
#else
    std::lock_guard<std::mutex> hold(rooms_lock);
    rooms.push_back(it);
#endif
}
void recycle::operator()(node* it) const { spoil(it); }

static node* fresh() {
#ifndef WITH_FREE
    std::lock_guard<std::mutex> hold(rooms_lock);
    if (rooms.size() > 64) { // not the one that was spoiled last
        node* it = rooms.front();
        rooms.front() = rooms.back();
        rooms.pop_back();
        it->~node();
        return new (it) node; // another object, which may be retired in turn
    }
#endif
    return new node;
}

static std::atomic<node*> head{nullptr};
static std::mutex updating;
static std::atomic<bool> is_over{false};
static std::atomic<long> reads{0}, retired{0}, scheduled{0}, barriers{0}, behind{0};

static void read(unsigned turn) {
    auto& dom = std::rcu_default_domain();
    std::scoped_lock<std::rcu_domain> region(dom);
    if (turn % 8 == 0) dom.lock();
    int steps = 0;
    long bad = 0;
    for (node* it = head.load(std::memory_order_acquire); it && steps < 100; steps++) {
        for (int i = 0; i < 3; i++) bad += it->is_evaluated.load(std::memory_order_relaxed);
        it = it->next.load(std::memory_order_acquire);
    }
    if (turn % 64 == 0) std::this_thread::yield();
    if (turn % 8 == 0) dom.unlock();
    if (bad) early += bad;
    if (turn % 64 == 0) reads += 64;
}

static void read_on() {
    for (unsigned turn = 0; !is_over.load(std::memory_order_relaxed); turn++) read(turn);
}

// Takes out the head or the second one, and puts a new one at the head.
static node* replace(unsigned turn) {
    std::lock_guard<std::mutex> hold(updating);
    node* first = head.load(std::memory_order_relaxed);
    node* second = first->next.load(std::memory_order_relaxed);
    node* added = fresh();
    if (turn % 2) {
        first->next.store(second->next.load(std::memory_order_relaxed), std::memory_order_release);
    } else head.store(second, std::memory_order_release);
    added->next.store(head.load(std::memory_order_relaxed), std::memory_order_relaxed);
    head.store(added, std::memory_order_release);
    return turn % 2 ? second : first;
}

static void update(unsigned turn) {
    node* old = replace(turn);
    ++retired;
    if (is_planted) spoil(old);
    else if (turn % 101 == 0) {
        std::rcu_synchronize();
        spoil(old);
    } else if (turn % 4 == 1) std::rcu_retire(old, recycle());
    else if (turn % 4 == 2) {
        std::scoped_lock<std::rcu_domain> region(std::rcu_default_domain());
        std::rcu_retire(old, [](node* it) { spoil(it); });
    } else old->retire();
    ++scheduled;
}

static void update_on(long updates) {
    for (unsigned turn = 0; is_planted ? early == 0 : turn < updates; turn++) update(turn);
}

// What was scheduled before a barrier has been evaluated at its end. Threads come and go.
static void wait_on() {
    while (!is_over.load(std::memory_order_relaxed)) {
        long before = scheduled;
        std::rcu_barrier();
        if (evaluated < before) ++behind;
        ++barriers;
        std::thread([] {
            for (unsigned turn = 0; turn < 65; turn++) read(turn);
        }).join();
    }
}

int main(int count, char** words) {
    if (count < 4) return 2;
    is_planted = count > 4;
    for (int i = 0; i < 20; i++) {
        node* it = fresh();
        it->next = head.load();
        head = it;
    }
    std::vector<std::thread> updaters, others;
    for (int i = 0; i < std::atoi(words[1]); i++) others.emplace_back(read_on);
    if (!is_planted) others.emplace_back(wait_on);
    for (int i = 0; i < std::atoi(words[2]); i++)
        updaters.emplace_back(update_on, std::atol(words[3]));
    for (auto& it : updaters) it.join();
    is_over = true;
    for (auto& it : others) it.join();
    if (!is_planted) std::rcu_barrier();
    long lost = retired - evaluated;
    std::printf("reads %ld, retired %ld, barriers %ld, early %ld, twice %ld, lost %ld, "
                "behind a barrier %ld\n",
                reads.load(), retired.load(), barriers.load(), early.load(), doubly.load(), lost,
                behind.load());
    return early || doubly || lost || behind;
}
