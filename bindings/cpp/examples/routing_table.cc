// A routing table: packets look routes up without a lock, while others replace and withdraw routes.
// An entry derives from rcu_obj_base, so that to withdraw one takes no memory.
#include <rcu>

#include <array>
#include <atomic>
#include <cstdint>
#include <cstdio>
#include <mutex>
#include <string>
#include <thread>
#include <vector>

static std::atomic<int> alive{0};

struct route : std::rcu_obj_base<route> {
    std::uint32_t prefix;
    std::string gateway, copy; // alike
    std::atomic<route*> next{nullptr};
    route(std::uint32_t p, int metric)
        : prefix(p), gateway("gateway of metric " + std::to_string(metric)), copy(gateway) {
        ++alive;
    }
    ~route() { --alive; }
};

class table {
    std::array<std::atomic<route*>, 16> buckets_{};
    std::mutex updating_;

    std::atomic<route*>& bucket(std::uint32_t prefix) { return buckets_[prefix % 16]; }

    // With the lock held: where the link to the prefix's route is.
    std::atomic<route*>* find(std::uint32_t prefix) {
        std::atomic<route*>* at = &bucket(prefix);
        for (route* it; (it = at->load(std::memory_order_relaxed)); at = &it->next)
            if (it->prefix == prefix) break;
        return at;
    }

public:
    // What it finds is there until the end of the caller's region.
    const route* look_up(std::uint32_t prefix) {
        route* it = bucket(prefix).load(std::memory_order_acquire);
        while (it && it->prefix != prefix) it = it->next.load(std::memory_order_acquire);
        return it;
    }

    void announce(std::uint32_t prefix, int metric) {
        auto* added = new route(prefix, metric);
        std::unique_lock<std::mutex> hold(updating_);
        std::atomic<route*>* at = find(prefix);
        route* old = at->load(std::memory_order_relaxed);
        if (old) added->next = old->next.load(std::memory_order_relaxed);
        at->store(added, std::memory_order_release);
        hold.unlock();
        if (old) old->retire();
    }

    void withdraw(std::uint32_t prefix) {
        std::unique_lock<std::mutex> hold(updating_);
        std::atomic<route*>* at = find(prefix);
        route* old = at->load(std::memory_order_relaxed);
        if (!old) return;
        at->store(old->next.load(std::memory_order_relaxed), std::memory_order_release);
        hold.unlock();
        old->retire();
    }
};

int main() {
    const std::uint32_t prefixes = 64; // the even ones are never withdrawn
    table routes;
    for (std::uint32_t it = 0; it < prefixes; it++) routes.announce(it, 0);
    std::atomic<bool> is_over{false};
    std::atomic<long> lost{0}, torn{0};
    std::vector<std::thread> packets, updates;
    for (std::uint32_t i = 0; i < 2; i++)
        packets.emplace_back([&, i] {
            for (std::uint32_t prefix = i; !is_over; prefix = (prefix + 7) % prefixes) {
                std::scoped_lock region(std::rcu_default_domain());
                const route* it = routes.look_up(prefix);
                if (!it && prefix % 2 == 0) ++lost;
                if (it && it->gateway != it->copy) ++torn;
            }
        });
    for (std::uint32_t i = 0; i < 2; i++)
        updates.emplace_back([&, i] {
            for (int metric = 1; metric <= 5000; metric++) {
                std::uint32_t prefix = (static_cast<std::uint32_t>(metric) * 5 + i) % prefixes;
                if (prefix % 2 && metric % 2) routes.withdraw(prefix);
                else routes.announce(prefix, metric);
            }
        });
    for (auto& it : updates) it.join();
    is_over = true;
    for (auto& it : packets) it.join();
    for (std::uint32_t it = 0; it < prefixes; it++) routes.withdraw(it);
    std::rcu_barrier();
    std::printf("lost %ld, torn %ld, alive %d\n", lost.load(), torn.load(), alive.load());
    return lost || torn || alive;
}
