// A cache of a type that knows nothing of RCU: a map of the standard library, which is replaced as
// a whole. Readers take no lock; rcu_retire ends the old map once none of them can see it.
#include <rcu>

#include <atomic>
#include <cstdio>
#include <memory>
#include <mutex>
#include <string>
#include <thread>
#include <unordered_map>
#include <vector>

using entries = std::unordered_map<std::string, std::string>;

class cache {
    std::atomic<const entries*> shown_{new entries};
    std::mutex updating_;

public:
    static inline std::atomic<int> ended{0};

    // By value: it outlives the region.
    std::string get(const std::string& key) const {
        std::scoped_lock region(std::rcu_default_domain());
        const entries* all = shown_.load(std::memory_order_acquire);
        auto found = all->find(key);
        return found == all->end() ? std::string() : found->second;
    }

    void put(const std::string& key, const std::string& value) {
        std::lock_guard<std::mutex> hold(updating_);
        const entries* old = shown_.load(std::memory_order_relaxed);
        auto added = std::make_unique<entries>(*old);
        (*added)[key] = value;
        shown_.store(added.release(), std::memory_order_release);
        std::rcu_retire(old, [](const entries* it) {
            ++ended;
            delete it;
        });
    }

    ~cache() { delete shown_.load(); }
};

int main() {
    const int updates = 2000;
    std::atomic<bool> is_over{false};
    std::atomic<long> wrong{0};
    {
        cache names;
        names.put("first", "value 0 of first");
        std::vector<std::thread> readers;
        for (int i = 0; i < 2; i++)
            readers.emplace_back([&] {
                while (!is_over)
                    if (names.get("first").rfind("value ", 0) != 0) ++wrong;
            });
        for (int i = 1; i < updates; i++) {
            std::string key = i % 10 ? "other " + std::to_string(i % 10) : "first";
            names.put(key, "value " + std::to_string(i) + " of " + key);
        }
        is_over = true;
        for (auto& it : readers) it.join();
    }
    std::rcu_barrier();
    std::printf("wrong %ld, ended %d\n", wrong.load(), cache::ended.load());
    return wrong || cache::ended != updates;
}
