// Readers see one setting or the next one, and none is freed under them.
#include <rcu>

#include <atomic>
#include <cstdio>
#include <mutex>
#include <thread>

struct setting : std::rcu_obj_base<setting> {
    int low, high;
    setting(int l, int h) : low(l), high(h) {}
};
static std::atomic<setting*> shown{new setting(10, 20)};

int main() {
    std::thread reader([] {
        for (int high = 0; high < 1000;) {
            std::scoped_lock region(std::rcu_default_domain());
            setting* it = shown.load(std::memory_order_acquire);
            if (it->high != it->low + 10) std::puts("torn");
            high = it->high;
        }
    });
    for (int i = 0; i < 1000; i++) shown.exchange(new setting(i, i + 10))->retire();
    reader.join();
    shown.exchange(nullptr)->retire();
    std::rcu_barrier(); // nothing is evaluated after the end of main
    std::puts("ended");
}
