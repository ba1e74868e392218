// What a sanitizer has to find in spite of the header's marks: a look at an object after the end of
// its region. The looks wait until the object was evaluated. Under a sanitizer of addresses or of
// threads it ends with a report.
#include <rcu>

#include <atomic>
#include <thread>

struct thing : std::rcu_obj_base<thing> {
    int value = 1;
};
static std::atomic<thing*> shown{new thing};
static std::atomic<int> step{0};

int main() {
    int sum = 0;
    std::thread reader([&] {
        std::rcu_default_domain().lock();
        thing* it = shown.load(std::memory_order_acquire);
        sum += it->value;
        std::rcu_default_domain().unlock();
        step.store(1, std::memory_order_relaxed);
        while (step.load(std::memory_order_relaxed) < 2) std::this_thread::yield();
        sum += it->value; // too late
    });
    while (step.load(std::memory_order_relaxed) < 1) std::this_thread::yield();
    shown.exchange(new thing, std::memory_order_acq_rel)->retire();
    std::rcu_barrier();
    step.store(2, std::memory_order_relaxed);
    reader.join();
    delete shown.load();
    return sum;
}
