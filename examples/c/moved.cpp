// An engine whose handle is moved, as C++ does it, and a reader in another thread.
#include <rcu.h>
#include <atomic>
#include <cstdio>
#include <thread>
#include <utility>

struct engine {
    rcu_t handle = {};
    engine() = default;
    engine(engine &&other) : handle(other.handle) { other.handle = {}; }
    ~engine() {
        if (handle.at) rcu_close(&handle);
    }
};

int main() {
    engine first;
    rcu_seat_t seat = {};
    std::uint64_t number;
    std::uint32_t awaited, found;
    if (rcu_open(2, 8, &first.handle) || rcu_seat_open(&first.handle, 0, &seat)) return 1;
    engine moved(std::move(first));
    std::uint64_t cookie = rcu_seat_take(&seat);
    if (rcu_begin(&moved.handle, &number, &awaited)) return 1;
    std::uint32_t fault = rcu_end(&moved.handle, &number);
    std::printf("%u awaited: %s\n", awaited, rcu_fault_text(fault));
    std::thread([&] { rcu_seat_quiesce(&seat, &number); }).join();
    if (rcu_collect(&moved.handle, 0, &found) || rcu_end(&moved.handle, &number)) return 1;
    std::printf("%s\n", rcu_seat_poll(&seat, cookie) ? "done" : "not done");
    rcu_seat_close(&seat);
    return RCU_VERSION < 1000;
}
