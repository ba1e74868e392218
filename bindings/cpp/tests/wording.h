// Helpers of the tests of the wording. No test depends on a clock: it waits until the gp_thread
// asks to be woken at the end of an open region, which it does after a few looks.
#pragma once
#include <rcu>

#include <atomic>
#include <cstdio>
#include <mutex>
#include <thread>

extern int passed, failed;
#define CHECK(it) \
    do { \
        if (it) ++passed; \
        else { \
            ++failed; \
            std::printf("%s:%d: failed: %s\n", __FILE__, __LINE__, #it); \
        } \
    } while (0)

// A test that is listed by its name. One with forks is left out under sanitizers, whose allocator
// another thread may hold at a fork.
struct test {
    const char* name;
    void (*run)();
    bool has_forks;
    test* next;
    test(const char* name_, void (*run_)(), bool has_forks_);
};
#define TEST_OF(name, has_forks) \
    static void name(); \
    static test listed_##name(#name, name, has_forks); \
    static void name()
#define TEST(name) TEST_OF(name, false)
#define TEST_WITH_FORKS(name) TEST_OF(name, true)

using region = std::scoped_lock<std::rcu_domain>;
inline std::rcu_domain& dom = std::rcu_default_domain();

template <class F> void wait_until(F&& it) {
    while (!it()) std::this_thread::yield();
}

// A request that an earlier grace period left behind is taken back.
inline void take_request_back() {
    dom.lock();
    dom.unlock();
}

// Returns true if the gp_thread waits for the calling thread, which is in a region.
inline const bool* own_request() { return &urcu_cpp_self.shown->wake_requested; }
inline bool is_set(const bool* it) { return __atomic_load_n(it, __ATOMIC_SEQ_CST); }

// A thread in a region, which it leaves step by step.
class holder {
    std::atomic<int> depth_{0}, wanted_;
    std::atomic<const bool*> request_{nullptr};
    std::thread thread_;

public:
    int written = 0;                 // plain, before the region's end
    bool requested_after_end = true; // plain: once the region has ended no request is left

    explicit holder(int depth = 1, bool by_try = false) : wanted_(depth) {
        thread_ = std::thread([this, depth, by_try] { run(depth, by_try); });
        wait_until([&] { return depth_ == depth; });
    }
    bool is_awaited() const { return is_set(request_); }
    void leave_to(int depth) {
        wanted_ = depth;
        wait_until([&] { return depth_ == depth; });
    }
    void let_go() { leave_to(0); }
    ~holder() {
        if (depth_) let_go();
        thread_.join();
    }

private:
    void run(int depth, bool by_try) {
        take_request_back();
        for (int i = 0; i < depth; i++) {
            if (by_try) CHECK(dom.try_lock());
            else dom.lock();
        }
        request_ = own_request();
        depth_ = depth;
        while (depth) {
            wait_until([&] { return wanted_ < depth; });
            if (depth == 1) written = 1;
            dom.unlock();
            if (depth == 1) requested_after_end = is_set(request_);
            depth_ = --depth;
        }
    }
};

// Whether the region holds up a call in another thread, which begins now. Then it ends.
template <class F> bool holds_up(holder& it, F&& call) {
    std::atomic<bool> is_over{false};
    std::thread other([&] {
        call();
        is_over = true;
    });
    wait_until([&] { return is_over || it.is_awaited(); });
    bool held = !is_over;
    it.let_go();
    other.join();
    return held;
}

// How many are there, and how many have ended.
struct counted : std::rcu_obj_base<counted> {
    static inline std::atomic<int> alive{0}, ended{0};
    int value = 7;
    counted() { ++alive; }
    counted(const counted& other) : std::rcu_obj_base<counted>(other), value(other.value) {
        ++alive;
    }
    counted& operator=(const counted&) = default;
    ~counted() {
        --alive;
        ++ended;
    }
};

#ifndef NO_OWN_NEW // the sanitizers and valgrind have their own
#define OWN_NEW 1
extern thread_local int fail_next; // the so-manieth allocation of this thread throws
extern std::atomic<long> allocations, releases;
#endif
