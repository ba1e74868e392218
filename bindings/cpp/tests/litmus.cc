// The handshake between regions and waits, by rcu_synchronize and by retire: an updater unlinks,
// waits and spoils. Each reader fills its store buffer with stores to cold lines, so that what lock
// stores is long on its way while the region reads already. Use: litmus UPDATES [planted|fences].
// By "planted" the updater does not wait, and goes on until a region saw it; by "fences" the system
// refuses membarrier(2), so that the readers make their own fence.
#include <rcu>

#include <atomic>
#include <cerrno>
#include <cstddef>
#include <cstdio>
#include <cstdlib>
#include <cstring>
#include <mutex>
#include <new>
#include <linux/filter.h>
#include <linux/seccomp.h>
#include <sys/mman.h>
#include <sys/prctl.h>
#include <sys/syscall.h>
#include <thread>
#include <unistd.h>

enum { POOL = 64, READERS = 2, COLD = 40, LOOKS = 30 };
static const unsigned long SIZE = 64ul << 20;

struct spoiler {
    void operator()(struct item* it) const;
};
struct alignas(128) item : std::rcu_obj_base<item, spoiler> {
    std::atomic<bool> is_good{true}, is_free{true};
};
void spoiler::operator()(item* it) const {
    it->is_good.store(false, std::memory_order_relaxed);
    it->is_free.store(true, std::memory_order_release);
}
static item pool[POOL];
static std::atomic<item*> shown{&pool[0]};
static std::atomic<bool> is_over{false};
static std::atomic<long> wrong{0}, reads{0};

static void read_on(unsigned long seed) {
    void* room = mmap(nullptr, SIZE, PROT_READ | PROT_WRITE, MAP_PRIVATE | MAP_ANONYMOUS, -1, 0);
    auto* cold = static_cast<volatile char*>(room);
    auto& dom = std::rcu_default_domain();
    while (!is_over.load(std::memory_order_relaxed)) {
        for (int i = 0; i < COLD; i++) {
            seed = seed * 6364136223846793005ul + 1442695040888963407ul;
            cold[(seed >> 20) % SIZE] = 2;
        }
        std::scoped_lock<std::rcu_domain> region(dom);
        item* it = shown.load(std::memory_order_acquire);
        bool is_bad = false;
        for (int i = 0; i < LOOKS; i++) is_bad |= !it->is_good.load(std::memory_order_relaxed);
        if (is_bad) ++wrong;
        reads.fetch_add(1, std::memory_order_relaxed);
    }
    munmap(room, SIZE);
}

enum way { BY_SYNCHRONIZE, BY_RETIRE, PLANTED };

static void update(way by, unsigned long number) {
    item* old = shown.load();
    item* next = &pool[number % POOL];
    if (next == old) return;
    while (!next->is_free.load(std::memory_order_acquire)) std::this_thread::yield();
    next->~item();
    new (next) item; // another object, which may be retired in turn
    next->is_free.store(false, std::memory_order_relaxed);
    shown.store(next, std::memory_order_release);
    if (by == BY_RETIRE) {
        old->retire();
        return;
    }
    if (by == BY_SYNCHRONIZE) std::rcu_synchronize();
    spoiler()(old);
}

static bool run(way by, unsigned long updates) {
    std::thread all[READERS];
    is_over = false;
    shown.load()->is_free = false;
    wrong = reads = 0;
    for (unsigned long i = 0; i < READERS; i++) all[i] = std::thread(read_on, i + 1);
    for (unsigned long i = 0; by == PLANTED ? wrong == 0 : i < updates || reads < 1000; i++)
        update(by, i);
    is_over = true;
    for (auto& it : all) it.join();
    std::rcu_barrier();
    std::printf("reads %ld, wrong %ld\n", reads.load(), wrong.load());
    for (auto& it : pool) it.is_good = it.is_free = true;
    return wrong == 0;
}

// The library asks for membarrier(2) before main. So the program begins anew, where it is refused.
static void begin_without_membarrier(char* path, char* updates) {
    sock_filter code[] = {
        BPF_STMT(BPF_LD | BPF_W | BPF_ABS, offsetof(seccomp_data, nr)),
        BPF_JUMP(BPF_JMP | BPF_JEQ | BPF_K, SYS_membarrier, 0, 1),
        BPF_STMT(BPF_RET | BPF_K, SECCOMP_RET_ERRNO | ENOSYS),
        BPF_STMT(BPF_RET | BPF_K, SECCOMP_RET_ALLOW),
    };
    sock_fprog filter{sizeof code / sizeof *code, code};
    char* words[] = {path, updates, nullptr};
    if (!prctl(PR_SET_NO_NEW_PRIVS, 1, 0, 0, 0) && !prctl(PR_SET_SECCOMP, 2, &filter))
        execv("/proc/self/exe", words);
    std::perror("litmus");
    std::exit(1);
}

int main(int count, char** words) {
    const char* how = count > 2 ? words[2] : "";
    unsigned long updates = count > 1 ? std::strtoul(words[1], nullptr, 10) : 10000;
    if (!std::strcmp(how, "fences")) begin_without_membarrier(words[0], words[1]);
    if (!std::strcmp(how, "planted")) return !run(PLANTED, updates);
    bool is_right = run(BY_SYNCHRONIZE, updates);
    return !(run(BY_RETIRE, updates) && is_right);
}
