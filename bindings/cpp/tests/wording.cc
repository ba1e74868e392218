// The wording of [saferecl.rcu], sentence by sentence: general.cc, base.cc, domain.cc and
// functions.cc, by the numbers of its paragraphs; and what stands beyond it: beyond.cc, process.cc.
// refused.cc has what a program may not write, stress.cc and litmus.cc what threads see over long
// runs. Use: wording [TEST..]; with NO_FORKS in the environment those with forks are left out. The
// last line is 'N passed, M failed'.
#include "wording.h"

#include <cstdlib>
#include <cstring>
#include <new>

int passed, failed;
static test* listed;

test::test(const char* name_, void (*run_)(), bool has_forks_)
    : name(name_), run(run_), has_forks(has_forks_), next(listed) {
    listed = this;
}

#ifdef OWN_NEW
thread_local int fail_next;
std::atomic<long> allocations{0}, releases{0};
#define APART __attribute__((noinline))
APART void* operator new(std::size_t size) {
    if (fail_next && --fail_next == 0) throw std::bad_alloc();
    ++allocations;
    if (void* it = std::malloc(size)) return it;
    throw std::bad_alloc();
}
APART void operator delete(void* it) noexcept {
    if (it) ++releases;
    std::free(it);
}
APART void operator delete(void* it, std::size_t) noexcept { operator delete(it); }
#endif

static bool is_wanted(const test& it, int count, char** words) {
    if (it.has_forks && std::getenv("NO_FORKS")) return false;
    for (int at = 1; at < count; at++)
        if (!std::strcmp(words[at], it.name)) return true;
    return count < 2;
}

int main(int count, char** words) {
    for (test* it = listed; it; it = it->next) {
        int before = failed;
        if (is_wanted(*it, count, words)) it->run();
        if (failed > before) std::printf("%s: FAILED\n", it->name);
        std::fflush(stdout);
    }
    std::printf("%d passed, %d failed\n", passed, failed);
    return failed != 0;
}
