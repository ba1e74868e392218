// One domain in a process: a plugin opens a region, and another one retires. With PLUGIN defined it
// is one of them. Use: objects PLUGIN_THAT_READS PLUGIN_THAT_RETIRES. It prints "one domain" if the
// region held the evaluation up.
#ifdef PLUGIN
#include <rcu>

extern "C" void* domain() { return &std::rcu_default_domain(); }
extern "C" void enter() {
    std::rcu_default_domain().lock();
    std::rcu_default_domain().unlock(); // takes an earlier request back
    std::rcu_default_domain().lock();
}
extern "C" void leave() { std::rcu_default_domain().unlock(); }
extern "C" bool is_awaited() {
    return __atomic_load_n(&urcu_cpp_self.shown->wake_requested, __ATOMIC_SEQ_CST);
}
extern "C" void retire(int* it) {
    std::rcu_retire(it, [](int* flag) { __atomic_store_n(flag, 1, __ATOMIC_RELEASE); });
}
extern "C" void barrier() { std::rcu_barrier(); }
#else
#include <cstdio>
#include <cstdlib>
#include <dlfcn.h>
#include <sched.h>

static void* open(const char* name) {
    if (void* it = dlopen(name, RTLD_NOW | RTLD_LOCAL)) return it;
    std::puts(dlerror());
    std::exit(2);
}
template <class F> static F find(void* in, const char* name) {
    return reinterpret_cast<F>(dlsym(in, name));
}

int main(int, char** words) {
    void *one = open(words[1]), *other = open(words[2]);
    using call = void (*)();
    int flag = 0;
    auto is_evaluated = [&] { return __atomic_load_n(&flag, __ATOMIC_ACQUIRE) != 0; };
    find<call>(one, "enter")();
    find<void (*)(int*)>(other, "retire")(&flag);
    while (!is_evaluated() && !find<bool (*)()>(one, "is_awaited")()) sched_yield();
    bool is_held = !is_evaluated();
    find<call>(one, "leave")();
    find<call>(other, "barrier")();
    bool is_one = find<void* (*)()>(one, "domain")() == find<void* (*)()>(other, "domain")();
    std::puts(is_held && is_one && is_evaluated() ? "one domain" : "TWO DOMAINS");
    return !is_held;
}
#endif
