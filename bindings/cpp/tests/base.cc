// [saferecl.rcu.base]: the class template rcu_obj_base.
#include "wording.h"

#include <cstdint>
#include <cstdlib>
#include <functional>
#include <memory>
#include <vector>

struct incomplete;
struct has_incomplete { // T may be incomplete when the base is named
    std::rcu_obj_base<incomplete>* it = nullptr;
};
struct incomplete : std::rcu_obj_base<incomplete> {};
struct empty_deleter {
    void operator()(void*) const {}
};

// 2, 4, 5: the types, and what the base adds.
TEST(base_2_4_5_types) {
    using base = std::rcu_obj_base<incomplete>;
    static_assert(!std::is_constructible_v<base> && !std::is_copy_constructible_v<base>);
    static_assert(!std::is_destructible_v<base>); // its members are protected
    static_assert(std::is_default_constructible_v<incomplete>);
    static_assert(std::is_copy_constructible_v<incomplete>);
    static_assert(std::is_copy_assignable_v<incomplete> && std::is_move_assignable_v<incomplete>);
    static_assert(std::is_trivially_copyable_v<base>);
    static_assert(std::is_trivially_copyable_v<std::rcu_obj_base<int, empty_deleter>>);
    static_assert(std::is_trivially_copyable_v<std::rcu_obj_base<int, void (*)(int*)>>);
    static_assert(noexcept(std::declval<incomplete&>().retire()));
    static_assert(sizeof(base) == 2 * sizeof(void*));
    has_incomplete one;
    CHECK(!one.it);
}

TEST(base_copies) {
    {
        counted a, b;
        a.value = 3;
        b = a;
        auto* c = new counted(a); // an object of its own
        c->retire();
        std::rcu_barrier();
        CHECK(b.value == 3 && a.value == 3 && counted::alive == 2);
    }
    CHECK(counted::alive == 0);
}

struct first_base {
    long words[3] = {1, 2, 3};
    virtual ~first_base() = default;
};
struct logs {
    std::vector<void*>* log = nullptr;
    void operator()(struct many_bases* it) const;
};
struct many_bases : first_base, std::rcu_obj_base<many_bases, logs> {
    many_bases* operator&() { return nullptr; } // addressof is meant
    int next = 5, run = 6, object = 7;          // names of its own
};
void logs::operator()(many_bases* it) const {
    log->push_back(static_cast<void*>(it));
    delete it;
}

// 8: the deleter is evaluated on the address of the object.
TEST(base_8_address_and_deleter) {
    std::vector<void*> log;
    auto* x = new many_bases;
    void* at = x;
    x->retire(logs{&log});
    std::rcu_barrier();
    CHECK(log.size() == 1 && log[0] == at);
}

struct by_function : std::rcu_obj_base<by_function, void (*)(by_function*)> {
    int value = 4;
};
static int functions_sum;
static void end_by_function(by_function* it) {
    functions_sum += it->value;
    delete it;
}

// A deleter that is only moved, and whose state ends with it.
struct owner {
    std::unique_ptr<int> it;
    static inline int calls = 0;
    template <class T> void operator()(T* x) {
        delete x; // in which the deleter lay
        calls += *it;
    }
};
struct owned : std::rcu_obj_base<owned, owner> {};
using captures = std::function<void(struct by_std_function*)>;
struct by_std_function : std::rcu_obj_base<by_std_function, captures> {};
struct final_deleter final {
    void operator()(struct by_final* it) const;
};
struct by_final : std::rcu_obj_base<by_final, final_deleter> {};
void final_deleter::operator()(by_final* it) const { delete it; }
struct alignas(128) aligned : std::rcu_obj_base<aligned> {
    static inline int right = 0;
    char bytes[128] = {};
    ~aligned() { right += reinterpret_cast<std::uintptr_t>(this) % 128 == 0; }
};

// 3, 8: a deleter is default constructible and move assignable, and may be of any kind.
TEST(base_3_8_kinds_of_deleters) {
    (new by_function)->retire(end_by_function);
    (new owned)->retire(owner{std::make_unique<int>(11)});
    int sum = 0;
    auto text = std::make_shared<std::vector<int>>(100, 1);
    (new by_std_function)->retire([&sum, text](by_std_function* it) {
        delete it;
        sum += static_cast<int>(text->size()); // what it captured is there still
    });
    (new by_final)->retire();
    (new aligned)->retire();
    std::rcu_barrier();
    CHECK(functions_sum == 4 && owner::calls == 11 && sum == 100 && aligned::right == 1);
    CHECK(text.use_count() == 1); // the deleter is gone with its evaluation
}

// A deleter that says where it is called.
struct says_where {
    const void** seen = nullptr;
    void operator()(struct told*);
};
struct told : std::rcu_obj_base<told, says_where> {
    char bytes[64] = {};
};
void says_where::operator()(told*) { *seen = this; }

// 8: the deleter outlives the object, in which it lay.
TEST(base_3_8_deleter_lives) {
    const void* seen = nullptr;
    told x;
    x.retire(says_where{&seen});
    std::rcu_barrier();
    const char* at = static_cast<const char*>(seen);
    const char* first = reinterpret_cast<const char*>(&x);
    CHECK(at && (at < first || at >= first + sizeof x));
}

static std::mutex user_lock;
struct locking : std::rcu_obj_base<locking> {
    static inline int ended = 0;
    ~locking() {
        std::lock_guard<std::mutex> hold(user_lock);
        ++ended;
    }
};

// 8: whether retire evaluates is implementation-defined. It does not: else this would stand still.
TEST(base_8_resources_held) {
    {
        std::lock_guard<std::mutex> hold(user_lock);
        for (int i = 0; i < 1000; i++) {
            region mine(dom);
            (new locking)->retire();
        }
        std::rcu_synchronize();
    }
    std::rcu_barrier();
    CHECK(locking::ended == 1000);
}

#ifdef OWN_NEW
// 8: retire takes no memory, so it has nothing to throw.
TEST(base_8_takes_no_memory) {
    void* room = std::malloc(sizeof(std::max_align_t) + sizeof(by_function));
    std::rcu_barrier();
    long before = allocations;
    (new (room) by_function)->retire([](by_function* it) { it->~by_function(); });
    std::rcu_barrier();
    CHECK(allocations == before);
    std::free(room);
}
#endif
