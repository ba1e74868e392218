// What a program may not write. It is right with BAD=0; the compiler refuses it with BAD=1 to 15.
#include <rcu>

#include <memory>

struct deleter {
    void operator()(void*) const {}
};
struct good : std::rcu_obj_base<good> {};
#if BAD == 1
struct private_one : private std::rcu_obj_base<private_one> {
    void go() { retire(); }
};
#endif
struct virtual_one : virtual std::rcu_obj_base<virtual_one> {};
#if BAD == 3
struct two : std::rcu_obj_base<two>, std::rcu_obj_base<two, deleter> {
    void go() { std::rcu_obj_base<two>::retire(); }
};
#endif
#if BAD == 4
struct two_of_others : good, std::rcu_obj_base<two_of_others> {
    void go() { std::rcu_obj_base<two_of_others>::retire(); }
};
#endif
struct no_base {};
struct wrong_base : std::rcu_obj_base<no_base> {}; // T is another class
struct unmovable {
    unmovable() = default;
    unmovable(unmovable&&) = delete;
    void operator()(int*) const {}
};

void calls() {
#if BAD == 0
    (new good)->retire();
#elif BAD == 1 // mandates of retire: rcu-protectable
    (new private_one)->go();
#elif BAD == 2
    (new virtual_one)->retire();
#elif BAD == 3
    (new two)->go();
#elif BAD == 4
    (new two_of_others)->go();
#elif BAD == 5
    (new wrong_base)->retire();
#elif BAD == 6 // a program makes no domain
    std::rcu_domain other;
#elif BAD == 7
    auto other = std::rcu_default_domain();
#elif BAD == 8
    std::rcu_default_domain() = std::rcu_default_domain();
#elif BAD == 9 // the members of rcu_obj_base are protected
    std::rcu_obj_base<good> it;
#elif BAD == 10 // mandates of rcu_retire: d(p) is well-formed
    std::rcu_retire(new int, 5);
#elif BAD == 11
    std::rcu_retire(new int, [](good*) {});
#elif BAD == 12 // and the deleter is move constructible
    std::rcu_retire(new int, unmovable());
#elif BAD == 13
    good* it = new good;
    delete static_cast<std::rcu_obj_base<good>*>(it);
#elif BAD == 14 // d is an lvalue
    struct hidden {
        void operator()(int*) & = delete;
        void operator()(int*) && {}
    };
    std::rcu_retire(new int, hidden());
#elif BAD == 15 // a domain is no aggregate either
    std::rcu_domain other{};
#else
#error there is no such row
#endif
}
