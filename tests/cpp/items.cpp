// An item is a text, or bytes with their number, which may be 0. The number 0 and a null pointer
// alone are no items: the compiler refuses them, at each call that takes an item.
#include "fastbloom_blocked_shared.hpp"
#include "fastbloom_shared.hpp"

#include <type_traits>

using namespace fastbloom;

template <class Type, class Call> constexpr bool can(Call) {
    return std::is_invocable_v<Call, Type &>;
}

// Whether a call of this class takes these arguments.
#define TAKES(type, call, ...)                                                                     \
    can<type>([](auto &it) -> decltype(it.call(__VA_ARGS__)) { return it.call(__VA_ARGS__); })

#define TAKES_ITEMS(type, call)                                                                    \
    static_assert(TAKES(type, call, "crab") && TAKES(type, call, nullptr, 0));                     \
    static_assert(!TAKES(type, call, 0) && !TAKES(type, call, nullptr))

TAKES_ITEMS(hasher, update);
TAKES_ITEMS(filter, insert);
TAKES_ITEMS(filter, contains);
TAKES_ITEMS(filter, hash);
TAKES_ITEMS(blocked_filter, insert);
TAKES_ITEMS(blocked_filter, contains);
TAKES_ITEMS(blocked_filter, hash);
TAKES_ITEMS(shared_filter, insert);
TAKES_ITEMS(shared_filter, contains);
TAKES_ITEMS(shared_filter, hash);
TAKES_ITEMS(shared_blocked_filter, insert);
TAKES_ITEMS(shared_blocked_filter, contains);
TAKES_ITEMS(shared_blocked_filter, hash);
TAKES_ITEMS(mapped_filter, contains);
TAKES_ITEMS(mapped_filter, hash);
TAKES_ITEMS(mapped_blocked_filter, contains);
TAKES_ITEMS(mapped_blocked_filter, hash);

int main() { return 0; }
