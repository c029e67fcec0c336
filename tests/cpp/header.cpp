// The header for C, used in C++: each call has the expected type, is a constant, links by its name,
// and returns and writes the same as the library's own call.
#include <array>
#include <cstdio>
#include <string_view>

#include "../passed_on.h"

using OfOne = size_t (*)(const void *, size_t, void *, size_t);
using OfTwo = size_t (*)(const void *, size_t, const void *, size_t, void *, size_t);
using Turn = bool (*)(const void *, size_t, unix_path_walk *, unix_path_part *);
using Find = bool (*)(const void *, size_t, unix_path_span *);
using Relation = bool (*)(const void *, size_t, const void *, size_t);
using Truth = bool (*)(const void *, size_t);
using Begin = void (*)(const void *, size_t, unix_path_walk *);
using Left = void (*)(const void *, size_t, const unix_path_walk *, unix_path_span *);
using Remainder = bool (*)(const void *, size_t, const void *, size_t, unix_path_span *);
using Ancestor = bool (*)(const void *, size_t, size_t *, unix_path_span *);
using Chunk = bool (*)(const void *, size_t, size_t *, unix_path_chunk *);

// Each call by its name, with the type of its signature.
namespace calls {
#define BEGIN(name) inline constexpr Begin name = unix_path_##name;
#define LEFT(name) inline constexpr Left name = unix_path_##name;
#define STEP(name) inline constexpr Turn name = unix_path_##name;
#define NEXT_SPAN(name) inline constexpr Ancestor name = unix_path_##name;
#define NEXT_CHUNK(name) inline constexpr Chunk name = unix_path_##name;
#define FIND(name) inline constexpr Find name = unix_path_##name;
#define FIND_OF_TWO(name) inline constexpr Remainder name = unix_path_##name;
#define ASK_NOTHING(answer, name) inline constexpr answer (*name)() = unix_path_##name;
#define ASK(answer, name) inline constexpr answer (*name)(const void *, size_t) = unix_path_##name;
#define ASK_TWO(answer, name)                                                                      \
    inline constexpr answer (*name)(const void *, size_t, const void *, size_t) = unix_path_##name;
#define MAKE(name) inline constexpr OfOne name = unix_path_##name;
#define MAKE_OF_TWO(name) inline constexpr OfTwo name = unix_path_##name;
#include "../calls.inc"
}  // namespace calls

namespace {

using namespace std::string_view_literals;

// Returns how often a function of the header differs from the library's call, over all pairs of
// these paths.
int wrong_on_paths() {
    const std::array<std::string_view, 6> paths{"",     "/",       "a.b", ".//x//y.tar/.",
                                                "../a", "a\0\0c"sv};
    int wrong = 0;
    for (std::string_view a : paths) {
        for (std::string_view b : paths) {
            for (size_t room : {size_t{0}, size_t{2}, size_t{64}}) {
                wrong += wrong_functions(a.data(), a.size(), b.data(), b.size(), room);
            }
        }
    }
    return wrong;
}

}  // namespace

int main() {
    bool is_right = wrong_on_paths() == 0;
    std::puts(is_right ? "1 passed, 0 failed" : "0 passed, 1 failed");
    return is_right ? 0 : 1;
}
