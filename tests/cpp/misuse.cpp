// Misuses of unix_path.hpp and unix_path_owned.hpp that a compiler warns about or rejects, one for
// each number of MISUSE. MISUSE 0 has none.
#include <cstdio>
#include <filesystem>
#include <string>

#if MISUSE == 3 || MISUSE == 4  // no functions that replace null pointers
#define UNIX_PATH_EXPORTS_ONLY
#endif
#if MISUSE == 4  // nor in the header that was included before
#include "unix_path.h"
#undef UNIX_PATH_EXPORTS_ONLY
#endif
#include "unix_path_owned.hpp"

using unix_path::path;
using unix_path::view;

std::size_t misuse(const std::string &name);

std::size_t misuse(const std::string &name) {
    view it = name;
    path owned = name;
    std::size_t count = owned.size();
#if MISUSE == 1  // the result is ignored
    it.relative_path("b");
#elif MISUSE == 2  // a view of a string that no longer exists
    view gone = name + "/b";
    it = gone;
#elif MISUSE == 5  // a view of the string that the conversion makes
    std::filesystem::path file = name;
    view gone(file);
    it = gone;
#elif MISUSE == 6  // a view of a path that no longer exists
    view gone = owned / "b";
    it = gone;
#elif MISUSE == 7  // a part of one
    const auto gone = path(name).file_name();
    it = *gone;
#elif MISUSE == 8  // its components
    for (unix_path::component gone : path(name).components()) {
        count += gone.bytes().size();
    }
#elif MISUSE == 9  // its bytes
    const char *gone = path(name).c_str();
    it = gone;
#elif MISUSE == 10  // names of std::filesystem::path
    owned.lexically_normal();
#elif MISUSE == 11
    count += owned.filename().size();
#elif MISUSE == 12
    owned.replace_extension(".o");
#elif MISUSE == 13
    for (unix_path::component part : owned) {
        count += part.bytes().size();
    }
#elif MISUSE == 14
    count += owned.relative_path().size();
#elif MISUSE == 15  // a view has no NUL after it
    std::fputs(it.c_str(), stdout);
#elif MISUSE == 16  // nor a string
    count += it.native().size();
#elif MISUSE == 17
    count += it.string().size();
#elif MISUSE == 18  // nor does it change
    it.pop();
#endif
    return count + it.relative_path("b").has_value();
}
