// Misused calls that a compiler warns about, one for each number of MISUSE. MISUSE 0 has none.
#include <string.h>

#include "unix_path.h"

size_t misuse(const char *path);

size_t misuse(const char *path) {
    char out[8];
    unix_path_walk walk = {0, 0};
    unix_path_span span = {0, 0};
    size_t length = strlen(path), answer = 0;
#if MISUSE == 1  // the result is ignored
    unix_path_parent(path, length, &span);
#elif MISUSE == 2  // no record to write to
    answer += unix_path_parent(path, length, NULL);
#elif MISUSE == 3  // a null path that has bytes
    answer += unix_path_is_utf8(NULL, 3);
#elif MISUSE == 4  // a buffer length greater than the buffer's
    answer += unix_path_canonical(path, length, out, sizeof out + 1);
#elif MISUSE == 5  // a walk that no call began
    unix_path_walk other;
    unix_path_part part;
    answer += unix_path_next(path, length, &other, &part);
#elif MISUSE == 6  // a path length greater than the path's
    answer += unix_path_hash("a", 3) != 0;
#elif MISUSE == 7  // a null walk
    unix_path_as_path(path, length, NULL, &span);
#endif
    unix_path_components(path, length, &walk);
    answer += unix_path_canonical(path, length, out, sizeof out) + walk.back + span.start;
    return answer;
}
