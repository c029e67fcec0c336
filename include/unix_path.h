/* Unix paths as plain bytes: the calls of the library unix_path.
 *
 * A path is passed as a pointer to its bytes and their number. It may contain any byte, including
 * NUL, and needs no NUL after it. Its components are the root or a leading `.`, if it begins with
 * one, and then each name and each `..`. Paths with the same components are equal. `..` is a
 * component like a name, except in calls that resolve it. No file is touched.
 *
 * No call allocates, locks or reads global state, so all may be made in signal handlers and from
 * many threads. This example joins a request from outside to a root, so that the result stays
 * beneath the root. It needs <stdio.h> and <string.h>:
 *
 *     const char *root = "/srv", *request = "a/../b";
 *     char out[64];
 *     size_t size = sizeof out - 1;
 *     size_t length = unix_path_join_beneath(root, strlen(root), request, strlen(request), out,
 *                                            size);
 *     if (!unix_path_is_length(length)) {
 *         puts(unix_path_error_name(length));
 *     } else if (length > size) {
 *         puts("too long");
 *     } else {
 *         out[length] = '\0';
 *         puts(length == 0 ? "." : out);
 *     }
 *
 * It prints `/srv/b`. For the request `../b` it would print UNIX_PATH_ESCAPES. For the path of a
 * URL, decode the path, and call unix_path_join_in_root: no call decodes `%2e`. The table above the
 * declaration of unix_path_join_beneath compares the four joins.
 *
 * Link with what `pkg-config --libs unix_path` prints: -lunix_path, which is the shared library. To
 * link the archive, add -static, or use -l:libunix_path.a instead. The CMake package unix_path has
 * the targets unix_path::unix_path for the shared library and unix_path::static for the archive. Of
 * the C library only memcpy, memmove, memset and memcmp are needed.
 *
 * For every call:
 *
 *  - It returns, whatever the bytes are. It reads only the bytes and records passed to it, and
 *    keeps no pointer.
 *  - Lengths and indices count bytes. A length is at most PTRDIFF_MAX.
 *  - No pointer may be null, except the pointer to a path of no bytes or to an `out` or slots of
 *    size 0.
 *    Inline functions of this header replace such a null pointer before they make the call. These
 *    functions are not proved, and unix_path.hpp needs them. A program that makes the calls without
 *    them, by the library's symbols or with UNIX_PATH_EXPORTS_ONLY defined before this file, must
 *    pass no null pointer at all.
 *  - The memory to which a call writes (walk, part, span, next, ancestor, chunk, out, slots,
 *    refusal) must not overlap the other memory that is passed to the call.
 *  - A call that returns false leaves its output records unchanged.
 *
 * A call with `out` returns the length of its result. If that is at most out_length, the result is
 * at the beginning of out, and the bytes after it are unchanged. Otherwise nothing is written, and
 * a second call with an out of that length writes all of the result.
 *
 * No call appends a NUL: leave a byte for one and write it, as above, before you pass a result to
 * the system. The system reads a path only up to its first NUL. The text above unix_path_join says
 * which results may contain a NUL, and unix_path_is_c_string tests that a path has none. An empty
 * path means the current directory: pass `.` to the system instead.
 *
 * A call with `out` may also return an error code, for which unix_path_is_length is false. Then
 * nothing is written:
 *
 *     code                         the call returns it if and only if
 *     UNIX_PATH_ESCAPES            _join_beneath: the request escapes (see unix_path_escapes);
 *                                  _join_verbatim: the request has a root or any `..`
 *     UNIX_PATH_NUL_IN_REQUEST     _join_beneath, _join_in_root, _join_verbatim: the request has
 *                                  a NUL byte, and the code is not UNIX_PATH_ESCAPES
 *     UNIX_PATH_SEPARATOR          _with_extension, _with_added_extension: the extension has a
 *                                  slash
 *     UNIX_PATH_NO_RELATIVE_PATH   _relative_path: no path without a root leads from the first
 *                                  path to the second
 *     UNIX_PATH_NOT_A_KEY          _from_key, _key_range_end: no path has this key
 *     UNIX_PATH_NO_END             _key_range_end: the key is empty
 *     UNIX_PATH_TOO_LONG           _join_beneath, _join_in_root, _join_verbatim, _with_extension,
 *                                  _with_added_extension, _relative_path, _from_key and
 *                                  _to_string_lossy: the result has more than PTRDIFF_MAX bytes,
 *                                  which no buffer has
 *
 * All error codes are greater than the length of any buffer. None is SIZE_MAX, so that a program
 * that adds 1 to an error code by mistake does not call malloc with 0.
 *
 * This file needs C11 or C++11. If UNIX_PATH_NO_ATTRIBUTES is defined before it, it leaves out the
 * attributes with which compilers warn of misuses. If UNIX_PATH_EXPORTS_ONLY is defined before it,
 * it has only records, numbers and plain declarations, for tools that read it for another
 * language. */
#ifndef UNIX_PATH_H
#define UNIX_PATH_H

#include <stdbool.h>
#include <stddef.h>
#include <stdint.h>

/* The version. While its first number is the same, no call, record or number of this file is
 * removed or changed, and no call returns different results. So a program built with an older
 * version runs with a newer shared library. A program is not loaded with a shared library that
 * lacks a call of the program or has another first number. */
#define UNIX_PATH_VERSION_MAJOR 1
#define UNIX_PATH_VERSION_MINOR 1
#define UNIX_PATH_VERSION "1.1"
#define UNIX_PATH_VERSION_NUMBER 0x010100

#if SIZE_MAX != UINT64_MAX
#error "the library is for lengths of 64 bits"
#endif

#ifdef __cplusplus
extern "C" {
#endif

/* The error codes of the table above. */
#define UNIX_PATH_SEPARATOR (SIZE_MAX - 6)
#define UNIX_PATH_ESCAPES (SIZE_MAX - 1)
#define UNIX_PATH_NUL_IN_REQUEST (SIZE_MAX - 3)
#define UNIX_PATH_NOT_A_KEY (SIZE_MAX - 4)
#define UNIX_PATH_NO_END (SIZE_MAX - 5)
#define UNIX_PATH_NO_RELATIVE_PATH (SIZE_MAX - 7)
/* SIZE_MAX / 2 is PTRDIFF_MAX. */
#define UNIX_PATH_TOO_LONG (SIZE_MAX / 2 + 1)

/* A walk over a path. The rest of the walk is the bytes from index front up to index back, read as
 * a path of their own: in `a/b` the rest from 1 to 3 is `/b`, the root and `b`. The rest is empty
 * if front is greater than back, or if back is greater than the path's length. Any two numbers are
 * safe, even if no call wrote them. */
typedef struct {
    size_t front, back;
} unix_path_walk;

/* The kinds of components. There are no others. */
enum {
    UNIX_PATH_ROOT_DIR = 0,
    UNIX_PATH_CUR_DIR = 1,
    UNIX_PATH_PARENT_DIR = 2,
    UNIX_PATH_NORMAL = 3
};

/* The results of unix_path_check_request. There are no others. */
enum {
    UNIX_PATH_REQUEST_OK = 0,
    UNIX_PATH_REQUEST_HAS_ROOT = 1,
    UNIX_PATH_REQUEST_ESCAPES = 2,
    UNIX_PATH_REQUEST_HAS_NUL = 3
};

/* A component of a path: the index of its first byte, its length, and its kind. */
typedef struct {
    size_t start, length;
    uint32_t kind;
} unix_path_part;

/* A span of a path: `length` bytes from index `start` on, all inside the path. */
typedef struct {
    size_t start, length;
} unix_path_span;

/* A chunk of a path: valid_length bytes of valid UTF-8 from index `start` on, and then
 * broken_length invalid bytes, at most 3. Only the last chunk can have no invalid bytes. */
typedef struct {
    size_t start, valid_length, broken_length;
} unix_path_chunk;

/* The levels of unix_path_check_entries. Any other number is UNIX_PATH_CLOSED, too. */
enum {
    UNIX_PATH_INSIDE = 0,
    UNIX_PATH_CLOSED = 1
};

/* The results of unix_path_check_entries. There are no others. */
enum {
    UNIX_PATH_ENTRIES_ACCEPTED = 0,
    UNIX_PATH_ENTRIES_REFUSED = 1,
    UNIX_PATH_ENTRIES_CUT_OFF = 2,
    UNIX_PATH_ENTRIES_NO_ROOM = 3
};

/* Why unix_path_check_entries refuses an entry. There are no other reasons. */
enum {
    UNIX_PATH_REFUSED_NAME = 0,
    UNIX_PATH_REFUSED_KIND = 1,
    UNIX_PATH_REFUSED_BELOW_LEAF = 2,
    UNIX_PATH_REFUSED_LINK_USED_TWICE = 3,
    UNIX_PATH_REFUSED_TARGET_IS_LINK = 4,
    UNIX_PATH_REFUSED_LEADS_OUT = 5
};

/* Memory for one use of a path, which unix_path_check_entries writes before it reads it. */
typedef struct {
    size_t start, end, rank, entry, cause;
} unix_path_slot;

/* An entry that is refused: its number, of which the first is 0; the number of the entry that it
 * clashes with, or its own; and the reason. */
typedef struct {
    size_t entry, cause;
    uint32_t reason;
} unix_path_refusal;

/* Returns the version of the loaded library: 65536 * major + 256 * minor + patch. The library is
 * older than this file if this number is less than UNIX_PATH_VERSION_NUMBER. */
uint32_t unix_path_version(void);

/* Walks. The components taken from the front, those of the rest, and those taken from the back are
 * together the path's components, however the calls are mixed. A call that returns bool returns
 * false if nothing is left. This prints each component:
 *
 *     unix_path_walk walk;
 *     unix_path_part part;
 *     unix_path_components(path, length, &walk);
 *     while (unix_path_next(path, length, &walk, &part)) {
 *         fwrite(path + part.start, 1, part.length, stdout);
 *         putchar('\n');
 *     }
 */

/* Begins a walk over the whole path, from 0 to the end of its last component. A record whose front
 * is 0 and whose back is the path's length is a walk over the whole path too. */
void unix_path_components(const void *path, size_t path_length, unix_path_walk *walk);

/* Takes the first component of the rest. For `/a` the first call takes the root, which is the byte
 * `/`, and the second call takes `a`. */
bool unix_path_next(const void *path, size_t path_length, unix_path_walk *walk,
                    unix_path_part *part);

/* Takes the last component of the rest. For `/a` the first call takes `a`, and the second call
 * takes the root. */
bool unix_path_next_back(const void *path, size_t path_length, unix_path_walk *walk,
                         unix_path_part *part);

/* Writes the span of the rest, from its first component to the end of its last. For `a/./b/` the
 * rest is `a/./b` at first, and `b` after one component is taken from the front. */
void unix_path_as_path(const void *path, size_t path_length, const unix_path_walk *walk,
                       unix_path_span *span);

/* Writes the next ancestor: the path, its parent, the parent's parent, and so on. `next` is the
 * length of the ancestor that this call writes. Set it to the path's length before the first call.
 * It is SIZE_MAX once no ancestor is left. Any other number above the path's length also means that
 * none is left. The ancestors of `../a` are its first 4, 2 and 0 bytes. */
bool unix_path_next_ancestor(const void *path, size_t path_length, size_t *next,
                             unix_path_span *ancestor);

/* Writes the next chunk: the longest run of valid UTF-8, and the invalid bytes after it, which
 * unix_path_to_string_lossy replaces by one U+FFFD. `next` is the index of the chunk that this call
 * writes. Set it to 0 before the first call. It is the path's length once no chunk is left. Any
 * greater number also means that none is left. The chunks of 61 FF 62 are `a` with FF, and `b`
 * without invalid bytes. */
bool unix_path_next_chunk(const void *path, size_t path_length, size_t *next,
                          unix_path_chunk *chunk);

/* Calls that find a span of the path. An empty span may start anywhere in the path. A span is not
 * followed by a NUL: copy its bytes and append a NUL before you pass them to the system. */

/* Finds the parent: the path without its last component, as a prefix of the path. Returns false for
 * the root and the empty path. For `/a//b/` it is `/a`, and for `a` it is empty. */
bool unix_path_parent(const void *path, size_t path_length, unix_path_span *span);

/* Finds the last component. Returns false if it is not a name. For `a/b.txt/.` it is `b.txt`. */
bool unix_path_file_name(const void *path, size_t path_length, unix_path_span *span);

/* Finds the part of the file name before its last dot, or all of it if it has no dot. This call and
 * the next two ignore a dot at the file name's beginning, and return false if the path has no file
 * name:
 *
 *     file name    file_stem    extension    file_prefix
 *     a.tar.gz     a.tar        gz           a
 *     .a.rs        .a           rs           .a
 *     a.           a            (empty)      a
 *     .a           .a           false        .a
 */
bool unix_path_file_stem(const void *path, size_t path_length, unix_path_span *span);

/* Finds the part of the file name after its last dot. Returns false if there is no dot. See
 * unix_path_file_stem. */
bool unix_path_extension(const void *path, size_t path_length, unix_path_span *span);

/* Finds the part of the file name before its first dot, or all of it if it has no dot. See
 * unix_path_file_stem. */
bool unix_path_file_prefix(const void *path, size_t path_length, unix_path_span *span);

/* Finds the rest of the path after base. Returns false if the path does not start with base. For
 * `/a//b/` and `/a` it is `b`. For `/dest/../etc` and `/dest` it is `../etc`: see
 * unix_path_starts_with. */
bool unix_path_strip_prefix(const void *path, size_t path_length, const void *base,
                            size_t base_length, unix_path_span *span);

/* Questions. `Returns true if` means if and only if. */

/* Returns true if the path begins with the components of base: `/etc/passwd` starts with `/etc/`,
 * but not with `/e`. `/dest/../etc` starts with `/dest`: a join that starts with its root may still
 * lead out of that root. Join a path from outside by unix_path_join_beneath. */
bool unix_path_starts_with(const void *path, size_t path_length, const void *base,
                           size_t base_length);

/* Returns true if the path ends with the components of child: `/etc/passwd` ends with `passwd`. */
bool unix_path_ends_with(const void *path, size_t path_length, const void *child,
                         size_t child_length);

/* Returns true if a and b have the same components: `a/./b//` and `a/b`, but not `./a` and `a`. */
bool unix_path_equal(const void *a, size_t a_length, const void *b, size_t b_length);

/* Returns -1, 0 or 1 if a is less than, equal to or greater than b, by components: the root is less
 * than `.`, `.` than `..`, and `..` than a name. `a/b` is less than `a.b`. */
int32_t unix_path_compare(const void *a, size_t a_length, const void *b, size_t b_length);

/* Returns a hash of the path, the same for equal paths and in each run. It is unkeyed, so an
 * attacker who chooses the paths can force collisions. */
uint64_t unix_path_hash(const void *path, size_t path_length);

/* Returns true if the path is valid UTF-8. */
bool unix_path_is_utf8(const void *path, size_t path_length);

/* Returns true if unix_path_canonical writes the same bytes: for `./a/b`, but not for `a//b`. */
bool unix_path_is_canonical(const void *path, size_t path_length);

/* Returns true if the path has a root: its first byte is a slash. */
bool unix_path_is_absolute(const void *path, size_t path_length);

/* Returns true if the path escapes: it has a root, or goes above where it starts, even if later
 * names come down again. True for `/a` and `a/../../b`; false for `a/../b`. */
bool unix_path_escapes(const void *path, size_t path_length);

/* Checks a request for unix_path_join_beneath. Returns the first of these that holds:
 *
 *     UNIX_PATH_REQUEST_HAS_ROOT   it has a root
 *     UNIX_PATH_REQUEST_ESCAPES    it escapes
 *     UNIX_PATH_REQUEST_HAS_NUL    it has a NUL byte, at which a system call cuts it
 *     UNIX_PATH_REQUEST_OK         none of these
 *
 * unix_path_join_in_root refuses only a NUL. unix_path_join_verbatim refuses a root, each `..` and
 * a NUL. */
int32_t unix_path_check_request(const void *path, size_t path_length);

/* Returns true if no name remains of a request when unix_path_join_in_root resolves it: the join is
 * then the root itself. True for `a/..`, `/` and the empty path; false for `a/../b`. */
bool unix_path_request_is_root(const void *path, size_t path_length);

/* Returns true if the last component is a name and a slash or a `/.` follows it: for `a/` and
 * `a/.`, but not for `a`, `a/..` and `/`. A system call then requires the name to be a directory. A
 * join that resolves the request drops the slash or `/.`. */
bool unix_path_ends_in_slash(const void *path, size_t path_length);

/* Returns the index just after the last slash of the longest prefix that the bytes of a and b
 * share, or 0 if this prefix has no slash. For `a/./b` and `a/b` it is 2. */
size_t unix_path_common_dir(const void *a, size_t a_length, const void *b, size_t b_length);

/* New paths and keys, written to out:
 *
 *     length at most                            calls
 *     the sum of both lengths + 1               _join, _join_beneath, _join_in_root,
 *                                               _join_verbatim, _with_file_name,
 *                                               _with_extension, _with_added_extension
 *     path_length                               _canonical, _resolved
 *     3 * path_length                           _to_string_lossy
 *     3 * (from_length + 1) / 2 + to_length     _relative_path
 *     path_length + 2                           _key
 *     3 * key_length / 2                        _from_key
 *     key_length, always                        _key_range_end
 *
 * A new path may contain a NUL if an argument contains one. A join of a request may contain a NUL
 * only if the root contains one. unix_path_to_string_lossy keeps each NUL. */

/* Joins two trusted paths; for a request from outside call unix_path_join_beneath. Writes only path
 * if path has a root. Otherwise writes base, a slash unless base is empty or ends in one, and path.
 * `/a` with `./b` is `/a/./b`, and with `/b` it is `/b`. */
size_t unix_path_join(const void *base, size_t base_length, const void *path,
                      size_t path_length, void *out, size_t out_length);

/* Replaces the path's file name by name, or joins name to a path without a file name. `/a/b.txt`
 * with `c` is `/a/c`. */
size_t unix_path_with_file_name(const void *path, size_t path_length, const void *name,
                                size_t name_length, void *out, size_t out_length);

/* Replaces the file name's extension, adds one if there is none, or removes it if the new one is
 * empty. Drops a `/` and a `/.` after the file name. Without a file name the path is unchanged.
 * `a.rs/.` and `a` with `txt` are both `a.txt`. */
size_t unix_path_with_extension(const void *path, size_t path_length, const void *extension,
                                size_t extension_length, void *out, size_t out_length);

/* Adds a dot and the extension to the file name, and drops a `/` and a `/.` after the file name.
 * Without a file name, or with an empty extension, the path is unchanged. `a.tar` with `gz` is
 * `a.tar.gz`. */
size_t unix_path_with_added_extension(const void *path, size_t path_length, const void *extension,
                                      size_t extension_length, void *out, size_t out_length);

/* Writes the canonical form: the one shortest path with the same components. For `.//a/./b/` it is
 * `./a/b`. */
size_t unix_path_canonical(const void *path, size_t path_length, void *out,
                           size_t out_length);

/* Writes the path as UTF-8, with one U+FFFD instead of the invalid bytes of each chunk. */
size_t unix_path_to_string_lossy(const void *path, size_t path_length, void *out,
                                 size_t out_length);

/* Resolves `..` lexically and writes the canonical form. Drops each `..` with the name before it,
 * each `.`, and each `..` directly after the root. If the path has no root, a `..` that finds no
 * name to drop stays, at the beginning. Where a component may be a link, only the system knows
 * where `..` leads. For `a/../..//b/.` it is `../b`, and for `a/..` it is empty. */
size_t unix_path_resolved(const void *path, size_t path_length, void *out,
                          size_t out_length);

/* Four calls join two paths. unix_path_join, above, is for trusted paths: a rooted path replaces
 * the base, and `..` may lead out of the base. The other three calls are for requests, which are
 * paths from outside that are joined to a trusted root.
 *
 *     request                     a           a/../b      ../x      /x        x\0y
 *     unix_path_join_beneath      /srv/a      /srv/b      ESCAPES   ESCAPES   NUL_IN_REQUEST
 *     unix_path_join_in_root      /srv/a      /srv/b      /srv/x    /srv/x    NUL_IN_REQUEST
 *     unix_path_join_verbatim     /srv/a      ESCAPES     ESCAPES   ESCAPES   NUL_IN_REQUEST
 *     unix_path_join              /srv/a      /srv/a/../b /srv/../x /x        /srv/x\0y
 *
 * unix_path_join_beneath and unix_path_join_in_root resolve `..` in the request lexically, and drop
 * its trailing slash. If a component below the root may be a link, let the system refuse links:
 * join the request to an empty root, which results in a relative path, and open this path by
 * openat2 of Linux, beneath a file descriptor of the root, with RESOLVE_BENEATH or
 * RESOLVE_NO_SYMLINKS. The root itself is not resolved. To resolve the root's `..` lexically too,
 * call unix_path_resolved once and pass its result as the root. */

/* Joins a request that must stay beneath the root, such as an entry of an archive. Writes the root
 * verbatim, and then the names that the request resolves to, with a slash between two names, and a
 * slash before the first name unless the root is empty or ends in one. After the root there is no
 * `..`, no `.`, no NUL and no trailing slash. If unix_path_request_is_root is true, the join is the
 * root itself.
 *
 * Refuses a request that escapes, or has a NUL byte, at which a system call would end the join.
 * unix_path_check_request tests for both without a join. `/srv/` with `a/../b` is `/srv/b`. */
size_t unix_path_join_beneath(const void *root, size_t root_length, const void *request,
                              size_t request_length, void *out, size_t out_length);

/* Joins a request as in a chroot, such as the decoded path of a URL: as if the root were the root
 * directory `/`. The call is like unix_path_join_beneath, except that leading slashes of the
 * request are dropped, and a `..` at the root stays there. Refuses only a NUL. `/srv/` with `/../b`
 * is `/srv/b`. */
size_t unix_path_join_in_root(const void *root, size_t root_length, const void *request,
                              size_t request_length, void *out, size_t out_length);

/* Joins root and request verbatim, for a root whose components may be links. Refuses a request with
 * a root, a `..` or a NUL. The system follows links below the root wherever they lead.
 * `/srv/../www` with `./a` is `/srv/../www/./a`; `a/../b` and `..\0/a` are refused. */
size_t unix_path_join_verbatim(const void *root, size_t root_length, const void *request,
                               size_t request_length, void *out, size_t out_length);

/* Writes the relative path from one path to another. Both are resolved lexically, and their common
 * leading components are left out: the result is a `..` for each name in the rest of `from`, and
 * then the rest of `to`. There is no relative path if and only if one path has a root and the other
 * has none, or the rest of `from` has a `..`. Where a component of `from` may be a link, only the
 * system knows where `..` leads. From `/a/b/c` to `/a/d` it is `../../d`. */
size_t unix_path_relative_path(const void *from, size_t from_length, const void *to,
                               size_t to_length, void *out, size_t out_length);

/* Keys, for a store that compares keys byte by byte, like memcmp and then by length. Keys sort as
 * unix_path_compare sorts their paths, and are identical if and only if the paths are equal. One
 * key begins with another key if and only if its path starts with the other key's path: the key of
 * `ab`, 61 62 00, does not begin with the key of `a`, 61 00.
 *
 * A key is the path's components in order, each as these bytes:
 *
 *     the root         00 01
 *     a leading `.`    00 02
 *     each `..`        00 03
 *     a name           its bytes, with each byte less than 2F raised by one, then 00
 *
 * The key of `/srv//a-1.txt/..` is 00 01, 73 72 76 00, 61 2E 31 2F 74 78 74 00, 00 03. The key of
 * the empty path is empty. */

/* Writes the key of the path. For `/a` it is 00 01 61 00. */
size_t unix_path_key(const void *path, size_t path_length, void *out, size_t out_length);

/* Writes the canonical form of the paths that have the key. For 00 02 61 00 62 00 it is `./a/b`. */
size_t unix_path_from_key(const void *key, size_t key_length, void *out, size_t out_length);

/* Writes the end of the key's range: the key with its last byte raised by one. The range contains
 * the byte strings that are at least the key and less than the end. These are all byte strings that
 * begin with the key. The keys among them are the keys of the paths that start with the key's path.
 * The range of the empty key contains every byte string and has no end. For 61 00, the key of `a`,
 * the end is 61 01. */
size_t unix_path_key_range_end(const void *key, size_t key_length, void *out, size_t out_length);

/* The entries of an archive, links among them: whether an extractor that works in a new, empty
 * directory can write outside of it. Names that each stay inside can still lead out: after a link
 * `x` to `/etc`, the file `x/passwd` is written to `/etc/passwd`.
 *
 * Each entry is a record: its kind, its path and a link's target, with a NUL after each of the
 * three. The kind is `d` for a directory, `f` for a file, `l` for a symbolic link and `h` for a
 * hard link, and anything else for other entries, which are refused. The names have to be those
 * that the extractor writes: list them with that program, and with its options.
 *
 * This prints `entry 1 is below entry 0`:
 *
 *     static const char records[] = "l\0x\0/etc\0" "f\0x/passwd\0\0";
 *     unix_path_slot slots[8];
 *     unix_path_refusal why;
 *     if (unix_path_check_entries(records, sizeof records - 1, slots, 8, UNIX_PATH_INSIDE,
 *                                 &why)
 *             == UNIX_PATH_ENTRIES_REFUSED
 *         && why.reason == UNIX_PATH_REFUSED_BELOW_LEAF) {
 *         printf("entry %zu is below entry %zu\n", why.entry, why.cause);
 *     }
 *
 * An extractor uses the path of each entry, and the target of each hard link. Entries are accepted
 * if none of these holds:
 *
 *     UNIX_PATH_REFUSED_NAME               a path that is used has a root or a `..`; or it is not a
 *                                          directory's and is empty, is `.`, or ends in `/` or `/.`
 *     UNIX_PATH_REFUSED_KIND               an entry is of another kind
 *     UNIX_PATH_REFUSED_BELOW_LEAF         a path that is used is below a file's or a link's
 *     UNIX_PATH_REFUSED_LINK_USED_TWICE    the path of a symbolic link is used twice
 *     UNIX_PATH_REFUSED_TARGET_IS_LINK     the target of a hard link is a link, symbolic or hard
 *     UNIX_PATH_REFUSED_LEADS_OUT          at the level UNIX_PATH_CLOSED: the target of a symbolic
 *                                          link has a root, more `..` than directories above the
 *                                          link, or a `..` after a name
 *
 * Through what is accepted, no extractor writes outside, in any order, if it does not follow a
 * symbolic link when it works on the link's own path; at the level UNIX_PATH_CLOSED also if it
 * does, as unzip and 7z can. In doubt use UNIX_PATH_CLOSED: at UNIX_PATH_INSIDE the directory may contain
 * links to anywhere afterwards. This does not hold for names that the file system takes for equal
 * though they differ, for programs and options that change names (unzip takes `\` for `/` in
 * archives made on Windows), or in a directory that others change meanwhile. */

/* Returns how many slots unix_path_check_entries needs for these records: one for each entry, and
 * one more for each hard link. Returns 0 if the last record is cut off. */
size_t unix_path_entries_scratch(const void *records, size_t records_length);

/* Decides whether the entries are accepted at a level. Returns the first of these that holds:
 *
 *     UNIX_PATH_ENTRIES_CUT_OFF     the last record is cut off
 *     UNIX_PATH_ENTRIES_NO_ROOM     there are fewer slots than unix_path_entries_scratch returns
 *     UNIX_PATH_ENTRIES_ACCEPTED    the entries are accepted
 *     UNIX_PATH_ENTRIES_REFUSED     they are not; only then a refusal is written
 *
 * The entries before the refused one are accepted, as a list of their own. So is a list without
 * entries. The slots need no initialization, and hold nothing of use afterwards. Takes about
 * n log n comparisons of paths for n slots. */
uint32_t unix_path_check_entries(const void *records, size_t records_length,
                                 unix_path_slot *slots, size_t slots_length, uint32_t level,
                                 unix_path_refusal *refusal);

#ifndef UNIX_PATH_EXPORTS_ONLY

#ifdef __cplusplus
#define UNIX_PATH_INLINE inline
#define UNIX_PATH_NULL nullptr
#define UNIX_PATH_CHARS static_cast<const char *>
#else
#define UNIX_PATH_INLINE static inline
#define UNIX_PATH_NULL NULL
#define UNIX_PATH_CHARS (const char *)
#endif

/* Returns true if a call with `out` returned a length of at most PTRDIFF_MAX. Returns false for an
 * error code. It also returns false for a greater length, which no buffer has: a call without error
 * codes returns such a length unchanged. */
UNIX_PATH_INLINE bool unix_path_is_length(size_t answer) {
    return answer < UNIX_PATH_TOO_LONG;
}

/* Returns the name of an error code, such as "UNIX_PATH_ESCAPES", or NULL for a length. */
UNIX_PATH_INLINE const char *unix_path_error_name(size_t answer) {
    switch (answer) {
    case UNIX_PATH_SEPARATOR:
        return "UNIX_PATH_SEPARATOR";
    case UNIX_PATH_ESCAPES:
        return "UNIX_PATH_ESCAPES";
    case UNIX_PATH_NUL_IN_REQUEST:
        return "UNIX_PATH_NUL_IN_REQUEST";
    case UNIX_PATH_NOT_A_KEY:
        return "UNIX_PATH_NOT_A_KEY";
    case UNIX_PATH_NO_END:
        return "UNIX_PATH_NO_END";
    case UNIX_PATH_NO_RELATIVE_PATH:
        return "UNIX_PATH_NO_RELATIVE_PATH";
    default:
        return unix_path_is_length(answer) ? UNIX_PATH_NULL : "UNIX_PATH_TOO_LONG";
    }
}

/* Returns true if the path contains no NUL byte, so that the system reads all of it once a NUL is
 * appended. */
UNIX_PATH_INLINE bool unix_path_is_c_string(const void *path, size_t path_length) {
    const char *bytes = UNIX_PATH_CHARS(path);
    for (size_t at = 0; at < path_length; at++) {
        if (bytes[at] == '\0') {
            return false;
        }
    }
    return true;
}

/* From here on the name of each call names an inline function of this header, which replaces null
 * pointers and then makes the call. A program may use a pointer to this function. The function's
 * attributes tell the compiler which memory it reads and writes, and that its result has to be
 * used. */

#ifdef __GNUC__
#pragma GCC diagnostic push
#pragma GCC diagnostic ignored "-Wredundant-decls"
#endif
#if defined(__GNUC__) && !defined(UNIX_PATH_NO_ATTRIBUTES)
#define UNIX_PATH_NONNULL(...) __attribute__((__nonnull__(__VA_ARGS__)))
#define UNIX_PATH_ALL_NONNULL __attribute__((__nonnull__))
#if (defined(__cplusplus) && __cplusplus >= 201703L)                                               \
    || (defined(__STDC_VERSION__) && __STDC_VERSION__ > 201710L)
#define UNIX_PATH_ASKED [[nodiscard]]
#else
#define UNIX_PATH_ASKED __attribute__((__warn_unused_result__))
#endif
#if __has_attribute(__access__)
#define UNIX_PATH_ACCESS(...) __attribute__((__access__(__VA_ARGS__)))
#else
#define UNIX_PATH_ACCESS(...)
#endif
#else
#define UNIX_PATH_NONNULL(...)
#define UNIX_PATH_ALL_NONNULL
#define UNIX_PATH_ASKED
#define UNIX_PATH_ACCESS(...)
#endif

#define UNIX_PATH_READS(bytes, length) UNIX_PATH_ACCESS(__read_only__, bytes, length)
#define UNIX_PATH_FILLS(bytes, length) UNIX_PATH_ACCESS(__write_only__, bytes, length)
#define UNIX_PATH_WRITES(record) UNIX_PATH_ACCESS(__write_only__, record) UNIX_PATH_NONNULL(record)
#define UNIX_PATH_MOVES(record) UNIX_PATH_ACCESS(__read_write__, record) UNIX_PATH_NONNULL(record)
#define UNIX_PATH_LOOKS(record) UNIX_PATH_ACCESS(__read_only__, record) UNIX_PATH_NONNULL(record)

/* Returns `path` or, if it has no bytes, a pointer that is not null. */
UNIX_PATH_INLINE const void *unix_path_bytes(const void *path, size_t path_length) {
    return path_length == 0 ? "" : path;
}

/* Returns `out`, or `none` if the size of `out` is 0. */
UNIX_PATH_INLINE void *unix_path_room(void *out, size_t out_length, void *none) {
    return out_length == 0 ? none : out;
}

#define UNIX_PATH_ONE const void *a, size_t a_length
#define UNIX_PATH_TWO UNIX_PATH_ONE, const void *b, size_t b_length
#define UNIX_PATH_OUT void *out, size_t out_length
#define UNIX_PATH_A unix_path_bytes(a, a_length), a_length
#define UNIX_PATH_AB UNIX_PATH_A, unix_path_bytes(b, b_length), b_length
#define UNIX_PATH_READS_ONE UNIX_PATH_READS(1, 2)
#define UNIX_PATH_READS_TWO UNIX_PATH_READS(1, 2) UNIX_PATH_READS(3, 4)

/* Declares the call again, and defines the function that makes it. `known` are the attributes of
 * both, and `given` are the arguments that the function passes to the call. */
#define UNIX_PATH_CALL(answer, name, known, parameters, given)                                     \
    known UNIX_PATH_ALL_NONNULL answer unix_path_##name parameters;                                \
    UNIX_PATH_ASKED known UNIX_PATH_INLINE answer unix_path_inline_##name parameters {             \
        return unix_path_##name given;                                                             \
    }
#define UNIX_PATH_ASK_NOTHING(answer, name)                                                        \
    UNIX_PATH_ASKED UNIX_PATH_INLINE answer unix_path_inline_##name(void) {                        \
        return unix_path_##name();                                                                 \
    }
#define UNIX_PATH_ASK(answer, name)                                                                \
    UNIX_PATH_CALL(answer, name, UNIX_PATH_READS_ONE, (UNIX_PATH_ONE), (UNIX_PATH_A))
#define UNIX_PATH_ASK_TWO(answer, name)                                                            \
    UNIX_PATH_CALL(answer, name, UNIX_PATH_READS_TWO, (UNIX_PATH_TWO), (UNIX_PATH_AB))
#define UNIX_PATH_STEP(name)                                                                       \
    UNIX_PATH_CALL(bool, name, UNIX_PATH_READS_ONE UNIX_PATH_MOVES(3) UNIX_PATH_WRITES(4),         \
                   (UNIX_PATH_ONE, unix_path_walk *walk, unix_path_part *part),                    \
                   (UNIX_PATH_A, walk, part))
#define UNIX_PATH_NEXT_SPAN(name)                                                                  \
    UNIX_PATH_CALL(bool, name, UNIX_PATH_READS_ONE UNIX_PATH_MOVES(3) UNIX_PATH_WRITES(4),         \
                   (UNIX_PATH_ONE, size_t *next, unix_path_span *span),                            \
                   (UNIX_PATH_A, next, span))
#define UNIX_PATH_NEXT_CHUNK(name)                                                                 \
    UNIX_PATH_CALL(bool, name, UNIX_PATH_READS_ONE UNIX_PATH_MOVES(3) UNIX_PATH_WRITES(4),         \
                   (UNIX_PATH_ONE, size_t *next, unix_path_chunk *chunk),                          \
                   (UNIX_PATH_A, next, chunk))
#define UNIX_PATH_FIND(name)                                                                       \
    UNIX_PATH_CALL(bool, name, UNIX_PATH_READS_ONE UNIX_PATH_WRITES(3),                            \
                   (UNIX_PATH_ONE, unix_path_span *span), (UNIX_PATH_A, span))
#define UNIX_PATH_FIND_OF_TWO(name)                                                                \
    UNIX_PATH_CALL(bool, name, UNIX_PATH_READS_TWO UNIX_PATH_WRITES(5),                            \
                   (UNIX_PATH_TWO, unix_path_span *span), (UNIX_PATH_AB, span))

/* Does the same as UNIX_PATH_CALL, for the calls with `out`. */
#define UNIX_PATH_OUT_CALL(name, known, parameters, ...)                                           \
    known UNIX_PATH_ALL_NONNULL size_t unix_path_##name parameters;                                \
    UNIX_PATH_ASKED known UNIX_PATH_INLINE size_t unix_path_inline_##name parameters {             \
        char none[1];                                                                              \
        return unix_path_##name(__VA_ARGS__, unix_path_room(out, out_length, none), out_length);   \
    }
#define UNIX_PATH_MAKE(name)                                                                       \
    UNIX_PATH_OUT_CALL(name, UNIX_PATH_READS_ONE UNIX_PATH_FILLS(3, 4),                            \
                       (UNIX_PATH_ONE, UNIX_PATH_OUT), UNIX_PATH_A)
#define UNIX_PATH_MAKE_OF_TWO(name)                                                                \
    UNIX_PATH_OUT_CALL(name, UNIX_PATH_READS_TWO UNIX_PATH_FILLS(5, 6),                            \
                       (UNIX_PATH_TWO, UNIX_PATH_OUT), UNIX_PATH_AB)

#define UNIX_PATH_COUNT_SLOTS(name) UNIX_PATH_ASK(size_t, name)
#define UNIX_PATH_CHECK_ENTRIES_OF                                                                 \
    UNIX_PATH_ONE, unix_path_slot *slots, size_t slots_length, uint32_t level,                     \
        unix_path_refusal *refusal
#define UNIX_PATH_CHECK_ENTRIES(name)                                                              \
    UNIX_PATH_READS_ONE UNIX_PATH_FILLS(3, 4) UNIX_PATH_ACCESS(__write_only__, 6)                  \
    UNIX_PATH_ALL_NONNULL uint32_t unix_path_##name(UNIX_PATH_CHECK_ENTRIES_OF);                   \
    UNIX_PATH_ASKED UNIX_PATH_READS_ONE UNIX_PATH_FILLS(3, 4) UNIX_PATH_WRITES(6)                  \
    UNIX_PATH_INLINE uint32_t unix_path_inline_##name(UNIX_PATH_CHECK_ENTRIES_OF) {                \
        unix_path_slot none[1];                                                                    \
        return unix_path_##name(UNIX_PATH_A, slots_length == 0 ? none : slots, slots_length,       \
                                level, refusal);                                                   \
    }

/* Define the functions that make the calls that return nothing. */
#define UNIX_PATH_BEGIN(name)                                                                      \
    UNIX_PATH_READS_ONE UNIX_PATH_WRITES(3) UNIX_PATH_INLINE                                       \
    void unix_path_inline_##name(UNIX_PATH_ONE, unix_path_walk *walk) {                            \
        unix_path_##name(UNIX_PATH_A, walk);                                                       \
    }
#define UNIX_PATH_LEFT(name)                                                                       \
    UNIX_PATH_READS_ONE UNIX_PATH_LOOKS(3) UNIX_PATH_WRITES(4) UNIX_PATH_INLINE                    \
    void unix_path_inline_##name(UNIX_PATH_ONE, const unix_path_walk *walk,                        \
                                 unix_path_span *span) {                                           \
        unix_path_##name(UNIX_PATH_A, walk, span);                                                 \
    }

/* tools/calls wrote the next lines from the exports of crates/unix_path_c/src. */
UNIX_PATH_ASK_NOTHING(uint32_t, version)
UNIX_PATH_BEGIN(components)
UNIX_PATH_STEP(next)
UNIX_PATH_STEP(next_back)
UNIX_PATH_LEFT(as_path)
UNIX_PATH_NEXT_SPAN(next_ancestor)
UNIX_PATH_NEXT_CHUNK(next_chunk)
UNIX_PATH_FIND(parent)
UNIX_PATH_FIND(file_name)
UNIX_PATH_FIND(file_stem)
UNIX_PATH_FIND(extension)
UNIX_PATH_FIND(file_prefix)
UNIX_PATH_FIND_OF_TWO(strip_prefix)
UNIX_PATH_ASK_TWO(bool, starts_with)
UNIX_PATH_ASK_TWO(bool, ends_with)
UNIX_PATH_ASK_TWO(bool, equal)
UNIX_PATH_ASK_TWO(int32_t, compare)
UNIX_PATH_ASK(uint64_t, hash)
UNIX_PATH_ASK(bool, is_utf8)
UNIX_PATH_ASK(bool, is_canonical)
UNIX_PATH_ASK(bool, is_absolute)
UNIX_PATH_ASK(bool, escapes)
UNIX_PATH_ASK(int32_t, check_request)
UNIX_PATH_ASK(bool, request_is_root)
UNIX_PATH_ASK(bool, ends_in_slash)
UNIX_PATH_ASK_TWO(size_t, common_dir)
UNIX_PATH_MAKE_OF_TWO(join)
UNIX_PATH_MAKE_OF_TWO(with_file_name)
UNIX_PATH_MAKE_OF_TWO(with_extension)
UNIX_PATH_MAKE_OF_TWO(with_added_extension)
UNIX_PATH_MAKE(canonical)
UNIX_PATH_MAKE(to_string_lossy)
UNIX_PATH_MAKE(resolved)
UNIX_PATH_MAKE_OF_TWO(join_beneath)
UNIX_PATH_MAKE_OF_TWO(join_in_root)
UNIX_PATH_MAKE_OF_TWO(join_verbatim)
UNIX_PATH_MAKE_OF_TWO(relative_path)
UNIX_PATH_MAKE(key)
UNIX_PATH_MAKE(from_key)
UNIX_PATH_MAKE(key_range_end)
UNIX_PATH_COUNT_SLOTS(entries_scratch)
UNIX_PATH_CHECK_ENTRIES(check_entries)

#define unix_path_version unix_path_inline_version
#define unix_path_components unix_path_inline_components
#define unix_path_next unix_path_inline_next
#define unix_path_next_back unix_path_inline_next_back
#define unix_path_as_path unix_path_inline_as_path
#define unix_path_next_ancestor unix_path_inline_next_ancestor
#define unix_path_next_chunk unix_path_inline_next_chunk
#define unix_path_parent unix_path_inline_parent
#define unix_path_file_name unix_path_inline_file_name
#define unix_path_file_stem unix_path_inline_file_stem
#define unix_path_extension unix_path_inline_extension
#define unix_path_file_prefix unix_path_inline_file_prefix
#define unix_path_strip_prefix unix_path_inline_strip_prefix
#define unix_path_starts_with unix_path_inline_starts_with
#define unix_path_ends_with unix_path_inline_ends_with
#define unix_path_equal unix_path_inline_equal
#define unix_path_compare unix_path_inline_compare
#define unix_path_hash unix_path_inline_hash
#define unix_path_is_utf8 unix_path_inline_is_utf8
#define unix_path_is_canonical unix_path_inline_is_canonical
#define unix_path_is_absolute unix_path_inline_is_absolute
#define unix_path_escapes unix_path_inline_escapes
#define unix_path_check_request unix_path_inline_check_request
#define unix_path_request_is_root unix_path_inline_request_is_root
#define unix_path_ends_in_slash unix_path_inline_ends_in_slash
#define unix_path_common_dir unix_path_inline_common_dir
#define unix_path_join unix_path_inline_join
#define unix_path_with_file_name unix_path_inline_with_file_name
#define unix_path_with_extension unix_path_inline_with_extension
#define unix_path_with_added_extension unix_path_inline_with_added_extension
#define unix_path_canonical unix_path_inline_canonical
#define unix_path_to_string_lossy unix_path_inline_to_string_lossy
#define unix_path_resolved unix_path_inline_resolved
#define unix_path_join_beneath unix_path_inline_join_beneath
#define unix_path_join_in_root unix_path_inline_join_in_root
#define unix_path_join_verbatim unix_path_inline_join_verbatim
#define unix_path_relative_path unix_path_inline_relative_path
#define unix_path_key unix_path_inline_key
#define unix_path_from_key unix_path_inline_from_key
#define unix_path_key_range_end unix_path_inline_key_range_end
#define unix_path_entries_scratch unix_path_inline_entries_scratch
#define unix_path_check_entries unix_path_inline_check_entries
/* The end of what tools/calls wrote. */

#undef UNIX_PATH_INLINE
#undef UNIX_PATH_NULL
#undef UNIX_PATH_CHARS
#undef UNIX_PATH_NONNULL
#undef UNIX_PATH_ALL_NONNULL
#undef UNIX_PATH_ASKED
#undef UNIX_PATH_ACCESS
#undef UNIX_PATH_READS
#undef UNIX_PATH_FILLS
#undef UNIX_PATH_WRITES
#undef UNIX_PATH_MOVES
#undef UNIX_PATH_LOOKS
#undef UNIX_PATH_ONE
#undef UNIX_PATH_TWO
#undef UNIX_PATH_OUT
#undef UNIX_PATH_A
#undef UNIX_PATH_AB
#undef UNIX_PATH_READS_ONE
#undef UNIX_PATH_READS_TWO
#undef UNIX_PATH_CALL
#undef UNIX_PATH_OUT_CALL
#undef UNIX_PATH_BEGIN
#undef UNIX_PATH_LEFT
#undef UNIX_PATH_STEP
#undef UNIX_PATH_NEXT_SPAN
#undef UNIX_PATH_NEXT_CHUNK
#undef UNIX_PATH_FIND
#undef UNIX_PATH_FIND_OF_TWO
#undef UNIX_PATH_ASK_NOTHING
#undef UNIX_PATH_ASK
#undef UNIX_PATH_ASK_TWO
#undef UNIX_PATH_MAKE
#undef UNIX_PATH_MAKE_OF_TWO
#undef UNIX_PATH_COUNT_SLOTS
#undef UNIX_PATH_CHECK_ENTRIES_OF
#undef UNIX_PATH_CHECK_ENTRIES
#ifdef __GNUC__
#pragma GCC diagnostic pop
#endif
#endif

#ifdef __cplusplus
}
#endif

#endif
