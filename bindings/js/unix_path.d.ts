// Unix paths as byte strings. `load` returns the functions:
//
//     import {load} from "unix_path";
//     const {joinBeneath} = await load();
//     joinBeneath("/srv", "a/../b")    // "/srv/b"
//
// A path is a Uint8Array, or a string, whose bytes are its UTF-8. Its components are the root or a
// leading `.`, if it begins with one, and then each name and each `..`. `..` is a component like a
// name, except in functions that resolve it. No file is touched, and links are not followed.
//
// For every function:
//
//   - It returns, whatever the bytes are.
//   - Lengths and indices are in bytes, in a string as well.
//   - The answer is a string if all paths passed are strings, and otherwise a Uint8Array. A part of
//     a Uint8Array is a view of it, and shares its memory.
//   - It throws a TypeError for anything but a Uint8Array or a string, and for a string with a lone
//     surrogate, which has no UTF-8; and a RangeError if the paths and the answer don't fit into 4
//     GB or the memory that the system has. All functions still work after an error.

export type Path = string | Uint8Array;

/** The answer's type for a path of this type, or for two paths. */
export type Answer<A extends Path, B extends Path = A> =
    [A] extends [Uint8Array] ? Uint8Array : [B] extends [Uint8Array] ? Uint8Array :
    [A, B] extends [string, string] ? string : Path;

/** A component of a path: its kind, its bytes, and the index of its first byte. */
export interface Component<P extends Path> {
    readonly kind: "rootDir" | "curDir" | "parentDir" | "normal";
    readonly value: Answer<P>;
    readonly start: number;
}

/**
 * A walk over the components of a path, from either end. The components taken from the front, those
 * of `asPath()` and those taken from the back are together the path's, however the calls are mixed.
 */
export interface Components<P extends Path> extends IterableIterator<Component<P>> {
    /** Takes the first component of the rest. */
    next(): IteratorResult<Component<P>, undefined>;
    /** Takes the last component of the rest. */
    nextBack(): IteratorResult<Component<P>, undefined>;
    /** Returns the rest as a path, from its first component to the end of its last. */
    asPath(): Answer<P>;
}

/** A run of valid UTF-8, the invalid bytes after it, at most 3, and the index of its first byte. */
export interface Chunk {
    readonly valid: string;
    readonly invalid: Uint8Array;
    readonly start: number;
}

/**
 * Why a request is refused: it has a root; it goes above where it starts; it has a `..`, which only
 * `joinVerbatim` refuses; or it has a NUL byte, at which a system call cuts it.
 */
export type Reason = "root" | "escapes" | "parent" | "nul";

/**
 * An entry of an archive. A link's target is what it has in the archive. Entries of any other kind
 * are refused.
 */
export type Entry =
    | {readonly kind: "directory" | "file" | "other", readonly path: Path}
    | {readonly kind: "symlink" | "hardlink", readonly path: Path, readonly target: Path};

/**
 * Why an entry is refused: its index, that of the entry that it clashes with or its own, and the
 * reason. unix_path.h says what each reason means, above unix_path_check_entries.
 */
export interface Refusal {
    readonly entry: number;
    readonly cause: number;
    readonly reason: "name" | "kind" | "belowLeaf" | "linkUsedTwice" | "targetIsLink" | "leadsOut";
}

/** The error of a join that refuses its request. */
export class EscapesError extends Error {
    constructor(reason: Reason);
    readonly reason: Reason;
}

export interface UnixPath {
    /**
     * Returns the version of the module.
     * @example version() // "1.1.0"
     */
    version(): string;

    /**
     * Returns a walk over the components. Don't change a Uint8Array during the walk.
     * @example [...components("/a/./b")].map((it) => it.value) // ["/", "a", "b"]
     * @example components("../a").nextBack().value // {kind: "normal", value: "a", start: 3}
     * @example components("a/./b//").asPath() // "a/./b"
     */
    components<P extends Path>(path: P): Components<P>;

    /**
     * Returns the path, its parent, the parent's parent, and so on.
     * @example [...ancestors("../a")] // ["../a", "..", ""]
     */
    ancestors<P extends Path>(path: P): IterableIterator<Answer<P>>;

    /**
     * Returns the runs of valid UTF-8, each with the invalid bytes after it. `toStringLossy`
     * replaces these by one U+FFFD. Only the last chunk can have no invalid bytes.
     * @example [...chunks(new Uint8Array([0x61, 0xFF, 0x62]))].map((it) => it.valid) // ["a", "b"]
     */
    chunks(path: Path): IterableIterator<Chunk>;

    /**
     * Returns the path without its last component, or null for the root and the empty path.
     * @example parent("/a//b/") // "/a"
     * @example parent("a") // ""
     */
    parent<P extends Path>(path: P): Answer<P> | null;

    /**
     * Returns the last component, or null if that isn't a name.
     * @example fileName("a/b.txt/.") // "b.txt"
     * @example fileName("a/..") // null
     */
    fileName<P extends Path>(path: P): Answer<P> | null;

    /**
     * Returns the file name before its last dot, or all of it if it has no dot. This function and
     * the next two ignore a dot at the file name's beginning, and return null if there is no file
     * name.
     * @example fileStem("a.tar.gz") // "a.tar"
     * @example fileStem(".a") // ".a"
     */
    fileStem<P extends Path>(path: P): Answer<P> | null;

    /**
     * Returns the file name after its last dot, without the dot, or null if there is no dot.
     * @example extension("a.tar.gz") // "gz"
     * @example extension(".a") // null
     */
    extension<P extends Path>(path: P): Answer<P> | null;

    /**
     * Returns the file name before its first dot, or all of it if it has no dot.
     * @example filePrefix("a.tar.gz") // "a"
     */
    filePrefix<P extends Path>(path: P): Answer<P> | null;

    /**
     * Returns the rest of the path after base, or null if the path doesn't start with base.
     * @example stripPrefix("/a//b/", "/a") // "b"
     */
    stripPrefix<P extends Path>(path: P, base: Path): Answer<P> | null;

    /**
     * Returns the beginning of `a`, up to the last slash of the longest prefix that the bytes of
     * both paths share. It is empty if this prefix has no slash.
     * @example commonDir("a/b/c", "a/bb") // "a/"
     */
    commonDir<P extends Path>(a: P, b: Path): Answer<P>;

    /**
     * Returns true if the path begins with the components of base. `/dest/../etc` starts with
     * `/dest`, so this is no test of a path from outside: see `joinBeneath`.
     * @example startsWith("/etc/passwd", "/etc/") // true
     * @example startsWith("/etc/passwd", "/e") // false
     */
    startsWith(path: Path, base: Path): boolean;

    /**
     * Returns true if the path ends with the components of child.
     * @example endsWith("/etc/passwd", "passwd") // true
     */
    endsWith(path: Path, child: Path): boolean;

    /**
     * Returns true if both paths have the same components.
     * @example equal("a/./b//", "a/b") // true
     * @example equal("./a", "a") // false
     */
    equal(a: Path, b: Path): boolean;

    /**
     * Returns -1, 0 or 1 if a is less than, equal to or greater than b, by components: the root is
     * less than `.`, `.` than `..`, and `..` than a name. Pass it to `sort`; many paths are sorted
     * faster by `key`.
     * @example ["a.b", "a/b"].sort(compare) // ["a/b", "a.b"]
     */
    compare(a: Path, b: Path): -1 | 0 | 1;

    /**
     * Returns a hash of 64 bits, the same for equal paths and in each run. It is unkeyed, so an
     * attacker who chooses the paths can force collisions.
     * @example hash("a//b/") === hash("a/b") // true
     */
    hash(path: Path): bigint;

    /**
     * Returns true if the path is valid UTF-8 (RFC 3629), as every string is.
     * @example isUtf8(new Uint8Array([0xFF])) // false
     */
    isUtf8(path: Path): boolean;

    /**
     * Returns true if `canonical` returns the same bytes.
     * @example isCanonical("./a/b") // true
     * @example isCanonical("a//b") // false
     */
    isCanonical(path: Path): boolean;

    /**
     * Returns true if the path begins with a slash.
     * @example isAbsolute("/a") // true
     */
    isAbsolute(path: Path): boolean;

    /**
     * Joins two trusted paths. A path with a root replaces the base. For a path from outside use
     * `joinBeneath`.
     * @example join("/a", "./b") // "/a/./b"
     * @example join("/a", "/b") // "/b"
     */
    join<A extends Path, B extends Path>(base: A, path: B): Answer<A, B>;

    /**
     * Replaces the file name, or joins the name to a path without one.
     * @example withFileName("/a/b.txt", "c") // "/a/c"
     */
    withFileName<A extends Path, B extends Path>(path: A, name: B): Answer<A, B>;

    /**
     * Replaces the extension of the file name, adds one if there is none, or removes it if the new
     * one is empty. Drops a `/` and a `/.` after the file name. Without a file name the path is
     * unchanged. Throws a TypeError if the extension has a slash.
     * @example withExtension("a.rs/.", "txt") // "a.txt"
     */
    withExtension<A extends Path, B extends Path>(path: A, extension: B): Answer<A, B>;

    /**
     * Adds a dot and the extension to the file name, as `withExtension` replaces it. With an empty
     * extension the path is unchanged.
     * @example withAddedExtension("a.tar", "gz") // "a.tar.gz"
     */
    withAddedExtension<A extends Path, B extends Path>(path: A, extension: B): Answer<A, B>;

    /**
     * Returns the canonical form: the one shortest path with the same components.
     * @example canonical(".//a/./b/") // "./a/b"
     */
    canonical<P extends Path>(path: P): Answer<P>;

    /**
     * Drops each `..` with the name before it, each `.`, and each `..` directly after the root, and
     * returns the canonical form. A `..` that finds no name to drop stays, at the beginning. Where
     * a component may be a link, only the system knows where `..` leads.
     * @example resolved("a/../..//b/.") // "../b"
     */
    resolved<P extends Path>(path: P): Answer<P>;

    /**
     * Returns the relative path from one path to another, both resolved; or null if no path without
     * a root leads there.
     * @example relativePath("/a/b/c", "/a/d") // "../../d"
     * @example relativePath("..", "a") // null
     */
    relativePath<A extends Path, B extends Path>(from: A, to: B): Answer<A, B> | null;

    /**
     * Returns the path as text, with one U+FFFD for the invalid bytes of each chunk.
     * @example toStringLossy(new Uint8Array([0x61, 0xFF])) // "a\uFFFD"
     */
    toStringLossy(path: Path): string;

    /**
     * Joins a request from outside, such as an entry of an archive, so that it stays beneath the
     * root. Resolves `..` in the request, and drops its trailing slash. The root is kept as it is.
     * Throws an EscapesError if the request has a root, goes above where it starts, or has a NUL.
     * @example joinBeneath("/srv/", "a/../b") // "/srv/b"
     */
    joinBeneath<A extends Path, B extends Path>(root: A, request: B): Answer<A, B>;

    /**
     * Joins a request as in a chroot, such as the decoded path of a URL. It is like `joinBeneath`,
     * but drops leading slashes, and a `..` at the root stays there. Throws an EscapesError only
     * for a NUL.
     * @example joinInRoot("/srv/", "/../b") // "/srv/b"
     */
    joinInRoot<A extends Path, B extends Path>(root: A, request: B): Answer<A, B>;

    /**
     * Joins a request verbatim, for a root whose components may be links. Throws an EscapesError if
     * the request has a root, a `..` or a NUL.
     * @example joinVerbatim("/srv/../www", "./a") // "/srv/../www/./a"
     */
    joinVerbatim<A extends Path, B extends Path>(root: A, request: B): Answer<A, B>;

    /**
     * Returns why `joinBeneath` refuses a request, or null if it doesn't.
     * @example checkRequest("a/../..") // "escapes"
     * @example checkRequest("a/../b") // null
     */
    checkRequest(request: Path): "root" | "escapes" | "nul" | null;

    /**
     * Returns true if the request has a root, or goes above where it starts, even if later names
     * come down again.
     * @example escapes("a/../../b") // true
     */
    escapes(request: Path): boolean;

    /**
     * Returns true if no name remains of a request when `joinInRoot` resolves it.
     * @example requestIsRoot("a/..") // true
     */
    requestIsRoot(request: Path): boolean;

    /**
     * Returns true if a slash or a `/.` follows the last component, and that is a name.
     * @example endsInSlash("a/.") // true
     * @example endsInSlash("a/..") // false
     */
    endsInSlash(request: Path): boolean;

    /**
     * Returns null if the entries of an archive, links among them, may be extracted to a new, empty
     * directory: no extractor then writes outside of it, in any order, and no link leads out. With
     * `closed: false`, links may lead anywhere, and an extractor that follows a link when it works
     * on the link's own path may write outside. Otherwise returns the refusal of the first entry
     * that is refused. The entries before it are accepted. List the entries with the program that
     * extracts them, and with its options.
     * @example checkEntries([{kind: "directory", path: "a/"}, {kind: "file", path: "a/b"}]) // null
     * @example checkEntries([{kind: "file", path: "/etc/passwd"}]).reason // "name"
     * @example checkEntries([{kind: "symlink", path: "x", target: "/etc"}]).reason // "leadsOut"
     */
    checkEntries(entries: Iterable<Entry>, options?: {readonly closed?: boolean}): Refusal | null;

    /**
     * Returns the key of the path, for a store that compares keys byte by byte. Keys sort as
     * `compare` sorts their paths. The comment above unix_path_key in unix_path.h has the format.
     * @example key("/a") // new Uint8Array([0, 1, 0x61, 0])
     */
    key(path: Path): Uint8Array;

    /**
     * Returns the canonical form of the paths that have the key. Throws a TypeError if no path has
     * it.
     * @example fromKey(key("./a//b/")) // new Uint8Array([0x2E, 0x2F, 0x61, 0x2F, 0x62])
     */
    fromKey(key: Uint8Array): Uint8Array;

    /**
     * Returns the end of the range of keys that begin with this key: they are at least the key and
     * less than the end. Returns null for the empty key, whose range has no end. Throws a TypeError
     * if no path has the key.
     * @example keyRangeEnd(key("a")) // new Uint8Array([0x61, 1])
     */
    keyRangeEnd(key: Uint8Array): Uint8Array | null;
}

/**
 * Loads the module and returns the functions, which don't depend on `this`. Without an argument it
 * reads `unix_path.wasm`, which is next to the script: from the file system in Node, and by `fetch`
 * in a browser. The argument is the module, or its bytes; the 64-bit `asm/wasm64/unix_path.wasm`
 * works too, where memories with 64-bit addresses do.
 *
 * The functions share the module's memory, which grows as needed. If it is larger than 16 MB after
 * a call, it is dropped. A walk over a path of more than 4,096 bytes has memory of its own, which
 * is dropped with the walk.
 */
export function load(
    module?: BufferSource | WebAssembly.Module | Promise<BufferSource | WebAssembly.Module>,
): Promise<UnixPath>;
