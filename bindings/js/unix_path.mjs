// Unix paths as bytes: the calls of unix_path.h, by the proved code in unix_path.wasm.
// unix_path.d.ts documents each function. This file isn't proved.

const PAGE = 65536;
// The free memory begins with the state of a walk and the record that a call writes.
const RECORD = 16, RECORDS = 64;
// An instance whose memory is larger than this is dropped after the call.
const MOST_KEPT = 16 << 20;
// A walk over a path longer than this has an instance of its own, so that no step copies the path.
const LONG = 4096;

const ESCAPES = -2n, NUL_IN_REQUEST = -4n, NOT_A_KEY = -5n, NO_END = -6n, SEPARATOR = -7n,
    NO_RELATIVE_PATH = -8n;
const KINDS = ["rootDir", "curDir", "parentDir", "normal"];
const CHECKS = [null, "root", "escapes", "nul"];
// The size of the memory for one use of a path by checkEntries.
const SLOT = 40;
const ENTRY_KINDS = {directory: "d", file: "f", symlink: "l", hardlink: "h"};
const ENTRY_REFUSALS = ["name", "kind", "belowLeaf", "linkUsedTwice", "targetIsLink", "leadsOut"];
const REFUSALS = {
    root: "the request has a root",
    escapes: "the request leads out of its root",
    parent: "the request has a `..`",
    nul: "the request has a NUL byte",
};

/** The error of a join that refuses its request. */
export class EscapesError extends Error {
    constructor(reason) {
        super(REFUSALS[reason]);
        this.name = "EscapesError";
        this.reason = reason;
    }
}

const encoder = new TextEncoder();
const decoder = new TextDecoder("utf-8", {fatal: true, ignoreBOM: true});
const isText = (path) => typeof path === "string";
const isBytes = (path) => ArrayBuffer.isView(path) && path[Symbol.toStringTag] === "Uint8Array";

function bytesOf(path) {
    if (isBytes(path)) {
        return path;
    }
    if (!isText(path)) {
        throw new TypeError("a path is a string or a Uint8Array");
    }
    if (/\p{Surrogate}/u.test(path)) {
        throw new TypeError("a path with a lone surrogate has no bytes in UTF-8");
    }
    return encoder.encode(path);
}

// Returns bytes as text if they are UTF-8.
function textOf(bytes) {
    try {
        return decoder.decode(bytes);
    } catch {
        return bytes;
    }
}

// Returns a part of a path, given also as its bytes: text of text, and a view of bytes.
function piece(path, bytes, [start, length]) {
    const found = bytes.subarray(Number(start), Number(start + length));
    return isText(path) ? textOf(found) : found;
}

// Returns the fields of an entry's record.
function fieldsOf({kind, path, target}) {
    const isLink = kind === "symlink" || kind === "hardlink";
    return [ENTRY_KINDS[kind] ?? "other", path, isLink ? target : ""].map(bytesOf);
}

// Returns the fields with a NUL after each.
function recordsOf(fields) {
    const records = new Uint8Array(fields.reduce((sum, it) => sum + it.length + 1, 0));
    let end = 0;
    for (const field of fields) {
        records.set(field, end);
        end += field.length + 1;
    }
    return records;
}

// Returns the type of a memory's numbers of pages: BigInt if its addresses have 64 bits.
function pageType(memory) {
    try {
        memory.grow(0);
        return Number;
    } catch {
        return BigInt;
    }
}

// An instance of the module. Its free memory begins at `base`.
class Instance {
    constructor(module) {
        this.calls = new WebAssembly.Instance(module).exports;
        this.pages = pageType(this.calls.memory);
        this.look();
        this.base = this.size;
    }

    // Makes the views of the memory, which a growth detaches.
    look() {
        this.bytes = new Uint8Array(this.calls.memory.buffer);
        this.numbers = new DataView(this.calls.memory.buffer);
    }

    get size() {
        return this.bytes.length;
    }

    // Grows the memory until it has this many free bytes. All addresses stay below 2^32.
    reserve(length) {
        const pages = Math.ceil((this.base + length - this.size) / PAGE);
        try {
            if (this.base + length >= 2 ** 32) {
                throw new RangeError("the memory has 32-bit addresses");
            }
            if (pages > 0) {
                this.calls.memory.grow(this.pages(pages));
                this.look();
            }
        } catch (error) {
            throw new RangeError(`no memory for ${length} bytes`, {cause: error});
        }
    }

    // Copies paths to the memory after the records. Returns their pointers and lengths, as the
    // arguments of a call, and the index after them, where `room` bytes are free.
    place(paths, room = 0) {
        this.reserve(paths.reduce((sum, it) => sum + it.length, RECORDS + room));
        const words = [];
        let end = this.base + RECORDS;
        for (const path of paths) {
            this.bytes.set(path, end);
            words.push(BigInt(end), BigInt(path.length));
            end += path.length;
        }
        return {words, end};
    }

    call(name, ...words) {
        return this.calls[`unix_path_${name}`](...words);
    }

    // Returns the numbers of the record that a call writes, or null if it returns 0.
    find(name, words, ...others) {
        const record = this.base + RECORD;
        const found = this.call(name, ...words, ...others, BigInt(record));
        return found === 0 ? null : [record, record + 8, record + 16].map((at) => (
            this.numbers.getBigUint64(at, true)));
    }

    // Returns the refusal of an archive's entries, or null. The slots are after the records.
    checkEntries(records, level) {
        const {words} = this.place([records]);
        const count = this.call("entries_scratch", ...words);
        const {end} = this.place([records], SLOT * (Number(count) + 1));
        return this.find("check_entries", words, BigInt(end + 8 - end % 8), count, level);
    }

    // Makes a call that reads and writes these two numbers, the state of a walk.
    step(name, words, state) {
        state.forEach((it, at) => this.numbers.setBigUint64(this.base + 8 * at, it, true));
        const found = this.find(name, words, BigInt(this.base));
        state.forEach((_, at) => {
            state[at] = this.numbers.getBigUint64(this.base + 8 * at, true);
        });
        return found;
    }

    // Returns the bytes that a call writes, or its error code, which is less than 0.
    write(name, paths, room = paths.reduce((sum, it) => sum + it.length, 16)) {
        const {words, end} = this.place(paths, room);
        const length = this.call(name, ...words, BigInt(end), BigInt(room));
        if (length > room) {
            return this.write(name, paths, Number(length));
        }
        return length < 0 ? length : this.bytes.slice(end, end + Number(length));
    }
}

// A walk over the components of a path. `step` makes a call with the walk's state.
class Components {
    #path; #bytes; #step;
    #walk = [0n, 0n];

    constructor(path, bytes, step) {
        [this.#path, this.#bytes, this.#step] = [path, bytes, step];
        step("components", this.#walk);
    }

    #take(name) {
        const part = this.#step(name, this.#walk);
        if (part === null) {
            return {value: undefined, done: true};
        }
        const [start, , kind] = part;
        const value = piece(this.#path, this.#bytes, part);
        const number = Number(BigInt.asUintN(32, kind));
        return {value: {kind: KINDS[number], value, start: Number(start)}, done: false};
    }

    next() {
        return this.#take("next");
    }

    nextBack() {
        return this.#take("next_back");
    }

    asPath() {
        return piece(this.#path, this.#bytes, this.#step("as_path", this.#walk));
    }

    [Symbol.iterator]() {
        return this;
    }
}

// Yields what a call that takes one step of a walk finds, as `made` returns it.
function* walked(step, name, state, made) {
    for (let found = step(name, state); found !== null; found = step(name, state)) {
        yield made(found);
    }
}

// Makes the calls, by instances of a module.
class Library {
    #module; #shared = null;

    constructor(module) {
        this.#module = module;
    }

    // Passes the shared instance to `work`. Drops the instance after an error, since a trap leaves
    // it in an unknown state, and if its memory has grown too large.
    #use(work) {
        const instance = this.#shared ?? new Instance(this.#module);
        this.#shared = null;
        const answer = work(instance);
        this.#shared = instance.size > MOST_KEPT ? null : instance;
        return answer;
    }

    // Returns the function that takes the steps of a walk over a path.
    #stepper(bytes) {
        if (bytes.length <= LONG) {
            return (name, state) => this.#use((instance) => (
                instance.step(name, instance.place([bytes]).words, state)));
        }
        const own = new Instance(this.#module), {words} = own.place([bytes]);
        return (name, state) => own.step(name, words, state);
    }

    components(path) {
        const bytes = bytesOf(path);
        return new Components(path, bytes, this.#stepper(bytes));
    }

    ancestors(path) {
        const bytes = bytesOf(path), state = [BigInt(bytes.length)];
        return walked(this.#stepper(bytes), "next_ancestor", state,
                      (found) => piece(path, bytes, found));
    }

    chunks(path) {
        const bytes = bytesOf(path);
        return walked(this.#stepper(bytes), "next_chunk", [0n], ([start, valid, broken]) => ({
            valid: textOf(piece(bytes, bytes, [start, valid])),
            invalid: piece(bytes, bytes, [start + valid, broken]),
            start: Number(start),
        }));
    }

    // Returns the number that a call returns. One of 64 bits is a signed BigInt.
    ask(name, ...paths) {
        const bytes = paths.map(bytesOf);
        return this.#use((it) => it.call(name, ...it.place(bytes).words));
    }

    isTrue(name, ...paths) {
        return this.ask(name, ...paths) !== 0;
    }

    // Returns what a call finds in the first path, or null.
    find(name, ...paths) {
        const bytes = paths.map(bytesOf);
        const found = this.#use((it) => it.find(name, it.place(bytes).words));
        return found && piece(paths[0], bytes[0], found);
    }

    // Returns the bytes that a call writes, or its error code.
    write(name, ...paths) {
        const bytes = paths.map(bytesOf);
        return this.#use((it) => it.write(name, bytes));
    }

    // Returns the new path that a call writes: text if all arguments are text.
    make(name, ...paths) {
        const answer = this.write(name, ...paths);
        if (answer === SEPARATOR) {
            throw new TypeError("an extension has no slash");
        }
        if (answer === NOT_A_KEY) {
            throw new TypeError("no path has this key");
        }
        if (answer === NO_END || answer === NO_RELATIVE_PATH) {
            return null;
        }
        return paths.every(isText) ? textOf(answer) : answer;
    }

    checkRequest(request) {
        return CHECKS[this.ask("check_request", request)];
    }

    // Joins a request to a root. Only joinVerbatim refuses a `..` that doesn't escape.
    joinRequest(name, root, request) {
        const answer = this.write(name, root, request);
        if (answer === NUL_IN_REQUEST) {
            throw new EscapesError("nul");
        }
        if (answer === ESCAPES) {
            const reason = this.checkRequest(request);
            throw new EscapesError(["root", "escapes"].includes(reason) ? reason : "parent");
        }
        return [root, request].every(isText) ? textOf(answer) : answer;
    }

    // A record has no field with a NUL. An entry with one is refused if none before it is.
    checkEntries(entries, {closed = true} = {}) {
        const list = Array.from(entries, fieldsOf);
        const wrong = list.findIndex((it) => it.some((field) => field.includes(0)));
        const records = recordsOf((wrong < 0 ? list : list.slice(0, wrong)).flat());
        const found = this.#use((it) => it.checkEntries(records, closed ? 1 : 0));
        if (found === null) {
            return wrong < 0 ? null : {entry: wrong, cause: wrong, reason: "name"};
        }
        const [entry, cause, reason] = found.map((it) => Number(BigInt.asUintN(32, it)));
        return {entry, cause, reason: ENTRY_REFUSALS[reason]};
    }
}

// Returns the functions of unix_path.d.ts.
function functionsOf(library) {
    const ask = library.ask.bind(library), isTrue = library.isTrue.bind(library);
    const find = library.find.bind(library), make = library.make.bind(library);
    const joinRequest = library.joinRequest.bind(library);
    return {
        version: () => [16, 8, 0].map((at) => ask("version") >> at & 255).join("."),

        components: (path) => library.components(path),
        ancestors: (path) => library.ancestors(path),
        chunks: (path) => library.chunks(path),

        parent: (path) => find("parent", path),
        fileName: (path) => find("file_name", path),
        fileStem: (path) => find("file_stem", path),
        extension: (path) => find("extension", path),
        filePrefix: (path) => find("file_prefix", path),
        stripPrefix: (path, base) => find("strip_prefix", path, base),
        commonDir: (a, b) => piece(a, bytesOf(a), [0n, ask("common_dir", a, b)]),

        startsWith: (path, base) => isTrue("starts_with", path, base),
        endsWith: (path, child) => isTrue("ends_with", path, child),
        equal: (a, b) => isTrue("equal", a, b),
        compare: (a, b) => ask("compare", a, b),
        hash: (path) => BigInt.asUintN(64, ask("hash", path)),
        isUtf8: (path) => isTrue("is_utf8", path),
        isCanonical: (path) => isTrue("is_canonical", path),
        isAbsolute: (path) => isTrue("is_absolute", path),

        join: (base, path) => make("join", base, path),
        withFileName: (path, name) => make("with_file_name", path, name),
        withExtension: (path, extension) => make("with_extension", path, extension),
        withAddedExtension: (path, extension) => make("with_added_extension", path, extension),
        canonical: (path) => make("canonical", path),
        resolved: (path) => make("resolved", path),
        relativePath: (from, to) => make("relative_path", from, to),
        toStringLossy: (path) => textOf(library.write("to_string_lossy", path)),

        joinBeneath: (root, request) => joinRequest("join_beneath", root, request),
        joinInRoot: (root, request) => joinRequest("join_in_root", root, request),
        joinVerbatim: (root, request) => joinRequest("join_verbatim", root, request),
        checkRequest: (request) => library.checkRequest(request),
        escapes: (request) => isTrue("escapes", request),
        requestIsRoot: (request) => isTrue("request_is_root", request),
        endsInSlash: (request) => isTrue("ends_in_slash", request),

        checkEntries: (entries, options) => library.checkEntries(entries, options),

        key: (path) => library.write("key", path),
        fromKey: (key) => make("from_key", key),
        keyRangeEnd: (key) => make("key_range_end", key),
    };
}

// Returns the bytes of the module that is next to this file.
async function readModule() {
    const url = new URL("./unix_path.wasm", import.meta.url);
    if (url.protocol === "file:") {
        const {readFile} = await import(/* webpackIgnore: true */ "node:fs/promises");
        return readFile(url);
    }
    const response = await fetch(url);
    if (!response.ok) {
        throw new Error(`${url}: ${response.status} ${response.statusText}`);
    }
    return response.arrayBuffer();
}

/** Loads the module, and returns the functions. */
export async function load(source = readModule()) {
    const given = await source;
    const isModule = given instanceof WebAssembly.Module;
    return functionsOf(new Library(isModule ? given : await WebAssembly.compile(given)));
}
