// Tests what the package adds to the calls: text, errors, memory, and its documentation.
import assert from "node:assert";
import {test} from "node:test";
import {EscapesError, load} from "../unix_path.mjs";
import {MODULES, read} from "./places.mjs";

const paths = await load(), names = Object.keys(paths), values = Object.values(paths);
const bytes = (...codes) => Uint8Array.from(codes);
const BIG = 100_000_000;

// Returns the value of an expression over the functions.
function valueOf(expression) {
    return new Function(...names, `return ${expression}`)(...values);
}

// Returns a path of 100 MB of names of one letter.
function bigPath() {
    return new Uint8Array(BIG).fill(0x61).map((it, at) => (at % 2 ? 0x2F : it));
}

test("every example of unix_path.d.ts", () => {
    const text = read("bindings/js/unix_path.d.ts").toString();
    const examples = [...text.matchAll(/@example (.*) \/\/ (.*)$/gm)];
    for (const [line, expression, wanted] of examples) {
        const found = valueOf(expression);
        assert.deepEqual(Array.isArray(found) || found instanceof Uint8Array
                         || found === null || typeof found !== "object" ? found : {...found},
                         valueOf(`(${wanted})`), line);
    }
    const documented = [...text.matchAll(/^    (\w+)(?:<.*>)?\(/gm)].map((it) => it[1]);
    assert.deepEqual(documented.filter((it) => names.includes(it)).sort(), [...names].sort());
    const shown = new Set(examples.flatMap(([, it]) => it.match(/\b\w+(?=\()/g)));
    assert.deepEqual(names.filter((it) => !shown.has(it)
                                  && !text.includes(`sort(${it})`)), []);
});

test("text and bytes", () => {
    assert.equal(paths.join("a", "b"), "a/b");
    assert.deepEqual(paths.join(bytes(0x61), "b"), bytes(0x61, 0x2F, 0x62));
    assert.deepEqual(paths.join("a", bytes(0xFF)), bytes(0x61, 0x2F, 0xFF));
    assert.equal(paths.parent("\uFEFFa/\u{1F600}"), "\uFEFFa");
    assert.equal(paths.fileName("a/\uFEFFb"), "\uFEFFb");
    assert.equal(paths.toStringLossy(bytes(0xEF, 0xBB, 0xBF, 0xFF)), "\uFEFF\uFFFD");
    assert.equal([...paths.components("é/ß")][1].start, 3);
    assert.deepEqual(["b", "a"].map(paths.canonical), ["b", "a"]);
    const buffer = Buffer.from("a/b");
    assert.deepEqual(paths.parent(buffer), Buffer.from("a"));
    assert.equal(paths.parent(buffer).buffer, buffer.buffer);
    for (const wrong of [undefined, null, 3, ["a"], new Uint16Array(2), "\uD800", "a\uDC00b"]) {
        assert.throws(() => paths.parent(wrong), TypeError);
    }
});

test("what a join refuses, and why", () => {
    const reasons = {"/x": "root", "../x": "escapes", "a/../../b": "escapes", "a\0": "nul",
                     "a/../b": "parent", "a/../b\0": "parent", "..\0": "nul", "/\0": "root"};
    const ofBeneath = (it) => ({parent: it.includes("\0") ? "nul" : null}[reasons[it]]
                               ?? (reasons[it] === "parent" ? null : reasons[it]));
    const reasonOf = (name, request) => {
        try {
            return paths[name]("/srv", request) && null;
        } catch (error) {
            assert(error instanceof EscapesError && error instanceof Error);
            assert.equal(error.name, "EscapesError");
            return error.reason;
        }
    };
    for (const [request, reason] of Object.entries(reasons)) {
        assert.equal(reasonOf("joinVerbatim", request), reason, request);
        assert.equal(reasonOf("joinBeneath", request), ofBeneath(request), request);
        assert.equal(paths.checkRequest(request), ofBeneath(request), request);
        assert.equal(reasonOf("joinInRoot", request), request.includes("\0") ? "nul" : null);
    }
});

test("walks from both ends, in turn with other calls", () => {
    const long = "ab/".repeat(5000), walk = paths.components(long), list = [];
    for (let at = 0; at < 2500; at++) {
        list.push([walk.next().value.start, walk.nextBack().value.start]);
        assert.equal(paths.parent("a/b"), "a");
    }
    assert.deepEqual(list, list.map((_, at) => [3 * at, 3 * (4999 - at)]));
    assert.deepEqual([walk.next().done, walk.nextBack().done, walk.asPath()], [true, true, ""]);
    const [a, b] = ["/a/b", "c/d"].map(paths.components);
    assert.deepEqual([a, b, a, b, a].map((it) => it.next().value.value), ["/", "c", "a", "d", "b"]);
    assert.equal(paths.components("a/b")[Symbol.iterator]().next().value.value, "a");
});

test("entries of an archive", () => {
    const {checkEntries} = paths, link = {kind: "symlink", path: "x", target: "/etc"};
    const files = (...list) => list.map((path) => ({kind: "file", path}));
    assert.equal(checkEntries([]), null);
    assert.equal(checkEntries(new Set([link]).values(), {closed: false}), null);
    assert.deepEqual(checkEntries([link, ...files("x/passwd")], {closed: false}),
                     {entry: 1, cause: 0, reason: "belowLeaf"});
    assert.deepEqual(checkEntries([link]), {entry: 0, cause: 0, reason: "leadsOut"});
    assert.deepEqual(checkEntries(files("a", "b\0", "../c")),
                     {entry: 1, cause: 1, reason: "name"});
    assert.deepEqual(checkEntries([...files("/a"), {...link, target: "a\0"}]),
                     {entry: 0, cause: 0, reason: "name"});
    assert.equal(checkEntries([{...files("a")[0], target: "\0"}]), null);
    assert.deepEqual(checkEntries([{kind: "fifo", path: "a"}]),
                     {entry: 0, cause: 0, reason: "kind"});
    assert.throws(() => checkEntries([{kind: "file"}]), TypeError);
    assert.throws(() => checkEntries([{kind: "symlink", path: "x"}]), TypeError);
    const many = Array.from({length: 20_000}, (_, it) => `d${it % 100}/f${it}`);
    assert.equal(checkEntries(files(...many)), null);
    assert.deepEqual(checkEntries(files(...many, "d7")), {entry: 7, cause: 20_000,
                                                           reason: "belowLeaf"});
});

test("answers that are longer than the paths", () => {
    for (let count = 1; count < 50; count++) {
        const up = new Array(count).fill("..").join("/");
        assert.equal(paths.relativePath("a/".repeat(count), ""), up);
        assert.equal(paths.toStringLossy(new Uint8Array(count).fill(0xFF)), "\uFFFD".repeat(count));
    }
});

test("a path of 100 MB", () => {
    const path = bigPath();
    assert.equal(paths.canonical(path).length, BIG - 1);
    assert.equal(paths.parent(path).length, BIG - 3);
    assert.equal(paths.key(path).length, BIG);
    assert.equal(paths.joinBeneath("/srv", path).length, BIG + 4);
    assert.equal(paths.compare(path, path.subarray(2)), 1);
    const walk = paths.components(path);
    assert.equal(walk.next().value.start, 0);
    assert.equal(walk.nextBack().value.start, BIG - 2);
    assert.equal(walk.asPath().length, BIG - 5);
});

test("memory grows as needed, and is given back", async () => {
    const Instance = WebAssembly.Instance, made = [];
    WebAssembly.Instance = class extends Instance {
        constructor(module) {
            super(module);
            made.push(this.exports.memory);
        }
    };
    try {
        const own = await load(), first = 17 * 65536;
        own.parent("a/b");
        assert.equal(made[0].buffer.byteLength, first + 65536);
        own.parent(new Uint8Array(10_000_000));
        assert(made.length === 1 && made[0].buffer.byteLength > 10_000_000);
        own.parent(new Uint8Array(20_000_000));
        own.parent("a/b");
        assert.equal(made.length, 2);
        assert.equal(made[1].buffer.byteLength, first + 65536);
        own.components(new Uint8Array(4097)).next();
        own.components(new Uint8Array(4096)).next();
        assert.equal(made.length, 3);
    } finally {
        WebAssembly.Instance = Instance;
    }
});

test("a RangeError if there isn't enough memory", () => {
    const huge = new Uint8Array(3_000_000_000);
    assert.throws(() => paths.equal(huge, huge), RangeError);
    assert.throws(() => paths.canonical(huge), RangeError);
    assert.equal(paths.parent("a/b"), "a");
});

test("a RangeError if the system has no memory", async () => {
    const grow = WebAssembly.Memory.prototype.grow, own = await load();
    WebAssembly.Memory.prototype.grow = function refuse(pages) {
        if (pages > 100) {
            throw new RangeError("failed to grow memory");
        }
        return grow.call(this, pages);
    };
    try {
        assert.throws(() => own.parent(new Uint8Array(10_000_000)), RangeError);
        assert.throws(() => own.components(new Uint8Array(10_000_000)), RangeError);
        assert.equal(own.parent("a/b"), "a");
    } finally {
        WebAssembly.Memory.prototype.grow = grow;
    }
});

// Returns a function of a module that traps.
async function trap() {
    const module = await WebAssembly.compile(bytes(
        0, 0x61, 0x73, 0x6D, 1, 0, 0, 0, 1, 4, 1, 0x60, 0, 0, 3, 2, 1, 0, 7, 5, 1, 1, 0x74, 0, 0,
        10, 5, 1, 3, 0, 0, 0x0B));
    return new WebAssembly.Instance(module).exports.t;
}

test("a trap is an error, and every function works after it", async () => {
    const Instance = WebAssembly.Instance, trapped = await trap();
    const own = await load();
    WebAssembly.Instance = class extends Instance {
        get exports() {
            return {...super.exports, unix_path_parent: trapped, unix_path_next: trapped};
        }
    };
    assert.throws(() => own.parent("a/b"), WebAssembly.RuntimeError);
    const walks = ["a/b", "a/".repeat(3000)].map(own.components);
    walks.forEach((it) => assert.throws(() => it.next(), WebAssembly.RuntimeError));
    assert.throws(() => own.parent("a/b"), WebAssembly.RuntimeError);
    WebAssembly.Instance = Instance;
    assert.equal(own.parent("a/b"), "a");
    assert.equal(walks[0].next().value.value, "a");
});

test("what load takes", async () => {
    const given = read(MODULES.wasm32), module = await WebAssembly.compile(given);
    for (const source of [given, new Uint8Array(given).buffer, module, Promise.resolve(module)]) {
        assert.equal((await load(source)).canonical("a//b"), "a/b");
    }
    await assert.rejects(load(bytes(1, 2, 3)), WebAssembly.CompileError);
    await assert.rejects(load("unix_path.wasm"), TypeError);
});
