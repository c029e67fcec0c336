// Answers rows of rows.txt by the functions of unix_path.mjs.
import {check, fromBytes, toBytes} from "./bytes.mjs";

const KINDS = {"/": "rootDir", ".": "curDir", "..": "parentDir"};
// The words of rows.txt for what functions throw, and for null.
const REFUSALS = {root: "!escapes", escapes: "!escapes", parent: "!escapes",
                  nul: "!nul_in_request"};
const THROWN = {with_extension: "!separator", with_added_extension: "!separator",
                from_key: "!not_a_key", key_range_end: "!not_a_key"};
const NULLS = {relative_path: "!no_relative_path", key_range_end: "!no_end"};

// Returns the name of a call in JavaScript.
export function nameOf(call) {
    const name = {next_ancestor: "ancestors", next_chunk: "chunks"}[call] ?? call;
    return name.replace(/_(\w)/g, (_, letter) => letter.toUpperCase());
}

// Returns what a walk takes by one of its methods.
function taken(walk, method) {
    const all = [];
    for (let it = walk[method](); !it.done; it = walk[method]()) {
        all.push(it.value);
    }
    return all;
}

// Returns the components and their indices. Checks both directions, a walk that alternates between
// them, and the path of the rest.
function answerComponents(paths, path, back) {
    const front = [...paths.components(path)], behind = taken(paths.components(path), "nextBack");
    const text = (list) => JSON.stringify(list.map((it) => [it.kind, back(it.value), it.start]));
    check(text(front) === text(behind.reverse()), "from the back");
    check(front.every((it) => it.kind === (KINDS[back(it.value)] ?? "normal")), "kind");
    const walk = paths.components(path), middle = front.slice(1, -1);
    walk.next();
    walk.nextBack();
    check(text([...paths.components(walk.asPath())].map(({value}) => ({value}))) ===
          text(middle.map(({value}) => ({value}))), "asPath");
    check(text(taken(walk, "next")) === text(middle) && walk.nextBack().done, "both ends");
    return front.flatMap((it) => [back(it.value), String(it.start)]);
}

// The functions that answer calls whose answer isn't one value.
const OTHERS = {
    components: answerComponents,
    next_ancestor: (paths, path, back) => [...paths.ancestors(path)].map(back),
    next_chunk: (paths, path, back) => [...paths.chunks(path)].flatMap((it) => [
        fromBytes(new TextEncoder().encode(it.valid)), fromBytes(it.invalid)]),
    hash: (paths, path) => ["0x" + paths.hash(path).toString(16).padStart(16, "0")],
    common_dir: (paths, a, b, back) => [String(back(paths.commonDir(a, b)).length)],
    check_request: (paths, path) => [
        String([null, "root", "escapes", "nul"].indexOf(paths.checkRequest(path)))],
};

// Returns the answer's fields as bytes and words of rows.txt. The index of a part is left out.
function fieldsOf(paths, call, given, back) {
    if (call in OTHERS) {
        return OTHERS[call](paths, ...given, back);
    }
    try {
        const answer = paths[nameOf(call)](...given);
        if (answer === null) {
            return [NULLS[call] ?? "!none"];
        }
        return [typeof answer === "object" || typeof answer === "string" ? back(answer)
                : String(answer)];
    } catch (error) {
        const word = REFUSALS[error.reason] ?? (error.name === "TypeError" && THROWN[call]);
        check(word, error);
        return [word];
    }
}

const ENTRY_KINDS = {d: "directory", f: "file", l: "symlink", h: "hardlink"};

// Returns the answer of entries.txt for these entries, each a kind, a path and a target.
export function entriesAnswer(paths, entries, closed) {
    const list = entries.map(([kind, path, target]) => ({
        kind: ENTRY_KINDS[kind] ?? "other", path: toBytes(path), target: toBytes(target)}));
    const found = paths.checkEntries(list, {closed});
    return found === null ? "accepted"
        : [found.reason.replace(/[A-Z]/g, (it) => `_${it.toLowerCase()}`), found.entry, found.cause]
            .join(" ");
}

const encoder = new TextEncoder();
// Returns the bytes of an answer. `key` returns bytes for text too, and toStringLossy always text.
const fromText = (answer) => fromBytes(
    typeof answer === "string" ? encoder.encode(answer) : answer);

// Returns a path as text, or null if its bytes aren't UTF-8.
function textOf(path) {
    try {
        return new TextDecoder("utf-8", {fatal: true, ignoreBOM: true}).decode(toBytes(path));
    } catch {
        return null;
    }
}

// Returns the fields of a row's answer, in the forms of rawAnswer. Asks with bytes and, if the
// paths are UTF-8, with text, and checks the types of the answers.
export function answer(paths, {call, shape, type, paths: given}) {
    const fields = fieldsOf(paths, call, given.map(toBytes), (it) => {
        check(it instanceof Uint8Array || call === "to_string_lossy", "bytes of bytes");
        return fromText(it);
    });
    const texts = given.map(textOf), isKey = /key/.test(call);
    if (!texts.includes(null)) {
        const said = fieldsOf(paths, call, isKey && call !== "key" ? given.map(toBytes) : texts,
                              (it) => {
            check(typeof it === "string" || isKey, "text of text");
            return fromText(it);
        });
        check(JSON.stringify(said) === JSON.stringify(fields), `of text: ${said}`);
    }
    return fields;
}
