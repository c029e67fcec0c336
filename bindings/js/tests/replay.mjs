// Replays rows.txt and vectors of pathtool by a module, in Node and in browsers.
import {load} from "../unix_path.mjs";
import {check, fromBytes} from "./bytes.mjs";
import {answer, entriesAnswer, nameOf} from "./functions.mjs";
import {pathtool} from "./pathtool.mjs";
import {Raw, rawAnswer} from "./raw.mjs";

const WORD = /^!(none|separator|escapes|nul_in_request|not_a_key|no_end|no_relative_path)$/;

// Returns the bytes that a field of rows.txt represents, or the field if it is one of the words.
function unescaped(field) {
    return WORD.test(field) ? field : field.replace(/\\(?:\\|x(..))/g, (_, code) => (
        code ? String.fromCharCode(parseInt(code, 16)) : "\\"));
}

// Returns the rows: each with its line, its call, the call's shape and type, the paths and the
// fields of the answer. `calls` is the text of calls.inc.
export function rowsOf(rows, calls) {
    const known = new Map([...calls.matchAll(/^([A-Z_]+)\((?:(\w+), )?(\w+)\)$/gm)]
                          .map(([, shape, type, name]) => [name, {shape, type}]));
    return rows.split("\n").filter((it) => it && !it.startsWith("#")).map((line) => {
        const [call, ...fields] = line.split("|").map((it) => unescaped(it.replace(/^ | $/g, "")));
        const count = known.get(call).shape.endsWith("TWO") ? 2 : 1;
        return {line, call, ...known.get(call), paths: fields.slice(0, count),
                wanted: fields.slice(count)};
    });
}

// Returns the rows of entries.txt: each with its line, whether the level is `closed`, the answer
// and the entries, each a kind, a path and a target.
function entriesOf(text) {
    return text.split("\n").filter((it) => it && !it.startsWith("#")).map((line) => {
        const [level, wanted, ...fields] = line.split("|").map((it) => (
            unescaped(it.replace(/^ | $/g, ""))));
        const entries = Array.from({length: fields.length / 3},
                                   (_, at) => fields.slice(3 * at, 3 * at + 3));
        return {line, closed: level === "closed", wanted: [wanted], entries};
    });
}

// Returns the first line that another answer has than the wanted one, or null.
function difference(found, wanted) {
    const at = found.findIndex((it, index) => it !== wanted[index]);
    return at >= 0 || found.length !== wanted.length ? `line ${at + 1}: ${found[at]} and not `
        + `${wanted[at]}, of ${found.length} and ${wanted.length}` : null;
}

// Returns the rows that this function answers otherwise, one per line, or null.
function wrongRows(rows, ask) {
    const wrong = rows.filter((row) => {
        try {
            row.found = ask(row).map((it) => (Array.isArray(it) ? it[0] : it));
        } catch (error) {
            row.found = [error.stack];
        }
        return row.found.length !== row.wanted.length
            || row.found.some((it, at) => it !== row.wanted[at]);
    });
    return wrong.slice(0, 20).map((it) => `${it.line}: found ${JSON.stringify(it.found)}`)
        .join("\n") || null;
}

// The calls that find a part of the first path, whose answers have its index; it is left out of
// what functions return.
const withoutIndex = (row) => (row.shape.startsWith("FIND") && row.wanted.length === 2
                               ? {...row, wanted: row.wanted.slice(0, 1)} : row);

// Replays everything. `given` has the texts of rows.txt, entries.txt, calls.inc and commands.txt,
// and vectors, each a name, lines and answers. All are strings of bytes. Returns names with what is
// wrong, or null.
export async function replay(bytes, given) {
    const module = await WebAssembly.compile(bytes), paths = await load(module);
    const rows = rowsOf(given.rows, given.calls), raw = new Raw(module);
    const missing = rows.filter((it) => typeof paths[nameOf(it.call)] !== "function");
    const answerLine = pathtool(paths, given.commands), entries = entriesOf(given.entries);
    check(rows.length > 1000 && missing.length === 0, `no function for ${missing[0]?.call}`);
    const found = [["rows by calls", wrongRows(rows, (row) => rawAnswer(raw, row))],
                   ["rows by functions",
                    wrongRows(rows.map(withoutIndex), (row) => answer(paths, row))],
                   ["entries by calls", wrongRows(entries, (row) => [
                       raw.askEntries(row.entries.flat().map((it) => `${it}\0`).join(""),
                                      Number(row.closed))])],
                   ["entries by functions", wrongRows(entries, (row) => [
                       entriesAnswer(paths, row.entries, row.closed)])]];
    for (const [name, lines, answers] of given.vectors) {
        const asked = lines.replace(/\n$/, "").split("\n").slice(0, lines ? undefined : 0);
        found.push([name, difference(asked.map(answerLine), answers.split("\n").slice(0, -1))]);
    }
    return found;
}

// Reads what is replayed: `read` returns the bytes of a file of the repository, `rows` are tables
// of rows, and `names` the vectors, as paths without their endings.
export async function readAll(read, rows, names) {
    const text = async (name) => fromBytes(await read(name));
    const vectors = names.map(async (name) => [
        name.replace(/.*\//, ""), await text(`${name}.in`), await text(`${name}.out`)]);
    return {rows: (await Promise.all(rows.map(text))).join(""),
            entries: await text("tests/entries.txt"),
            calls: await text("tests/calls.inc"), commands: await text("tests/commands.txt"),
            vectors: await Promise.all(vectors)};
}
