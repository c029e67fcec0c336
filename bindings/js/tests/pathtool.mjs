// Answers lines as pathtool does, by the functions of unix_path.mjs over bytes.
import {fromBytes, toBytes} from "./bytes.mjs";

const EDIT = /^(push:|name:|ext:|add:|(?:pop|clear)$)([^]*)$/;

// Returns the function that answers lines. `commands` is the text of commands.txt.
export function pathtool(paths, commands) {
    // Calls a function with paths of bytes. Bytes in the answer become a string.
    const ask = (name, ...given) => {
        const answer = paths[name](...given.map(toBytes));
        return answer instanceof Uint8Array ? fromBytes(answer) : answer;
    };
    const found = (name, path) => {
        const part = ask(name, path);
        return part === null ? "-" : `+${part}`;
    };
    const taken = (step) => {
        const {value, done} = step;
        return done ? [] : [fromBytes(value.value)];
    };

    function parts(path) {
        return [...paths.components(toBytes(path))].map((it) => fromBytes(it.value)).join("\t");
    }

    function back(path) {
        const walk = paths.components(toBytes(path)), all = [];
        for (let it = walk.nextBack(); !it.done; it = walk.nextBack()) {
            all.push(fromBytes(it.value.value));
        }
        return all.join("\t");
    }

    // Takes a component for each turn. Returns those from the front, the rest, and the others.
    function walk(path, turns) {
        if (!/^[fb]*$/.test(turns)) {
            return null;
        }
        const whole = paths.components(toBytes(path)), front = [], behind = [];
        for (const turn of turns) {
            (turn === "f" ? front : behind).push(
                ...taken(turn === "f" ? whole.next() : whole.nextBack()));
        }
        return [front.length, behind.length, ...front, fromBytes(whole.asPath()), ...behind]
            .join("\t");
    }

    function strip(path, base) {
        const rest = ask("stripPrefix", path, base);
        return rest === null ? "prefix not found" : `+${rest}`;
    }

    // For each path that starts with the base, returns the rest of the path after the base. The
    // list is sorted, and of equal paths only one is listed.
    function under(base, ...list) {
        const sorted = list.sort((a, b) => ask("compare", a, b)).filter((path, at, all) => (
            at === 0 || !ask("equal", all[at - 1], path)));
        return sorted.flatMap((path) => {
            const rest = ask("stripPrefix", path, base);
            return rest === null ? [] : [ask("canonical", rest)];
        }).join("\t");
    }

    // Returns the path as a JSON string, with bytes above 7F unchanged.
    function json(path) {
        return ask("isUtf8", path) ? JSON.stringify(path)
            : "path contains invalid UTF-8 characters";
    }

    // Replaces the path by what a function returns. Returns false if the extension has a slash.
    function replace(list, name, end) {
        try {
            list.path = ask(name, list.path, end);
            return true;
        } catch (error) {
            if (error instanceof TypeError) {
                return false;
            }
            throw error;
        }
    }

    function editExtension(list, name, extension) {
        const isNamed = ask("fileName", list.path) !== null;
        return replace(list, name, extension) ? String(isNamed) : "separator";
    }

    // The edits. Each changes the path of the list, and returns the word that answers the edit.
    const EDITS = {
        "push:": (list, path) => replace(list, "join", path) && "ok",
        "name:": (list, name) => replace(list, "withFileName", name) && "ok",
        "ext:": (list, extension) => editExtension(list, "withExtension", extension),
        "add:": (list, extension) => editExtension(list, "withAddedExtension", extension),
        pop: (list) => {
            const parent = ask("parent", list.path);
            list.path = parent ?? list.path;
            return String(parent !== null);
        },
        clear: (list) => {
            list.path = "";
            return "ok";
        },
    };

    function edit(path, ...fields) {
        const list = {path}, answers = [];
        for (const field of fields) {
            const [, word, end] = EDIT.exec(field) ?? [];
            if (word === undefined) {
                return null;
            }
            answers.push(EDITS[word](list, end));
        }
        return [list.path, ...answers].join("\t");
    }

    // The function that answers each command. It returns null if the fields are wrong.
    const COMMANDS = {
        parts, back, walk, strip, under, json, edit,
        ancestors: (path) => [...paths.ancestors(toBytes(path))].map(fromBytes).join("\t"),
        parent: (path) => found("parent", path),
        name: (path) => found("fileName", path),
        stem: (path) => found("fileStem", path),
        ext: (path) => found("extension", path),
        starts: (path, base) => String(ask("startsWith", path, base)),
        ends: (path, end) => String(ask("endsWith", path, end)),
        canon: (path) => ask("canonical", path),
        show: (path) => fromBytes(new TextEncoder().encode(ask("toStringLossy", path))),
        join: (a, b) => ask("join", a, b),
        cmp: (a, b) => ["less", "equal", "greater"][1 + ask("compare", a, b)],
    };
    // The fields of each command, as in the table: `A`, `A B` or `A B..`.
    const fields = new Map([...commands.matchAll(/^(\w+) ([A-Z]+(?: [A-Z]+(?:\.\.)?)?) \|/gm)]
                           .map(([, name, form]) => [name, form]));

    return (line) => {
        const [name, ...given] = line.split("\t"), form = fields.get(name) ?? "";
        const isCounted = given.length > 0
            && (form.endsWith("..") || given.length === form.split(" ").length);
        const answer = form && isCounted ? COMMANDS[name](...given) : null;
        return answer === null ? "bad command" : answer;
    };
}
