// Makes the calls of the module itself, and checks which memory they write to. Works with 64-bit
// and 32-bit memories; pointers and lengths are BigInts in both.
import {check, fromBytes, toBytes} from "./bytes.mjs";

// The byte that memory contains before a call that may write to it.
const FILLER = 0xA5;
// The size of the memory for each record, which is at its start.
const RECORD = 64;
const PAGES = 64;
// The size of a slot of check_entries, and what the call returns if there are too few.
const SLOT = 40, NO_ROOM = 3;
// The words of entries.txt for reasons.
const REASONS = ["name", "kind", "below_leaf", "link_used_twice", "target_is_link", "leads_out"];
const KINDS = ["/", ".", ".."];
// The words of rows.txt for error codes.
const ERRORS = new Map([[7n, "!separator"], [2n, "!escapes"], [4n, "!nul_in_request"],
                        [5n, "!not_a_key"], [6n, "!no_end"], [8n, "!no_relative_path"]]
                       .map(([below, word]) => [(1n << 64n) - below, word]));

function grown(memory) {
    try {
        return memory.grow(PAGES);
    } catch {
        return Number(memory.grow(BigInt(PAGES)));
    }
}

export class Raw {
    // The memory is 4 MB larger than at first, for records, buffers and paths.
    constructor(module) {
        this.calls = new WebAssembly.Instance(module).exports;
        this.records = grown(this.calls.memory) * 65536;
        this.memory = new DataView(this.calls.memory.buffer);
    }

    bytes(start, length) {
        return new Uint8Array(this.memory.buffer, start, length);
    }

    fill(start, length) {
        this.bytes(start, length).fill(FILLER);
    }

    isFiller(start, length) {
        return this.bytes(start, length).every((it) => it === FILLER);
    }

    // Writes paths to the end of the memory, the last one last, so that nothing after it can be
    // read. Returns their pointers and lengths, and the start of the first one.
    put(paths) {
        let start = this.memory.byteLength;
        const words = [];
        for (const path of [...paths].reverse()) {
            start -= path.length;
            this.bytes(start, path.length).set(toBytes(path));
            words.unshift(BigInt(start), BigInt(path.length));
        }
        return [words, start];
    }

    // Makes a call with these paths and other arguments. A 64-bit result is unsigned.
    call(name, paths, ...others) {
        const answer = this.calls[`unix_path_${name}`](...this.put(paths)[0], ...others);
        return typeof answer === "bigint" ? BigInt.asUintN(64, answer) : answer;
    }

    // Returns the pointer to the record with this number.
    record(number) {
        return BigInt(this.records + number * RECORD);
    }

    // Returns the 64-bit field with index `place` of a record.
    field(number, place) {
        return this.memory.getBigUint64(this.records + number * RECORD + 8 * place, true);
    }

    setField(number, place, value) {
        this.memory.setBigUint64(this.records + number * RECORD + 8 * place, value, true);
    }

    // Returns the start and the length of the span that a call finds in the first path, or null.
    find(name, paths) {
        this.fill(this.records, RECORD);
        if (this.call(name, paths, this.record(0))) {
            return {start: Number(this.field(0, 0)), length: Number(this.field(0, 1))};
        }
        check(this.isFiller(this.records, RECORD), `${name} wrote a record`);
        return null;
    }

    // Returns the bytes that a call writes, or its error code as a BigInt. Checks that the call
    // writes nothing to a buffer that is one byte too small, and nothing after its result.
    write(name, paths) {
        const length = this.call(name, paths, 0n, 0n);
        if (length >= 1n << 63n) {
            return length;
        }
        const size = Number(length), out = this.records + RECORD;
        check(out + size + 1 <= this.put(paths)[1], "the memory is too small");
        this.fill(out, size + 1);
        check(size === 0 || this.call(name, paths, BigInt(out), length - 1n) === length, name);
        check(this.isFiller(out, size + 1), `${name} wrote to a buffer that is too small`);
        check(this.call(name, paths, BigInt(out), length) === length, name);
        check(this.isFiller(out + size, 1), `${name} wrote after its answer`);
        return fromBytes(this.bytes(out, size));
    }

    // Returns the components of a path in the order in which the call `name` (`next` or
    // `next_back`) takes them, each with its start and kind.
    components(name, path) {
        const taken = [];
        this.call("components", [path], this.record(0));
        while (this.call(name, [path], this.record(0), this.record(1))) {
            const start = Number(this.field(1, 0)), length = Number(this.field(1, 1));
            const kind = this.memory.getUint32(this.records + RECORD + 16, true);
            taken.push({bytes: path.substr(start, length), start, kind});
        }
        return taken;
    }

    // Returns the fields of the components. Checks that both calls take them, and that the rest of
    // a new walk reaches from the first component to the last.
    askComponents(name, [path]) {
        const front = this.components("next", path), back = this.components("next_back", path);
        check(JSON.stringify(front) === JSON.stringify(back.reverse()), "from the back");
        this.call("components", [path], this.record(0));
        this.call("as_path", [path], this.record(0), this.record(1));
        const start = Number(this.field(1, 0)), end = start + Number(this.field(1, 1));
        const last = front[front.length - 1];
        check(last ? start === front[0].start && end === last.start + last.bytes.length
              : start === end, "as_path");
        for (const {bytes, kind} of front) {
            check(kind === (KINDS.includes(bytes) ? KINDS.indexOf(bytes) : 3), "kind");
        }
        return front.flatMap((it) => [it.bytes, [String(it.start)]]);
    }

    askAncestors(name, [path]) {
        const taken = [];
        this.setField(0, 0, BigInt(path.length));
        while (this.call("next_ancestor", [path], this.record(0), this.record(1))) {
            taken.push(path.substr(Number(this.field(1, 0)), Number(this.field(1, 1))));
        }
        return taken;
    }

    // Returns the valid and the invalid bytes of each chunk.
    askChunks(name, [path]) {
        const taken = [];
        this.setField(0, 0, 0n);
        while (this.call("next_chunk", [path], this.record(0), this.record(1))) {
            const [start, valid, broken] = [0, 1, 2].map((it) => Number(this.field(1, it)));
            taken.push(path.substr(start, valid), path.substr(start + valid, broken));
        }
        return taken;
    }

    askFind(name, paths) {
        const span = this.find(name, paths);
        return span ? [paths[0].substr(span.start, span.length), [String(span.start)]]
            : [["!none"]];
    }

    // Returns the field for the number or truth value that a call returns, given its type in C. A
    // hash is written in hexadecimal.
    ask(name, paths, type) {
        const answer = this.call(name, paths);
        if (type === "uint64_t") {
            return [["0x" + answer.toString(16).padStart(16, "0")]];
        }
        check(type !== "bool" || answer === 0 || answer === 1, "a bool");
        return [[String(type === "bool" ? answer === 1 : answer)]];
    }

    // Checks also that the call on the swapped paths agrees.
    askTwo(name, [a, b], type) {
        const there = this.call(name, [a, b]), back = this.call(name, [b, a]);
        if (name === "compare") {
            check(back === -there && this.call("equal", [a, b]) === Number(there === 0), "order");
        }
        check(!["equal", "common_dir"].includes(name) || back === there, "from the other side");
        return this.ask(name, [a, b], type);
    }

    // Returns the answer of entries.txt for these records. Checks that one slot less is too few,
    // that nothing after the slots is written, and the refusal only if there is one.
    askEntries(records, level) {
        const count = this.call("entries_scratch", [records]), slots = this.records + RECORD;
        const ask = (most) => {
            this.fill(this.records, RECORD + SLOT * Number(count) + RECORD);
            const answer = this.call("check_entries", [records], BigInt(slots), most, level,
                                     this.record(0));
            check(this.isFiller(slots + SLOT * Number(most), RECORD), "wrote after the slots");
            check(answer === 1 || this.isFiller(this.records, RECORD), "wrote a refusal");
            return answer;
        };
        check(count === 0n || ask(count - 1n) === NO_ROOM, "too few slots");
        const answer = ask(count);
        if (answer === 0) {
            return "accepted";
        }
        check(answer === 1, "refused");
        const reason = this.memory.getUint32(this.records + 16, true);
        return [REASONS[reason], this.field(0, 0), this.field(0, 1)].join(" ");
    }

    askWrite(name, paths) {
        const answer = this.write(name, paths);
        return [typeof answer === "bigint" ? [ERRORS.get(answer)] : answer];
    }
}

// The method that makes a call of each shape, which is the kind of its signature.
const SHAPES = {
    BEGIN: "askComponents", NEXT_SPAN: "askAncestors", NEXT_CHUNK: "askChunks", FIND: "askFind",
    FIND_OF_TWO: "askFind", ASK: "ask", ASK_TWO: "askTwo", MAKE: "askWrite",
    MAKE_OF_TWO: "askWrite",
};

// Returns the fields of a row's answer. A field is a string of bytes, or a list of one word, such
// as `!none` or a number, if the row has no bytes there.
export function rawAnswer(raw, {call, shape, type, paths}) {
    return raw[SHAPES[shape]](call, paths, type);
}
