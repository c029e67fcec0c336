// Replays rows and vectors in Node, by both modules.
import assert from "node:assert";
import {test} from "node:test";
import {MODULES, ROWS, VECTORS, read} from "./places.mjs";
import {readAll, replay} from "./replay.mjs";

const given = await readAll(read, ROWS, VECTORS);
for (const [name, path] of Object.entries(MODULES)) {
    const module = read(path);
    if (!WebAssembly.validate(module)) {
        test(`${name} in Node`, {skip: "this Node has no 64-bit memories"});
        continue;
    }
    for (const [what, fault] of await replay(module, given)) {
        test(`${name} in Node: ${what}`, () => assert.equal(fault, null));
    }
}
