// Where the tests find files, in Node.
import {readdirSync, readFileSync} from "node:fs";
import {fileURLToPath} from "node:url";

export const ROOT = fileURLToPath(new URL("../../../", import.meta.url)).replace(/\/$/, "");
// The modules, for 32-bit and for 64-bit memories.
export const MODULES = {wasm32: "bindings/js/unix_path.wasm", wasm64: "asm/wasm64/unix_path.wasm"};

export const read = (name) => readFileSync(name.startsWith("/") ? name : `${ROOT}/${name}`);

// The directory of vectors: tests/vectors, or one that tests/test_js.py fills.
const FOLDER = process.env.UNIX_PATH_VECTORS ?? `${ROOT}/tests/vectors`;

const named = (ending) => readdirSync(FOLDER).filter((it) => it.endsWith(ending))
    .map((it) => `${FOLDER}/${it}`);

// The vectors, as paths without their endings, and the tables of rows.
export const VECTORS = named(".in").map((it) => it.slice(0, -3));
export const ROWS = ["tests/rows.txt", ...named(".rows")];
