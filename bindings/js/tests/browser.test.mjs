// Replays rows and vectors in Chromium, by both modules.
import assert from "node:assert";
import {once} from "node:events";
import {createServer} from "node:http";
import {test} from "node:test";
import {Chromium} from "./chromium.mjs";
import {MODULES, ROWS, VECTORS, read} from "./places.mjs";

const TYPES = {mjs: "text/javascript", json: "application/json", wasm: "application/wasm",
               html: "text/html"};

// Serves the files of the repository; below /at are absolute paths.
function serve({url}, response) {
    try {
        const body = read(url.startsWith("/at/") ? url.slice(3) : url.slice(1));
        const type = TYPES[url.replace(/.*\./, "")] ?? "text/plain";
        response.writeHead(200, {"Content-Type": type}).end(body);
    } catch {
        response.writeHead(404).end();
    }
}

// Replays everything in a page. Returns names with what is wrong, or null.
async function replayIn({module, rows, vectors}) {
    const get = async (name) => new Uint8Array(
        await (await fetch(name.startsWith("/") ? `/at${name}` : `/${name}`)).arrayBuffer());
    const {readAll, replay} = await import("/bindings/js/tests/replay.mjs");
    return replay(await get(module), await readAll(get, rows, vectors));
}

const server = createServer(serve).listen(0, "127.0.0.1");
await once(server, "listening");
const origin = `http://127.0.0.1:${server.address().port}`;
const chromium = new Chromium(), page = await chromium.open(), found = [];
await page.go(`${origin}/bindings/js/package.json`);
const joined = await page.ask(async () => {
    const {load} = await import("/bindings/js/unix_path.mjs");
    return (await load()).joinBeneath("/srv", "a/../b");
});
for (const [name, module] of Object.entries(MODULES)) {
    const answers = await page.ask(replayIn, {module, rows: ROWS, vectors: VECTORS});
    found.push(...answers.map(([what, fault]) => [`${name} in Chromium: ${what}`, fault]));
}
const playground = await chromium.open(), address = `${origin}/docs/playground.html`;
await playground.go(address);
const shown = await playground.ask(async () => {
    while (!document.getElementById("summary").textContent) {
        await new Promise((resolve) => { setTimeout(resolve, 5); });
    }
    return document.getElementById("summary").textContent;
});
await chromium.close();
server.close();

test("load() fetches the module", () => {
    assert.equal(joined, "/srv/b");
    assert(page.requests.includes(`${origin}/bindings/js/unix_path.wasm`));
});
test("the page works from a server, and asks it for nothing else", () => {
    assert.match(shown, /^17 bytes, 4 components\./);
    assert.deepEqual(playground.requests, [address]);
    assert.deepEqual(playground.faults, []);
});
for (const [name, fault] of found) {
    test(name, () => assert.equal(fault, null));
}
