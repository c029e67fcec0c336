// Tests docs/playground.html in Chromium, opened as a file.
import assert from "node:assert";
import {test} from "node:test";
import {Chromium} from "./chromium.mjs";
import {ROOT, read} from "./places.mjs";
import {rowsOf} from "./replay.mjs";

const URL_OF_PAGE = `file://${ROOT}/docs/playground.html`;
const MARKUP = `<script>document.title="run"</script><img src=x onerror="document.title='run'">`
    + "&lt;";

const escaped = (byte) => `\\x${byte.toString(16).padStart(2, "0")}`;

// Returns what an element shows, with each run of spaces as one.
const shown = (page, id) => page.ask((it) => document.getElementById(it).innerText
                                     .replace(/\s+/g, " ").trim(), id);

// Replaces a field's text, as typing does, which tells the page of each line by itself.
async function type(page, id, text) {
    await page.ask((it) => document.getElementById(it).select(), id);
    await (text ? page.send("Input.insertText", {text}) : page.press("Delete", 46));
}

const click = (page, text) => page.ask((it) => [...document.querySelectorAll("button")]
    .find((one) => one.textContent.replace(/\s+/g, " ").trim() === it).click(), text);

// Opens the page, with this state in its address.
async function open(chromium, state = "") {
    const page = await chromium.open();
    await page.go(`${URL_OF_PAGE}${state}`);
    await page.ask(async () => {
        while (!document.getElementById("summary").textContent) {
            await new Promise((resolve) => { setTimeout(resolve, 5); });
        }
    });
    return page;
}

// The tests, by name. Each gets a new page.
const TESTS = {
    async "asks for nothing, and fails in nothing"(page) {
        assert.deepEqual(page.requests, [URL_OF_PAGE]);
        assert.equal(await shown(page, "fault"), "");
    },

    async "answers why ./a is not a"(page) {
        await click(page, "Why is ./a not a?");
        assert.match(await shown(page, "compared"), new RegExp("^first path ./a equal No. "
            + "Component 0 is the leading . in the first path, and the name a in the second. order "
            + "./a is before a:"));
        assert.equal(await page.ask(() => document.activeElement.id), "other");
    },

    async "answers where /srv joined with a/../../b ends"(page) {
        await click(page, "Where does /srv joined with a/../../b end?");
        const above = "refused: the .. at byte 5 leads above the root, since no name is left before"
            + " it";
        assert.equal(await shown(page, "joined"), `a/../../b join_beneath ${above} join_in_root `
            + "ends at /srv/b join_verbatim refused: it has a .. at byte 2 join not safe: "
            + "/srv/a/../../b, which is /b, outside of the root");
    },

    async "says which entries of an archive are refused"(page) {
        assert.match(await shown(page, "verdict"), /^Refused/);
        await type(page, "entries", "l x -> /etc");
        assert.match(await shown(page, "verdict"), /^Accepted/);
        await page.ask(() => document.getElementById("closed").focus());
        await page.press("ArrowDown", 40);
        assert.equal(await shown(page, "checked"), "l x -> /etc refused: its target has a root, "
            + "too many .., or a .. after a name");
        await page.ask(() => {
            document.getElementById("closed").value = "";
            document.getElementById("entries").value = "l x -> /etc\nf x/a\nf /b\np c\nl x -> y\n"
                + "h d -> x\n<b> -> \nf ok";
            dispatchEvent(new Event("input"));
        });
        assert.equal(await shown(page, "checked"), "l x -> /etc accepted f x/a refused: a path "
            + "that it uses is below entry 0, which is no directory f /b refused: a path that it "
            + "uses has a root, a .. or a NUL, or ends in a slash p c refused: it is neither a "
            + "directory, a file nor a link l x -> y refused: it uses the same path as entry 0, "
            + "and that is a link's h d -> x refused: a hard link's target is a link: see entry 0 "
            + "<b> -> refused: it is neither a directory, a file nor a link f ok accepted");
    },

    async "answers why a.b sorts after a/b"(page) {
        await click(page, "Why does a.b sort after a/b?");
        assert.equal(await shown(page, "by-components"), "a/b key 61 00 62 00 a.b key 61 2F 62 00");
        assert.equal(await shown(page, "by-bytes"), "a.b a/b");
        assert.equal(await shown(page, "why"), "By components, a/b is before a.b: component 0 is "
            + "the name a, which is before the name a.b. By bytes it is after it: byte 1 is 2F, "
            + "/, in the one, and 2E, ., in the other.");
    },

    async "answers the three questions before anything is typed"(page) {
        assert.match(await shown(page, "compared"), /Component 0 is the leading \. in the first/);
        assert.match(await shown(page, "joined"), /a\/\.\.\/\.\.\/b join_beneath refused/);
        assert.match(await shown(page, "why"), /a\/b is before a\.b/);
    },

    async "shows a typed path"(page) {
        await type(page, "path", "/tmp//x/../y.tar.gz/.");
        assert.equal(await shown(page, "summary"), "21 bytes, 5 components. It has a root.");
        assert.equal(await shown(page, "components"), "0 the root / 1-3 a name tmp 6 a name x 8-9 "
            + "one up .. 11-18 a name y.tar.gz");
        assert.equal(await shown(page, "pieces"), "parent /tmp//x/.. file_name y.tar.gz file_stem "
            + "y.tar extension gz file_prefix y ancestors /tmp//x/../y.tar.gz/., /tmp//x/.., "
            + "/tmp//x, /tmp, / canonical /tmp/x/../y.tar.gz, from /tmp//x/../y.tar.gz/. resolved "
            + "/tmp/y.tar.gz, from /tmp//x/../y.tar.gz/.");
        assert.equal(await page.ask(() => [...document.querySelectorAll("#bytes .byte")]
            .map((it) => it.classList[1][0]).join("")), "rnnnffnfppfnnnnnnnnff");
        await type(page, "path", "");
        assert.equal(await shown(page, "summary"), "0 bytes, 0 components. It has no root.");
    },

    async "shows the rest of a walk"(page) {
        await type(page, "path", "a/./b//c/d");
        await type(page, "front", "1");
        await type(page, "back", "1");
        assert.equal(await shown(page, "rest"), "b//c, bytes 4-7");
        assert.equal(await page.ask(() => [...document.querySelectorAll("#bytes .byte")]
            .map((it) => Number(it.classList.contains("rest"))).join("")), "0000111100");
        await type(page, "back", "3");
        assert.equal(await shown(page, "rest"), "nothing");
    },

    async "strikes out what a form drops"(page) {
        const calls = read("tests/calls.inc").toString("latin1");
        const rows = rowsOf(read("tests/rows.txt").toString("latin1"), calls)
            .filter((it) => ["canonical", "resolved"].includes(it.call));
        for (const {call, paths: [path], wanted: [form]} of rows) {
            await type(page, "path", path.replace(/[^]/g, (it) => escaped(it.charCodeAt(0))));
            const kept = await page.ask((name) => {
                const said = [...document.querySelectorAll("#pieces dt")].find((it) => (
                    it.textContent === name)).nextElementSibling;
                return [...said.querySelector(".struck")?.childNodes ?? []]
                    .filter((it) => it.localName !== "del").map((it) => it.textContent).join("");
            }, call);
            const bytes = Buffer.from(kept.replace(/\\x(..)/g, (_, code) => `%${code}`)
                .replace(/[^%\w./-]/g, encodeURIComponent), "latin1").toString();
            assert.equal(unescape(bytes), form === path ? "" : form, `${call} of ${path}`);
        }
    },

    async "keeps its state in the address"(page, chromium) {
        await type(page, "path", "a&b=\\xFF/#%é");
        await type(page, "other", "");
        await type(page, "requests", "x\ny/..");
        const hash = await page.ask(() => location.hash);
        const other = await open(chromium, hash);
        for (const id of ["components", "compared", "joined", "why"]) {
            assert.equal(await shown(other, id), await shown(page, id));
        }
        assert.match(await shown(other, "components"), /a&b=\\xFF .*#%é/);
        await other.ask(() => { location.hash = "#path=x/y/z"; });
        await other.ask(() => new Promise((resolve) => { setTimeout(resolve, 50); }));
        assert.match(await shown(other, "summary"), /3 components/);
    },

    async "shows text as text"(page, chromium) {
        const fields = ["path", "other", "root", "requests", "entries", "list"];
        for (const id of fields) {
            await type(page, id, MARKUP);
        }
        const state = new URLSearchParams(fields.map((it) => [it, MARKUP]));
        const other = await open(chromium, `#${state}`);
        for (const one of [page, other]) {
            assert.equal(await one.ask(() => document.title), "What is a path? - unix_path");
            assert.equal(await one.ask(() => document.querySelector("img, section script")), null);
            assert.equal(await shown(one, "by-bytes"), MARKUP);
            assert.equal(await one.ask(() => document.querySelector("#joined h3").innerText),
                         MARKUP);
            assert.deepEqual(one.faults, []);
        }
    },

    async "takes any byte, and shows it"(page) {
        const all = Array.from({length: 256}, (_, it) => escaped(it));
        await page.ask((lines) => {
            document.getElementById("list").value = lines;
            dispatchEvent(new Event("input"));
        }, all.filter((it) => it !== "\\x2f").join("\n"));
        const lines = await page.ask(() => [...document.querySelectorAll("#by-bytes li")]
            .map((it) => it.textContent));
        assert.equal(lines.length, 255);
        await type(page, "path", lines.join("").replace("\\\\x", "\\x"));
        assert.match(await shown(page, "summary"), /^255 bytes, 1 component\./);
        await type(page, "path", "\\\\x41\\x41\\y\\");
        assert.match(await shown(page, "summary"), /^8 bytes/);
        assert.match(await shown(page, "components"), /\\\\x41A\\y\\$/);
        await type(page, "path", "a\u202Eb\u200B");
        assert.match(await shown(page, "components"), /a\\xE2\\x80\\xAEb\\xE2\\x80\\x8B$/);
    },

    async "stays usable with a long path"(page) {
        await type(page, "path", "ab/".repeat(20000));
        assert.match(await shown(page, "summary"), /^60000 bytes, 20000 components/);
        await type(page, "path", "a");
        assert.match(await shown(page, "summary"), /^1 byte, 1 component\./);
    },

    async "can be used by keyboard"(page) {
        const count = await page.ask(() => (
            document.querySelectorAll("button, input, textarea, select").length));
        const reached = new Set();
        for (let at = 0; at < count; at++) {
            await page.press("Tab", 9);
            reached.add(await page.ask(() => [...document.querySelectorAll("*")].indexOf(
                document.activeElement)));
        }
        assert.equal(reached.size, count);
        await page.ask(() => document.querySelector("#questions button").focus());
        await page.press("Enter", 13, "\r");
        assert.equal(await page.ask(() => document.getElementById("path").value), "./a");
    },

    async "names its fields, and orders its headings"(page) {
        const {nodes} = await page.send("Accessibility.getFullAXTree");
        const fields = nodes.filter((it) => ["textbox", "button", "spinbutton", "region", "table"]
            .includes(it.role?.value) && !it.ignored);
        assert(fields.length > 20);
        assert.deepEqual(fields.filter((it) => !it.name?.value && it.role.value !== "table"), []);
        const levels = await page.ask(() => [...document.querySelectorAll("h1, h2, h3")]
            .map((it) => Number(it.localName[1])));
        assert.equal(levels[0], 1);
        assert(levels.slice(1).every((it, at) => it > 1 && it - levels[at] <= 1));
    },

    async "fits into 360 pixels"(page) {
        for (const scheme of ["light", "dark"]) {
            await page.look(360, scheme);
            for (const id of ["path", "other", "root", "requests", "entries", "list"]) {
                await type(page, id, `/${"long".repeat(60)}/x`);
            }
            assert.equal(await page.ask(() => document.documentElement.scrollWidth), 360);
        }
    },

    async "has enough contrast in light and dark"(page) {
        for (const scheme of ["light", "dark"]) {
            await page.look(1000, scheme);
            const worst = await page.ask(worstContrast);
            assert(worst >= 4.5, `${scheme}: ${worst}`);
        }
    },
};

// Returns the least contrast of a text with the page's background, as WCAG 2 defines it.
function worstContrast() {
    const light = (colour) => colour.match(/\d+/g).slice(0, 3).map((it) => it / 255).map((it) => (
        it <= 0.03928 ? it / 12.92 : ((it + 0.055) / 1.055) ** 2.4)).reduce((sum, it, at) => (
        sum + it * [0.2126, 0.7152, 0.0722][at]), 0);
    const back = light(getComputedStyle(document.body).backgroundColor);
    return Math.min(...[...document.querySelectorAll("body *:not(script)")].map((it) => {
        const text = light(getComputedStyle(it).color);
        return (Math.max(text, back) + 0.05) / (Math.min(text, back) + 0.05);
    }));
}

const chromium = new Chromium(), found = [];
for (const [name, work] of Object.entries(TESTS)) {
    const page = await open(chromium);
    const fault = await work(page, chromium).catch((error) => error);
    found.push([name, fault ?? (page.faults.length ? new Error(page.faults.join("\n")) : null)]);
}
await chromium.close();
for (const [name, fault] of found) {
    test(`the page ${name}`, () => assert.ifError(fault));
}
