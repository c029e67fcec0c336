// Each declaration compiles if and only if unix_path.d.ts has these types.
import {EscapesError, load, type Component, type Path, type Reason} from "unix_path";

const paths = await load(new Uint8Array());
const text = "a" as string, bytes = new Uint8Array(), any = text as Path;

const a: string | null = paths.parent(text);
const b: Uint8Array | null = paths.parent(bytes);
const c: string | Uint8Array | null = paths.parent(any);
const d: string = paths.join(text, "b");
const e: Uint8Array = paths.join(text, bytes);
const f: Uint8Array = paths.joinBeneath(bytes, text);
const g: string = paths.toStringLossy(bytes);
const h: Uint8Array = paths.key(text);
const i: -1 | 0 | 1 = paths.compare(text, bytes);
const j: bigint = paths.hash(any);
const k: Component<string>[] = [...paths.components(text)];
const l: Uint8Array = paths.components(bytes).asPath();
const m: string[] = [...paths.ancestors(text)];
const n: string | undefined = paths.components(text).nextBack().value?.value;
const o: string[] = [text].sort(paths.compare);
const p: Reason = new EscapesError("nul").reason;
for (const {kind, value, start} of paths.components(any)) {
    const q: [string, Path, number] = [kind, value, start];
}
const u: number | undefined = paths.checkEntries([{kind: "file", path: bytes}])?.cause;

// @ts-expect-error: no kind
paths.checkEntries([{kind: "fifo", path: text}]);
// @ts-expect-error: it may be null
const r: string = paths.parent(text);
// @ts-expect-error: bytes of bytes
const s: string = paths.join(bytes, bytes);
// @ts-expect-error: either of them
const t: Uint8Array = paths.canonical(any);
// @ts-expect-error: no path
paths.canonical(3);
// @ts-expect-error: keys are bytes
paths.fromKey("a");
// @ts-expect-error: no reason
new EscapesError("other");
