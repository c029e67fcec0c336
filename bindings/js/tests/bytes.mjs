// What the tests share. A path is a string of characters below 256, one for each byte.

export function toBytes(text) {
    return Uint8Array.from(text, (it) => it.charCodeAt(0));
}

export function fromBytes(bytes) {
    let text = "";
    for (const byte of bytes) {
        text += String.fromCharCode(byte);
    }
    return text;
}

export function check(holds, what) {
    if (!holds) {
        throw new Error(what);
    }
}
