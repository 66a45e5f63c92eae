// The bytes round the place of a refusal.

const ROUND = 32; // how many bytes are shown before and behind
const TOKEN = 96; // how many of the token's own, at its front and at its end

const inHex = (number, digits) => number.toString(16).toUpperCase().padStart(digits, "0");

/** The rows of a dump: `[from, to]` places that are multiples of `width`, or null where some are left out. */
function rowsOf(bytes, from, to, width) {
    const start = Math.max(0, from - ROUND);
    const end = Math.min(bytes.length, to + ROUND);
    const rows = [];
    for (let at = start - (start % width); at < end; at += width) {
        if (at - from >= TOKEN && to - at >= TOKEN) {
            if (rows.at(-1) !== null) {
                rows.push(null);
            }
        } else {
            rows.push([at, Math.min(at + width, bytes.length)]);
        }
    }
    return rows;
}

/** The dump as elements: each row has its offset, its bytes and their signs; the token is marked. */
function dumped(bytes, from, to, width) {
    const box = element("div", "dump");
    const digits = Math.max(4, inHex(bytes.length, 1).length);
    for (const row of rowsOf(bytes, from, to, width)) {
        if (row === null) {
            box.append(element("div", "gap", "…"));
            continue;
        }
        const signs = [];
        const codes = [];
        for (let at = row[0]; at < row[1]; at++) {
            const byte = bytes[at];
            const mark = at >= from && at < to ? "mark" : "span";
            codes.push(element(mark, at === to - 1 && mark === "mark" ? "last" : "", inHex(byte, 2)), at + 1 < row[1] ? " " : "");
            signs.push(element(mark, "", byte > 0x20 && byte < 0x7f ? String.fromCharCode(byte) : "·"));
        }
        const line = element("div", "bytes");
        const offset = element("span", "offset", inHex(row[0], digits));
        const codeBox = element("span", "codes");
        codeBox.append(...codes);
        codeBox.style.setProperty("--width", `${width * 3 - 1}ch`);
        const signBox = element("span", "signs");
        signBox.setAttribute("aria-hidden", "true");
        signBox.append(...signs);
        line.append(offset, codeBox, signBox);
        box.append(line);
    }
    return box;
}
