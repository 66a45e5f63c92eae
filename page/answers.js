// What is told of an answer beside the words of the library: what bytes seem to be that are no stream, and why there is no answer.

/** What the bytes seem to be where they are no stream. */
function guessed(bytes) {
    const text = String.fromCharCode(...bytes.subarray(0, 8));
    if (text.startsWith("rO0AB")) {
        return "They look like base64: paste them as text.";
    }
    if (text.toLowerCase() === "aced0005") {
        return "They look like hexadecimal: paste them as text.";
    }
    if (bytes[0] === 0x1f && bytes[1] === 0x8b) {
        return "They look like gzip: unpack them first.";
    }
    if (text.startsWith("PK\x03\x04")) {
        return "They look like zip: unpack them first.";
    }
    return /^[{[]/.test(text) ? "They look like JSON, which holds no Java objects." : "";
}

/** The line that the program prints of an answer, or why the code gave none. */
function lineOf({ line, status, fault }) {
    return line ?? (status === NO_MEMORY ? "out of memory" : `stopped: ${fault}`);
}

/** The text of a piece of the filter, by its number. */
function pieceOf(filter, number) {
    return filter.split(";")[number] ?? "";
}

/** What a line of the list says: `TIMES VERDICT "NAME"`, where the verdict may end in the number of a piece. */
function listed(line) {
    const [, times, verdict, piece, name] = /^(\d+) (\w+)(?::(\d+))? (".*")$/.exec(line);
    return { times, verdict, piece: piece === undefined ? null : Number(piece), name };
}

/** What those verdicts of a list mean that are no plain words. */
const VERDICTS = {
    undecided: "no pattern of the filter matches the name. It passes, unless the check is strict.",
    noclass: "the name is that of a primitive type or an array of these, so no pattern is asked.",
};

function explained(lines) {
    const found = new Set(lines.map((line) => listed(line).verdict));
    return Object.entries(VERDICTS).filter(([verdict]) => found.has(verdict)).map(([verdict, meaning]) => {
        const row = element("p", "hint verdict-meaning");
        row.append(element("strong", "", verdict), `: ${meaning}`);
        return row;
    });
}

/** The limits of a filter, by the reasons of those who exceed them. */
const LIMITS = { BytesExceeded: "maxbytes", DepthExceeded: "maxdepth", RefsExceeded: "maxrefs", ArrayExceeded: "maxarray" };

/** The number of the piece of a filter that sets the limit of a reason, which is the last that does; or null. */
function limitPiece(filter, reason) {
    const number = filter.split(";").map((it) => it.startsWith(`${LIMITS[reason]}=`)).lastIndexOf(true);
    return number < 0 ? null : number;
}

/** A stream of one class object whose class has this name: a list of it says what the filter says of the name. */
function classObject(name) {
    return Uint8Array.from([0xac, 0xed, 0, 5, 0x76, 0x72, name.length >> 8, name.length & 255, ...name, 0, 0, 0, 0, 0, 0, 0, 0, 2, 0, 0, 0x78, 0x70]);
}
