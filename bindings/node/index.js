"use strict";
// serialcheck for Node: whether bytes are one Java serialization stream that a filter admits, by the calls of library.js.

const fs = require("node:fs");
const path = require("node:path");
const { Library, NoMemory, STATUS } = require("./library.js");
const { version } = require("./package.json");

const STRICT = 1;
const ANYWHERE = 2;
const MOST_TEXT = 1 << 24;

const library = new Library(new WebAssembly.Module(fs.readFileSync(path.join(__dirname, "serialcheck.wasm"))));
// What an array says of itself, whatever a class below it says.
const [bufferOf, offsetOf, lengthOf] = ["buffer", "byteOffset", "length"].map((it) => Object.getOwnPropertyDescriptor(Object.getPrototypeOf(Uint8Array.prototype), it).get);

/** The compiled code could not answer, for want of memory. */
class OutOfMemory extends Error {
    constructor() {
        super("serialcheck: out of memory");
        this.name = "OutOfMemory";
    }
}

/** What a check answers: `ok` is true for a yes, whose counts it has; otherwise `reason`, and the bytes `from` to `to` that decide. */
class Answer {
    #line;

    constructor({ status, line, reason = null, meaning = null, className = null, from, to, bytes, contents, refs, depth, handles, whole }) {
        const ok = status === STATUS.YES;
        const [ofYes, ofNo] = [(it) => (ok ? it : null), (it) => (ok ? null : it)];
        this.#line = line;
        this.ok = ok;
        this.reason = reason;
        this.meaning = meaning;
        this.from = ofNo(from);
        this.to = ofNo(to);
        this.className = className && className.slice(1, -1);
        this.bytes = ofYes(bytes);
        this.contents = ofYes(contents);
        this.refs = ofYes(refs);
        this.depth = ofYes(depth);
        this.handles = ofYes(handles);
        this.whole = whole;
        Object.freeze(this);
    }

    /** The line that the program prints. */
    toString() {
        return this.#line;
    }
}

/** What the compiled code answers. Where it is stopped in the middle, by the end of its stack or memory, that is never a yes. */
function asked(question) {
    let found;
    try {
        found = library.ask(question);
    } catch (fault) {
        throw fault instanceof NoMemory || fault instanceof WebAssembly.RuntimeError || fault instanceof RangeError ? new OutOfMemory() : fault;
    }
    if (found.status === STATUS.MISUSE) {
        throw Object.assign(new TypeError(`serialcheck: ${found.line}`), { piece: found.from });
    }
    return found;
}

/** The bytes that an array or a buffer holds. */
function bytesOf(data) {
    if (data instanceof Uint8Array) {
        return new Uint8Array(bufferOf.call(data), offsetOf.call(data), lengthOf.call(data));
    }
    if (data instanceof ArrayBuffer) {
        return new Uint8Array(data);
    }
    throw new TypeError("serialcheck: a Buffer, a Uint8Array or an ArrayBuffer is wanted");
}

/** The bytes of a text; one with an unpaired surrogate has none. */
function textOf(text, fault) {
    if (typeof text !== "string" || /[\ud800-\udbff](?![\udc00-\udfff])|(?<![\ud800-\udbff])[\udc00-\udfff]/.test(text)) {
        throw new TypeError(`serialcheck: ${fault}`);
    }
    return new TextEncoder().encode(text);
}

function flagsOf({ strict = false, anywhere = false }) {
    return (strict ? STRICT : 0) | (anywhere ? ANYWHERE : 0);
}

/** Checks bytes under the bytes of a filter's text. */
function checked(bytes, text, flags) {
    return new Answer(asked((engine) => engine.check(bytes, text, flags)));
}

function check(data, filter = "", options = {}) {
    return checked(bytesOf(data), textOf(filter, "the filter is not text"), flagsOf(options));
}

class Filter {
    #text;
    #flags;

    constructor(filter = "", options = {}) {
        this.#text = textOf(filter, "the filter is not text");
        this.#flags = flagsOf(options);
        this.check(new Uint8Array());
    }

    check(data) {
        return checked(bytesOf(data), this.#text, this.#flags);
    }
}

/** A text with whether it goes on, or the refusal of the bytes. */
function textFound(found) {
    return found.text === undefined ? { answer: new Answer(found), isCut: false, text: "" } : { answer: null, isCut: found.status === STATUS.SMALL, text: found.text };
}

function show(data, { most = MOST_TEXT } = {}) {
    const bytes = bytesOf(data);
    return textFound(asked((engine) => engine.show(bytes, most)));
}

function list(data, filter = "", { modules = "", most = MOST_TEXT } = {}) {
    const bytes = bytesOf(data);
    const [text, table] = [textOf(filter, "the filter is not text"), textOf(modules, "the table of modules is not text")];
    return textFound(asked((engine) => engine.list(bytes, text, table, most)));
}

module.exports = { check, Filter, show, list, version, Answer, OutOfMemory };
