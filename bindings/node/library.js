"use strict";
// The calls of the C library as a WebAssembly module. The package of Node and the page make them all through this file.
//
// One instance answers many questions. Before each, the static data of its code is made what it was in a new instance: so the
// heap begins anew, and of an earlier question only bytes are there that no call reads before it has written them. An instance
// is let go where a question was stopped in the middle or ran out of memory, and where its memory has grown large.

const STATUS = { YES: 0, NO: 1, MISUSE: 2, NO_MEMORY: 3, SMALL: 6 };
const ANSWER_BYTES = 88;
// More bytes than a line, a name or a sentence of the library has.
const MOST_WORDS = 255;
// The room in which a text is written first.
const FIRST_TEXT = 1 << 16;
// An instance with more bytes of memory answers no second question.
const MOST_KEPT = 1 << 24;

const decoder = new TextDecoder();
// Node has it under its own name from 19 on.
const random = globalThis.crypto ?? require("node:crypto").webcrypto;

/** There is no memory for a question. */
class NoMemory extends Error {}

/** An instance of the compiled code. In its calls a place is a number and a length a BigInt. */
class Engine {
    constructor(compiled) {
        this.calls = new WebAssembly.Instance(compiled).exports;
        const start = this.firstByte();
        this.place = this.room(ANSWER_BYTES);
        this.told = this.room(ANSWER_BYTES);
        this.written = this.room(MOST_WORDS);
        // The static data, and the rooms of each question, which are the first of the heap behind it.
        this.start = start;
        this.image = this.bytes(start, this.written + MOST_WORDS - start).slice();
    }

    /** Where the first byte is that is not 0. In a new memory that is the static data: the stack before it is zeros. */
    firstByte() {
        const words = new BigUint64Array(this.calls.memory.buffer);
        let at = 0;
        while (words[at] === 0n) {
            at++;
        }
        return at * BigUint64Array.BYTES_PER_ELEMENT;
    }

    /** Makes the static data what it was, and with it the heap. */
    begin() {
        this.bytes(this.start, this.image.length).set(this.image);
    }

    get isSmall() {
        return this.calls.memory.buffer.byteLength <= MOST_KEPT;
    }

    bytes(place, length) {
        return new Uint8Array(this.calls.memory.buffer, place, length);
    }

    room(length) {
        const place = this.calls.page_room(length) >>> 0;
        if (place === 0) {
            throw new NoMemory();
        }
        return place;
    }

    /** Bytes as two arguments of a call. */
    given(bytes) {
        const place = this.room(bytes.length);
        this.bytes(place, bytes.length).set(bytes);
        return [place, BigInt(bytes.length)];
    }

    /** The struct of include/serialcheck.h. */
    answer(place = this.place) {
        const view = new DataView(this.calls.memory.buffer, place, ANSWER_BYTES);
        const number = (at) => view.getUint32(at, true) + view.getUint32(at + 4, true) * 2 ** 32;
        return {
            status: view.getUint32(0, true), number: view.getUint32(4, true), from: number(8), to: number(16), bytes: number(24),
            contents: number(32), refs: number(40), depth: number(48), handles: number(56), nameFrom: number(64), nameTo: number(72), whole: number(80),
        };
    }

    /** The text that a call of the library writes of these arguments, of at most `most` bytes; null where there is none. */
    words(call, of, most = MOST_WORDS) {
        const room = most > MOST_WORDS ? this.room(most) : this.written;
        call(...of, room, BigInt(most), this.told);
        const { status, bytes } = this.answer(this.told);
        if (status === STATUS.NO_MEMORY) {
            throw new NoMemory();
        }
        return status === STATUS.YES ? decoder.decode(this.bytes(room, bytes)) : null;
    }

    /**
     * The answer that a call has written, with the line that the program prints of it. A refusal has its reason by name and in a
     * sentence, and the class that was refused, quoted, where it is of given bytes; else null.
     */
    settled(given = null) {
        const { serialcheck_line, serialcheck_reason_name, serialcheck_reason_text } = this.calls;
        const answer = this.answer();
        if (answer.status === STATUS.NO_MEMORY) {
            throw new NoMemory();
        }
        const line = this.words(serialcheck_line, [this.place]).trimEnd();
        if (answer.status !== STATUS.NO) {
            return { ...answer, line };
        }
        const [reason, meaning] = [serialcheck_reason_name, serialcheck_reason_text].map((it) => this.words(it, [answer.number]));
        return { ...answer, line, reason, meaning, className: given && this.className(given, answer) };
    }

    className(given, { nameFrom, nameTo }) {
        return nameTo === 0 ? null : this.words(this.calls.serialcheck_class, [...given, this.place], 6 * (nameTo - nameFrom) + 2);
    }

    check(bytes, filter, flags) {
        const given = this.given(bytes);
        this.calls.serialcheck_check(...given, ...this.given(filter), flags, this.place);
        return this.settled(given);
    }

    /** The text of `show`, of at most `most` bytes; its answer has the length of the whole text where that is at most `made`. */
    show(bytes, most, made = most) {
        const given = this.given(bytes);
        return this.text(most, (room, length) => this.calls.serialcheck_show(...given, BigInt(made), room, BigInt(length), this.place));
    }

    /** The text of `list` under a filter with a table of modules, of at most `most` bytes. Nobody knows the key under which names are counted. */
    list(bytes, filter, modules, most) {
        const [key] = random.getRandomValues(new BigUint64Array(1));
        const given = [bytes, filter, modules].flatMap((it) => this.given(it));
        return this.text(most, (room, length) => this.calls.serialcheck_list_keyed(key, ...given, BigInt(most), room, BigInt(length), this.place));
    }

    /**
     * The answer of a call that writes a text into a room, and as many whole lines of the text as `most` bytes have; or why there
     * is none. A text that is longer than a first room is asked for again.
     */
    text(most, call) {
        const written = (length) => {
            const room = this.room(length);
            call(room, length);
            return { ...this.answer(), room, length };
        };
        const first = written(Math.min(most, FIRST_TEXT));
        const isLonger = first.status === STATUS.SMALL && first.length < most;
        const { room, length, ...answer } = isLonger ? written(first.bytes === 0 ? most : Math.min(first.bytes, most)) : first;
        const isCut = answer.status === STATUS.SMALL;
        if (!isCut && answer.status !== STATUS.YES) {
            return this.settled();
        }
        const bytes = this.bytes(room, isCut ? length : answer.bytes);
        const lines = isCut ? bytes.subarray(0, bytes.lastIndexOf(0x0a) + 1) : bytes;
        return { ...answer, text: decoder.decode(lines) };
    }
}

/** The compiled code, and an instance of it for the next question where there is one. */
class Library {
    #compiled;
    #spare = null;

    constructor(compiled) {
        this.#compiled = compiled;
    }

    /** What a question finds, which is called with an instance that has no other question meanwhile. */
    ask(question) {
        const engine = this.#spare ?? new Engine(this.#compiled);
        this.#spare = null;
        engine.begin();
        const found = question(engine);
        if (engine.isSmall) {
            this.#spare = engine;
        }
        return found;
    }
}

if (typeof module !== "undefined") {
    module.exports = { Library, NoMemory, STATUS };
}
