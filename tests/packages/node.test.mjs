// The package of npm by Node's own runner: `node --test node.test.mjs` in a project that has it, with STREAMS, a list of files as JSON.
// One instance of the module answers many questions; here each answer is that of an instance which was asked nothing before.

import assert from "node:assert/strict";
import { webcrypto } from "node:crypto";
import fs from "node:fs";
import { createRequire } from "node:module";
import path from "node:path";
import { test } from "node:test";
import serialcheck, { check, Filter, list, OutOfMemory, show, version } from "serialcheck";

const folder = path.dirname(createRequire(import.meta.url).resolve("serialcheck"));
const { Library, NoMemory } = createRequire(import.meta.url)(path.join(folder, "library.js"));
const compiled = new WebAssembly.Module(fs.readFileSync(path.join(folder, "serialcheck.wasm")));
const streams = JSON.parse(process.env.STREAMS).map((file) => new Uint8Array(fs.readFileSync(file)));
const text = (it) => new TextEncoder().encode(it);
const none = new Uint8Array();
// No memory of the module has room for so many bytes.
const huge = new Uint8Array(2 ** 31);
const LIST = "java.util.*;!*";

/** Questions about all streams, in an order in which good and hostile ones, and long and short ones, are neighbours. */
const questions = streams.flatMap((_, number) => {
    const bytes = streams[(number * 89) % streams.length];
    return [
        (engine) => engine.check(bytes, text(LIST), 0),
        (engine) => engine.list(bytes, text("!java.**"), none, 1 << 16),
        (engine) => engine.check(bytes, none, 2),
        (engine) => engine.show(bytes, 1 << 16),
        (engine) => engine.check(bytes, text("maxdepth=x"), 0),
        (engine) => engine.check(bytes, text("maxdepth=3;maxrefs=20;java.lang.*"), 3),
    ];
});
const fresh = questions.map((question) => new Library(compiled).ask(question));

test("the streams are all asked about, and are of both kinds", () => {
    assert.equal(new Set(streams.map((_, number) => (number * 89) % streams.length)).size, streams.length);
    const statuses = fresh.map((it) => it.status);
    for (const status of [0, 1, 2]) {
        assert.ok(statuses.filter((it) => it === status).length > streams.length / 2);
    }
});

test("hostile and good streams in turns", () => {
    const library = new Library(compiled);
    const engines = new Set();
    questions.forEach((question, number) => {
        const found = library.ask((engine) => {
            engines.add(engine);
            return question(engine);
        });
        assert.deepEqual(found, fresh[number]);
    });
    assert.ok(engines.size < questions.length / 100, `${engines.size} instances`);
});

test("whatever an earlier question left in the memory", () => {
    const library = new Library(compiled);
    questions.forEach((question, number) => {
        library.ask((engine) => engine.bytes(0, engine.calls.memory.buffer.byteLength).fill(0x5a + number));
        assert.deepEqual(library.ask(question), fresh[number]);
    });
});

test("an instance that was stopped, ran out of memory or grew large answers nothing more", () => {
    const library = new Library(compiled);
    const engine = () => library.ask((it) => it);
    const large = new Uint8Array(20_000_000);
    const first = engine();
    assert.equal(engine(), first);
    for (const [fault, question] of [
        [WebAssembly.RuntimeError, (it) => it.calls.serialcheck_check(0xffff_ff00, 4096n, 0, 0n, 0, it.place)],
        [NoMemory, (it) => it.check(huge, none, 0)],
        [null, (it) => it.check(large, none, 0)],
    ]) {
        const before = engine();
        if (fault) {
            assert.throws(() => library.ask(question), fault);
        } else {
            library.ask(question);
            assert.ok(before.calls.memory.buffer.byteLength > 1 << 24);
        }
        assert.notEqual(engine(), before);
        assert.ok(engine().calls.memory.buffer.byteLength <= 1 << 24);
        questions.slice(0, 60).forEach((it, number) => assert.deepEqual(library.ask(it), fresh[number]));
    }
});

test("the same of the calls of the package", () => {
    const filter = new Filter(LIST);
    const answers = () => streams.map((it) => `${filter.check(it)} ${show(it, { most: 4096 }).text} ${list(it, "!java.**").text}`);
    const before = answers();
    assert.throws(() => check(huge), OutOfMemory);
    assert.throws(() => check(none, "maxdepth=x"), { name: "TypeError", piece: 0 });
    assert.equal(check(new Uint8Array(20_000_000)).reason, "BadHeader");
    assert.deepEqual(answers(), before);
});

test("each list counts names under a key of its own from crypto", (context) => {
    const { mock } = context.mock.method(globalThis.crypto ?? webcrypto, "getRandomValues");
    const texts = [0, 1].map(() => list(streams[0]).text);
    assert.equal(texts[0], texts[1]);
    assert.equal(mock.calls.length, 2);
    assert.notEqual(mock.calls[0].result[0], mock.calls[1].result[0]);
});

test("a question inside of another one", () => {
    const bytes = Buffer.from("aced000574000161", "hex");
    const other = Buffer.from("aced0005740003787878", "hex");
    let inside = "";
    const most = { valueOf: () => ((inside = show(other).text), 4096) };
    assert.equal(show(bytes, { most }).text, show(bytes).text);
    assert.equal(inside, show(other).text);
    assert.notEqual(inside, show(bytes).text);
});

test("a text that is longer than its first room", () => {
    const bytes = new Uint8Array(30_000).fill(0x70);
    bytes.set([0xac, 0xed, 0, 5]);
    const whole = show(bytes).text;
    assert.equal(whole, `stream version 5\n${"null\n".repeat(29_996)}`);
    for (const [most, lines] of [[65_536, 13_103], [65_535, 13_103], [100_003, 19_997], [whole.length - 1, 29_995], [whole.length, 29_996], [16, -1], [17, 0]]) {
        assert.deepEqual(show(bytes, { most }), { answer: null, isCut: most < whole.length, text: whole.slice(0, 17 * (lines >= 0) + 5 * Math.max(lines, 0)) });
    }
});

test("of an array that lies about its length the bytes that it holds", () => {
    const Lying = (length) => class extends Uint8Array {
        get length() {
            return length;
        }
    };
    const bytes = [0xac, 0xed, 0, 5, 0x74, 0, 1, 0x61];
    for (const length of [0, 5, 8, 9, 4096]) {
        const lying = new (Lying(length))(8);
        Uint8Array.prototype.set.call(lying, bytes);
        assert.equal(`${check(lying)}`, "yes 8 bytes, 1 contents, 1 refs, depth 1");
    }
});

test("an ES module has the calls by their names", () => {
    assert.deepEqual(Object.keys(serialcheck).sort(), ["Answer", "Filter", "OutOfMemory", "check", "list", "show", "version"]);
    assert.equal(serialcheck, createRequire(import.meta.url)("serialcheck"));
    assert.equal(version, JSON.parse(fs.readFileSync(path.join(folder, "package.json"), "utf8")).version);
});

test("a check makes no new instance: a kilobyte takes less than a tenth of a millisecond", () => {
    const filter = new Filter("java.**;!*");
    const stream = streams.find((it) => it.length > 900 && it.length < 1100 && filter.check(it).ok);
    const times = Array.from({ length: 40 }, () => {
        const start = process.hrtime.bigint();
        for (let time = 0; time < 100; time++) {
            filter.check(stream);
        }
        return Number(process.hrtime.bigint() - start) / 100;
    });
    assert.ok(Math.min(...times) < 100_000, `${Math.min(...times)} ns`);
});
