// One stream with its answers: a line that opens, and below it why it is refused, its class names and its text.

const YES = 0;
const NO = 1;
const MISUSE = 2;
const NO_MEMORY = 3;
const SMALL = 6;
const WORDS = { 0: "accepted", 1: "refused", 2: "faulty filter", 3: "no memory", 7: "stopped" };

const HEADER = 4; // bytes
const FIRST_LIMIT = 1 << 16;
const MOST_LIMIT = 1 << 24;
const LIST_LIMIT = 1 << 22;
const MANY_LINES = 400;
const MOST_NAMES = 1000;
const MOST_LINES = 10000;
const PATIENCE = 300; // milliseconds

let streams = 0;

class Stream {
    constructor(name, bytes, page) {
        this.name = name;
        this.bytes = bytes;
        this.page = page;
        this.number = streams++;
        this.answer = null;
        this.shown = null;
        this.limit = FIRST_LIMIT;
        this.firstLine = 0;
        this.isFilled = false;
        this.checks = 0; // what an older check answers is dropped,
        this.fills = 0; // and what an older fill has found
        this.box = element("details", "result");
        this.mark = element("span", "mark", "…");
        this.line = element("code", "answer");
        this.body = element("div", "body");
        const title = element("span", "title");
        title.append(element("span", "name", name), element("span", "size", numbered(bytes.length, "byte", "bytes")));
        const summary = element("summary");
        summary.append(this.mark, title, this.line);
        this.box.append(summary, this.body);
        this.box.addEventListener("toggle", () => this.fill());
    }

    /** The answer to a question about it; null where a later question has come, so that nobody waits for this one. */
    ask(call, more, key = this.key(call)) {
        const filter = new TextEncoder().encode(this.filter);
        return this.page.asker.ask(key, { call, bytes: this.bytes, filter, ...more });
    }

    key(call) {
        return `${call} ${this.number}`;
    }

    /** Checks it under the filter of the page. */
    async check() {
        const turn = ++this.checks;
        this.fills++;
        const { filter, flags } = this.page.asked();
        this.filter = filter;
        this.box.dataset.state = "busy";
        const answer = await this.ask("check", { flags });
        if (answer === null || turn !== this.checks) {
            return;
        }
        const piece = answer.status === NO ? await this.decidingPiece(answer) : null;
        if (turn !== this.checks) {
            return;
        }
        this.answer = { ...answer, piece };
        this.isFilled = false;
        this.box.className = `result ${WORDS[answer.status].replace(" ", "-")}`;
        this.mark.textContent = WORDS[answer.status];
        this.line.textContent = lineOf(answer);
        this.page.summarize();
        await this.fill();
    }

    /** Fills what is below the line, where that is open. */
    async fill() {
        if (!this.box.open || this.isFilled || this.answer === null) {
            return;
        }
        this.isFilled = true;
        this.box.dataset.state = "busy";
        const turn = ++this.fills;
        const answer = this.answer;
        const list = element("section");
        const text = element("section");
        this.body.replaceChildren(...(answer.status === NO ? [this.refusal(answer)] : []));
        if (answer.status !== MISUSE) {
            this.body.append(list, text);
            const names = await this.patiently(list, "list", { limit: LIST_LIMIT });
            if (turn !== this.fills) {
                return;
            }
            list.replaceChildren(...this.names(names));
            const limit = this.limit;
            const isThere = this.shown?.limit === limit && this.shown.status !== STOPPED;
            const shown = isThere ? this.shown : await this.patiently(text, "show", { limit, made: MOST_LIMIT });
            if (turn !== this.fills) {
                return;
            }
            this.shown = { ...shown, limit };
            text.replaceChildren(...this.text(shown));
        }
        this.box.dataset.state = "done";
    }

    fillAgain() {
        this.isFilled = false;
        return this.fill();
    }

    /** Asks for a text, and says so where it takes long, with a way to stop it. */
    async patiently(place, call, words) {
        const timer = setTimeout(() => {
            const row = element("p", "busy", "Working … ");
            row.append(button("Stop", () => this.page.asker.stop(this.key(call), "you stopped it")));
            place.replaceChildren(row);
        }, PATIENCE);
        const answer = await this.ask(call, words);
        clearTimeout(timer);
        return answer;
    }

    /** The number of the piece of the filter for which it is refused, or null. */
    async decidingPiece({ reason, nameFrom, nameTo }) {
        if (reason !== "ClassRejected") {
            return limitPiece(this.filter, reason);
        }
        const bytes = classObject(this.bytes.subarray(nameFrom, nameTo));
        const { text = "" } = (await this.ask("list", { bytes, limit: LIST_LIMIT }, this.key("piece"))) ?? {};
        return text === "" ? null : listed(text.trimEnd()).piece;
    }

    /** Why it is refused: the reason in words, the class name, the piece of the filter, and the bytes round the place. */
    refusal({ reason, meaning, className, from, to, whole, piece }) {
        const box = element("section", "refusal");
        const guess = reason === "BadHeader" ? ` ${guessed(this.bytes)}` : "";
        box.append(element("h3", "", reason), element("p", "", meaning + guess));
        if (className !== null) {
            const row = element("p", "", "Class ");
            row.append(element("code", "class", className));
            box.append(row);
        }
        if (piece !== null) {
            const row = element("p", "deciding", `Piece ${piece} of the filter `);
            row.append(element("code", "text", pieceOf(this.filter, piece)));
            box.append(row);
        }
        if (whole > HEADER) {
            box.append(element("p", "whole", `The first ${numbered(whole, "byte", "bytes")} are a stream.`));
        }
        const all = numbered(this.bytes.length, "byte", "bytes");
        const decides = reason === "Truncated" ? "together they are no stream" : `the first ${to.toLocaleString("en")} decide: no admitted stream begins with them`;
        box.append(element("p", "place", `Place ${from.toLocaleString("en")} of ${all}; ${decides}.`));
        if (this.bytes.length > 0) {
            box.append(dumped(this.bytes, from, to, narrow.matches ? 8 : 16));
        }
        return box;
    }

    /** The class names with what the filter says of each; nothing where there is no stream. */
    names(answer) {
        if (answer.status === NO) {
            return [];
        }
        const lines = (answer.text ?? "").split("\n").slice(0, -1);
        const heading = element("h3", "", "Classes");
        heading.append(element("small", "", answer.status === YES || answer.status === SMALL ? numbered(lines.length, "name", "names") : lineOf(answer)));
        if (lines.length === 0) {
            return [heading];
        }
        const table = paged({ count: lines.length, most: MOST_NAMES, what: "Names", part: (first, end) => this.table(lines.slice(first, end)) });
        const isCut = answer.status === SMALL ? [element("p", "cut", "The list is cut here.")] : [];
        return [heading, table, ...isCut, ...explained(lines)];
    }


    table(lines) {
        const table = element("table", "names");
        const head = table.createTHead().insertRow();
        for (const title of ["Times", "Verdict", "Class"]) {
            const cell = element("th", "", title);
            cell.scope = "col";
            head.append(cell);
        }
        const rows = table.createTBody();
        for (const line of lines) {
            const { times, verdict, piece, name } = listed(line);
            const row = rows.insertRow();
            row.className = verdict;
            row.dataset.line = line;
            const cell = element("td", "verdict");
            cell.append(element("span", "badge", verdict));
            if (piece !== null) {
                cell.append(" ", element("code", "piece", pieceOf(this.filter, piece)));
                cell.title = `by piece ${piece} of the filter`;
            }
            const spelling = element("td");
            spelling.append(element("code", "class", name));
            row.append(element("td", "times", times), cell, spelling);
        }
        return table;
    }

    /** The text of show, with what raw values mean; nothing where there is no stream. */
    text(answer) {
        if (answer.status === NO) {
            return [];
        }
        const row = element("div", "row");
        const heading = element("h3", "", "Contents");
        row.append(heading);
        if (answer.status !== YES && answer.status !== SMALL) {
            heading.append(element("small", "", lineOf(answer)));
            return [row];
        }
        const lines = answer.text.split("\n").slice(0, -1);
        const meanings = answer.meanings.split("\n");
        let tree = null;
        const part = (first, end) => {
            tree = new Tree(lines.slice(first, end), meanings.slice(first, end));
            if (lines.length > MANY_LINES) {
                tree.foldTo(1);
            }
            return tree.box;
        };
        const turned = (first) => (this.firstLine = first);
        const pages = paged({ count: lines.length, most: MOST_LINES, what: "Lines", part, start: this.firstLine, turned });
        heading.append(element("small", "", numbered(lines.length, "line", "lines")));
        row.append(this.tools(() => tree, answer.text));
        return [row, pages, ...(answer.status === SMALL ? [this.cut(answer)] : [])];
    }

    /** What folds the tree that is shown, by its levels, and copies the text. */
    tools(shown, text) {
        const tools = element("div", "tools");
        tools.setAttribute("role", "group");
        tools.setAttribute("aria-label", "Contents");
        const { deepest } = shown();
        if (deepest > 0) {
            tools.append(element("span", "hint", "Levels"));
            for (let level = 0; level < Math.min(3, deepest); level++) {
                tools.append(button(String(level + 1), () => shown().foldTo(level)));
            }
            tools.append(button("All", () => shown().foldTo(Infinity)));
        }
        if (navigator.clipboard) {
            tools.append(button("Copy", () => navigator.clipboard.writeText(text)));
        }
        return tools;
    }

    /** How much there is of a text that is cut, and a way to see more. Its length is known where MOST_LIMIT bytes have room for it. */
    cut({ bytes }) {
        const whole = bytes === 0 ? `more than ${MOST_LIMIT.toLocaleString("en")}` : bytes.toLocaleString("en");
        const row = element("p", "cut", `Cut at ${numbered(this.limit, "byte", "bytes")} of ${whole}. `);
        if (this.limit < MOST_LIMIT) {
            row.append(button("Show more", () => {
                this.limit *= 4;
                this.fillAgain();
            }));
        }
        return row;
    }
}

/** A file that the browser could not read, in the place of a stream. */
class Unread {
    constructor(name) {
        this.answer = null;
        this.box = element("p", "result unread", `${name}: cannot be read`);
    }

    async check() {}

    async fillAgain() {}
}
