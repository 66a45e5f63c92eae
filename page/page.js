// The page: what is asked, and the streams that were dropped or pasted.

const QUIET = 120; // milliseconds
const SAMPLE = "session.ser";

class Page {
    constructor() {
        this.asker = new Asker();
        this.streams = [];
        this.pasted = null;
        this.isTyped = false;
        this.pending = 0; // files that are being read, and calls that are put off
        this.listen();
        this.paste();
        this.checkAll();
    }

    listen() {
        const check = this.putOff(() => this.checkAll());
        const paste = this.putOff(() => this.paste());
        $("asked").addEventListener("submit", (event) => event.preventDefault());
        $("filter").addEventListener("input", check);
        $("strict").addEventListener("change", check);
        $("anywhere").addEventListener("change", check);
        $("text").addEventListener("input", ({ inputType }) => {
            this.isTyped = !["insertFromPaste", "insertFromDrop"].includes(inputType);
            paste();
        });
        $("form").addEventListener("change", paste);
        $("pick").addEventListener("change", () => this.take($("pick").files).then(() => ($("pick").value = "")));
        $("clear").addEventListener("click", () => this.clear());
        $("try").addEventListener("click", () => this.put([new Stream(SAMPLE, bytesOf64($("sample").textContent), this)]));
        $("refused-only").addEventListener("change", () => this.summarize());
        narrow.addEventListener("change", () => this.streams.forEach((it) => it.fillAgain()));
        const over = (is) => $("drop").classList.toggle("over", is);
        document.addEventListener("dragover", (event) => {
            event.preventDefault();
            over(true);
        });
        document.addEventListener("dragleave", () => over(false));
        document.addEventListener("drop", (event) => {
            event.preventDefault();
            over(false);
            this.take(event.dataTransfer.files);
        });
        document.addEventListener("paste", (event) => {
            if (event.clipboardData.files.length > 0) {
                event.preventDefault();
                this.take(event.clipboardData.files);
            }
        });
    }

    /** The filter's text and its flags. */
    asked() {
        return { filter: $("filter").value, flags: ($("strict").checked ? 1 : 0) + ($("anywhere").checked ? 2 : 0) };
    }

    /** Reads files, and puts them before the streams that are there. */
    async take(files) {
        this.pending++;
        const read = async (file) => {
            try {
                return new Stream(file.name, new Uint8Array(await file.arrayBuffer()), this);
            } catch {
                return new Unread(file.name);
            }
        };
        this.put(await Promise.all([...files].map(read)));
        this.pending--;
    }

    /** The stream that the text spells, in the place of the one that it spelled before. */
    paste() {
        const text = $("text").value;
        let fault = "";
        this.streams = this.streams.filter((it) => it !== this.pasted);
        this.pasted?.box.remove();
        this.pasted = null;
        if (text.trim() !== "") {
            try {
                this.pasted = new Stream("pasted text", spelled(text, $("form").value), this);
            } catch (why) {
                fault = why.message;
            }
        }
        $("text-fault").textContent = fault;
        this.put(this.pasted ? [this.pasted] : [], !this.isTyped);
    }

    /** Puts streams before those that are there. On a narrow screen, where the answers are below what is asked, it goes there. */
    put(streams, isSeen = true) {
        this.streams = [...streams, ...this.streams];
        $("results").prepend(...streams.map((it) => it.box));
        for (const [number, it] of this.streams.entries()) {
            it.box.open = streams.length > 0 ? number === 0 : it.box.open;
        }
        this.summarize();
        const [first] = streams.map((it) => it.check());
        if (isSeen && narrow.matches) {
            first?.then(() => $("summary").scrollIntoView());
        }
    }

    /** Checks all streams, and where there are none, nothing: so the faults of the filter are told all the same. */
    async checkAll() {
        for (const it of this.streams) {
            it.check();
        }
        const { filter, flags } = this.asked();
        const question = { call: "check", bytes: new Uint8Array(), filter: new TextEncoder().encode(filter), flags };
        const answer = await this.asker.ask("filter", question);
        if (answer !== null) {
            const isFaulty = answer.status === MISUSE;
            $("filter-fault").textContent = isFaulty ? `${lineOf(answer)}: ${pieceOf(filter, answer.from)}` : "";
            $("filter").setAttribute("aria-invalid", String(isFaulty));
        }
    }

    clear() {
        $("text").value = "";
        this.streams = [];
        $("results").replaceChildren();
        this.paste();
        $("pick").focus();
    }

    /** A call that waits until those who ask for it have been quiet for a while. */
    putOff(call) {
        let timer = null;
        return () => {
            this.pending += timer === null ? 1 : 0;
            clearTimeout(timer);
            timer = setTimeout(() => {
                timer = null;
                this.pending--;
                call();
            }, QUIET);
        };
    }

    summarize() {
        const count = (status) => this.streams.filter((it) => it.answer !== null && it.answer.status === status).length;
        const all = numbered(this.streams.length, "stream", "streams");
        $("summary").textContent = this.streams.length === 0 ? "No stream yet" : `${all}: ${count(YES)} accepted, ${count(NO)} refused`;
        $("clear").hidden = this.streams.length === 0;
        $("try").hidden = this.streams.length > 0;
        $("narrowing").hidden = this.streams.length < 2;
        $("results").classList.toggle("narrowed", $("refused-only").checked && this.streams.length > 1);
    }
}

globalThis.page = new Page();
