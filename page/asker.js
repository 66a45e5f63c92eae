// Asks the worker one question after another (engine.js).

const STOPPED = 7;

class Asker {
    constructor() {
        this.module = bytesOf64($("module").textContent);
        const source = URL.createObjectURL(new Blob([$("engine").textContent], { type: "text/javascript" }));
        const policy = globalThis.trustedTypes?.createPolicy("engine", { createScriptURL: (it) => it });
        this.address = policy ? policy.createScriptURL(source) : source;
        this.waiting = [];
        this.start();
    }

    start() {
        this.worker = new Worker(this.address);
        this.worker.postMessage(this.module);
        this.worker.onmessage = ({ data }) => this.answered(data);
        this.worker.onerror = (event) => {
            event.preventDefault();
            this.stop(this.waiting[0]?.key, event.message || "the worker failed");
        };
    }

    /** The answer to a question; null where a later one of the same `key` has come before it was asked. */
    ask(key, question) {
        return new Promise((resolve) => {
            for (const it of this.waiting.slice(1)) {
                if (it.key === key) {
                    it.resolve(null);
                }
            }
            this.waiting = this.waiting.filter((it, number) => number === 0 || it.key !== key);
            this.waiting.push({ key, question, resolve });
            if (this.waiting.length === 1) {
                this.worker.postMessage(question);
            }
        });
    }

    answered(answer) {
        this.waiting.shift().resolve(answer);
        if (this.waiting.length > 0) {
            this.worker.postMessage(this.waiting[0].question);
        }
    }

    /** Stops a question. Where it is the one that is being asked, the worker is begun anew. */
    stop(key, why) {
        const answer = { status: STOPPED, fault: why };
        const at = this.waiting.findIndex((it) => it.key === key);
        if (at === 0) {
            this.worker.terminate();
            this.start();
            this.answered(answer);
        } else if (at > 0) {
            this.waiting.splice(at, 1)[0].resolve(answer);
        }
    }
}
