// Asks the compiled code, in a worker, so that a long text does not hold up the page. Before this file stand
// bindings/node/library.js, which makes its calls, and values.js.

const STOPPED = 7;

let library = null;

const QUESTIONS = {
    check: ({ bytes, filter, flags }) => (engine) => engine.check(bytes, filter, flags),
    show: ({ bytes, limit, made }) => (engine) => valued(engine.show(bytes, limit, made)),
    list: ({ bytes, filter, limit }) => (engine) => engine.list(bytes, filter, new Uint8Array(), limit),
};

/** An answer of `show`, with the meanings of the lines of its text. */
function valued(answer) {
    return answer.text === undefined ? answer : { ...answer, meanings: meaningsOf(answer.text) };
}

/** A call that is stopped in the middle, by the end of the stack say, is told as such: it is never a yes. */
function answered(question) {
    try {
        return library.ask(QUESTIONS[question.call](question));
    } catch (fault) {
        return { status: fault instanceof NoMemory ? STATUS.NO_MEMORY : STOPPED, fault: String(fault) };
    }
}

/** First comes the module, and then each question. */
onmessage = ({ data }) => {
    if (data instanceof Uint8Array) {
        library = new Library(new WebAssembly.Module(data));
    } else {
        postMessage(answered(data));
    }
};
