// What the raw values in a text of `show` mean, as `show --values` prints it behind them: a number in decimal, a character in
// quotes, true or false. A line has no type, so each class is kept by its mark, with its fields and its superclass.

const NAMED = /^("(?:[^"\\]|\\.)*") = (.*)$/;
const FIELD = /^field (\S) /;
const KIND = /^(\w+)(?: (#\S+))?/;
// The descriptor of an array of primitives.
const PRIMITIVES = /^desc #\S+ "\[([BCDFIJSZ])" /;
// How many digits in hexadecimal the values of a type have.
const SIZES = { B: 2, C: 4, D: 16, F: 8, I: 8, J: 16, S: 4, Z: 2 };

/** The digits of a finite number but 0, without zeros at their end, and the exponent of the first one. */
function digitsOf(text) {
    const [, first, rest = "", exponent] = /^(\d)(?:\.(\d+))?e([+-]\d+)$/.exec(text);
    return { digits: (first + rest).replace(/0+$/, ""), exponent: Number(exponent) };
}

/** The shortest of at least two digits that mean this double; of these the nearest. */
function shortestDouble(number) {
    const two = number.toExponential(1);
    return Number(two) === number ? two : number.toExponential();
}

/** Whether a number stands in the middle of two decimals of so many digits. */
function isBetween(number, digits) {
    return /^50*e/.test(number.toExponential(100).replace(".", "").slice(digits));
}

/** The same of a float. Of two that are as near the even one; and where its neighbours are not equally far, the nearest may mean another. */
function shortestFloat(number) {
    for (let digits = 2; digits < 9; digits++) {
        const [mantissa, exponent] = number.toExponential(digits - 1).replace(".", "").split("e");
        const nearest = Number(mantissa);
        const spelled = (units) => `${units}e${Number(exponent) - digits + 1}`;
        const means = (units) => Math.fround(Number(spelled(units))) === number;
        const found = [nearest, nearest + 1, nearest - 1].find(means);
        if (found !== undefined) {
            const isOdd = found % 2 === 1 && found === nearest && isBetween(number, digits) && means(found - 1);
            return Number(spelled(isOdd ? found - 1 : found)).toExponential(digits - 1);
        }
    }
    return number.toExponential(8);
}

/** A float as Java prints it, since Java 19. */
function floatText(number, shortest) {
    if (!Number.isFinite(number)) {
        return String(number);
    }
    const sign = number < 0 || Object.is(number, -0) ? "-" : "";
    if (number === 0) {
        return `${sign}0.0`;
    }
    const { digits, exponent } = digitsOf(shortest(Math.abs(number)));
    if (exponent < -3 || exponent > 6) {
        return `${sign}${digits[0]}.${digits.slice(1) || "0"}E${exponent}`;
    }
    if (exponent < 0) {
        return `${sign}0.${"0".repeat(-exponent - 1)}${digits}`;
    }
    return `${sign}${digits.slice(0, exponent + 1).padEnd(exponent + 1, "0")}.${digits.slice(exponent + 1) || "0"}`;
}

function characterText(unit) {
    const sign = String.fromCharCode(unit);
    if (unit < 0x20 || unit > 0x7e) {
        return `"\\u${unit.toString(16).padStart(4, "0")}"`;
    }
    return sign === '"' || sign === "\\" ? `"\\${sign}"` : `"${sign}"`;
}

// What has no lines of its own that matter here.
const NOTHING = Object.freeze({});
const view = new DataView(new ArrayBuffer(8));

/** What the bytes of a value of a type, in hexadecimal, mean; or nothing. */
function meaningOf(code, digits) {
    const size = SIZES[code];
    if (digits.length !== size) {
        return "";
    }
    if (code === "J") {
        return String(BigInt.asIntN(64, BigInt(`0x${digits}`)));
    }
    const number = Number.parseInt(digits.slice(0, 8), 16);
    view.setUint32(0, number);
    switch (code) {
        case "C":
            return characterText(number);
        case "D":
            view.setUint32(4, Number.parseInt(digits.slice(8), 16));
            return floatText(view.getFloat64(0), shortestDouble);
        case "F":
            return floatText(view.getFloat32(0), shortestFloat);
        case "Z":
            return ["false", "true"][number] ?? "";
        default:
            return String(number < 2 ** (4 * size - 1) ? number : number - 2 ** (4 * size));
    }
}

/** Reads a text line by line, and says what the raw value of each line means. */
class Values {
    #classes = new Map();
    #open = []; // what is open at each level

    /** The meaning of the value in a line, or an empty text. */
    next(line) {
        const body = line.trimStart();
        const level = (line.length - body.length) / 2;
        const owner = this.#open[level - 1] ?? NOTHING;
        this.#open[level] = NOTHING;
        switch (body[0]) {
            case "[":
                return this.element(owner, body.slice(body.indexOf(" ") + 1), level);
            case '"':
                return this.field(owner, NAMED.exec(body)?.[2] ?? "", level);
            case "f":
                owner.fields?.push(FIELD.exec(body)?.[1]);
                return "";
            case "d":
                this.#open[level] = owner.isObject ? this.section(owner) : this.thing(body);
                return "";
            case "c":
            case "s":
                this.#open[level] = this.thing(body.slice("class ".length));
                if (owner !== NOTHING) {
                    owner[body.slice(0, 5)] = this.#open[level];
                }
                return "";
            default:
                this.#open[level] = this.thing(body.startsWith("note ") ? body.slice("note ".length) : body);
                return "";
        }
    }

    /** An element of an array: the raw value of one of primitives has the second letter of the array's name for its type. */
    element(owner, words, level) {
        const code = owner.isArray ? owner.class?.code : undefined;
        if (code !== undefined) {
            return meaningOf(code, words);
        }
        this.#open[level] = this.thing(words);
        return "";
    }

    /** The value of the next field of a section. */
    field(owner, words, level) {
        const code = owner.codes?.[owner.at++];
        if (code in SIZES) {
            return meaningOf(code, words);
        }
        this.#open[level] = this.thing(words);
        return "";
    }

    /** What words begin: a class, which a mark may name later, an object or an array. */
    thing(words) {
        const [, kind, mark = ""] = KIND.exec(words) ?? [];
        switch (kind) {
            case "ref":
                return this.#classes.get(mark) ?? null;
            case "desc":
            case "proxy": {
                const made = { code: PRIMITIVES.exec(words)?.[1], fields: [], super: null };
                this.#classes.set(mark, made);
                return made;
            }
            case "object":
                return { isObject: true, at: 0 };
            case "array":
                return { isArray: true };
            default:
                return NOTHING;
        }
    }

    /** The fields of the next class of an object, from its highest superclass on. */
    section(object) {
        if (object.chain === undefined) {
            object.chain = [];
            for (let layer = object.class; layer?.fields; layer = layer.super) {
                object.chain.unshift(layer);
            }
        }
        return { codes: object.chain[object.at++]?.fields, at: 0 };
    }
}

/** The meanings of the lines of a text, as lines. */
function meaningsOf(text) {
    const values = new Values();
    return text.split("\n").slice(0, -1).map((line) => values.next(line)).join("\n");
}
