// The bytes that a text spells, in hexadecimal or base64, by the rules of the program's --hex, --base64 and --base64url: white
// space is passed over where it is not too much, and base64 is of one alphabet, with padding at its end or none.

const SPACES = " \t\n\r";
const SPARE_SPACE = 2 ** 20; // and one for each byte
const SHARED = "ABCDEFGHIJKLMNOPQRSTUVWXYZabcdefghijklmnopqrstuvwxyz0123456789";
const DIGITS = { base64: `${SHARED}+/`, base64url: `${SHARED}-_` };

/** A text that is not of its form, in the words of the program: so many of its signs are right. */
class Misspelled extends Error {
    constructor(form, at) {
        super(`not ${form === "hex" ? "hexadecimal" : "base64"} at ${at}`);
    }
}

/** The form that a text seems to have: hexadecimal where it has nothing else, the URL-safe base64 where it has a sign of it. */
function formOf(text) {
    if (/^[\s0-9a-f]*$/i.test(text)) {
        return "hex";
    }
    return /[-_]/.test(text) ? "base64url" : "base64";
}

function bytesOfHex(text) {
    const bytes = [];
    let high = -1;
    let spaces = 0;
    for (let at = 0; at < text.length; at++) {
        if (SPACES.includes(text[at]) && spaces < SPARE_SPACE + bytes.length) {
            spaces++;
            continue;
        }
        const digit = "0123456789abcdef".indexOf(text[at].toLowerCase());
        if (digit < 0) {
            throw new Misspelled("hex", at);
        }
        if (high < 0) {
            high = digit;
        } else {
            bytes.push(high * 16 + digit);
            high = -1;
        }
    }
    if (high >= 0) {
        throw new Misspelled("hex", text.length);
    }
    return Uint8Array.from(bytes);
}

function bytesOfBase64(text, digits) {
    const bytes = [];
    let group = []; // the digits of a group of four
    let padding = 0; // how many signs `=` are still to come, or -1 behind them
    let spaces = 0;
    for (let at = 0; at < text.length; at++) {
        const sign = text[at];
        if (SPACES.includes(sign) && spaces < SPARE_SPACE + bytes.length) {
            spaces++;
            continue;
        }
        if (sign === "=" && padding === 0 && group.length >= 2 && leavesNothing(group)) {
            padding = 4 - group.length;
        }
        if (padding > 0 && sign === "=") {
            padding = padding === 1 ? -1 : padding - 1;
            continue;
        }
        const value = padding === 0 ? digits.indexOf(sign) : -1;
        if (value < 0) {
            throw new Misspelled("base64", at);
        }
        group.push(value);
        addBytes(bytes, group);
        group = group.length === 4 ? [] : group;
    }
    if (padding > 0 || group.length === 1 || !leavesNothing(group)) {
        throw new Misspelled("base64", text.length);
    }
    return Uint8Array.from(bytes);
}

/** Whether the bits of the digits that complete no byte are 0. */
function leavesNothing(group) {
    return group.length < 2 || (group.at(-1) & (group.length === 2 ? 15 : 3)) === 0;
}

/** Adds the byte that the last digit of a group completes. */
function addBytes(bytes, group) {
    const last = group.length - 1;
    if (last > 0) {
        bytes.push(((group[last - 1] << (2 * last)) | (group[last] >> (6 - 2 * last))) & 255);
    }
}

/** The bytes of a text; throws Misspelled. */
function spelled(text, form) {
    const asked = form === "auto" ? formOf(text) : form;
    return asked === "hex" ? bytesOfHex(text) : bytesOfBase64(text, DIGITS[asked]);
}
