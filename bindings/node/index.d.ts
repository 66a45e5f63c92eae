/**
 * Whether bytes are one Java serialization stream that a filter admits; no class is loaded.
 *
 * All calls are synchronous and block the thread that makes them, so bound the bytes of what you check. No answer depends on an
 * earlier call. Any number of workers may call at once, each over its own import of this module.
 */

/** The version of the package. */
export const version: string;

/** How a filter is asked. */
export interface Options {
    /** Refuse a class that no pattern matches; `false` if none is given. */
    strict?: boolean;
    /** Ask the filter about every class name that can be read at any place of the bytes; `false` if none is given. */
    anywhere?: boolean;
}

/** What a check answers. What does not apply is null. Its text is the line that the program prints. */
export class Answer {
    private constructor();
    /** Whether the bytes are one stream that the filter admits. */
    readonly ok: boolean;
    /** Of a refusal, why: a name of docs/REFUSALS.md, such as `ClassRejected`. */
    readonly reason: string | null;
    /** Of a refusal, what its reason means, for a person: a sentence of printable ASCII. */
    readonly meaning: string | null;
    /** Of a refusal, the offset of the faulty token, in bytes. */
    readonly from: number | null;
    /** Of a refusal, how many bytes decide: no admitted stream begins with these (of Truncated: all, which are none). */
    readonly to: number | null;
    /** Of a refusal, the class that was refused, in which letters other than printable ASCII are escaped, so that it may be logged; null with another reason. */
    readonly className: string | null;
    /** Of a yes, how many bytes the stream has. */
    readonly bytes: number | null;
    /** Of a yes, how many contents it has at the top. */
    readonly contents: number | null;
    /** Of a yes, its references, as the filter's `maxrefs` counts them. */
    readonly refs: number | null;
    /** Of a yes, its depth, as the filter's `maxdepth` counts it. */
    readonly depth: number | null;
    /** Of a yes, how many handles it assigns. */
    readonly handles: number | null;
    /** The length of the longest front of the bytes that is a stream which the filter admits, or 0: where to cut. A text has none: 0. */
    readonly whole: number;
    toString(): string;
}

/** A text, or the refusal of bytes that are no stream. */
export interface Text {
    /** Whole lines; empty where the bytes are refused. */
    readonly text: string;
    /** Whether the text goes on: it has whole lines, of at most `most` bytes. */
    readonly isCut: boolean;
    /** The refusal, or null where there is a text. */
    readonly answer: Answer | null;
}

/** There is no memory for the bytes, or for what a check of them needs: it is no yes. */
export class OutOfMemory extends Error {}

/** The error of a faulty filter or table of modules: its message has the cause, and the number of the piece or line, counted from 0. */
export interface Misuse extends TypeError {
    /** The number of the faulty piece or line. */
    readonly piece: number;
}

/**
 * Checks the bytes of a whole stream under a filter, which is read each time.
 *
 * The bytes are copied first. Hand on these same bytes, and nothing while another thread may change them.
 *
 * @param data the bytes
 * @param filter its text, as `ObjectInputFilter.Config.createFilter` takes it (docs/FILTERS.md); empty if none is given
 * @throws {Misuse} where the filter is faulty
 * @throws {TypeError} where `data` is none of these, or the filter is no text
 * @throws {OutOfMemory}
 */
export function check(data: Uint8Array | ArrayBuffer, filter?: string, options?: Options): Answer;

/** A filter for many checks. */
export class Filter {
    /**
     * @param filter its text
     * @throws {Misuse} where it is faulty
     * @throws {TypeError} where it is no text
     */
    constructor(filter?: string, options?: Options);
    /**
     * Checks the bytes of a whole stream, as `check` does.
     * @throws {TypeError} where `data` is none of these
     * @throws {OutOfMemory}
     */
    check(data: Uint8Array | ArrayBuffer): Answer;
}

/**
 * The text of `serialcheck show`, of at most `most` bytes (2^24 if none is given).
 * @throws {TypeError} where `data` is none of these
 * @throws {OutOfMemory}
 */
export function show(data: Uint8Array | ArrayBuffer, options?: { most?: number }): Text;

/**
 * The text of `serialcheck list`, of at most `most` bytes (2^24 if none is given): a line for each class name, with how often it
 * occurs and what the filter says of it, which refuses nothing here.
 *
 * @param options `modules` is a table of lines `package=module`
 * @throws {Misuse} where the filter or the table is faulty
 * @throws {TypeError} where `data` is none of these, or a text is none
 * @throws {OutOfMemory}
 */
export function list(data: Uint8Array | ArrayBuffer, filter?: string, options?: { modules?: string; most?: number }): Text;
