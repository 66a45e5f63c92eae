#!/usr/bin/env node
"use strict";
// The commands check, show and list of the program, with its lines and statuses: USAGE.

const fs = require("node:fs");
const { parseArgs } = require("node:util");
const { version } = require("./package.json");
const serialcheck = require("./index.js");

const USAGE = `Usage: serialcheck check [--filter T] [--strict] [--anywhere] FILE
       serialcheck show FILE
       serialcheck list [--filter T] FILE
       serialcheck --help | --version

FILE may be -, standard input. A text of more than 16777216 bytes is cut.
`;
const MOST_TEXT = 1 << 24;
const FLAG = { type: "boolean", multiple: true };
const TEXT = { type: "string", multiple: true };
const HELP = { help: { type: "boolean", short: "h" } };
/** The options of each command. */
const OPTIONS = { check: { filter: TEXT, strict: FLAG, anywhere: FLAG, ...HELP }, show: HELP, list: { filter: TEXT, ...HELP } };

/** A fault of the command line; without words, the wish for help. */
class Misused extends Error {}

/** The command, its options and its file. */
function read([command = "", ...words]) {
    if (["-h", "--help", "help"].includes(command)) {
        throw new Misused();
    }
    if (!Object.hasOwn(OPTIONS, command)) {
        throw new Misused(command === "" ? "no command" : `no command ${JSON.stringify(command)}`);
    }
    const { values, positionals } = parsed(words, OPTIONS[command]);
    if (values.help) {
        throw new Misused();
    }
    const twice = Object.keys(values).find((it) => values[it].length > 1);
    if (twice !== undefined) {
        throw new Misused(`--${twice} is there twice`);
    }
    if (positionals.length !== 1) {
        throw new Misused(positionals.length === 0 ? "no FILE" : "more than one FILE");
    }
    return { command, file: positionals[0], filter: values.filter?.[0] ?? "", strict: "strict" in values, anywhere: "anywhere" in values };
}

function parsed(args, options) {
    try {
        return parseArgs({ args, options, allowPositionals: true });
    } catch (fault) {
        throw new Misused(fault.message);
    }
}

/** The status and what is printed. */
function answered({ command, filter, strict, anywhere }, bytes) {
    if (command === "check") {
        const answer = serialcheck.check(bytes, filter, { strict, anywhere });
        return [answer.ok ? 0 : 1, `${answer}\n`];
    }
    const { answer, text, isCut } = command === "show" ? serialcheck.show(bytes, { most: MOST_TEXT }) : serialcheck.list(bytes, filter, { most: MOST_TEXT });
    if (answer) {
        return [1, `${answer}\n`];
    }
    return isCut ? [4, `${text}cut at ${MOST_TEXT} bytes\n`] : [0, text];
}

/** The status, and what goes to standard output and to standard error. */
function main(words) {
    if (["-V", "--version"].includes(words[0])) {
        return [2, "", `serialcheck ${version}\n`];
    }
    let asked;
    try {
        asked = read(words);
    } catch (fault) {
        if (fault instanceof Misused) {
            return [2, "", fault.message ? `error: ${fault.message}\n\n${USAGE}` : USAGE];
        }
        throw fault;
    }
    let bytes;
    try {
        bytes = fs.readFileSync(asked.file === "-" ? 0 : asked.file);
    } catch (fault) {
        return [3, "", fault.code === "EISDIR" ? "read failed\n" : `cannot open ${asked.file}\n`];
    }
    try {
        return answered(asked, bytes);
    } catch (fault) {
        return fault instanceof TypeError ? [2, "", `${fault.message.replace("serialcheck: ", "")}\n`] : [3, "", "out of memory\n"];
    }
}

const [status, printed, told = ""] = main(process.argv.slice(2));
process.stdout.write(printed);
process.stderr.write(told);
process.exitCode = status;
