"use strict";
// A relay: it hands on the very bytes that were checked. `node example.js FILE..` says what becomes of each file.

const fs = require("node:fs");
const serialcheck = require("serialcheck");

const filter = new serialcheck.Filter("maxbytes=1000000;java.util.*;java.lang.*;!*", { anywhere: true });

function accepted(body) {
    const answer = filter.check(body);
    return answer.ok ? body : null; // `${answer}` is the line of the program
}

for (const file of process.argv.slice(2)) {
    console.log(accepted(fs.readFileSync(file)) ? "handed on" : "refused");
}
