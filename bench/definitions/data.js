// The programs and the texts that the definitions are held against. As a program (node data.js FOLDER) it writes their sources
// into files of a new folder, whose names have the order of `cases`.
"use strict";

const { mkdirSync, readdirSync, readFileSync, writeFileSync } = require("fs");
const { join } = require("path");

// The programs are those of the test program that runs the code on them, and its wanted answers are those of the definitions too.
const TESTS = join(__dirname, "../../crates/replay_tests");
const REFUSALS = join(__dirname, "data/refusals.tsv");
const ESCAPES = { n: "\n", t: "\t", "\\": "\\" };

// What each program does: behind `# NAME` the lines up to its end.
const runs = new Map();
let lines = null;
for (const line of readFileSync(join(TESTS, "stdout"), "utf8").split("\n")) {
    if (line.startsWith("# ")) runs.set(`${line.slice(2)}.cc`, (lines = []));
    else lines?.push(line);
    if (line.startsWith("end ")) lines = null;
}

const programs = readdirSync(join(TESTS, "data"))
    .sort()
    .map((file) => ({ kind: "runs", name: file, text: readFileSync(join(TESTS, "data", file)), wanted: runs.get(file) }));

const texts = readFileSync(REFUSALS, "utf8")
    .trimEnd()
    .split("\n")
    .map((row, i) => {
        const [, answer, text] = row.split("\t");
        const unescaped = text.replace(/\\(.)/g, (_, letter) => ESCAPES[letter]);
        return { kind: "refusals", name: `refusals.tsv:${i + 1}`, text: Buffer.from(unescaped), wanted: [answer] };
    });

const cases = [...programs, ...texts];
module.exports = { cases };

if (require.main === module) {
    const folder = process.argv[2];
    mkdirSync(folder);
    cases.forEach(({ text }, i) => writeFileSync(join(folder, `${String(i).padStart(5, "0")}.cc`), text));
}
