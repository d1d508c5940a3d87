// Compares what the definitions give with the data. Usage: node compare.js DEFINITIONS.js TERMS
"use strict";

const { readFileSync } = require("fs");
const { resolve } = require("path");
const { cases } = require("./data.js");

const [definitions, terms] = process.argv.slice(2);
const { events, verdict } = require("./evaluate.js")(require(resolve(definitions)));

// The name of each source, in refusal lines.
const PATH = "a.cc";

// Passed over: what the lexer or the parser answers, which are no part of these definitions; and programs that start threads, of which the data has the
// output alone.
const is_passed_over = ({ kind, text, wanted }) =>
    kind === "runs" ? /\b__txcc_spawn\b/.test(text) : /: (Lex|Syntax|Limit Nesting)$/.test(wanted[0]);

function given({ kind, text }, unit) {
    try {
        return kind === "runs" ? events(unit, PATH, text) : [verdict(unit, PATH, text)];
    } catch (error) {
        return [String(error.stack)];
    }
}

// The first line that differs, told on the output; whether there was none.
function agrees({ name, wanted }, lines) {
    const count = Math.max(wanted.length, lines.length);
    for (let i = 0; i < count; i++) {
        if (wanted[i] !== lines[i]) {
            console.log(`${name}, line ${i + 1}:\n  wanted ${wanted[i] ?? "nothing"}\n  given  ${lines[i] ?? "nothing"}`);
            return false;
        }
    }
    return true;
}

const units = readFileSync(terms, "utf8").trimEnd().split("\n").map((line) => JSON.parse(line));
if (units.length !== cases.length) throw new Error(`${units.length} sources were read, and there are ${cases.length}`);
const counts = { runs: { passed: 0, failed: 0, over: 0 }, refusals: { passed: 0, failed: 0, over: 0 } };
cases.forEach((one, i) => {
    const count = counts[one.kind];
    if (is_passed_over(one)) count.over++;
    else if (agrees(one, given(one, units[i]))) count.passed++;
    else count.failed++;
});
const why = { runs: "programs start threads", refusals: "texts are left to the lexer and the parser" };
for (const [kind, { passed, failed, over }] of Object.entries(counts)) {
    console.log(`${kind}: ${passed} passed, ${failed} failed${over ? ` (${over} ${why[kind]})` : ""}`);
}
process.exitCode = counts.runs.failed + counts.refusals.failed > 0 ? 1 : 0;
