// Prints what the definitions give of one program. Usage: node show.js DEFINITIONS.js TERMS FILE
"use strict";

const { readFileSync } = require("fs");
const { basename, resolve } = require("path");

const [definitions, terms, file] = process.argv.slice(2);
const { events } = require("./evaluate.js")(require(resolve(definitions)));
const unit = JSON.parse(readFileSync(terms, "utf8"));
for (const line of events(unit, basename(file), readFileSync(file))) console.log(line);
