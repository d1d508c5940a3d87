// What translated definitions are made of, and the words of the standard library that they use. A number is a bigint, a truth value a
// boolean, a pair an array of two, a record an object with its fields, a value of a data type a Data; a function takes one argument.
"use strict";

class Data {
    constructor(name, parts) {
        this.name = name;
        this.parts = parts;
    }
}

const data = (name, ...parts) => new Data(name, parts);
const empty = data("[]");
const none = data("None");
const some = (value) => data("Some", value);

// A constructor takes its parts one after the other too.
function apply(f, argument) {
    if (f instanceof Data) return new Data(f.name, [...f.parts, argument]);
    return f(argument);
}

// The rest of a function of `arity` arguments, some of which are there.
function partial(f, arity, given) {
    if (given.length === arity) return f(...given);
    return (argument) => partial(f, arity, [...given, argument]);
}

function once(compute) {
    let value;
    return () => (value === undefined ? (value = compute()) : value);
}

function field(record, name) {
    const value = record[name];
    if (value === undefined) throw new Error(`no field ${name} in ${show(record)}`);
    return value;
}

// Lists

function array(list) {
    const items = [];
    for (let rest = list; rest.name === "∷"; rest = rest.parts[1]) items.push(rest.parts[0]);
    return items;
}

const before = (items, list) => items.reduceRight((rest, item) => data("∷", item, rest), list);
const list = (items) => before(items, empty);
const joined = (first, second) => before(array(first), second);
const codes = (text) => list([...Buffer.from(text)].map(BigInt));
const text = (bytes) => Buffer.from(array(bytes).map(Number)).toString();

function rest_from(list, count) {
    let rest = list;
    for (let i = 0n; i < count && rest.name === "∷"; i++) rest = rest.parts[1];
    return rest;
}

const first_of = (list) => (list.name === "∷" ? some(list.parts[0]) : none);

function same_bytes(first, second) {
    let [a, b] = [first, second];
    while (a.name === "∷" && b.name === "∷" && a.parts[0] === b.parts[0]) [a, b] = [a.parts[1], b.parts[1]];
    return a.name === "[]" && b.name === "[]";
}

// Numbers. Nothing is below zero among the natural ones, and a division by zero has the quotient zero.

const minus = (a, b) => (a < b ? 0n : a - b);
const quotient = (a, b) => (b === 0n ? 0n : a / b);
const remainder = (a, b) => (b === 0n ? a : a % b);
const absolute = (a) => (a < 0n ? -a : a);
const euclidean_remainder = (a, b) => remainder(remainder(a, b) + absolute(b), absolute(b));

// A value as text, for messages.
function show(value) {
    if (value instanceof Data && value.name === "∷") return `[${array(value).map(show).join(", ")}]`;
    if (value instanceof Data) return value.parts.length === 0 ? value.name : `(${[value.name, ...value.parts.map(show)].join(" ")})`;
    if (Array.isArray(value)) return `(${value.map(show).join(", ")})`;
    if (typeof value === "function") return "a function";
    if (typeof value === "object") return `{ ${Object.keys(value).map((name) => `${name} = ${show(value[name])}`).join("; ")} }`;
    return String(value);
}

// The translator reads the number of a word's arguments from here: a word begins a line and has its parameters in brackets.
const standard = {
    not: (a) => !a,
    cond: (test, then, otherwise) => (test ? then : otherwise),

    nat_eq: (a, b) => a === b,
    nat_lt: (a, b) => a < b,
    nat_le: (a, b) => a <= b,
    max: (a, b) => (a > b ? a : b),
    min: (a, b) => (a < b ? a : b),
    pred: (a) => minus(a, 1n),
    bit_at: (a, place) => (a >> place) & 1n,

    int_eq: (a, b) => a === b,
    int_lt: (a, b) => a < b,
    int_le: (a, b) => a <= b,
    int_div: (a, b) => quotient(a, b),
    int_rem: (a, b) => remainder(a, b),
    int_rem_euclid: (a, b) => euclidean_remainder(a, b),
    int_div_euclid: (a, b) => quotient(a - euclidean_remainder(a, b), b),
    neg_ℤ: (a) => -a,
    unsigned_abs: (a) => absolute(a),

    is_some: (option) => option.name === "Some",
    is_none: (option) => option.name === "None",
    unwrap_or: (option, otherwise) => (option.name === "Some" ? option.parts[0] : otherwise),
    option_or: (option, otherwise) => (option.name === "Some" ? option : otherwise),
    option_map: (f, option) => (option.name === "Some" ? some(apply(f, option.parts[0])) : none),
    option_and_then: (f, option) => (option.name === "Some" ? apply(f, option.parts[0]) : none),

    length: (items) => BigInt(array(items).length),
    map: (f, items) => list(array(items).map((item) => apply(f, item))),
    filter: (f, items) => list(array(items).filter((item) => apply(f, item))),
    flat_map: (f, items) => list(array(items).flatMap((item) => array(apply(f, item)))),
    fold: (f, first, items) => array(items).reduce((value, item) => apply(apply(f, value), item), first),
    find: (f, items) => standard.slice_get(standard.filter(f, items), 0n),
    count_by: (f, items) => standard.length(standard.filter(f, items)),
    list_all: (f, items) => array(items).every((item) => apply(f, item)),
    list_any: (f, items) => array(items).some((item) => apply(f, item)),
    take: (count, items) => list(array(items).slice(0, Number(count))),
    drop: (count, items) => rest_from(items, count),
    slice_range: (items, from, to) => list(array(items).slice(Number(from), Number(to))),
    slice_get: (items, place) => first_of(rest_from(items, place)),
    slice_index: (items, place) => standard.unwrap_or(standard.slice_get(items, place), 0n),
    slice_set: (items, place, item) => list(array(items).map((old, i) => (BigInt(i) === place ? item : old))),

    codes: (text) => codes(text),
    decimal: (a) => codes(String(a)),
    bytes_eq: (a, b) => same_bytes(a, b),
    is_ascii_digit: (byte) => 48n <= byte && byte <= 57n,
};
