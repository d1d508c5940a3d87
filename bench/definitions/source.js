// A source as the definitions take it, from a line that `terms` prints, and places in its text.
"use strict";

module.exports = ({ data, list }) => {
    const option = (value) => (value === null ? data("None") : data("Some", BigInt(value)));
    const place = (offset) => ({ source: 0n, offset: BigInt(offset) });

    function token([kind, from, to, value, bytes]) {
        return { kind: data(kind), from: BigInt(from), to: BigInt(to), value: BigInt(value), bytes: list(bytes.map(BigInt)) };
    }

    // The body of a lambda is told beside the tree; the definitions have it as the lambda's last kid.
    function declarations({ nodes, bodies, declarations }) {
        const kids = nodes.map((node) => [...node[3]]);
        for (const [lambda, body] of bodies) kids[lambda].push(body);
        const trees = (numbers) => numbers.reduceRight((rest, number) => data("more", tree(number), rest), data("none"));
        function tree(number) {
            const [kind, offset, token] = nodes[number];
            return data("node", data(kind), place(offset), option(token), trees(kids[number]));
        }
        return trees(declarations);
    }

    const source = (unit) => ({ tokens: list(unit.tokens.map(token)), decls: declarations(unit) });

    // PATH:LINE:COLUMN of a byte.
    function position(path, text, offset) {
        const lines = text.subarray(0, offset).toString("latin1").split("\n");
        return `${path}:${lines.length}:${lines.at(-1).length + 1}`;
    }

    return { source, position };
};
