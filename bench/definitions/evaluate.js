// What the definitions say of a program of one source: its verdict, and what its main thread does in a world of its own.
"use strict";

const sources = require("./source.js");

const THREAD_LIMIT = 64n;
const MOST_STEPS = 400000;
const END_OF_INPUT = -1n;

module.exports = (definitions) => {
    const { data, array, list, codes, apply, show } = definitions;
    const { source, position } = sources(definitions);
    const nothing = data("Nothing");

    // Verdicts

    // The typed program of a unit that is accepted, or the refusal line.
    function judged(unit, path, text) {
        if (unit.fault) return { refusal: `${path}: ${unit.fault}` };
        const refused = (at, ...words) => ({ refusal: `${position(path, text, Number(at.offset))}: ${words.join(" ")}` });
        const { name, parts } = definitions.program_of(list([source(unit)]));
        if (name === "Err") {
            const [at, ...reasons] = parts[0].parts;
            return refused(at, parts[0].name, ...reasons.map((reason) => reason.name));
        }
        const unsafe = definitions.first_unsafe(parts[0]);
        if (unsafe.name === "Some") return refused(unsafe.parts[0].at, "Unsafe", unsafe.parts[0].reason.name);
        return { program: parts[0] };
    }

    const verdict = (unit, path, text) => judged(unit, path, text).refusal ?? "ok";

    // Linking

    // The symbol of the function that a slot names, if it is not pure. A slot has the function's class and its number among that class's.
    function slot_symbol(program, slot) {
        const is_of_class = (func) => func.class.name === "Some" && func.class.parts[0] === slot.class;
        for (const unit of array(program.units)) {
            const func = array(unit.funcs).filter(is_of_class)[Number(slot.func)];
            if (func) return func.declared.pure_virtual ? data("None") : data("Some", func.symbol);
        }
        return data("None");
    }

    // A function that computes each value once: a thread asks the same of its program at every step.
    function remembering(f) {
        const known = new Map();
        return (argument) => {
            if (!known.has(argument)) known.set(argument, apply(f, argument));
            return known.get(argument);
        };
    }

    const remembering_both = (f) => remembering((first) => remembering(apply(f, first)));

    function linked(program) {
        const is_safe = remembering_both((unit) => (number) => definitions.is_safe(program, unit, number));
        const whole = definitions.linked(is_safe, (slot) => slot_symbol(program, slot), codes("main()"), program);
        return {
            ...whole,
            number: remembering_both(whole.number),
            func: remembering(whole.func),
            global: remembering_both(whole.global),
            table: remembering(whole.table),
        };
    }

    // The world: memory, copies of it for open blocks, output, and the events that are not Silent

    class World {
        constructor(globals, cells) {
            this.layout = { globals, limit: THREAD_LIMIT };
            this.bytes = new Map();
            this.copies = [];
            this.output = [];
            this.events = [];
            this.end = null;
            for (const cell of cells) this.write(definitions.globals_start() + cell.offset, cell.size, cell.value);
        }

        read(address, size) {
            let value = 0n;
            for (let i = 0n; i < size; i++) value |= (this.bytes.get(address + i) ?? 0n) << (8n * i);
            return value;
        }

        write(address, size, value) {
            for (let i = 0n; i < size; i++) this.bytes.set(address + i, (value >> (8n * i)) & 255n);
        }

        can_access(address, size) {
            const can = definitions.can_access(this.layout, address, size);
            if (!can) this.end = "trap BadAddress";
            return can;
        }

        note(...words) {
            this.events.push(words.filter((word) => word !== "").join(" "));
        }

        // The reply to an event.
        answer({ name, parts }) {
            if (!(name in answers)) throw new Error(`no program of one thread does ${show(data(name, ...parts))}`);
            return answers[name](this, ...parts) ?? nothing;
        }
    }

    const mark = (volatile) => (volatile ? "volatile" : "");

    const answers = {
        Silent() {},
        Load(world, address, size, volatile) {
            world.note("Load", address, size, mark(volatile));
            if (world.can_access(address, size)) return data("Loaded", world.read(address, size));
        },
        Store(world, address, size, value, volatile) {
            world.note("Store", address, size, value, mark(volatile));
            if (world.can_access(address, size)) world.write(address, size, value);
        },
        Out(world, byte) {
            world.note("Out", byte);
            world.output.push(byte);
        },
        Inp(world) {
            world.note("Inp");
            return data("Byte", END_OF_INPUT);
        },
        BeginAtomic(world, kind) {
            world.note("BeginAtomic", kind.name);
            world.copies.push(new Map(world.bytes));
        },
        EndAtomic(world) {
            world.note("EndAtomic");
            world.copies.pop();
        },
        Raise(world, kind, cancels) {
            world.note("Raise", kind.name, cancels);
            const copy = world.copies.pop();
            if (kind.name === "Cancel" && cancels) world.bytes = copy;
            else if (kind.name !== "Commit") world.end = "abort";
        },
        BeginSync: (world) => world.note("BeginSync"),
        EndSync: (world) => world.note("EndSync"),
        Stop(world, end) {
            const words = { Exit: ["exit", end.parts[0]], Trapped: ["trap", end.parts[0]?.name] }[end.name] ?? [end.name.toLowerCase()];
            world.note("Stop", end.name, ...words.slice(1));
            world.end = words.join(" ");
        },
    };

    // Running

    // The lines of a `.events` file: the events, the output and the end.
    function run(program) {
        const whole = linked(program);
        const thread = definitions.source(whole);
        const world = new World(definitions.globals_size(program), array(definitions.first_cells(program, whole)));
        let state = definitions.main_state(whole);
        for (let steps = 0; world.end === null && steps < MOST_STEPS; steps++) {
            const reply = world.answer(apply(thread.next, state));
            if (world.end === null) state = apply(apply(thread.after, state), reply);
        }
        const hex = world.output.map((byte) => byte.toString(16).padStart(2, "0")).join("");
        return [...world.events, `out ${hex}`, `end ${world.end ?? `not within ${MOST_STEPS} steps`}`];
    }

    // The same of a unit that is accepted; of another one its refusal.
    function events(unit, path, text) {
        const { refusal, program } = judged(unit, path, text);
        return refusal ? [refusal] : run(program);
    }

    return { verdict, events };
};
