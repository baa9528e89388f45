// test.mjs WASM: tests yuzuknoll.mjs over the module. The last line counts; a failure makes the exit status 1.
import assert from "node:assert/strict";
import { readFileSync } from "node:fs";
import { printExamples } from "./examples.mjs";
import * as yuzuknoll from "./yuzuknoll.mjs";

const { Argument, BadValue, Cause, HELD_LENGTH, Kind, Op, Refusal, StageFlags, State, TEXT_LENGTH, VariantFlags, describeWarnings, load } = yuzuknoll;
const root = new URL("../", import.meta.url);
const wasm = readFileSync(process.argv[2]);
const library = await load(wasm);

const lit = { colour: { op: Op.MODULATE, arg1: Argument.TEXTURE, arg2: Argument.DIFFUSE }, flags: StageFlags.TEXTURED };
const key = { stages: [lit] };

const refused = (number) => (error) => error instanceof Refusal && error.number === number && error.message.startsWith(`refused with ${number}: `);
const bad = (path) => (error) => error instanceof BadValue && error instanceof TypeError && error.path === path;

// SplitMix64, of which the upper half is taken.
let state = 1n;
function below(bound) {
    state = BigInt.asUintN(64, state + 0x9e3779b97f4a7c15n);
    let z = state;
    z = BigInt.asUintN(64, (z ^ (z >> 30n)) * 0xbf58476d1ce4e5b9n);
    z = BigInt.asUintN(64, (z ^ (z >> 27n)) * 0x94d049bb133111ebn);
    return Number((z ^ (z >> 31n)) >> 32n) % bound;
}
const someBytes = (length, bound = 256) => Uint8Array.from({ length }, () => below(bound));

// ---- The tests, by their names ----

const tests = {
    "every number of the header has its name": () => {
        const header = readFileSync(new URL("include/yuzuknoll.h", root), "latin1");
        const groups = {
            OP: Op,
            ARG: Argument,
            CMP: yuzuknoll.Comparison,
            FOG: yuzuknoll.FogMode,
            STAGE: StageFlags,
            VARIANT: VariantFlags,
            STATE: State,
            KIND: Kind,
            REFUSED: Cause,
            HELD: { LENGTH: HELD_LENGTH, KEY: yuzuknoll.HELD_KEY, VARIANT: yuzuknoll.HELD_VARIANT, ENTRY: yuzuknoll.HELD_ENTRY },
        };
        const found = Object.fromEntries(Object.keys(groups).map((group) => [group, {}]));
        for (const [, group, name, number] of header.matchAll(/^#define YUZUKNOLL_([A-Z]+)_(\w+) +(\d\w*)/gm))
            if (Object.hasOwn(groups, group) && !name.startsWith("RECORD_")) found[group][name] = Number(number);
        // The header has no name for the lack of flags and of a comparison.
        for (const group of ["CMP", "STAGE", "VARIANT"]) found[group].NONE = 0;
        for (const group of Object.keys(groups)) assert.deepEqual({ ...groups[group] }, found[group], group);
        for (const name of ["TEXT_LENGTH", "KEY_TEXT_LENGTH", "WIDE_KEY_TEXT_LENGTH"])
            assert.match(header, new RegExp(`^#define YUZUKNOLL_${name} ${yuzuknoll[name]}$`, "m"));
    },

    "the types have the same numbers": () => {
        const types = readFileSync(new URL("yuzuknoll.d.mts", import.meta.url), "latin1");
        const groups = [...types.matchAll(/^export const (\w+): \{([^}]*)\};/gm)];
        assert.equal(groups.length, 9);
        for (const [, group, members] of groups) {
            const typed = [...members.matchAll(/readonly (\w+): (\w+)/g)].map(([, name, number]) => [name, Number(number)]);
            assert.deepEqual(Object.fromEntries(typed), { ...yuzuknoll[group] }, group);
        }
        for (const [, name, number] of types.matchAll(/^export const (\w+): (\d+);/gm)) assert.equal(yuzuknoll[name], Number(number), name);
    },

    "the examples print what they print in C": () => {
        const lines = [];
        printExamples(library, (line) => lines.push(line));
        assert.equal(`${lines.join("\n")}\n`, readFileSync(new URL("examples/expected.txt", root), "latin1"));
    },

    "the fixed list": () => {
        const list = readFileSync(new URL("crates/replay/data/answers.bin", root));
        let cases = 0;
        for (let at = 0; at < list.length; cases++) {
            const [input, output] = [0, 0].map(() => {
                const start = at + 4;
                at = start + list.readUInt32LE(at);
                return list.subarray(start, at);
            });
            assert.equal(printed(input), output.toString("latin1"), `case ${cases}`);
        }
        assert.ok(cases > 1000);
    },

    "a field goes to its bytes": () => {
        const numbers = Array.from({ length: 72 }, (_, i) => i + 10);
        const combiner = (from) => ({ op: from, arg1: from + 1, arg2: from + 2 });
        const stage = (i) => ({ colour: combiner(10 + 9 * i), alpha: combiner(13 + 9 * i), colourArg0: 16 + 9 * i, alphaArg0: 17 + 9 * i, flags: i % 4 });
        const stages = Array.from({ length: 8 }, (_, i) => stage(i));
        const wide = Uint8Array.of(Kind.WIDE_KEY, ...numbers.map((n, i) => (i % 9 === 8 ? Math.floor(i / 9) % 4 : n)), 1, 99);
        assert.deepEqual(library.toBytes({ kind: Kind.WIDE_KEY, value: { stages, specular: true, projected: 99 } }), wide);
        const narrow = stages.map(({ colour, alpha, flags }) => ({ colour, alpha, flags }));
        const withoutArguments0 = wide.filter((_, i) => i === 0 || i > 72 || ((i - 1) % 9 !== 6 && (i - 1) % 9 !== 7));
        withoutArguments0[0] = Kind.KEY;
        assert.deepEqual(library.toBytes({ kind: Kind.KEY, value: { stages: narrow, specular: true, projected: 99 } }), withoutArguments0);
        const masks = ["depthSampler", "depthFetch", "fetch4", "fetch4Alpha", "rawDepthRed", "volume", "cube"];
        const variant = { alphaFunction: 1, fogMode: 2, fogTableMode: 3, sampleMask: 4, flags: 5 };
        masks.forEach((mask, i) => (variant[mask] = 0x1020 + i * 0x101));
        const variantBytes = [Kind.VARIANT, 1, 2, 3, ...masks.flatMap((_, i) => [0x20 + i, 0x10 + i]), 4, 5];
        assert.deepEqual([...library.toBytes({ kind: Kind.VARIANT, value: variant })], variantBytes);
        const write = { stage: 7, type: State.COLOUR_OP, value: 0xab };
        assert.deepEqual([...library.toBytes({ kind: Kind.STATE, value: write })], [Kind.STATE, 7, 1, 0xab, 0, 0, 0]);
        assert.deepEqual([...library.toBytes({ kind: Kind.ENTRY, value: "ab" })], [Kind.ENTRY, 2, 97, 98, ...Array(30).fill(0)]);
        assert.deepEqual([...library.toBytes({ kind: Kind.EMIT })], [Kind.EMIT]);
    },

    "what is left out has its default": () => {
        const disabled = [1, 0, 0, 1, 0, 0, 0];
        assert.deepEqual([...library.toBytes({ kind: Kind.KEY, value: {} })], [Kind.KEY, ...Array(8).fill(disabled).flat(), 0, 0]);
        const wide = library.toBytes({ kind: Kind.WIDE_KEY, value: { stages: [undefined] } });
        assert.deepEqual([...wide], [Kind.WIDE_KEY, ...Array(8).fill([1, 0, 0, 1, 0, 0, 1, 1, 0]).flat(), 0, 0]);
        assert.deepEqual([...library.toBytes({ kind: Kind.VARIANT, value: {} })], [Kind.VARIANT, ...Array(19).fill(0)]);
    },

    "a record that is read is written as it was": () => {
        const seen = new Set();
        for (let n = 0; n < 20000; n++) {
            const bytes = someBytes(80, n % 2 === 0 ? 4 : 256);
            bytes[0] = 1 + below(6);
            if (bytes[0] === Kind.ENTRY) bytes.fill(0, 2 + (bytes[1] = 3)).fill(97 + below(26), 2, 5);
            try {
                const { record, taken } = library.read(bytes);
                const out = new Uint8Array(90).fill(0xa5);
                assert.equal(library.write(record, out), taken);
                assert.deepEqual(out.subarray(0, taken), bytes.subarray(0, taken));
                assert.ok(out.subarray(taken).every((byte) => byte === 0xa5));
                seen.add(record.kind);
            } catch (error) {
                if (!(error instanceof Refusal)) throw error;
            }
        }
        assert.equal(seen.size, 6);
    },

    "a text by value is the text by records": () => {
        for (let n = 0; n < 2000; n++) {
            const wide = n % 2 === 1;
            const kind = wide ? Kind.WIDE_KEY : Kind.KEY;
            const bytes = someBytes(wide ? 75 : 59, 28);
            const perStage = wide ? 9 : 7;
            for (let stage = 1; stage <= 8; stage++) bytes[stage * perStage] %= 4;
            bytes[0] = kind;
            bytes[bytes.length - 2] %= 2;
            const variantBytes = someBytes(20);
            variantBytes[0] = Kind.VARIANT;
            variantBytes[19] %= 64;
            const session = library.session();
            for (const record of [bytes, variantBytes, library.toBytes({ kind: Kind.ENTRY, value: "m" })]) session.apply(record);
            const emit = (wide ? library.emitWide : library.emit).bind(library);
            const emission = emit(session.key.value, session.variant, session.entry);
            assert.deepEqual(session.apply(Uint8Array.of(Kind.EMIT)), { kind: Kind.EMIT, taken: 1, emission });
        }
    },

    "each cause of a refusal": () => {
        assert.throws(() => library.emit({ stages: [{ ...lit, flags: 4 }] }, {}, "m"), refused(Cause.STAGE_FLAGS));
        assert.throws(() => library.emitWide({ stages: [{ flags: 255 }] }, {}, "m"), refused(Cause.STAGE_FLAGS));
        assert.throws(() => library.emit(key, { flags: 64 }, "m"), refused(Cause.VARIANT_FLAGS));
        const long = [33, 255, 256, 288, 100000].map((length) => "a".repeat(length));
        for (const name of ["", "1a", "a b", "é", "a\0", "\0", "\ud800", "a\u{10ffff}", ...long])
            assert.throws(() => library.emit(key, {}, name), refused(Cause.ENTRY_NAME), JSON.stringify(name.slice(0, 40)));
        assert.ok(library.emit(key, {}, "a".repeat(32)).text.includes("a".repeat(32)));
        for (const name of ["main", "t0", "float4"]) assert.throws(() => library.emit(key, {}, name), refused(Cause.RESERVED_WORD));
        assert.throws(() => library.emit(key, {}, "m", new Uint8Array(100)), refused(Cause.NO_ROOM));
        assert.throws(() => library.write({ kind: Kind.KEY, value: key }, new Uint8Array(58)), refused(Cause.NO_ROOM));
        assert.throws(() => library.read(new Uint8Array(0)), refused(Cause.CUT_SHORT));
        assert.throws(() => library.read(Uint8Array.of(Kind.VARIANT, 0)), refused(Cause.CUT_SHORT));
        assert.throws(() => library.read(Uint8Array.of(7)), refused(Cause.UNKNOWN_KIND));
        const specular = library.toBytes({ kind: Kind.KEY, value: key });
        specular[57] = 2;
        assert.throws(() => library.read(specular), refused(Cause.SPECULAR_ADD));
        assert.throws(() => library.session().apply(Uint8Array.of(Kind.EMIT)), refused(Cause.EMIT_TOO_EARLY));
        const write = (stage, type, value) => () => library.toBytes({ kind: Kind.STATE, value: { stage, type, value } });
        assert.throws(write(8, State.COLOUR_OP, 1), refused(Cause.STAGE_NUMBER));
        assert.throws(write(0, 7, 1), refused(Cause.STATE_TYPE));
        assert.throws(write(0, State.RESULT_ARG, 2), refused(Cause.STATE_VALUE));
        assert.throws(write(0, State.COLOUR_OP, 0xffffffff), refused(Cause.STATE_VALUE));
    },

    "a buffer gets the text and keeps what is behind it": () => {
        const { text, length } = library.emit(key, {}, "m");
        for (const room of [length, length + 1, TEXT_LENGTH, 3 * TEXT_LENGTH]) {
            const buffer = new Uint8Array(room).fill(0xa5);
            assert.equal(library.emit(key, {}, "m", buffer).text, text);
            assert.equal(Buffer.from(buffer.subarray(0, length)).toString("latin1"), text);
            assert.ok(buffer.subarray(length).every((byte) => byte === 0xa5));
        }
        for (const room of [0, 1, length - 1]) {
            const buffer = new Uint8Array(room).fill(0xa5);
            assert.throws(() => library.emit(key, {}, "m", buffer), refused(Cause.NO_ROOM));
            assert.ok(buffer.every((byte) => byte === 0xa5));
        }
    },

    "a refused record leaves the session": () => {
        const session = library.session();
        session.apply(library.toBytes({ kind: Kind.KEY, value: key }));
        const before = session.held;
        assert.throws(() => session.apply(Uint8Array.of(9)), refused(Cause.UNKNOWN_KIND));
        assert.throws(() => session.apply(Uint8Array.of(Kind.EMIT)), refused(Cause.EMIT_TOO_EARLY));
        assert.throws(() => session.apply("records"), bad("records"));
        assert.throws(() => session.apply(Uint8Array.of(Kind.EMIT), []), bad("buffer"));
        assert.deepEqual(session.held, before);
        before.fill(0);
        assert.equal(session.key.value.stages[0].colour.op, Op.MODULATE);
        assert.equal(library.session(session.held).key.kind, Kind.KEY);
        assert.equal(library.session(before).key, undefined);
        assert.equal(library.session(someBytes(HELD_LENGTH, 1).fill(3, 75, 76)).variant, undefined);
    },

    "a key from state writes": () => {
        const session = library.session();
        const write = (stage, type, value) => session.apply(library.toBytes({ kind: Kind.STATE, value: { stage, type, value } }));
        assert.deepEqual(write(0, State.TEXTURE_BOUND, 1), { kind: Kind.STATE, taken: 7 });
        assert.equal(session.key.kind, Kind.KEY);
        write(1, State.COLOUR_ARG0, Argument.TFACTOR);
        assert.equal(session.key.kind, Kind.WIDE_KEY);
        assert.deepEqual(session.key.value.stages[1], {
            colour: { op: Op.DISABLE, arg1: Argument.TEXTURE, arg2: Argument.CURRENT },
            alpha: { op: Op.DISABLE, arg1: Argument.TEXTURE, arg2: Argument.CURRENT },
            colourArg0: Argument.TFACTOR,
            alphaArg0: Argument.CURRENT,
            flags: 0,
        });
    },

    "passes over entries, side by side": () => {
        const [one, other] = [library.entryPass(), library.entryPass()];
        const typed = [..."wind screen"].map((letter) => letter.charCodeAt(0));
        [one, other].forEach((pass) => pass.step(32));
        const possible = typed.map((byte) => {
            one.step(byte);
            other.step(97);
            assert.ok(other.possible);
            return one.possible;
        });
        assert.equal(possible.indexOf(false), 4);
        for (const byte of [-1, 256, 1.5, "a", undefined, null, NaN, 1n]) assert.throws(() => other.step(byte), bad("byte"));
        assert.ok(other.possible);
    },

    "warnings in words": () => {
        const plain = { colour: { op: Op.SELECTARG1 } };
        const unknown = { colour: { op: 17, arg1: 9, arg2: 0x81 } };
        const { warnings } = library.emit({ stages: [plain, plain, unknown] }, { alphaFunction: 9 }, "m");
        assert.deepEqual(warnings, { op: 4, selector: 4, modifier: 4, alpha: true });
        const words = ["stage 2: unsupported op", "stage 2: unsupported argument", "stage 2: unsupported modifier", "unsupported alpha function"];
        assert.deepEqual(describeWarnings(warnings), words);
        assert.deepEqual(describeWarnings(library.emit(key, {}, "m").warnings), []);
    },

    "a value without bytes is named": () => {
        const cases = {
            key: [undefined, null, 1, "key", [], () => {}, true, Symbol("key")],
            "key.stages": [null, 8, "", {}, Array(9).fill(lit), new Uint8Array(8)].map((stages) => ({ stages })),
            "key.stages[1]": [null, 1, [], "", false].map((stage) => ({ stages: [lit, stage] })),
            "key.stages[0].colour": [null, 4, []].map((colour) => ({ stages: [{ colour }] })),
            "key.stages[7].alpha.op": [256, -1, 0.5, "4", null, NaN, Infinity, 4n, {}, [4]].map((op) => ({ stages: [...Array(7), { alpha: { op } }] })),
            "key.stages[0].color": [{ stages: [{ color: {} }] }],
            "key.specular": [0, 1, "true", null].map((specular) => ({ specular })),
            "key.projected": [{ projected: 256 }],
        };
        for (const [path, values] of Object.entries(cases))
            for (const value of values) for (const emit of ["emit", "emitWide"]) assert.throws(() => library[emit](value, {}, "m"), bad(path), path);
        assert.throws(() => library.emit({ stages: [{ colourArg0: 1 }] }, {}, "m"), bad("key.stages[0].colourArg0"));
        assert.throws(() => library.emit(key, { cube: 65536 }, "m"), bad("variant.cube"));
        assert.throws(() => library.emit(key, null, "m"), bad("variant"));
        for (const name of [undefined, null, 1, {}, ["m"], Symbol("m")]) assert.throws(() => library.emit(key, {}, name), bad("entry"));
        for (const buffer of [null, 16384, [], new ArrayBuffer(9), new Uint16Array(9)]) assert.throws(() => library.emit(key, {}, "m", buffer), bad("buffer"));
        const feigned = { [Symbol.toStringTag]: "Uint8Array", length: 1 };
        for (const bytes of [undefined, null, "abc", [1], new DataView(new ArrayBuffer(9)), feigned]) assert.throws(() => library.read(bytes), bad("bytes"));
        for (const record of [undefined, null, 4]) assert.throws(() => library.toBytes(record), bad("record"));
        for (const kind of [undefined, 0, 7, 1.5, "4", "toString"]) assert.throws(() => library.toBytes({ kind }), bad("record.kind"));
        assert.throws(() => library.toBytes({ kind: Kind.EMIT, value: 0 }), bad("record.value"));
        assert.throws(() => library.toBytes({ kind: Kind.KEY }), bad("record.value"));
        assert.throws(() => library.toBytes({ kind: Kind.KEY, key }), bad("record.key"));
        assert.throws(() => library.toBytes({ kind: Kind.STATE, value: { value: 2 ** 32 } }), bad("record.value.value"));
        assert.throws(() => library.write({ kind: Kind.EMIT }, null), bad("out"));
        for (const warnings of [undefined, null, 1]) assert.throws(() => describeWarnings(warnings), bad("warnings"));
        assert.throws(() => describeWarnings({ op: 1n }), bad("warnings.op"));
        for (const held of [null, [], new Uint8Array(128)]) assert.throws(() => library.session(held), bad("held"));
    },

    "nothing else is thrown, whatever is given": () => {
        const plain = [undefined, null, true, false, 0, 1, 2, 3, 4, 25, 255, 256, -1, 0.5, NaN, 1n, "", "m", "main", Symbol("s"), () => 1];
        const objects = [[], {}, key, lit, new Uint8Array(59), someBytes(HELD_LENGTH), Uint8Array.of(4), Object.create(null), new Map(), new Date(0)];
        const pool = [...plain, ...objects];
        const any = () => pool[below(pool.length)];
        const some = () => {
            const value = {};
            for (const field of ["stages", "specular", "projected", "colour", "op", "flags", "kind", "value", "cube"]) if (below(3) === 0) value[field] = any();
            if (below(2) === 0) value.stages = Array.from({ length: below(10) }, () => (below(2) === 0 ? lit : any()));
            return value;
        };
        // Good values among the others, so that calls come far.
        const given = (good) => (below(3) !== 0 ? good : below(2) === 0 ? any() : some());
        const counts = { given: 0, refused: 0, bad: 0 };
        for (let n = 0; n < 30000; n++) {
            const calls = [
                () => library.emit(given(key), given({}), given("m"), any()),
                () => library.emitWide(given(key), given({}), given("m"), given(undefined)),
                () => library.read(given(someBytes(80, 7))),
                () => library.write(given({ kind: Kind.KEY, value: key }), given(new Uint8Array(below(90)))),
                () => library.toBytes({ kind: below(8), value: given(key) }),
                () => library.session(given(undefined)).apply(given(someBytes(80, 7)), any()),
                () => library.entryPass().step(any()),
                () => describeWarnings(given({ op: any(), alpha: any() })),
            ];
            try {
                calls[n % calls.length]();
                counts.given++;
            } catch (error) {
                if (error instanceof Refusal) counts.refused++;
                else if (error instanceof BadValue) counts.bad++;
                else throw error;
            }
        }
        for (const count of Object.values(counts)) assert.ok(count > 300, JSON.stringify(counts));
        assert.equal(library.emit(key, {}, "m").lookups, 1);
    },

    "a getter that calls the library disturbs nothing": () => {
        const getter = {
            get stages() {
                library.emit({ stages: [lit, lit, lit] }, { flags: VariantFlags.SRGB_WRITE }, "other");
                return [lit];
            },
        };
        const { text } = library.emit(key, {}, "m");
        assert.equal(library.emit(getter, {}, "m").text, text);
    },

    "two libraries, and sources of each kind": async () => {
        const others = [new WebAssembly.Module(wasm), wasm.buffer.slice(wasm.byteOffset, wasm.byteOffset + wasm.length), Promise.resolve(wasm)];
        if (typeof Response !== "undefined") others.push(new Response(wasm), Promise.resolve(new Response(wasm)));
        for (const source of others) assert.equal((await load(source)).emit(key, {}, "m").text, library.emit(key, {}, "m").text);
        const empty = Uint8Array.of(0, 0x61, 0x73, 0x6d, 1, 0, 0, 0);
        await assert.rejects(load(empty), bad("source"));
        if (typeof Response !== "undefined") await assert.rejects(load(new Response("", { status: 404 })), bad("source"));
        await assert.rejects(load(Uint8Array.of(1)), WebAssembly.CompileError);
        await assert.rejects(load("yuzuknoll.wasm"), TypeError);
    },

    "a resident page does not grow": () => {
        const { memory } = new WebAssembly.Instance(new WebAssembly.Module(wasm), {}).exports;
        assert.throws(() => memory.grow(1), RangeError);
        const round = (count) => {
            const session = library.session();
            const buffer = new Uint8Array(TEXT_LENGTH);
            const records = [{ kind: Kind.KEY, value: key }, { kind: Kind.VARIANT, value: {} }, { kind: Kind.ENTRY, value: "m" }, { kind: Kind.EMIT }];
            const bytes = records.map((record) => library.toBytes(record));
            for (let n = 0; n < count; n++) {
                library.emit(key, { fogMode: n % 4 }, "m", buffer);
                library.emitWide({ stages: [lit, lit] }, {}, "m");
                session.apply(bytes[n % 4], n < 4 ? undefined : buffer);
                library.read(bytes[n % 4]);
                const pass = library.entryPass();
                pass.step(n % 256);
                try {
                    library.session().apply(bytes[3]);
                } catch (error) {
                    assert.ok(error instanceof Refusal);
                }
            }
            globalThis.gc?.();
            const { heapUsed, external, arrayBuffers } = process.memoryUsage();
            return heapUsed + external + arrayBuffers;
        };
        round(10000);
        const before = round(10000);
        const after = round(40000);
        assert.ok(after - before < 500000, `${after - before} bytes more after 40,000 rounds`);
    },
};

/** What the program ffps prints of an input. */
function printed(input) {
    const session = library.session();
    const lines = [];
    let texts = 0;
    for (let at = 0; at < input.length; ) {
        try {
            const { taken, emission } = session.apply(input.subarray(at));
            at += taken;
            if (emission === undefined) continue;
            const { op, selector, modifier, alpha } = emission.warnings;
            lines.push(`emit ${emission.mask} ${emission.rows} ${emission.lookups} ${op} ${selector} ${modifier} ${Number(alpha)}\n${emission.text}`);
            texts++;
        } catch (refusal) {
            if (!(refusal instanceof Refusal)) throw refusal;
            lines.push(`refused ${refusal.number} at ${at}\n`);
            return lines.join("");
        }
    }
    return `${lines.join("")}end ${texts}\n`;
}

let failed = 0;
for (const [name, test] of Object.entries(tests)) {
    try {
        await test();
    } catch (error) {
        failed++;
        console.log(`${name}: ${error.stack}`);
    }
}
console.log(`${Object.keys(tests).length - failed} tests passed, ${failed} failed`);
process.exitCode = failed === 0 ? 0 : 1;
