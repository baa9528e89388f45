// The programs of examples/c in JavaScript: node examples.mjs WASM prints what examples/expected.txt has.
import { readFile } from "node:fs/promises";
import { Argument, Comparison, FogMode, Kind, Op, Refusal, StageFlags, State, VariantFlags, describeWarnings, load } from "./yuzuknoll.mjs";

/** The argument as it is. */
const select = (arg1) => ({ op: Op.SELECTARG1, arg1 });

/** From values to a text: a lit texture to which the texture factor is added, with an alpha test. */
function emit(library, print) {
    const key = {
        stages: [
            {
                colour: { op: Op.MODULATE, arg1: Argument.TEXTURE, arg2: Argument.DIFFUSE },
                alpha: select(Argument.TEXTURE),
                flags: StageFlags.TEXTURED,
            },
            { colour: { op: Op.ADD, arg1: Argument.CURRENT, arg2: Argument.TFACTOR }, alpha: select(Argument.CURRENT) },
        ],
    };
    const { text, mask, rows, lookups, warnings } = library.emit(key, { alphaFunction: Comparison.GREATER }, "windscreen");
    const { op, selector, modifier, alpha } = warnings;
    print(`// mask ${mask}, rows ${rows}, lookups ${lookups}, warnings ${op} ${selector} ${modifier} ${Number(alpha)}\n${text.trimEnd()}`);
}

/** A stage that shows its texture, as it is or lit by the diffuse colour. */
const shown = (op) => ({ colour: { op, arg1: Argument.TEXTURE, arg2: Argument.DIFFUSE }, flags: StageFlags.TEXTURED });

/** From another program: an op and an argument that there are not here. */
const foreign = [
    shown(Op.SELECTARG1),
    { colour: { op: 17, arg1: Argument.CURRENT, arg2: Argument.DIFFUSE } },
    { colour: { op: Op.ADD, arg1: Argument.CURRENT, arg2: 9 } },
];

/** From records to texts: a stream of records, of which the last is cut short. */
function session(library, print) {
    const variant = { kind: Kind.VARIANT, value: { fogTableMode: FogMode.EXP, flags: VariantFlags.FOG_SOURCE_W } };
    const emitted = (stages) => [{ kind: Kind.KEY, value: { stages } }, { kind: Kind.EMIT }];
    const [key, request] = emitted([shown(Op.SELECTARG1)]);
    const entry = { kind: Kind.ENTRY, value: "mirror" };
    const records = [key, variant, entry, request, ...emitted([shown(Op.MODULATE)]), ...emitted(foreign), variant];
    const bytes = Uint8Array.from(records.flatMap((record) => [...library.toBytes(record)])).slice(0, -1);
    const held = library.session();
    for (let at = 0; at < bytes.length; ) {
        try {
            const { kind, taken, emission } = held.apply(bytes.subarray(at));
            print(emission ? `a text of ${emission.length} bytes with ${emission.lookups} lookup` : `a record of kind ${kind}, ${taken} bytes`);
            if (emission) for (const warning of describeWarnings(emission.warnings)) print(`  ${warning}`);
            at += taken;
        } catch (refusal) {
            if (!(refusal instanceof Refusal)) throw refusal;
            print(`refused with ${refusal.number} at ${at}`);
            return;
        }
    }
}

/** A state of Direct3D that no key has. */
const D3DTSS_TEXCOORDINDEX = 11;

/** From state writes to a text: a lit texture, and a detail texture that is added. The second write of an op counts. */
function states(library, print) {
    const scene = [
        { stage: 0, type: State.TEXTURE_BOUND, value: 1 },
        { stage: 0, type: State.COLOUR_ARG2, value: Argument.DIFFUSE },
        { stage: 1, type: State.TEXTURE_BOUND, value: 1 },
        { stage: 1, type: State.COLOUR_OP, value: Op.ADD },
        { stage: 1, type: D3DTSS_TEXCOORDINDEX, value: 0 },
        { stage: 1, type: State.COLOUR_OP, value: Op.ADDSIGNED },
    ];
    const held = library.session();
    scene.forEach((value, number) => {
        try {
            held.apply(library.toBytes({ kind: Kind.STATE, value }));
        } catch (refusal) {
            if (!(refusal instanceof Refusal)) throw refusal;
            print(`write ${number}: refused with ${refusal.number}`);
        }
    });
    held.key.value.stages.slice(0, 3).forEach(({ colour, alpha, flags }, number) => {
        const words = ({ op, arg1, arg2 }) => `${op} ${arg1} ${arg2}`;
        print(`stage ${number}: colour ${words(colour)}, alpha ${words(alpha)}, flags ${flags}`);
    });
    for (const record of [{ kind: Kind.VARIANT, value: {} }, { kind: Kind.ENTRY, value: "scene" }, { kind: Kind.EMIT }]) {
        const { emission } = held.apply(library.toBytes(record));
        if (emission) print(`a text of ${emission.length} bytes with ${emission.lookups} lookups`);
    }
}

/** Three operands: a texture and the diffuse colour blended by the texture factor, and added in alpha. */
function wide(library, print) {
    const key = {
        stages: [
            {
                colour: { op: Op.LERP, arg1: Argument.TEXTURE, arg2: Argument.DIFFUSE },
                colourArg0: Argument.TFACTOR,
                alpha: { op: Op.MULTIPLYADD, arg1: Argument.TEXTURE, arg2: Argument.DIFFUSE },
                alphaArg0: Argument.CONSTANT,
                flags: StageFlags.TEXTURED,
            },
        ],
    };
    const { text, mask, rows, lookups } = library.emitWide(key, {}, "blend");
    print(`mask ${mask}, rows ${rows}, lookups ${lookups}`);
    for (const line of text.split("\n")) if (line.startsWith("    current = ")) print(line);
}

export function printExamples(library, print) {
    for (const example of [emit, session, states, wide]) example(library, print);
}

if (import.meta.url === `file://${process.argv[1]}`) printExamples(await load(readFile(process.argv[2])), console.log);
