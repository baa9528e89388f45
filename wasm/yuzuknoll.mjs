// Metal fragment functions for the fixed-function pixel stages of Direct3D 9: the calls of include/yuzuknoll.h over yuzuknoll.wasm, which ports/build
// makes. The types, with a line on each call, are in yuzuknoll.d.mts. docs/PORTS.md has an example.
//
// A call throws nothing but a Refusal, for a cause that the library has a number for, or a BadValue, for a value that no byte can hold. Then nothing is
// modified. The module's memory has a fixed size, and what a call puts there is overwritten by the next, so that a resident page needs no clean-up.

// ---- Codes ----

/** What a stage computes of its arguments (D3DTOP_...). */
export const Op = Object.freeze({
    DISABLE: 1,
    SELECTARG1: 2,
    SELECTARG2: 3,
    MODULATE: 4,
    MODULATE2X: 5,
    MODULATE4X: 6,
    ADD: 7,
    ADDSIGNED: 8,
    ADDSIGNED2X: 9,
    SUBTRACT: 10,
    ADDSMOOTH: 11,
    BLENDDIFFUSEALPHA: 12,
    BLENDTEXTUREALPHA: 13,
    BLENDFACTORALPHA: 14,
    BLENDTEXTUREALPHAPM: 15,
    BLENDCURRENTALPHA: 16,
    MODULATEALPHA_ADDCOLOR: 18,
    MODULATECOLOR_ADDALPHA: 19,
    MODULATEINVALPHA_ADDCOLOR: 20,
    MODULATEINVCOLOR_ADDALPHA: 21,
    BUMPENVMAP: 22,
    BUMPENVMAPLUMINANCE: 23,
    DOTPRODUCT3: 24,
    MULTIPLYADD: 25,
    LERP: 26,
});

/** The arguments of an op (D3DTA_...). The last two are modifiers, to be added to one of the others. */
export const Argument = Object.freeze({
    DIFFUSE: 0,
    CURRENT: 1,
    TEXTURE: 2,
    TFACTOR: 3,
    SPECULAR: 4,
    TEMP: 5,
    CONSTANT: 6,
    COMPLEMENT: 0x10,
    ALPHAREPLICATE: 0x20,
});

/** The comparisons of the alpha test (D3DCMP_...). */
export const Comparison = Object.freeze({ NONE: 0, NEVER: 1, LESS: 2, EQUAL: 3, LESSEQUAL: 4, GREATER: 5, NOTEQUAL: 6, GREATEREQUAL: 7, ALWAYS: 8 });

/** How fog grows with the distance (D3DFOG_...). */
export const FogMode = Object.freeze({ NONE: 0, EXP: 1, EXP2: 2, LINEAR: 3 });

/** The flags of a stage, to be added. */
export const StageFlags = Object.freeze({ NONE: 0, TEXTURED: 1, TO_TEMP: 2 });

/** The flags of a variant, to be added. */
export const VariantFlags = Object.freeze({
    NONE: 0,
    FLAT_SHADE: 1,
    SRGB_WRITE: 2,
    SAMPLE_MASK: 4,
    POINT_SPRITE: 8,
    LOD_BIAS: 16,
    FOG_SOURCE_W: 32,
});

/** The types of state writes (D3DTSS_...), but for TEXTURE_BOUND, which is ours. */
export const State = Object.freeze({
    TEXTURE_BOUND: 0,
    COLOUR_OP: 1,
    COLOUR_ARG1: 2,
    COLOUR_ARG2: 3,
    ALPHA_OP: 4,
    ALPHA_ARG1: 5,
    ALPHA_ARG2: 6,
    COLOUR_ARG0: 26,
    ALPHA_ARG0: 27,
    RESULT_ARG: 28,
});

/** The kinds of records. */
export const Kind = Object.freeze({ KEY: 1, VARIANT: 2, ENTRY: 3, EMIT: 4, STATE: 5, WIDE_KEY: 6 });

/** The causes of a refusal. */
export const Cause = Object.freeze({
    CUT_SHORT: 1,
    UNKNOWN_KIND: 2,
    STAGE_FLAGS: 3,
    SPECULAR_ADD: 4,
    VARIANT_FLAGS: 5,
    ENTRY_NAME: 6,
    EMIT_TOO_EARLY: 7,
    NO_ROOM: 8,
    INPUT_TOO_LONG: 9,
    STAGE_NUMBER: 10,
    STATE_TYPE: 11,
    STATE_VALUE: 12,
    RESERVED_WORD: 13,
});

const CAUSES = Object.freeze({
    [Cause.CUT_SHORT]: "the record is cut short",
    [Cause.UNKNOWN_KIND]: "the record is of no known kind",
    [Cause.STAGE_FLAGS]: "a stage has an unknown flag",
    [Cause.SPECULAR_ADD]: "the specular byte of the key is neither 0 nor 1",
    [Cause.VARIANT_FLAGS]: "the variant has an unknown flag",
    [Cause.ENTRY_NAME]: "the entry is no valid name",
    [Cause.EMIT_TOO_EARLY]: "emit came before a key, a variant and an entry",
    [Cause.NO_ROOM]: "the buffer is too short",
    [Cause.INPUT_TOO_LONG]: "the input is too long",
    [Cause.STAGE_NUMBER]: "a state write has a stage above 7",
    [Cause.STATE_TYPE]: "a state write has an unknown type",
    [Cause.STATE_VALUE]: "a state write has a value that its type does not take",
    [Cause.RESERVED_WORD]: "the entry is a reserved word",
});

/** No text has more bytes than this, so a buffer of this length takes every text. */
export const TEXT_LENGTH = 16384;

/** The length of the longest text of a key, with an entry of 32 bytes. With an entry of n bytes the longest text is 32 - n bytes shorter. */
export const KEY_TEXT_LENGTH = 6516;

/** The length of the longest text of a wide key, with an entry of 32 bytes. With an entry of n bytes the longest text is 32 - n bytes shorter. */
export const WIDE_KEY_TEXT_LENGTH = 6657;

/** How many stages a key has. */
export const STAGES = 8;

/** How many bytes a session holds, and where the records in them begin. */
export const HELD_LENGTH = 129;
export const HELD_KEY = 0;
export const HELD_VARIANT = 75;
export const HELD_ENTRY = 95;

// ---- Errors ----

/** Why the library refuses a call. */
export class Refusal extends Error {
    /** @param {number} number one of Cause */
    constructor(number) {
        super(`refused with ${number}: ${CAUSES[number] ?? "the cause has no name here"}`);
        this.name = "Refusal";
        this.number = number;
    }
}

/** A value that has no bytes, such as an op of 256, a ninth stage or a field that there is not. */
export class BadValue extends TypeError {
    /** @param {string} path which value, such as key.stages[2].colour.op @param {string} expected what it should be */
    constructor(path, expected) {
        super(`${path} is not ${expected}`);
        this.name = "BadValue";
        this.path = path;
    }
}

// ---- Values and their bytes ----

// A layout puts a value into bytes at a place, and gets it back. A field that is left out has its default. Where a value stands is said by what it is in,
// and is put into words only for an error.

const pathOf = (outer, step) => (outer === null ? step : pathOf(outer.outer, outer.step) + step);

const number = (size, most, expected, byDefault = 0) => ({
    size,
    put(bytes, at, value = byDefault, outer, step) {
        if (!Number.isInteger(value) || value < 0 || value > most) throw new BadValue(pathOf(outer, step), expected);
        bytes[at] = value;
        for (let i = 1; i < size; i++) bytes[at + i] = Math.floor(value / 256 ** i);
    },
    get(bytes, at) {
        let value = 0;
        for (let i = size; i-- > 0; ) value = value * 256 + bytes[at + i];
        return value;
    },
});

const byte = (byDefault) => number(1, 0xff, "a number from 0 to 255", byDefault);
const mask = number(2, 0xffff, "a number from 0 to 65535");
const long = number(4, 0xffffffff, "a number from 0 to 4294967295");

const flag = {
    size: 1,
    put(bytes, at, value = false, outer, step) {
        if (typeof value !== "boolean") throw new BadValue(pathOf(outer, step), "true or false");
        bytes[at] = value ? 1 : 0;
    },
    get: (bytes, at) => bytes[at] !== 0,
};

const struct = (fields) => {
    const parts = Object.entries(fields).map(([name, field]) => ({ name, field, step: `.${name}` }));
    return {
        size: parts.reduce((sum, { field }) => sum + field.size, 0),
        put(bytes, at, value = {}, outer, step) {
            const here = { outer, step };
            if (typeof value !== "object" || value === null || Array.isArray(value)) throw new BadValue(pathOf(outer, step), "an object");
            for (const name of Object.keys(value))
                if (!Object.hasOwn(fields, name)) throw new BadValue(pathOf(here, `.${name}`), `one of the fields ${Object.keys(fields).join(", ")}`);
            for (const part of parts) {
                part.field.put(bytes, at, value[part.name], here, part.step);
                at += part.field.size;
            }
        },
        get(bytes, at) {
            const value = {};
            for (const { name, field } of parts) {
                value[name] = field.get(bytes, at);
                at += field.size;
            }
            return value;
        },
    };
};

const eight = (element) => ({
    size: STAGES * element.size,
    put(bytes, at, value = [], outer, step) {
        const here = { outer, step };
        if (!Array.isArray(value) || value.length > STAGES) throw new BadValue(pathOf(outer, step), "an array of at most eight stages");
        for (let i = 0; i < STAGES; i++) element.put(bytes, at + i * element.size, value[i], here, `[${i}]`);
    },
    get: (bytes, at) => Array.from({ length: STAGES }, (_, i) => element.get(bytes, at + i * element.size)),
});

const utf8 = new TextEncoder();
const ascii = new TextDecoder();
const NAME_LENGTH = 32;

// The library decides what a name is, its length included. A name whose length has no byte is given one that it refuses.
const name = {
    size: 1 + NAME_LENGTH,
    put(bytes, at, value, outer, step) {
        if (typeof value !== "string") throw new BadValue(pathOf(outer, step), "a string");
        const { read, written } = utf8.encodeInto(value, bytes.subarray(at + 1, at + 1 + NAME_LENGTH));
        bytes[at] = read === value.length ? written : 0xff;
        bytes.fill(0, at + 1 + written, at + 1 + NAME_LENGTH);
    },
    get: (bytes, at) => ascii.decode(bytes.subarray(at + 1, at + 1 + bytes[at])),
};

const combiner = struct({ op: byte(Op.DISABLE), arg1: byte(), arg2: byte() });
const stage = struct({ colour: combiner, alpha: combiner, flags: byte() });
const wideStage = struct({ colour: combiner, alpha: combiner, colourArg0: byte(Argument.CURRENT), alphaArg0: byte(Argument.CURRENT), flags: byte() });
const key = struct({ stages: eight(stage), specular: flag, projected: byte() });
const wideKey = struct({ stages: eight(wideStage), specular: flag, projected: byte() });
const variant = struct({
    alphaFunction: byte(),
    fogMode: byte(),
    fogTableMode: byte(),
    depthSampler: mask,
    depthFetch: mask,
    fetch4: mask,
    fetch4Alpha: mask,
    rawDepthRed: mask,
    volume: mask,
    cube: mask,
    sampleMask: byte(),
    flags: byte(),
});
const stateWrite = struct({ stage: byte(), type: byte(), value: long });
const nothing = {
    size: 0,
    put(bytes, at, value, outer, step) {
        if (value !== undefined) throw new BadValue(pathOf(outer, step), "left out");
    },
    get: () => undefined,
};

/** The body of a record, by its kind. */
const BODIES = Object.freeze({
    [Kind.KEY]: key,
    [Kind.VARIANT]: variant,
    [Kind.ENTRY]: name,
    [Kind.EMIT]: nothing,
    [Kind.STATE]: stateWrite,
    [Kind.WIDE_KEY]: wideKey,
});

/** No record has more bytes. */
const MOST_RECORD_LENGTH = 1 + wideKey.size;

// The bytes are made aside, and go to the module's memory when all of a call's are there.
function encode(layout, value, path) {
    if (value === undefined && layout !== nothing) throw new BadValue(path, "given");
    const bytes = new Uint8Array(layout.size);
    layout.put(bytes, 0, value, null, path);
    return bytes;
}

function encodeRecord(record) {
    if (typeof record !== "object" || record === null) throw new BadValue("record", "an object");
    const unknown = Object.keys(record).find((field) => field !== "kind" && field !== "value");
    if (unknown !== undefined) throw new BadValue(`record.${unknown}`, "one of the fields kind, value");
    const { kind, value } = record;
    if (!Number.isInteger(kind) || !Object.hasOwn(BODIES, kind)) throw new BadValue("record.kind", "one of Kind");
    return Uint8Array.of(kind, ...encode(BODIES[kind], value, "record.value"));
}

// A record that the library accepts.
function decodeRecord(bytes, at) {
    const kind = bytes[at];
    return kind === Kind.EMIT ? { kind } : { kind, value: BODIES[kind].get(bytes, at + 1) };
}

// Not instanceof, since an array may come from another frame. This names the type of an array, and nothing else has one.
const typeOfArray = Object.getOwnPropertyDescriptor(Object.getPrototypeOf(Uint8Array.prototype), Symbol.toStringTag).get;

function checkBytes(value, path) {
    if (typeOfArray.call(value) !== "Uint8Array") throw new BadValue(path, "a Uint8Array");
}

// ---- Warnings ----

const warningMasks = struct({ op: byte(), selector: byte(), modifier: byte(), alpha: flag });

/**
 * The warnings of an emission in words, one by one: those of a stage together, in rising order of the stages, and that of the alpha function last.
 * @param {import("./yuzuknoll.mjs").Warnings} warnings
 * @returns {string[]}
 */
export function describeWarnings(warnings) {
    const [op, selector, modifier, alpha] = encode(warningMasks, warnings, "warnings");
    const causes = [
        [op, "unsupported op"],
        [selector, "unsupported argument"],
        [modifier, "unsupported modifier"],
    ];
    const words = [];
    for (let i = 0; i < STAGES; i++) for (const [stages, what] of causes) if ((stages >> i) & 1) words.push(`stage ${i}: ${what}`);
    if (alpha !== 0) words.push("unsupported alpha function");
    return words;
}

// ---- The library ----

const FUNCTIONS = ["emit", "emit_wide", "read", "write", "apply", "entry_start", "entry_step", "entry_possible"].map((call) => `yuzuknoll_${call}`);

// What a call is lent in the module's memory, and its length.
const REPORT_LENGTH = 80;
const STATE_LENGTH = 24;
const LENT = Object.entries({
    report: REPORT_LENGTH,
    state: STATE_LENGTH,
    key: wideKey.size,
    variant: variant.size,
    entry: name.size,
    held: HELD_LENGTH,
    record: MOST_RECORD_LENGTH,
    out: MOST_RECORD_LENGTH,
    text: TEXT_LENGTH,
});

/**
 * Loads yuzuknoll.wasm: from bytes, a compiled module, or what fetch gives.
 * @param {BufferSource | WebAssembly.Module | Response | PromiseLike<Response>} source
 * @returns {Promise<import("./yuzuknoll.mjs").Yuzuknoll>}
 */
export async function load(source) {
    let code = await source;
    if (typeof code?.arrayBuffer === "function") {
        if (code.ok === false) throw new BadValue("source", `a response that is ok, but one of status ${code.status}`);
        code = await code.arrayBuffer();
    }
    const module = code instanceof WebAssembly.Module ? code : await WebAssembly.compile(code);
    return new Yuzuknoll((await WebAssembly.instantiate(module, {})).exports);
}

class Yuzuknoll {
    #calls;
    #memory;
    #numbers;
    // Where in the module's memory a call's values stand. Places go as BigInt, since the module's pointers have 64 bits.
    #at = {};

    constructor(exports) {
        const known = FUNCTIONS.every((call) => typeof exports[call] === "function") && exports.memory instanceof WebAssembly.Memory;
        if (!known) throw new BadValue("source", "yuzuknoll.wasm");
        this.#calls = exports;
        this.#memory = new Uint8Array(exports.memory.buffer);
        this.#numbers = new DataView(exports.memory.buffer);
        let end = Number(exports.__heap_base.value);
        for (const [lent, length] of LENT) {
            this.#at[lent] = Math.ceil(end / 16) * 16;
            end = this.#at[lent] + length;
        }
        if (end > this.#memory.length) throw new BadValue("source", "yuzuknoll.wasm");
    }

    emit(keyValue, variantValue, entry, buffer) {
        return this.#emit(this.#calls.yuzuknoll_emit, key, keyValue, variantValue, entry, buffer);
    }

    emitWide(keyValue, variantValue, entry, buffer) {
        return this.#emit(this.#calls.yuzuknoll_emit_wide, wideKey, keyValue, variantValue, entry, buffer);
    }

    #emit(call, layout, keyValue, variantValue, entry, buffer) {
        const at = this.#at;
        const bytes = [encode(layout, keyValue, "key"), encode(variant, variantValue, "variant"), encode(name, entry, "entry")];
        const room = this.#room(buffer);
        const places = [at.key, at.variant, at.entry];
        bytes.forEach((value, i) => this.#memory.set(value, places[i]));
        this.#check(call(...places.map(BigInt), BigInt(at.text), room, BigInt(at.report)));
        return this.#emission(at.report, buffer);
    }

    read(bytes) {
        const at = this.#at;
        const length = this.#lendRecord(bytes, "bytes");
        this.#check(this.#calls.yuzuknoll_read(BigInt(at.record), length, BigInt(at.report)));
        return { record: decodeRecord(this.#memory, at.record), taken: this.#number(at.report, 1) };
    }

    write(record, out) {
        const at = this.#at;
        checkBytes(out, "out");
        const length = this.#lendRecord(encodeRecord(record), "record");
        const room = BigInt(Math.min(out.length, MOST_RECORD_LENGTH));
        this.#check(this.#calls.yuzuknoll_write(BigInt(at.record), length, BigInt(at.out), room, BigInt(at.report)));
        const taken = this.#number(at.report, 1);
        out.set(this.#memory.subarray(at.out, at.out + taken));
        return taken;
    }

    toBytes(record) {
        const bytes = new Uint8Array(MOST_RECORD_LENGTH);
        return bytes.slice(0, this.write(record, bytes));
    }

    session(held = new Uint8Array(HELD_LENGTH)) {
        checkBytes(held, "held");
        if (held.length !== HELD_LENGTH) throw new BadValue("held", `an array of ${HELD_LENGTH} bytes`);
        return new Session(this, (...given) => this.#apply(...given), held.slice());
    }

    #apply(held, records, buffer) {
        const at = this.#at;
        const room = this.#room(buffer);
        const length = this.#lendRecord(records, "records");
        this.#memory.set(held, at.held);
        this.#check(this.#calls.yuzuknoll_apply(BigInt(at.held), BigInt(at.record), length, BigInt(at.text), room, BigInt(at.report)));
        held.set(this.#memory.subarray(at.held, at.held + HELD_LENGTH));
        const [kind, taken] = [this.#number(at.report, 0), this.#number(at.report, 1)];
        return kind === Kind.EMIT ? { kind, taken, emission: this.#emission(at.report + 16, buffer) } : { kind, taken };
    }

    entryPass() {
        const place = BigInt(this.#at.state);
        const { yuzuknoll_entry_start, yuzuknoll_entry_step, yuzuknoll_entry_possible } = this.#calls;
        return new EntryPass(this.#memory.subarray(this.#at.state, this.#at.state + STATE_LENGTH), {
            start: () => yuzuknoll_entry_start(place),
            step: (next) => yuzuknoll_entry_step(place, next),
            possible: () => yuzuknoll_entry_possible(place) !== 0n,
        });
    }

    // Lends the front of some bytes: no record is longer, and the bytes after it do not matter.
    #lendRecord(bytes, path) {
        checkBytes(bytes, path);
        const front = bytes.subarray(0, MOST_RECORD_LENGTH);
        this.#memory.set(front, this.#at.record);
        return BigInt(front.length);
    }

    // The length of the text's buffer, which a caller's may shorten.
    #room(buffer) {
        if (buffer === undefined) return BigInt(TEXT_LENGTH);
        checkBytes(buffer, "buffer");
        return BigInt(Math.min(buffer.length, TEXT_LENGTH));
    }

    #check(answer) {
        if (answer !== 0n) throw new Refusal(Number(answer));
    }

    // It is proved that the numbers of a report are small.
    #number(at, index) {
        return this.#numbers.getUint32(at + 8 * index, true);
    }

    #emission(at, buffer) {
        const [length, stages, rows, lookups, op, selector, modifier, alpha] = Array.from({ length: 8 }, (_, i) => this.#number(at, i));
        const text = this.#memory.subarray(this.#at.text, this.#at.text + length);
        buffer?.set(text);
        return { text: ascii.decode(text), length, mask: stages, rows, lookups, warnings: { op, selector, modifier, alpha: alpha !== 0 } };
    }
}

class Session {
    #library;
    #apply;
    #held;

    constructor(library, apply, held) {
        this.#library = library;
        this.#apply = apply;
        this.#held = held;
    }

    apply(records, buffer) {
        return this.#apply(this.#held, records, buffer);
    }

    get held() {
        return this.#held.slice();
    }

    get key() {
        return this.#part(HELD_KEY, HELD_VARIANT, Kind.KEY, Kind.WIDE_KEY);
    }

    get variant() {
        return this.#part(HELD_VARIANT, HELD_ENTRY, Kind.VARIANT)?.value;
    }

    get entry() {
        return this.#part(HELD_ENTRY, HELD_LENGTH, Kind.ENTRY)?.value;
    }

    // The record at the front of a part, if it is a good one of its kinds.
    #part(start, end, ...kinds) {
        const part = this.#held.subarray(start, end);
        if (!kinds.includes(part[0])) return undefined;
        try {
            return this.#library.read(part).record;
        } catch (refusal) {
            if (refusal instanceof Refusal) return undefined;
            throw refusal;
        }
    }
}

class EntryPass {
    // The state stands in the module's memory only during a call, so that there can be any number of passes.
    #lent;
    #calls;
    #state = new Uint8Array(STATE_LENGTH);

    constructor(lent, calls) {
        this.#lent = lent;
        this.#calls = calls;
        this.#with(calls.start);
    }

    step(next) {
        if (!Number.isInteger(next) || next < 0 || next > 0xff) throw new BadValue("byte", "a number from 0 to 255");
        this.#with(() => this.#calls.step(next));
    }

    get possible() {
        return this.#with(this.#calls.possible);
    }

    #with(call) {
        this.#lent.set(this.#state);
        const answer = call();
        this.#state.set(this.#lent);
        return answer;
    }
}
