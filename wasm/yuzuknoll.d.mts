// The types of yuzuknoll.mjs. Every number is a byte, 0 to 255, unless it is said otherwise. A field that is left out has its default, which is given.

/** What a stage computes of its arguments, by Direct3D's number (D3DTOP_...). Another number gives argument 1, and a warning. */
export const Op: {
    readonly DISABLE: 1;
    readonly SELECTARG1: 2;
    readonly SELECTARG2: 3;
    readonly MODULATE: 4;
    readonly MODULATE2X: 5;
    readonly MODULATE4X: 6;
    readonly ADD: 7;
    readonly ADDSIGNED: 8;
    readonly ADDSIGNED2X: 9;
    readonly SUBTRACT: 10;
    readonly ADDSMOOTH: 11;
    readonly BLENDDIFFUSEALPHA: 12;
    readonly BLENDTEXTUREALPHA: 13;
    readonly BLENDFACTORALPHA: 14;
    readonly BLENDTEXTUREALPHAPM: 15;
    readonly BLENDCURRENTALPHA: 16;
    readonly MODULATEALPHA_ADDCOLOR: 18;
    readonly MODULATECOLOR_ADDALPHA: 19;
    readonly MODULATEINVALPHA_ADDCOLOR: 20;
    readonly MODULATEINVCOLOR_ADDALPHA: 21;
    readonly BUMPENVMAP: 22;
    readonly BUMPENVMAPLUMINANCE: 23;
    readonly DOTPRODUCT3: 24;
    /** Only in a WideKey. */
    readonly MULTIPLYADD: 25;
    /** Only in a WideKey. */
    readonly LERP: 26;
};

/** The arguments of an op, by Direct3D's number (D3DTA_...). The last two are modifiers: add one, or both, to one of the others. */
export const Argument: {
    readonly DIFFUSE: 0;
    readonly CURRENT: 1;
    readonly TEXTURE: 2;
    readonly TFACTOR: 3;
    readonly SPECULAR: 4;
    readonly TEMP: 5;
    readonly CONSTANT: 6;
    readonly COMPLEMENT: 0x10;
    readonly ALPHAREPLICATE: 0x20;
};

/** The comparisons of the alpha test, by Direct3D's number (D3DCMP_...). NONE tests nothing. */
export const Comparison: {
    readonly NONE: 0;
    readonly NEVER: 1;
    readonly LESS: 2;
    readonly EQUAL: 3;
    readonly LESSEQUAL: 4;
    readonly GREATER: 5;
    readonly NOTEQUAL: 6;
    readonly GREATEREQUAL: 7;
    readonly ALWAYS: 8;
};

/** How fog grows with the distance, by Direct3D's number (D3DFOG_...). */
export const FogMode: { readonly NONE: 0; readonly EXP: 1; readonly EXP2: 2; readonly LINEAR: 3 };

/** The flags of a stage, to be added. Another bit is refused with Cause.STAGE_FLAGS. */
export const StageFlags: { readonly NONE: 0; readonly TEXTURED: 1; readonly TO_TEMP: 2 };

/** The flags of a variant, to be added. Another bit is refused with Cause.VARIANT_FLAGS. */
export const VariantFlags: {
    readonly NONE: 0;
    readonly FLAT_SHADE: 1;
    readonly SRGB_WRITE: 2;
    readonly SAMPLE_MASK: 4;
    readonly POINT_SPRITE: 8;
    readonly LOD_BIAS: 16;
    readonly FOG_SOURCE_W: 32;
};

/** The types of state writes, by Direct3D's number (D3DTSS_...) but for TEXTURE_BOUND, which is ours. */
export const State: {
    readonly TEXTURE_BOUND: 0;
    readonly COLOUR_OP: 1;
    readonly COLOUR_ARG1: 2;
    readonly COLOUR_ARG2: 3;
    readonly ALPHA_OP: 4;
    readonly ALPHA_ARG1: 5;
    readonly ALPHA_ARG2: 6;
    readonly COLOUR_ARG0: 26;
    readonly ALPHA_ARG0: 27;
    readonly RESULT_ARG: 28;
};

/** The kinds of records: their first bytes. */
export const Kind: { readonly KEY: 1; readonly VARIANT: 2; readonly ENTRY: 3; readonly EMIT: 4; readonly STATE: 5; readonly WIDE_KEY: 6 };

/** The causes of a refusal, by their numbers. */
export const Cause: {
    readonly CUT_SHORT: 1;
    readonly UNKNOWN_KIND: 2;
    readonly STAGE_FLAGS: 3;
    readonly SPECULAR_ADD: 4;
    readonly VARIANT_FLAGS: 5;
    readonly ENTRY_NAME: 6;
    readonly EMIT_TOO_EARLY: 7;
    readonly NO_ROOM: 8;
    readonly INPUT_TOO_LONG: 9;
    readonly STAGE_NUMBER: 10;
    readonly STATE_TYPE: 11;
    readonly STATE_VALUE: 12;
    readonly RESERVED_WORD: 13;
};

/** No text has more bytes than this, so a buffer of this length takes every text. */
export const TEXT_LENGTH: 16384;

/** The length of the longest text of a key, with an entry of 32 bytes. With an entry of n bytes the longest text is 32 - n bytes shorter. */
export const KEY_TEXT_LENGTH: 6516;

/** The length of the longest text of a wide key, with an entry of 32 bytes. With an entry of n bytes the longest text is 32 - n bytes shorter. */
export const WIDE_KEY_TEXT_LENGTH: 6657;

/** How many stages a key has. */
export const STAGES: 8;

/** How many bytes a session holds, and where the records in them begin. */
export const HELD_LENGTH: 129;
export const HELD_KEY: 0;
export const HELD_VARIANT: 75;
export const HELD_ENTRY: 95;

/** Why the library refuses a call. Nothing was modified then. */
export class Refusal extends Error {
    constructor(number: number);
    readonly name: "Refusal";
    /** One of Cause. */
    readonly number: number;
}

/** A value that has no bytes, such as an op of 256, a ninth stage or a field that there is not. Nothing was modified then. */
export class BadValue extends TypeError {
    constructor(path: string, expected: string);
    readonly name: "BadValue";
    /** Which value it is, such as `key.stages[2].colour.op`. */
    readonly path: string;
}

/** An op and its two arguments. */
export interface Combiner {
    /** One of Op; by default DISABLE. */
    op?: number;
    /** One of Argument; by default 0. */
    arg1?: number;
    arg2?: number;
}

/** One texture stage. By default it is disabled. */
export interface Stage {
    colour?: Combiner;
    alpha?: Combiner;
    /** Of StageFlags. */
    flags?: number;
}

/** What the pixel stages compute. The stages before the first one with the colour op DISABLE are active. */
export interface Key {
    /** At most eight. Those behind them are disabled. */
    stages?: readonly Stage[];
    /** Whether the specular colour is added behind the last stage. */
    specular?: boolean;
    /** Bit i divides the texture coordinate of stage i by its w, and makes it 0 where w is 0. */
    projected?: number;
}

/** One texture stage with a third operand for colour and one for alpha, which only MULTIPLYADD and LERP take. By default it is CURRENT. */
export interface WideStage extends Stage {
    colourArg0?: number;
    alphaArg0?: number;
}

/** What the pixel stages compute, with MULTIPLYADD and LERP. */
export interface WideKey {
    stages?: readonly WideStage[];
    specular?: boolean;
    projected?: number;
}

/** The render states beside the key. By default there is no alpha test, no fog, and textures are plain two-dimensional ones. */
export interface Variant {
    /** One of Comparison. */
    alphaFunction?: number;
    /** One of FogMode. Unless it is NONE, fog is blended in by the factor of the vertices. */
    fogMode?: number;
    /** One of FogMode. Unless it is NONE, fog is computed for each pixel, whatever fogMode is. */
    fogTableMode?: number;
    /** Masks from 0 to 65535, of which bit i is for stage i. Bits 8 to 15 have no effect. include/yuzuknoll.h says what each means. */
    depthSampler?: number;
    depthFetch?: number;
    fetch4?: number;
    fetch4Alpha?: number;
    rawDepthRed?: number;
    volume?: number;
    cube?: number;
    /** Only used with VariantFlags.SAMPLE_MASK. */
    sampleMask?: number;
    /** Of VariantFlags. */
    flags?: number;
}

/** A write of one state of one stage. */
export interface StateWrite {
    /** By default 0; above 7 it is refused with Cause.STAGE_NUMBER. */
    stage?: number;
    /** One of State; another is refused with Cause.STATE_TYPE. */
    type?: number;
    /** From 0 to 4294967295; what the type does not take is refused with Cause.STATE_VALUE. */
    value?: number;
}

/** All fields of a value that was read, down to the combiners. */
export type Whole<T> = T extends readonly (infer U)[] ? Whole<U>[] : T extends object ? { [F in keyof T]-?: Whole<NonNullable<T[F]>> } : T;

export type KeyRecord = { kind: 1; value: Key } | { kind: 6; value: WideKey };

/** A key of either kind, a variant, the name of an entry, the wish for a text, or a state write. */
export type Record = KeyRecord | { kind: 2; value: Variant } | { kind: 3; value: string } | { kind: 4; value?: undefined } | { kind: 5; value: StateWrite };

export type WholeKeyRecord = { kind: 1; value: Whole<Key> } | { kind: 6; value: Whole<WideKey> };
export type WholeRecord =
    | WholeKeyRecord
    | { kind: 2; value: Whole<Variant> }
    | { kind: 3; value: string }
    | { kind: 4; value?: undefined }
    | { kind: 5; value: Whole<StateWrite> };

/** What was asked for that there is not. A warning is no refusal: there is a text. Bit i of a mask is for stage i. */
export interface Warnings {
    /** The stages with an op that has no formula. Argument 1 was used. */
    op: number;
    /** The stages with an argument whose selector is from 7 to 15. White was used. */
    selector: number;
    /** The stages with an argument that has the bit 0x40 or 0x80. It was ignored. */
    modifier: number;
    /** Whether the alpha function is above 8. Every pixel is kept. */
    alpha: boolean;
}

/** A text and what is known of it. */
export interface Emission {
    /** The Metal function, in ASCII. */
    text: string;
    /** The number of its bytes. */
    length: number;
    /** Mask of the active stages that have a texture. */
    mask: number;
    /** The number of rows that the buffer ps_c must have: 0 to 9. */
    rows: number;
    /** The number of texture lookups in the text: 0 to 8. */
    lookups: number;
    warnings: Warnings;
}

/** What a record did: `emission` is there for an emit record. `taken` is the number of its bytes; the next record begins there. */
export type Applied = { kind: 4; taken: number; emission: Emission } | { kind: 1 | 2 | 3 | 5 | 6; taken: number; emission?: undefined };

/** The key, the variant and the entry that the records so far have set. */
export interface Session {
    /**
     * Takes the record at the front of `records`. An emit record writes the text of what is held to the front of `buffer`, if there is one.
     * Throws a Refusal for what `read` refuses; for an emit record also EMIT_TOO_EARLY, or NO_ROOM if the text is longer than the buffer. A BadValue for
     * what is no Uint8Array.
     */
    apply(records: Uint8Array, buffer?: Uint8Array): Applied;
    /** A copy of the 129 bytes that are held: the records of the key, the variant and the entry, each at the front of its part. */
    readonly held: Uint8Array;
    /** What is held, if it is a good record. */
    readonly key: WholeKeyRecord | undefined;
    readonly variant: Whole<Variant> | undefined;
    readonly entry: string | undefined;
}

/** An entry looked over a byte at a time: its length, or 32 while nobody knows it, then the 32 bytes of the name, with zeros behind it. */
export interface EntryPass {
    /** Takes the next byte. Throws a BadValue for what is no byte. */
    step(byte: number): void;
    /** Whether some entry that begins with the bytes taken is a name. That a word is reserved does not count here. */
    readonly possible: boolean;
}

/** The library. Where it is said that a call throws a Refusal, its number is the first cause in that order. */
export interface Yuzuknoll {
    /**
     * The Metal function of a key, a variant and an entry's name. If there is a buffer, the text is also written to its front.
     * Throws a Refusal: STAGE_FLAGS, VARIANT_FLAGS, ENTRY_NAME, RESERVED_WORD, or NO_ROOM if the text is longer than the buffer. A BadValue for what has no
     * bytes.
     */
    emit(key: Key, variant: Variant, entry: string, buffer?: Uint8Array): Emission;
    /** The same of a wide key. */
    emitWide(key: WideKey, variant: Variant, entry: string, buffer?: Uint8Array): Emission;
    /**
     * Reads the record at the front of some bytes. The bytes after it do not matter.
     * Throws a Refusal: CUT_SHORT if there is no byte, UNKNOWN_KIND, CUT_SHORT, or the first cause of the record's kind. A BadValue for what is no
     * Uint8Array.
     */
    read(bytes: Uint8Array): { record: WholeRecord; taken: number };
    /**
     * Writes a record to the front of `out`, and gives the number of its bytes.
     * Throws a Refusal: the first cause of the record's kind, or NO_ROOM if the record is longer than `out`. A BadValue for what has no bytes.
     */
    write(record: Record, out: Uint8Array): number;
    /** The bytes of a record. Throws as `write` does. */
    toBytes(record: Record): Uint8Array;
    /** A session that holds nothing, or what `held` of another one gave. Throws a BadValue for what is no Uint8Array of 129 bytes. */
    session(held?: Uint8Array): Session;
    /** A pass that has taken no byte. */
    entryPass(): EntryPass;
}

/**
 * Loads yuzuknoll.wasm: from bytes, a compiled module, or what fetch gives.
 * Rejects with a BadValue if the response is not ok or the module is another one, and else with what WebAssembly or fetch say.
 */
export function load(source: BufferSource | WebAssembly.Module | Response | PromiseLike<BufferSource | WebAssembly.Module | Response>): Promise<Yuzuknoll>;

/** Warnings in words, one by one, such as `stage 2: unsupported op`. Throws a BadValue for what are no warnings. */
export function describeWarnings(warnings: Warnings): string[];
