// check-cases.mjs WASM: makes the calls of a stream of cases (cases.h) on standard input in the WebAssembly module, and compares the answers and every
// byte, lent or beside what is lent. The last line counts; a difference makes the exit status 1.
import { readFileSync, readSync } from "node:fs";

const PATTERN = 0xa5;
const GUARD = 32;
const ROOM = 21024;
// No case is longer.
const CASE_LENGTH = 2 * ROOM;

// The functions in the order of their numbers, with how many blocks each is lent, and what they take of these. A length follows its block.
const at = (block) => BigInt(block.start);
const lengthened = (block) => [at(block), BigInt(block.length)];
const emit = ([key, variant, entry, text, result]) => [at(key), at(variant), at(entry), ...lengthened(text), at(result)];
const FUNCTIONS = [
    { name: "yuzuknoll_emit", blocks: 5, takes: emit },
    { name: "yuzuknoll_emit_wide", blocks: 5, takes: emit },
    { name: "yuzuknoll_read", blocks: 2, takes: ([bytes, record]) => [...lengthened(bytes), at(record)] },
    { name: "yuzuknoll_write", blocks: 3, takes: ([bytes, out, record]) => [...lengthened(bytes), ...lengthened(out), at(record)] },
    { name: "yuzuknoll_apply", blocks: 4, takes: ([held, bytes, text, applied]) => [at(held), ...lengthened(bytes), ...lengthened(text), at(applied)] },
    { name: "yuzuknoll_entry_start", blocks: 1, takes: ([state]) => [at(state)] },
    { name: "yuzuknoll_entry_step", blocks: 1, takes: ([state], byte) => [at(state), 0x99775500 | byte] },
    { name: "yuzuknoll_entry_possible", blocks: 1, takes: ([state]) => [at(state)] },
];

const { exports } = new WebAssembly.Instance(new WebAssembly.Module(readFileSync(process.argv[2])), {});
const memory = Buffer.from(exports.memory.buffer);
const base = Math.ceil(Number(exports.__heap_base.value) / 16) * 16;
if (base + ROOM > memory.length) throw new Error("the module's memory has no room");
const expected = Buffer.alloc(ROOM);

// ---- The stream ----

const read = Buffer.alloc(1 << 22);
let start = 0;
let end = 0;
let open = true;

function fill() {
    read.copy(read, 0, start, end);
    end -= start;
    start = 0;
    while (open && end < CASE_LENGTH) {
        const count = readSync(0, read, end, read.length - end, null);
        open = count !== 0;
        end += count;
    }
}

function take(count) {
    start += count;
    if (start > end) throw new Error("the stream ends too early");
    return start - count;
}

const takeByte = () => read[take(1)];
const takeShort = () => read.readUInt16LE(take(2));
const takeLong = () => read.readBigUInt64LE(take(8));

// ---- Cases ----

// Reads the blocks of a case into the module's memory, and beside it what must be there afterwards.
function takeBlocks(count) {
    const blocks = [];
    let used = GUARD;
    memory.fill(PATTERN, base, base + used);
    expected.fill(PATTERN, 0, used);
    for (let i = 0; i < count; i++) {
        const offset = takeByte();
        const length = takeShort();
        const first = used + offset;
        const next = Math.ceil((first + length + GUARD) / 8) * 8;
        if (next > ROOM) throw new Error("the blocks do not fit into the room");
        memory.fill(PATTERN, base + used, base + next);
        const given = takeShort();
        read.copy(memory, base + first, take(given), start);
        memory.copy(expected, used, base + used, base + next);
        const changed = takeShort();
        read.copy(expected, first, take(changed), start);
        blocks.push({ start: base + first, length });
        used = next;
    }
    return { blocks, used };
}

function differingByte(blocks, used) {
    for (let i = 0; i < used; i++) {
        if (memory[base + i] === expected[i]) continue;
        const number = blocks.findIndex((block) => base + i >= block.start && base + i < block.start + block.length);
        if (number < 0) return `a byte outside what is lent is ${memory[base + i]}`;
        return `byte ${base + i - blocks[number].start} of parameter ${number + 1} is ${memory[base + i]}, not ${expected[i]}`;
    }
    return "every byte as expected";
}

const above = Buffer.from(memory.subarray(base + ROOM));
let cases = 0;
let differences = 0;
const differs = (what) => {
    if (++differences <= 5) console.log(what);
};
for (fill(); ; cases++) {
    if (end - start < CASE_LENGTH) fill();
    const number = takeByte();
    if (number === FUNCTIONS.length) break;
    const { name, blocks: count, takes } = FUNCTIONS[number];
    const byte = takeByte();
    const expectedAnswer = takeLong();
    const { blocks, used } = takeBlocks(count);
    const answer = BigInt.asUintN(64, exports[name](...takes(blocks, byte)) ?? 0n);
    if (answer !== expectedAnswer || memory.compare(expected, 0, used, base, base + used) !== 0)
        differs(`case ${cases}, ${name}: answers ${answer}, expected ${expectedAnswer}; ${differingByte(blocks, used)}`);
}
if (!above.equals(memory.subarray(base + ROOM))) differs("memory that nobody uses changed");
console.log(`${cases} calls, ${differences} differences`);
process.exitCode = cases === 0 || differences !== 0 ? 1 : 0;
