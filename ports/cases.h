/* Calls of the C interface with all that they are lent, before and after, as a stream of bytes. make-cases writes such a stream where the library is
 * believed (x86-64); check-cases and check-cases.mjs make the same calls elsewhere and compare.
 *
 * A stream is cases behind one another, and a byte FUNCTIONS at its end. A case has
 *   the function, a byte; the byte that yuzuknoll_entry_step takes, 0 for the others; the answer, eight bytes, 0 for a function without one
 *   the blocks that the call is lent, in the order of its parameters, each with
 *     its offset from a place that is aligned to eight bytes, a byte
 *     its length, two bytes
 *     how many of its bytes are given, two bytes, and these bytes; the others hold PATTERN
 *     how many of its bytes, from the first to the last that the call changes, are given as the call leaves them, two bytes, and these bytes
 * Numbers have their low byte first.
 *
 * The blocks stand in one room. In front of each and behind the last are GUARD bytes or more that hold PATTERN and that no call may change.
 */
#include <stdint.h>
#include <stdio.h>
#include <stdlib.h>
#include <string.h>

#include "yuzuknoll.h"

enum { EMIT, EMIT_WIDE, READ, WRITE, APPLY, ENTRY_START, ENTRY_STEP, ENTRY_POSSIBLE, FUNCTIONS };

#define PATTERN 0xa5
#define GUARD 32
#define MOST_BLOCKS 5
#define MOST_BYTES 20000
#define ROOM (MOST_BYTES + 1024)

static const char *const names[FUNCTIONS] = {"yuzuknoll_emit",        "yuzuknoll_emit_wide",   "yuzuknoll_read",       "yuzuknoll_write",
                                             "yuzuknoll_apply",       "yuzuknoll_entry_start", "yuzuknoll_entry_step", "yuzuknoll_entry_possible"};
static const unsigned blocks_of[FUNCTIONS] = {5, 5, 2, 3, 4, 1, 1, 1};

static uint8_t room[ROOM] __attribute__((aligned(16)));

struct block {
    unsigned offset;
    size_t length;
    uint8_t *bytes;
};

struct call {
    unsigned function;
    uint8_t byte;
    struct block blocks[MOST_BLOCKS];
};

static void fail(const char *what) {
    fprintf(stderr, "%s\n", what);
    exit(2);
}

/* Gives a block its place in the room, of which the first bytes are used; returns how many are used with it. */
static size_t place(struct block *block, size_t used) {
    size_t end = used + block->offset + block->length + GUARD;
    if (end + 8 > ROOM)
        fail("the blocks do not fit into the room");
    block->bytes = room + used + block->offset;
    return (end + 7) / 8 * 8;
}

/* A caller on 64-bit Arm may leave anything above the low eight bits of a byte that it passes, and so does this one. */
static void step(void *state, uint8_t byte) {
    typedef void wide_step(uint64_t *, uint64_t);
    wide_step *entry_step = (wide_step *)(void *)yuzuknoll_entry_step;
    entry_step(state, UINT64_C(0xdeadbeef99775500) | byte);
}

static uint64_t make(const struct call *call) {
    const struct block *b = call->blocks;
    switch (call->function) {
    case EMIT: return yuzuknoll_emit((void *)b[0].bytes, (void *)b[1].bytes, (void *)b[2].bytes, b[3].bytes, b[3].length, (void *)b[4].bytes);
    case EMIT_WIDE: return yuzuknoll_emit_wide((void *)b[0].bytes, (void *)b[1].bytes, (void *)b[2].bytes, b[3].bytes, b[3].length, (void *)b[4].bytes);
    case READ: return yuzuknoll_read(b[0].bytes, b[0].length, (void *)b[1].bytes);
    case WRITE: return yuzuknoll_write(b[0].bytes, b[0].length, b[1].bytes, b[1].length, (void *)b[2].bytes);
    case APPLY: return yuzuknoll_apply((void *)b[0].bytes, b[1].bytes, b[1].length, b[2].bytes, b[2].length, (void *)b[3].bytes);
    case ENTRY_START: yuzuknoll_entry_start((void *)b[0].bytes); return 0;
    case ENTRY_STEP: step(b[0].bytes, call->byte); return 0;
    default: return yuzuknoll_entry_possible((void *)b[0].bytes);
    }
}
