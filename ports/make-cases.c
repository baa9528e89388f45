/* make-cases COUNT SEED [DAMAGED]: writes COUNT random calls of each function to standard output, as cases.h has them, and what they answered to
 * standard error, by function. In the case of the number DAMAGED one bit is wrong: of the answer, of the last byte that the call changes, or of the last
 * byte of a block, by the number. Whoever checks the stream must find it.
 *
 * The inputs are mostly good, with each cause of a refusal among them. Where a call writes, its buffer is in turn long enough for all, as long as what
 * is written, a byte shorter, and of any length.
 */
#include "cases.h"

#define ANSWERS 14
#define EVERY_CAUSE 50000

static uint64_t state;

/* SplitMix64. */
static uint64_t next(void) {
    uint64_t z = state += 0x9e3779b97f4a7c15;
    z = (z ^ z >> 30) * 0xbf58476d1ce4e5b9;
    z = (z ^ z >> 27) * 0x94d049bb133111eb;
    return z ^ z >> 31;
}

static unsigned below(unsigned bound) { return (unsigned)(next() >> 32) % bound; }
static int one_in(unsigned n) { return below(n) == 0; }

static uint8_t *put(uint8_t *at, unsigned byte) {
    *at = (uint8_t)byte;
    return at + 1;
}

/* ---- Values ---- */

/* How a key is made: one as a scene has it, one of every op and argument, or one of any bytes. */
enum { EVERYDAY, EVERY_OP, ANY_BYTES, MANNERS };

static unsigned random_op(unsigned manner, int three) {
    static const uint8_t everyday[] = {YUZUKNOLL_OP_SELECTARG1,        YUZUKNOLL_OP_SELECTARG2, YUZUKNOLL_OP_MODULATE,          YUZUKNOLL_OP_MODULATE2X,
                                       YUZUKNOLL_OP_ADD,               YUZUKNOLL_OP_ADDSIGNED,  YUZUKNOLL_OP_BLENDTEXTUREALPHA, YUZUKNOLL_OP_DOTPRODUCT3,
                                       YUZUKNOLL_OP_BLENDCURRENTALPHA, YUZUKNOLL_OP_BUMPENVMAP};
    if (three && one_in(2))
        return YUZUKNOLL_OP_MULTIPLYADD + below(2);
    if (one_in(9))
        return YUZUKNOLL_OP_DISABLE;
    return manner == EVERYDAY ? everyday[below(sizeof everyday)] : manner == EVERY_OP ? below(28) : below(256);
}

static unsigned random_argument(unsigned manner) {
    if (manner == EVERYDAY)
        return below(4);
    return manner == EVERY_OP ? below(8) | (one_in(3) ? below(16) << 4 : 0) : below(256);
}

static uint8_t *put_key(uint8_t *at, int wide) {
    unsigned manner = below(MANNERS), bad_stage = one_in(16) ? below(8) : 8;
    int three = wide && one_in(2), bad_specular = one_in(16);
    for (unsigned stage = 0; stage < 8; stage++) {
        for (int role = 0; role < 2; role++) {
            at = put(at, random_op(manner, three));
            at = put(at, random_argument(manner));
            at = put(at, random_argument(manner));
        }
        if (wide) {
            at = put(at, random_argument(manner));
            at = put(at, random_argument(manner));
        }
        at = put(at, stage == bad_stage ? 4 + below(252) : manner == EVERYDAY ? YUZUKNOLL_STAGE_TEXTURED : below(4));
    }
    at = put(at, bad_specular ? 2 + below(254) : below(2));
    return put(at, one_in(2) ? 0 : below(256));
}

static uint8_t *put_variant(uint8_t *at) {
    int plain = one_in(3), any = one_in(3);
    at = put(at, plain ? 0 : any ? below(256) : below(10));
    at = put(at, plain ? 0 : any ? below(256) : below(4));
    at = put(at, plain ? 0 : any ? below(256) : below(4));
    for (int byte = 0; byte < 14; byte++)
        at = put(at, !plain && one_in(3) ? below(256) : 0);
    at = put(at, below(256));
    return put(at, one_in(16) ? 64 + below(192) : plain ? 0 : below(64));
}

static uint8_t *put_name(uint8_t *at, const char *name, size_t length) {
    memset(at, 0, sizeof(yuzuknoll_entry));
    at[0] = (uint8_t)length;
    memcpy(at + 1, name, length);
    return at + sizeof(yuzuknoll_entry);
}

static uint8_t *put_reserved(uint8_t *at) {
    static const char *const numbered[] = {"t%u", "s%u", "samp%u", "pc%u", "bc%u", "proj%u"};
    static const char *const words[] = {"current", "temp",   "oC0",    "in",       "ps_c",   "fog_range", "main",   "metal",   "Varyings",
                                        "FfPsOut", "kernel", "struct", "constant", "return", "float",     "float4", "sampler", "mtld3d_linear_to_srgb"};
    char name[33];
    int length = one_in(2) ? snprintf(name, sizeof name, numbered[below(6)], below(9))
                           : snprintf(name, sizeof name, "%s", words[below(sizeof words / sizeof *words)]);
    return put_name(at, name, (size_t)length);
}

/* A name with one byte of any value in the place of any of its 33: the length, one of the name, or one behind it. */
static uint8_t *put_entry(uint8_t *at) {
    static const char letters[] = "_ABCDEFGHIJKLMNOPQRSTUVWXYZabcdefghijklmnopqrstuvwxyz0123456789";
    char name[32];
    unsigned length = 1 + below(32);
    if (one_in(16))
        return put_reserved(at);
    for (unsigned i = 0; i < length; i++)
        name[i] = letters[below(i == 0 ? 53 : 63)];
    put_name(at, name, length);
    if (one_in(14))
        at[below(sizeof(yuzuknoll_entry))] = (uint8_t)below(256);
    return at + sizeof(yuzuknoll_entry);
}

static uint8_t *put_write(uint8_t *at) {
    static const uint8_t types[] = {YUZUKNOLL_STATE_TEXTURE_BOUND, YUZUKNOLL_STATE_COLOUR_OP,  YUZUKNOLL_STATE_COLOUR_ARG1, YUZUKNOLL_STATE_COLOUR_ARG2,
                                    YUZUKNOLL_STATE_ALPHA_OP,      YUZUKNOLL_STATE_ALPHA_ARG1, YUZUKNOLL_STATE_ALPHA_ARG2,  YUZUKNOLL_STATE_COLOUR_ARG0,
                                    YUZUKNOLL_STATE_ALPHA_ARG0,    YUZUKNOLL_STATE_RESULT_ARG};
    unsigned type = one_in(12) ? below(256) : types[below(sizeof types)], value = below(256);
    if (type == YUZUKNOLL_STATE_TEXTURE_BOUND)
        value = below(2);
    if (type == YUZUKNOLL_STATE_RESULT_ARG)
        value = one_in(2) ? YUZUKNOLL_ARG_CURRENT : YUZUKNOLL_ARG_TEMP;
    at = put(put(at, one_in(12) ? below(256) : below(8)), type);
    at = put(at, one_in(24) ? below(256) : value);
    for (int byte = 1; byte < 4; byte++)
        at = put(at, one_in(36) ? below(256) : 0);
    return at;
}

static uint8_t *put_body(uint8_t *at, unsigned kind) {
    switch (kind) {
    case YUZUKNOLL_KIND_KEY: return put_key(at, 0);
    case YUZUKNOLL_KIND_VARIANT: return put_variant(at);
    case YUZUKNOLL_KIND_ENTRY: return put_entry(at);
    case YUZUKNOLL_KIND_STATE: return put_write(at);
    case YUZUKNOLL_KIND_WIDE_KEY: return put_key(at, 1);
    default: return at;
    }
}

/* A record, which may be cut short or of no kind, with some bytes behind it; its length. */
static size_t put_record(uint8_t *at, unsigned kind) {
    uint8_t *end = put_body(put(at, kind), kind);
    if (one_in(20))
        at[0] = (uint8_t)below(256);
    if (one_in(12))
        return below((unsigned)(end - at));
    for (unsigned more = one_in(2) ? 0 : below(40); more != 0; more--)
        end = put(end, below(256));
    return (size_t)(end - at);
}

/* Nothing, all three, or one of them missing or of another kind. */
static void put_held(uint8_t *at) {
    static const unsigned places[] = {YUZUKNOLL_HELD_KEY, YUZUKNOLL_HELD_VARIANT, YUZUKNOLL_HELD_ENTRY};
    int wide = one_in(2);
    unsigned kinds[] = {wide ? YUZUKNOLL_KIND_WIDE_KEY : YUZUKNOLL_KIND_KEY, YUZUKNOLL_KIND_VARIANT, YUZUKNOLL_KIND_ENTRY};
    memset(at, 0, YUZUKNOLL_HELD_LENGTH);
    if (one_in(8))
        return;
    for (int part = 0; part < 3; part++)
        put_body(put(at + places[part], kinds[part]), kinds[part]);
    if (one_in(16))
        at[places[below(3)]] = (uint8_t)below(256);
    if (!wide && one_in(2))
        for (int i = YUZUKNOLL_KEY_RECORD_LENGTH; i < YUZUKNOLL_HELD_VARIANT; i++)
            at[i] = (uint8_t)below(256);
}

/* A state that a pass may have, or one of any numbers, of which the calls read the lowest byte. */
static void put_state(uint8_t *at) {
    uint64_t numbers[3] = {below(36), below(35), one_in(4)};
    for (int i = 0; i < 3; i++)
        if (one_in(6))
            numbers[i] = one_in(2) ? next() : below(256);
    memcpy(at, numbers, sizeof numbers);
}

/* ---- Calls ---- */

static uint8_t given[MOST_BLOCKS][256];
static size_t given_length[MOST_BLOCKS];
static uint8_t scratch[YUZUKNOLL_TEXT_LENGTH];

/* A block of some bytes. Those of single bytes may stand anywhere. */
static void lend(struct call *call, unsigned block, size_t length) {
    given_length[block] = length;
    call->blocks[block] = (struct block){below(8), length, NULL};
}

/* A struct or an array of numbers. */
static void lend_numbers(struct call *call, unsigned block, size_t count, size_t length) {
    given_length[block] = count;
    call->blocks[block] = (struct block){0, length, NULL};
}

/* A buffer for what has a length, 0 where nothing is written. */
static void lend_buffer(struct call *call, unsigned block, size_t needed, size_t enough) {
    size_t length = below((unsigned)enough);
    switch (below(8)) {
    case 0:
    case 1:
    case 2: length = enough; break;
    case 3: length = needed; break;
    case 4: length = needed == 0 ? 0 : needed - 1; break;
    case 5: length = needed == 0 ? 0 : below((unsigned)needed); break;
    case 6: length = needed + below(300); break;
    default: break;
    }
    given_length[block] = 0;
    call->blocks[block] = (struct block){below(8), length, NULL};
}

static size_t text_length(int wide, const void *key, const void *variant, const void *entry) {
    yuzuknoll_result result;
    uint64_t refused = wide ? yuzuknoll_emit_wide(key, variant, entry, scratch, sizeof scratch, &result)
                            : yuzuknoll_emit(key, variant, entry, scratch, sizeof scratch, &result);
    return refused == YUZUKNOLL_ACCEPTED ? result.length : 0;
}

static void choose_emit(struct call *call) {
    int wide = call->function == EMIT_WIDE;
    lend(call, 0, (size_t)(put_key(given[0], wide) - given[0]));
    lend(call, 1, (size_t)(put_variant(given[1]) - given[1]));
    lend(call, 2, (size_t)(put_entry(given[2]) - given[2]));
    lend_buffer(call, 3, text_length(wide, given[0], given[1], given[2]), YUZUKNOLL_TEXT_LENGTH);
    lend_numbers(call, 4, 0, sizeof(yuzuknoll_result));
}

static void choose_read(struct call *call) {
    lend(call, 0, one_in(200) ? 0 : put_record(given[0], 1 + below(6)));
    lend_numbers(call, 1, 0, sizeof(yuzuknoll_record));
}

static void choose_write(struct call *call) {
    yuzuknoll_record record = {0};
    lend(call, 0, one_in(200) ? 0 : put_record(given[0], 1 + below(6)));
    yuzuknoll_read(given[0], given_length[0], &record);
    lend_buffer(call, 1, record.taken, 2 * YUZUKNOLL_WIDE_KEY_RECORD_LENGTH);
    lend_numbers(call, 2, 0, sizeof(yuzuknoll_record));
}

static void choose_apply(struct call *call) {
    yuzuknoll_held held;
    yuzuknoll_applied applied = {0};
    put_held(given[0]);
    lend(call, 0, YUZUKNOLL_HELD_LENGTH);
    lend(call, 1, one_in(200) ? 0 : put_record(given[1], one_in(2) ? YUZUKNOLL_KIND_EMIT : 1 + below(6)));
    memcpy(&held, given[0], sizeof held);
    yuzuknoll_apply(&held, given[1], given_length[1], scratch, sizeof scratch, &applied);
    lend_buffer(call, 2, applied.result.length, YUZUKNOLL_TEXT_LENGTH);
    lend_numbers(call, 3, 0, sizeof(yuzuknoll_applied));
}

static void choose_pass(struct call *call) {
    put_state(given[0]);
    lend_numbers(call, 0, 3 * sizeof(uint64_t), 3 * sizeof(uint64_t));
    call->byte = (uint8_t)(call->function != ENTRY_STEP ? 0 : one_in(4) ? below(256) : one_in(4) ? below(34) : '0' + below(75));
}

static void choose(struct call *call) {
    switch (call->function) {
    case EMIT:
    case EMIT_WIDE: choose_emit(call); break;
    case READ: choose_read(call); break;
    case WRITE: choose_write(call); break;
    case APPLY: choose_apply(call); break;
    default: choose_pass(call);
    }
}

/* ---- Cases ---- */

static uint8_t before[ROOM];

static void write_number(uint64_t number, unsigned bytes) {
    for (; bytes != 0; bytes--, number >>= 8)
        putchar((int)(number & 255));
}

static void write_bytes(const uint8_t *bytes, size_t count) {
    write_number(count, 2);
    fwrite(bytes, 1, count, stdout);
}

/* The number of bytes from the first of a block to the last that the call changed. */
static size_t changed(const struct block *block) {
    size_t count = block->length;
    while (count != 0 && block->bytes[count - 1] == before[block->bytes + count - 1 - room])
        count--;
    return count;
}

/* That the bytes between the blocks are as they were. */
static void check_guards(const struct call *call, size_t used) {
    const uint8_t *at = room;
    for (unsigned i = 0; i <= blocks_of[call->function]; i++) {
        int last = i == blocks_of[call->function];
        for (const uint8_t *end = last ? room + used : call->blocks[i].bytes; at < end; at++)
            if (*at != PATTERN)
                fail("make-cases: a call wrote outside what it was lent");
        if (!last)
            at = call->blocks[i].bytes + call->blocks[i].length;
    }
}

/* What is wrong with a case, in which of its blocks. */
enum { SOUND, WRONG_ANSWER, WRONG_CHANGE, WRONG_REST };

struct damage {
    int what;
    unsigned block;
};

/* Makes one bit of what a block is to hold afterwards wrong; returns how many bytes are then to be given. */
static size_t damage_block(const struct block *block, int what, size_t count) {
    if (what == WRONG_REST || count == 0)
        count = block->length;
    if (count == 0)
        fail("make-cases: no byte to damage");
    block->bytes[count - 1] ^= 1;
    return count;
}

static void write_case(const struct call *call, uint64_t answer, struct damage damage) {
    write_number(call->function, 1);
    write_number(call->byte, 1);
    write_number(answer ^ (damage.what == WRONG_ANSWER), 8);
    for (unsigned i = 0; i < blocks_of[call->function]; i++) {
        const struct block *block = &call->blocks[i];
        size_t count = changed(block);
        if (damage.what > WRONG_ANSWER && i == damage.block)
            count = damage_block(block, damage.what, count);
        write_number(block->offset, 1);
        write_number(block->length, 2);
        write_bytes(given[i], given_length[i]);
        write_bytes(block->bytes, count);
    }
}

/* The damage of the case DAMAGED: of the answer, of a change and of the rest in turn, and of each block that has a byte. */
static struct damage damage_of(const struct call *call, unsigned long number) {
    struct damage damage = {WRONG_ANSWER + (int)(number % 3), (unsigned)(number / 3) % blocks_of[call->function]};
    while (call->blocks[damage.block].length == 0)
        damage.block = (damage.block + 1) % blocks_of[call->function];
    return damage;
}

/* Which answers each function has, by bits. */
static const unsigned answers_of[FUNCTIONS] = {
    [EMIT] = 1 << 0 | 1 << 3 | 1 << 4 | 1 << 5 | 1 << 6 | 1 << 13 | 1 << 8,
    [EMIT_WIDE] = 1 << 0 | 1 << 3 | 1 << 4 | 1 << 5 | 1 << 6 | 1 << 13 | 1 << 8,
    [READ] = 0x3c7f & ~(1 << 7 | 1 << 8),
    [WRITE] = (0x3c7f & ~(1 << 7)) | 1 << 8,
    [APPLY] = 0x3c7f | 1 << 7 | 1 << 8,
    [ENTRY_START] = 1 << 0,
    [ENTRY_STEP] = 1 << 0,
    [ENTRY_POSSIBLE] = 1 << 0 | 1 << 1,
};

static unsigned long answered[FUNCTIONS][ANSWERS];

/* Says how often each answer was given. A list that reaches an answer seldom is no list for a comparison. */
static void report(unsigned long count) {
    for (unsigned function = 0; function < FUNCTIONS; function++) {
        fprintf(stderr, "%s:", names[function]);
        for (unsigned answer = 0; answer < ANSWERS; answer++) {
            unsigned long times = answered[function][answer];
            int expected = answers_of[function] >> answer & 1;
            if (times != 0)
                fprintf(stderr, " %u %lu times", answer, times);
            if (!expected && times != 0)
                fail("\nmake-cases: an answer that the function does not have");
            if (expected && count >= EVERY_CAUSE && times < count / 500)
                fail("\nmake-cases: an answer is too seldom among the cases");
        }
        fputc('\n', stderr);
    }
}

int main(int argc, char **argv) {
    if (argc != 3 && argc != 4)
        fail("usage: make-cases COUNT SEED [DAMAGED]");
    unsigned long count = strtoul(argv[1], NULL, 10), damaged = argc == 4 ? strtoul(argv[3], NULL, 10) : count * FUNCTIONS;
    state = strtoull(argv[2], NULL, 10);
    for (unsigned long n = 0; n < count * FUNCTIONS; n++) {
        struct call call = {.function = n % FUNCTIONS};
        choose(&call);
        size_t used = GUARD;
        for (unsigned i = 0; i < blocks_of[call.function]; i++)
            used = place(&call.blocks[i], used);
        memset(room, PATTERN, used);
        for (unsigned i = 0; i < blocks_of[call.function]; i++)
            memcpy(call.blocks[i].bytes, given[i], given_length[i]);
        memcpy(before, room, used);
        uint64_t answer = make(&call);
        check_guards(&call, used);
        if (answer >= ANSWERS)
            fail("make-cases: no answer of any function");
        answered[call.function][answer]++;
        write_case(&call, answer, n == damaged ? damage_of(&call, n) : (struct damage){SOUND, 0});
    }
    write_number(FUNCTIONS, 1);
    report(count);
    return fflush(stdout) != 0 || ferror(stdout);
}
