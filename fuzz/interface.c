/* The C interface on any bytes: what every call must keep to, whatever it is given.
 *
 * The archive is machine code without a sanitizer's checks, so these alone would see only what goes through memcpy. Each lent buffer and struct
 * therefore ends, or begins, at a page that may not be touched, and what is left of its own pages holds a pattern. Every input is gone through both
 * ways. After each call every byte of these pages is compared with what must stand there, the structs for reports among them.
 *
 * An input: the length of the text's buffer (two bytes, low byte first), of the written record's, what is held, and records. The key, the
 * variant and the entry for yuzuknoll_emit and yuzuknoll_emit_wide are the bytes of what is held behind the kinds. The calls on an entry's bytes are
 * given those of this entry, and the first bytes of what is held as a state that no pass makes.
 */
#define _GNU_SOURCE
#include <stdio.h>
#include <stdlib.h>
#include <string.h>
#include <sys/mman.h>

#include "yuzuknoll.h"

#define PAGE 4096
#define MOST (5 * PAGE)
#define PATTERN 0xa5
#define HEAD 3
#define FRONT (HEAD + YUZUKNOLL_HELD_LENGTH)

/* Where the parts of what is held begin. The key's has room for either kind. */
#define KEY_AT 0
#define VARIANT_AT (KEY_AT + YUZUKNOLL_WIDE_KEY_RECORD_LENGTH)
#define ENTRY_AT (VARIANT_AT + YUZUKNOLL_VARIANT_RECORD_LENGTH)
_Static_assert(KEY_AT == YUZUKNOLL_HELD_KEY && VARIANT_AT == YUZUKNOLL_HELD_VARIANT && ENTRY_AT == YUZUKNOLL_HELD_ENTRY, "the header says so");

enum { KEY, VARIANT, ENTRY, BYTES, HELD, TEXT, REPORT, STATE, BUFFERS };

/* What libFuzzer is told of the answers, since it sees no branch of the archive. */
__attribute__((section("__libfuzzer_extra_counters"), used)) static uint8_t seen[1 << 12];

/* Something lent, in its pages, and what these must hold after a call. */
struct lent {
    uint8_t *pages;
    size_t size;
    void *bytes;
    size_t length;
    uint8_t expected[MOST];
};

static struct lent lent[BUFFERS];
static int at_front;

static void must(int good, const char *what) {
    if (!good) {
        fprintf(stderr, "interface: %s\n", what);
        abort();
    }
}

static void make_pages(void) {
    for (int i = 0; i < BUFFERS; i++) {
        size_t size = i == TEXT ? MOST : PAGE;
        uint8_t *all = mmap(NULL, size + 2 * PAGE, PROT_NONE, MAP_PRIVATE | MAP_ANONYMOUS, -1, 0);
        must(all != MAP_FAILED && mprotect(all + PAGE, size, PROT_READ | PROT_WRITE) == 0, "no memory");
        lent[i].pages = all + PAGE;
        lent[i].size = size;
    }
}

/* Lends a buffer of a length that holds some bytes, and the pattern behind them. */
static struct lent *lend(int which, const void *bytes, size_t count, size_t length) {
    struct lent *one = &lent[which];
    memset(one->pages, PATTERN, one->size);
    one->length = length;
    one->bytes = at_front ? one->pages : one->pages + one->size - length;
    if (count != 0)
        memcpy(one->bytes, bytes, count);
    memcpy(one->expected, one->pages, one->size);
    return one;
}

/* Lends a struct or a buffer for what a call writes. */
static struct lent *lend_room(int which, size_t length) { return lend(which, NULL, 0, length); }

/* The next call must write these bytes at a place of the buffer. */
static void expect(struct lent *one, size_t at, const void *bytes, size_t count) {
    memcpy(one->expected + ((uint8_t *)one->bytes - one->pages) + at, bytes, count);
}

static void as_expected(struct lent *one, const char *what) { must(memcmp(one->pages, one->expected, one->size) == 0, what); }

static void note(unsigned what, uint64_t value) { seen[what << 8 | (value & 255)] = 1; }

static int count_bits(uint64_t mask) {
    int bits = 0;
    for (; mask != 0; mask >>= 1)
        bits += mask & 1;
    return bits;
}

/* A key of either kind. One that is not wide has CURRENT as its arguments 0, as if it were widened. */
struct any_key {
    int wide;
    yuzuknoll_wide_key key;
};

static struct any_key of_key(const yuzuknoll_key *key) {
    struct any_key any = {0, {.specular = key->specular, .projected = key->projected}};
    for (int i = 0; i < 8; i++) {
        const yuzuknoll_stage *stage = &key->stages[i];
        any.key.stages[i] = (yuzuknoll_wide_stage){stage->colour_op,  stage->colour_arg1, stage->colour_arg2,    stage->alpha_op, stage->alpha_arg1,
                                                   stage->alpha_arg2, YUZUKNOLL_ARG_CURRENT, YUZUKNOLL_ARG_CURRENT, stage->flags};
    }
    return any;
}

static struct any_key of_wide_key(const yuzuknoll_wide_key *key) { return (struct any_key){1, *key}; }

static yuzuknoll_key without_arguments0(const yuzuknoll_wide_key *wide) {
    yuzuknoll_key key = {.specular = wide->specular, .projected = wide->projected};
    for (int i = 0; i < 8; i++) {
        const yuzuknoll_wide_stage *stage = &wide->stages[i];
        key.stages[i] = (yuzuknoll_stage){stage->colour_op,  stage->colour_arg1, stage->colour_arg2, stage->alpha_op,
                                          stage->alpha_arg1, stage->alpha_arg2,  stage->flags};
    }
    return key;
}

static int takes_three(uint8_t op) { return op == YUZUKNOLL_OP_MULTIPLYADD || op == YUZUKNOLL_OP_LERP; }

static unsigned no_selector(uint8_t argument) { return (argument & 15) > YUZUKNOLL_ARG_CONSTANT; }
static unsigned no_modifier(uint8_t argument) { return (argument & 0xc0) != 0; }

/* What an op and its arguments may warn of: bit 0 the op, bit 1 a selector, bit 2 a modifier. */
static unsigned causes(int wide, uint8_t op, uint8_t arg0, uint8_t arg1, uint8_t arg2) {
    int three = wide && takes_three(op);
    unsigned no_formula = op == 0 || op == 17 || (op > YUZUKNOLL_OP_DOTPRODUCT3 && !three);
    unsigned selector = no_selector(arg1) | no_selector(arg2) | (three && no_selector(arg0));
    unsigned modifier = no_modifier(arg1) | no_modifier(arg2) | (three && no_modifier(arg0));
    return no_formula | selector << 1 | modifier << 2;
}

/* No stage warns without a cause. With a texture nothing falls back, so colour's causes must warn there, unless it is a bump stage. */
static void check_warnings(const struct any_key *any, const yuzuknoll_variant *variant, const yuzuknoll_result *result) {
    int active = 1;
    for (int i = 0; i < 8; i++) {
        const yuzuknoll_wide_stage *stage = &any->key.stages[i];
        int bump = stage->colour_op == YUZUKNOLL_OP_BUMPENVMAP || stage->colour_op == YUZUKNOLL_OP_BUMPENVMAPLUMINANCE;
        unsigned colour = causes(any->wide, stage->colour_op, stage->colour_arg0, stage->colour_arg1, stage->colour_arg2);
        unsigned alpha = causes(any->wide, stage->alpha_op, stage->alpha_arg0, stage->alpha_arg1, stage->alpha_arg2);
        unsigned got = (result->op_warnings >> i & 1) | (result->selector_warnings >> i & 1) << 1 | (result->modifier_warnings >> i & 1) << 2;
        active = active && stage->colour_op != YUZUKNOLL_OP_DISABLE;
        must((got & ~(active ? colour | alpha : 0)) == 0, "a warning without a cause");
        if (active && !bump && (stage->flags & YUZUKNOLL_STAGE_TEXTURED) != 0)
            must((colour & ~got) == 0, "a cause without its warning");
    }
    must(result->alpha_warning == (variant->alpha_function > YUZUKNOLL_CMP_ALWAYS), "another warning of the alpha function");
}

/* What is said of every accepted emission, and of its text. */
static void check_emitted(const struct any_key *key, const yuzuknoll_variant *variant, const yuzuknoll_result *result, const uint8_t *text,
                          size_t room) {
    static const char front[] = "#include <metal_stdlib>\n", back[] = ";\n}\n";
    size_t length = result->length, ends = sizeof back - 1;
    must(length <= room && length <= YUZUKNOLL_TEXT_LENGTH, "a text longer than its buffer");
    must(length > sizeof front + ends, "a text that is too short");
    must(memcmp(text, front, sizeof front - 1) == 0 && memcmp(text + length - ends, back, ends) == 0, "no whole text");
    for (size_t i = 0; i < length; i++)
        must(text[i] == '\n' || (text[i] >= ' ' && text[i] <= '~'), "a byte that is no text");
    must(result->mask <= 255 && result->rows <= 9, "mask or rows above their bound");
    must((result->op_warnings | result->selector_warnings | result->modifier_warnings) <= 255, "a mask of warnings above its bound");
    must((int)result->lookups <= count_bits(result->mask), "more lookups than textures");
    note(5, result->mask);
    note(6, result->rows);
    note(7, result->lookups);
    note(8, result->op_warnings);
    note(9, result->length >> 5);
    note(11, result->selector_warnings);
    note(12, result->modifier_warnings);
    note(13, result->alpha_warning);
    check_warnings(key, variant, result);
}

static uint32_t value_of(const yuzuknoll_state_write *write) {
    return write->value[0] | (uint32_t)write->value[1] << 8 | (uint32_t)write->value[2] << 16 | (uint32_t)write->value[3] << 24;
}

/* What a write is refused with, by the rules of the header. */
static uint64_t refusal_of_write(const yuzuknoll_state_write *write) {
    uint32_t value = value_of(write);
    int good = value <= 255;
    if (write->stage > 7)
        return YUZUKNOLL_REFUSED_STAGE_NUMBER;
    if (write->type > YUZUKNOLL_STATE_ALPHA_ARG2 && (write->type < YUZUKNOLL_STATE_COLOUR_ARG0 || write->type > YUZUKNOLL_STATE_RESULT_ARG))
        return YUZUKNOLL_REFUSED_STATE_TYPE;
    if (write->type == YUZUKNOLL_STATE_RESULT_ARG)
        good = value == YUZUKNOLL_ARG_CURRENT || value == YUZUKNOLL_ARG_TEMP;
    if (write->type == YUZUKNOLL_STATE_TEXTURE_BOUND)
        good = value <= 1;
    return good ? YUZUKNOLL_ACCEPTED : YUZUKNOLL_REFUSED_STATE_VALUE;
}

/* The key that a write begins from where none is held. */
static yuzuknoll_key defaults(void) {
    yuzuknoll_key key = {.specular = 0};
    for (int i = 0; i < 8; i++) {
        yuzuknoll_stage *stage = &key.stages[i];
        stage->colour_op = i == 0 ? YUZUKNOLL_OP_MODULATE : YUZUKNOLL_OP_DISABLE;
        stage->alpha_op = i == 0 ? YUZUKNOLL_OP_SELECTARG1 : YUZUKNOLL_OP_DISABLE;
        stage->colour_arg1 = stage->alpha_arg1 = YUZUKNOLL_ARG_TEXTURE;
        stage->colour_arg2 = stage->alpha_arg2 = YUZUKNOLL_ARG_CURRENT;
    }
    return key;
}

/* A good write, done to a key. */
static void set_state(struct any_key *any, const yuzuknoll_state_write *write) {
    yuzuknoll_wide_stage *stage = &any->key.stages[write->stage];
    uint8_t value = write->value[0];
    any->wide |= write->type == YUZUKNOLL_STATE_COLOUR_ARG0 || write->type == YUZUKNOLL_STATE_ALPHA_ARG0;
    switch (write->type) {
    case YUZUKNOLL_STATE_COLOUR_OP: stage->colour_op = value; break;
    case YUZUKNOLL_STATE_COLOUR_ARG1: stage->colour_arg1 = value; break;
    case YUZUKNOLL_STATE_COLOUR_ARG2: stage->colour_arg2 = value; break;
    case YUZUKNOLL_STATE_ALPHA_OP: stage->alpha_op = value; break;
    case YUZUKNOLL_STATE_ALPHA_ARG1: stage->alpha_arg1 = value; break;
    case YUZUKNOLL_STATE_ALPHA_ARG2: stage->alpha_arg2 = value; break;
    case YUZUKNOLL_STATE_COLOUR_ARG0: stage->colour_arg0 = value; break;
    case YUZUKNOLL_STATE_ALPHA_ARG0: stage->alpha_arg0 = value; break;
    case YUZUKNOLL_STATE_RESULT_ARG:
        stage->flags = (stage->flags & YUZUKNOLL_STAGE_TEXTURED) | (value == YUZUKNOLL_ARG_TEMP ? YUZUKNOLL_STAGE_TO_TEMP : 0);
        break;
    default: stage->flags = (stage->flags & YUZUKNOLL_STAGE_TO_TEMP) | value;
    }
}

/* That a refusal is one of the record's kind; of a write it is the first that its bytes have. */
static void check_refusal(const struct lent *bytes, uint64_t refusal) {
    uint8_t kind = bytes->length == 0 ? 0 : *(uint8_t *)bytes->bytes;
    int of_write = refusal >= YUZUKNOLL_REFUSED_STAGE_NUMBER && refusal <= YUZUKNOLL_REFUSED_STATE_VALUE;
    int of_entry = refusal == YUZUKNOLL_REFUSED_ENTRY_NAME || refusal == YUZUKNOLL_REFUSED_RESERVED_WORD;
    must(refusal <= YUZUKNOLL_REFUSED_VARIANT_FLAGS || of_entry || of_write, "read: no refusal of it");
    must(!of_entry || kind == YUZUKNOLL_KIND_ENTRY, "read: no entry, and refused as one");
    must(!of_write || kind == YUZUKNOLL_KIND_STATE, "read: no state write, and refused as one");
    if (kind == YUZUKNOLL_KIND_STATE && bytes->length >= YUZUKNOLL_STATE_RECORD_LENGTH) {
        yuzuknoll_state_write write;
        memcpy(&write, (uint8_t *)bytes->bytes + 1, sizeof write);
        must(refusal == refusal_of_write(&write), "read: another answer to a state write");
    }
}

/* yuzuknoll_read, to which the other calls are held. */
static uint64_t check_read(struct lent *bytes, yuzuknoll_record *record) {
    static const size_t lengths[] = {YUZUKNOLL_KEY_RECORD_LENGTH, YUZUKNOLL_VARIANT_RECORD_LENGTH, YUZUKNOLL_ENTRY_RECORD_LENGTH,
                                     YUZUKNOLL_EMIT_RECORD_LENGTH, YUZUKNOLL_STATE_RECORD_LENGTH, YUZUKNOLL_WIDE_KEY_RECORD_LENGTH};
    struct lent *report = lend_room(REPORT, sizeof *record);
    uint64_t refusal = yuzuknoll_read(bytes->bytes, bytes->length, report->bytes);
    check_refusal(bytes, refusal);
    if (refusal == YUZUKNOLL_ACCEPTED) {
        memcpy(record, report->bytes, sizeof *record);
        must(record->kind >= YUZUKNOLL_KIND_KEY && record->kind <= YUZUKNOLL_KIND_WIDE_KEY, "read: no kind");
        must(record->kind == *(uint8_t *)bytes->bytes, "read: another kind");
        must(record->taken == lengths[record->kind - 1] && record->taken <= bytes->length, "read: another length");
        expect(report, 0, record, sizeof *record);
        note(2, record->kind);
    }
    as_expected(report, "read: the report of a refusal, or bytes beside it");
    as_expected(bytes, "read: the record was written");
    note(1, refusal);
    return refusal;
}

static void check_write(struct lent *bytes, uint64_t read, const yuzuknoll_record *record, size_t room) {
    struct lent *out = lend_room(TEXT, room), *report = lend_room(REPORT, sizeof *record);
    uint64_t expected = read;
    if (read == YUZUKNOLL_ACCEPTED && record->taken > room) {
        expected = YUZUKNOLL_REFUSED_NO_ROOM;
    } else if (read == YUZUKNOLL_ACCEPTED) {
        expect(out, 0, bytes->bytes, record->taken);
        expect(report, 0, record, sizeof *record);
    }
    must(yuzuknoll_write(bytes->bytes, bytes->length, out->bytes, room, report->bytes) == expected, "write: another answer");
    as_expected(bytes, "write: the record was written");
    as_expected(out, "write: another byte of the buffer");
    as_expected(report, "write: another report");
}

/* What yuzuknoll_read says of the body of a record of a kind. */
static uint64_t refusal_of(uint8_t kind, const struct lent *body) {
    uint8_t record[YUZUKNOLL_WIDE_KEY_RECORD_LENGTH] = {kind};
    yuzuknoll_record report;
    memcpy(record + 1, body->bytes, body->length);
    return yuzuknoll_read(record, 1 + body->length, &report);
}

static int is_wide(const struct lent *key) { return key->length == sizeof(yuzuknoll_wide_key); }

/* What the emission of a key of either kind must answer where there is room for every text. */
static uint64_t refusal_of_values(const struct lent *key, const struct lent *variant, const struct lent *entry) {
    uint64_t refusal = refusal_of(is_wide(key) ? YUZUKNOLL_KIND_WIDE_KEY : YUZUKNOLL_KIND_KEY, key);
    if (refusal == YUZUKNOLL_ACCEPTED)
        refusal = refusal_of(YUZUKNOLL_KIND_VARIANT, variant);
    if (refusal == YUZUKNOLL_ACCEPTED)
        refusal = refusal_of(YUZUKNOLL_KIND_ENTRY, entry);
    return refusal;
}

/* A wide key without ops of three operands gives what its key without arguments 0 gives. */
static void check_narrowed(const yuzuknoll_wide_key *wide, const struct lent *variant, const struct lent *entry, const yuzuknoll_result *result,
                           const uint8_t *text) {
    static uint8_t narrow_text[YUZUKNOLL_TEXT_LENGTH];
    yuzuknoll_key key = without_arguments0(wide);
    yuzuknoll_result narrow;
    for (int i = 0; i < 8; i++)
        if (takes_three(key.stages[i].colour_op) || takes_three(key.stages[i].alpha_op))
            return;
    must(yuzuknoll_emit(&key, variant->bytes, entry->bytes, narrow_text, sizeof narrow_text, &narrow) == YUZUKNOLL_ACCEPTED,
         "emit_wide: accepted, and its key is not");
    must(memcmp(&narrow, result, sizeof narrow) == 0 && memcmp(narrow_text, text, narrow.length) == 0, "emit_wide: another text than of its key");
    note(15, 1);
}

/* yuzuknoll_emit or yuzuknoll_emit_wide, by the key's length, on structs of any bytes. The text is left in the buffer. */
static uint64_t check_emit(struct lent *key, struct lent *variant, struct lent *entry, size_t room, yuzuknoll_result *result) {
    struct lent *out = lend_room(TEXT, room), *report = lend_room(REPORT, sizeof *result);
    uint64_t expected = refusal_of_values(key, variant, entry);
    uint64_t refusal = is_wide(key) ? yuzuknoll_emit_wide(key->bytes, variant->bytes, entry->bytes, out->bytes, room, report->bytes)
                                    : yuzuknoll_emit(key->bytes, variant->bytes, entry->bytes, out->bytes, room, report->bytes);
    if (refusal == YUZUKNOLL_ACCEPTED) {
        struct any_key any = is_wide(key) ? of_wide_key(key->bytes) : of_key(key->bytes);
        memcpy(result, report->bytes, sizeof *result);
        check_emitted(&any, variant->bytes, result, out->bytes, room);
        if (is_wide(key))
            check_narrowed(key->bytes, variant, entry, result, out->bytes);
        expect(out, 0, out->bytes, result->length);
        expect(report, 0, result, sizeof *result);
    } else if (refusal == YUZUKNOLL_REFUSED_NO_ROOM && expected == YUZUKNOLL_ACCEPTED) {
        must(room < YUZUKNOLL_TEXT_LENGTH, "emit: no room for a text in a buffer for all");
        expected = refusal;
    }
    must(refusal == expected, "emit: another answer than the records of its values have");
    as_expected(key, "emit: the key was written");
    as_expected(variant, "emit: the variant was written");
    as_expected(entry, "emit: the entry was written");
    as_expected(out, "emit: a byte behind the text, or of a refused buffer");
    as_expected(report, "emit: the report of a refusal, or bytes beside it");
    note(3, refusal);
    return refusal;
}

/* The same of a key of a length, into a buffer of a length, of the text's length, and one byte shorter. */
static void check_emits(const uint8_t *held, size_t key_length, size_t room) {
    const uint8_t *variant_record = held + VARIANT_AT, *entry_record = held + ENTRY_AT;
    struct lent *key = lend(KEY, held + KEY_AT + 1, key_length, key_length);
    struct lent *variant = lend(VARIANT, variant_record + 1, sizeof(yuzuknoll_variant), sizeof(yuzuknoll_variant));
    struct lent *entry = lend(ENTRY, entry_record + 1, sizeof(yuzuknoll_entry), sizeof(yuzuknoll_entry));
    yuzuknoll_result first, again;
    if (check_emit(key, variant, entry, room, &first) != YUZUKNOLL_ACCEPTED)
        return;
    must(check_emit(key, variant, entry, first.length, &again) == YUZUKNOLL_ACCEPTED, "emit: refused in a buffer of the text's length");
    must(memcmp(&first, &again, sizeof first) == 0, "emit: another report in a buffer of the text's length");
    must(check_emit(key, variant, entry, first.length - 1, &again) == YUZUKNOLL_REFUSED_NO_ROOM, "emit: room one byte short");
}

/* The state of a pass over an entry's bytes: three numbers, of which the calls read the lowest byte. */
typedef struct {
    uint64_t taken, length, wrong;
} pass;

static void check_possible(struct lent *state) {
    pass before;
    memcpy(&before, state->bytes, sizeof before);
    must(yuzuknoll_entry_possible(state->bytes) == (before.wrong % 256 == 0), "entry_possible: another answer");
    as_expected(state, "entry_possible: the state was written");
}

/* One step. What it makes of the mark is left to it, but for its two values. */
static void check_step(struct lent *state, uint8_t byte) {
    pass before, after;
    memcpy(&before, state->bytes, sizeof before);
    yuzuknoll_entry_step(state->bytes, byte);
    memcpy(&after, state->bytes, sizeof after);
    must(after.taken == (before.taken + 1) % 256, "entry_step: another count of bytes");
    must(after.length == (before.taken % 256 == 0 ? byte : before.length % 256), "entry_step: another length");
    must(after.wrong == before.wrong % 256 || after.wrong == 1, "entry_step: another mark");
    expect(state, 0, &after, sizeof after);
    as_expected(state, "entry_step: bytes beside the state");
    check_possible(state);
}

/* The calls on an entry's bytes: a state of any numbers, then an entry, and a byte more. */
static void check_pass(const uint8_t *held) {
    const uint8_t *entry = held + ENTRY_AT + 1;
    struct lent *state = lend(STATE, held, sizeof(pass), sizeof(pass));
    static const pass started;
    check_possible(state);
    for (size_t i = 0; i <= sizeof(yuzuknoll_entry); i++)
        check_step(state, held[sizeof(pass) + i]);
    yuzuknoll_entry_start(state->bytes);
    expect(state, 0, &started, sizeof started);
    as_expected(state, "entry_start: another state, or bytes beside it");
    for (size_t i = 0; i < sizeof(yuzuknoll_entry); i++)
        check_step(state, entry[i]);
    struct lent *body = lend(ENTRY, entry, sizeof(yuzuknoll_entry), sizeof(yuzuknoll_entry));
    int refused = refusal_of(YUZUKNOLL_KIND_ENTRY, body) == YUZUKNOLL_REFUSED_ENTRY_NAME;
    must(yuzuknoll_entry_possible(state->bytes) == !refused, "entry_possible: another answer than the entry's record has");
    note(10, ((pass *)state->bytes)->wrong);
    check_step(state, held[0]);
    must(yuzuknoll_entry_possible(state->bytes) == 0, "entry_possible: a byte behind the entry");
}

/* Whether a part of what is held is a good record of its kind. */
static int holds(const uint8_t *part, size_t length, unsigned kind) {
    yuzuknoll_record record;
    return yuzuknoll_read(part, length, &record) == YUZUKNOLL_ACCEPTED && record.kind == kind;
}

/* The key that is held, if there is one. */
static int held_key(const uint8_t *held, struct any_key *any) {
    const uint8_t *part = held + KEY_AT;
    if (holds(part, VARIANT_AT - KEY_AT, YUZUKNOLL_KIND_KEY))
        *any = of_key((const yuzuknoll_key *)(part + 1));
    else if (holds(part, VARIANT_AT - KEY_AT, YUZUKNOLL_KIND_WIDE_KEY))
        *any = of_wide_key((const yuzuknoll_wide_key *)(part + 1));
    else
        return 0;
    return 1;
}

/* What an emit record must answer and report; expects its text in the buffer. */
static uint64_t emit_expected(const uint8_t *held, struct lent *out, yuzuknoll_result *result) {
    static uint8_t text[MOST];
    const uint8_t *variant = held + VARIANT_AT, *entry = held + ENTRY_AT;
    struct any_key any;
    if (!held_key(held, &any) || !holds(variant, YUZUKNOLL_VARIANT_RECORD_LENGTH, YUZUKNOLL_KIND_VARIANT) ||
        !holds(entry, YUZUKNOLL_ENTRY_RECORD_LENGTH, YUZUKNOLL_KIND_ENTRY))
        return YUZUKNOLL_REFUSED_EMIT_TOO_EARLY;
    yuzuknoll_key narrow = without_arguments0(&any.key);
    const yuzuknoll_variant *body = (const yuzuknoll_variant *)(variant + 1);
    const yuzuknoll_entry *name = (const yuzuknoll_entry *)(entry + 1);
    uint64_t refusal = any.wide ? yuzuknoll_emit_wide(&any.key, body, name, text, out->length, result)
                                : yuzuknoll_emit(&narrow, body, name, text, out->length, result);
    if (refusal == YUZUKNOLL_ACCEPTED) {
        check_emitted(&any, body, result, text, out->length);
        expect(out, 0, text, result->length);
    } else {
        must(refusal == YUZUKNOLL_REFUSED_NO_ROOM, "emit: good values refused");
    }
    return refusal;
}

/* Expects in the held bytes the key that a good write makes of them. */
static void expect_write(struct lent *held, const struct lent *bytes) {
    uint8_t kind;
    yuzuknoll_state_write write;
    yuzuknoll_key narrow = defaults();
    struct any_key any = of_key(&narrow);
    memcpy(&write, (uint8_t *)bytes->bytes + 1, sizeof write);
    held_key(held->bytes, &any);
    set_state(&any, &write);
    narrow = without_arguments0(&any.key);
    kind = any.wide ? YUZUKNOLL_KIND_WIDE_KEY : YUZUKNOLL_KIND_KEY;
    expect(held, KEY_AT, &kind, sizeof kind);
    if (any.wide)
        expect(held, KEY_AT + 1, &any.key, sizeof any.key);
    else
        expect(held, KEY_AT + 1, &narrow, sizeof narrow);
    note(14, write.stage << 5 | write.type);
}

/* yuzuknoll_apply after yuzuknoll_read said what it did of the record. What is held is left as the call leaves it. */
static uint64_t check_apply(struct lent *held, struct lent *bytes, uint64_t read, const yuzuknoll_record *record, size_t room,
                            yuzuknoll_applied *applied) {
    static const size_t places[] = {[YUZUKNOLL_KIND_KEY] = KEY_AT,
                                    [YUZUKNOLL_KIND_VARIANT] = VARIANT_AT,
                                    [YUZUKNOLL_KIND_ENTRY] = ENTRY_AT,
                                    [YUZUKNOLL_KIND_WIDE_KEY] = KEY_AT};
    struct lent *out = lend_room(TEXT, room), *report = lend_room(REPORT, sizeof *applied);
    uint64_t expected = read;
    memset(applied, 0, sizeof *applied);
    if (read == YUZUKNOLL_ACCEPTED) {
        applied->kind = record->kind;
        applied->taken = record->taken;
        if (record->kind == YUZUKNOLL_KIND_EMIT)
            expected = emit_expected(held->bytes, out, &applied->result);
        else if (record->kind == YUZUKNOLL_KIND_STATE)
            expect_write(held, bytes);
        else
            expect(held, places[record->kind], bytes->bytes, record->taken);
    }
    if (expected == YUZUKNOLL_ACCEPTED)
        expect(report, 0, applied, sizeof *applied);
    must(yuzuknoll_apply(held->bytes, bytes->bytes, bytes->length, out->bytes, room, report->bytes) == expected, "apply: another answer");
    as_expected(held, "apply: another byte of what is held");
    as_expected(bytes, "apply: the record was written");
    as_expected(out, "apply: another byte of the text's buffer");
    as_expected(report, "apply: another report");
    note(4, expected);
    return expected;
}

/* An emit record again, into a buffer of the text's length, and one byte shorter. */
static void check_apply_again(struct lent *held, struct lent *bytes, const yuzuknoll_record *record, const yuzuknoll_applied *first) {
    size_t length = first->result.length;
    yuzuknoll_applied again;
    must(check_apply(held, bytes, YUZUKNOLL_ACCEPTED, record, length, &again) == YUZUKNOLL_ACCEPTED,
         "apply: refused in a buffer of the text's length");
    must(memcmp(first, &again, sizeof again) == 0, "apply: another report in a buffer of the text's length");
    must(check_apply(held, bytes, YUZUKNOLL_ACCEPTED, record, length - 1, &again) == YUZUKNOLL_REFUSED_NO_ROOM, "apply: room one byte short");
}

static void go_through(const uint8_t *data, size_t size) {
    size_t room = (data[0] | (size_t)data[1] << 8) % (YUZUKNOLL_TEXT_LENGTH + 2), written = data[2] % 90;
    const uint8_t *records = data + FRONT;
    size_t left = size - FRONT;
    check_pass(data + HEAD);
    check_emits(data + HEAD, sizeof(yuzuknoll_key), room);
    check_emits(data + HEAD, sizeof(yuzuknoll_wide_key), room);
    struct lent *held = lend(HELD, data + HEAD, sizeof(yuzuknoll_held), sizeof(yuzuknoll_held));
    for (;;) {
        struct lent *bytes = lend(BYTES, records, left, left);
        yuzuknoll_record record;
        yuzuknoll_applied applied;
        uint64_t read = check_read(bytes, &record);
        check_write(bytes, read, &record, written);
        if (check_apply(held, bytes, read, &record, room, &applied) != YUZUKNOLL_ACCEPTED)
            return;
        if (applied.kind == YUZUKNOLL_KIND_EMIT)
            check_apply_again(held, bytes, &record, &applied);
        records += applied.taken;
        left -= applied.taken;
    }
}

int LLVMFuzzerTestOneInput(const uint8_t *data, size_t size);

int LLVMFuzzerTestOneInput(const uint8_t *data, size_t size) {
    static uint8_t whole[FRONT + PAGE];
    if (lent[0].pages == NULL)
        make_pages();
    if (size > sizeof whole)
        return 0;
    memset(whole, 0, FRONT);
    if (size != 0)
        memcpy(whole, data, size);
    for (at_front = 0; at_front < 2; at_front++)
        go_through(whole, size < FRONT ? FRONT : size);
    return 0;
}
