/* check-cases: makes the calls of a stream of cases (cases.h) on standard input and compares the answers and every byte, lent or beside what is lent.
 * check-cases FILE: hands the records of the fixed list (oracle/list/README.md) to yuzuknoll_apply, and compares what it makes of them with the list.
 * The last line counts; a difference makes the exit status 1.
 */
#include <inttypes.h>

#include "cases.h"

/* ---- Streams of cases ---- */

static uint8_t expected[ROOM];

static void read_bytes(void *bytes, size_t count) {
    if (fread(bytes, 1, count, stdin) != count)
        fail("check-cases: the stream ends too early");
}

static uint64_t read_number(unsigned bytes) {
    uint8_t digits[8];
    uint64_t number = 0;
    read_bytes(digits, bytes);
    while (bytes-- != 0)
        number = number << 8 | digits[bytes];
    return number;
}

/* Reads the bytes that a block begins with. */
static void read_front(const struct block *block, uint8_t *to) {
    size_t count = (size_t)read_number(2);
    if (count > block->length)
        fail("check-cases: more bytes than the block has");
    read_bytes(to, count);
}

/* Reads a case into the room, and into `expected` what the room must hold afterwards; returns how many bytes of the room are used. */
static size_t read_case(struct call *call, uint64_t *answer) {
    size_t used = GUARD;
    call->byte = (uint8_t)read_number(1);
    *answer = read_number(8);
    memset(room, PATTERN, used);
    memset(expected, PATTERN, used);
    for (unsigned i = 0; i < blocks_of[call->function]; i++) {
        struct block *block = &call->blocks[i];
        size_t before = used;
        block->offset = (unsigned)read_number(1);
        block->length = (size_t)read_number(2);
        used = place(block, before);
        memset(room + before, PATTERN, used - before);
        read_front(block, block->bytes);
        memcpy(expected + before, room + before, used - before);
        read_front(block, expected + (block->bytes - room));
    }
    return used;
}

/* Says where the room differs from what is expected. */
static void say_byte(const struct call *call) {
    size_t at = 0;
    while (room[at] == expected[at])
        at++;
    for (unsigned i = 0; i < blocks_of[call->function]; i++) {
        const struct block *block = &call->blocks[i];
        if (room + at >= block->bytes && room + at < block->bytes + block->length) {
            printf("byte %zu of parameter %u is %u, not %u\n", (size_t)(room + at - block->bytes), i + 1, room[at], expected[at]);
            return;
        }
    }
    printf("a byte outside what is lent is %u\n", room[at]);
}

static int check_stream(void) {
    unsigned long cases = 0, differences = 0;
    struct call call;
    while ((call.function = (unsigned)read_number(1)) < FUNCTIONS) {
        uint64_t answer, expected_answer;
        size_t used = read_case(&call, &expected_answer);
        answer = make(&call);
        int same_bytes = memcmp(room, expected, used) == 0;
        if (answer != expected_answer || !same_bytes) {
            if (++differences <= 5) {
                printf("case %lu, %s: answers %" PRIu64 ", expected %" PRIu64 "; ", cases, names[call.function], answer, expected_answer);
                same_bytes ? (void)puts("every byte as expected") : say_byte(&call);
            }
        }
        cases++;
    }
    printf("%lu calls, %lu differences\n", cases, differences);
    return cases == 0 || differences != 0;
}

/* ---- The fixed list ---- */

/* No input and no output of the list is longer. */
#define BLOCK_LENGTH 16384

static uint8_t input[BLOCK_LENGTH];
static char listed[BLOCK_LENGTH], printed[2 * BLOCK_LENGTH];
static uint8_t text[YUZUKNOLL_TEXT_LENGTH];

/* Reads the length and the bytes of an input or an output; returns 0 at the end of the list. */
static int read_listed(FILE *list, void *bytes, size_t *length) {
    uint8_t digits[4];
    if (fread(digits, 1, sizeof digits, list) != sizeof digits)
        return 0;
    *length = digits[0] | (size_t)digits[1] << 8 | (size_t)digits[2] << 16 | (size_t)digits[3] << 24;
    if (*length > BLOCK_LENGTH || fread(bytes, 1, *length, list) != *length)
        fail("check-cases: no list");
    return 1;
}

static size_t print_text(size_t at, const yuzuknoll_result *result) {
    at += (size_t)sprintf(printed + at, "emit %" PRIu64 " %" PRIu64 " %" PRIu64 " %" PRIu64 " %" PRIu64 " %" PRIu64 " %" PRIu64 "\n", result->mask,
                          result->rows, result->lookups, result->op_warnings, result->selector_warnings, result->modifier_warnings, result->alpha_warning);
    if (at + result->length + 100 > sizeof printed)
        fail("check-cases: more texts than the list has");
    memcpy(printed + at, text, result->length);
    return at + result->length;
}

/* What the program ffps prints of an input; its length. */
static size_t print_input(size_t length) {
    yuzuknoll_held held = {{0}};
    size_t at = 0, place = 0, texts = 0;
    while (place < length) {
        yuzuknoll_applied applied;
        uint64_t refused = yuzuknoll_apply(&held, input + place, length - place, text, sizeof text, &applied);
        if (refused != YUZUKNOLL_ACCEPTED)
            return at + (size_t)sprintf(printed + at, "refused %" PRIu64 " at %zu\n", refused, place);
        if (applied.kind == YUZUKNOLL_KIND_EMIT) {
            at = print_text(at, &applied.result);
            texts++;
        }
        place += applied.taken;
    }
    return at + (size_t)sprintf(printed + at, "end %zu\n", texts);
}

static int check_list(const char *path) {
    FILE *list = fopen(path, "rb");
    unsigned long cases = 0, differences = 0;
    size_t length, listed_length;
    if (list == NULL)
        fail("check-cases: no list");
    while (read_listed(list, input, &length)) {
        if (!read_listed(list, listed, &listed_length))
            fail("check-cases: no list");
        size_t printed_length = print_input(length);
        if (printed_length != listed_length || memcmp(printed, listed, listed_length) != 0)
            differences++;
        cases++;
    }
    printf("%lu cases of the list, %lu differences\n", cases, differences);
    return cases == 0 || differences != 0;
}

int main(int argc, char **argv) { return argc == 1 ? check_stream() : check_list(argv[1]); }
