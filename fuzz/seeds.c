/* seeds FOLDER COUNT: inputs of good records for interface.c, one to a file; an entry is seldom a reserved word, and a state write seldom refused. */
#include <stdint.h>
#include <stdio.h>
#include <stdlib.h>
#include <string.h>

#include "yuzuknoll.h"

#define MOST 2048

static uint64_t state = 1;

static unsigned below(unsigned bound) {
    state = state * 6364136223846793005u + 1442695040888963407u;
    return (unsigned)(state >> 33) % bound;
}

static uint8_t *put(uint8_t *at, unsigned byte) {
    *at = (uint8_t)byte;
    return at + 1;
}

static uint8_t *put_argument(uint8_t *at) { return put(at, below(8) | (below(3) == 0 ? below(16) << 4 : 0)); }

/* A key of either kind; of the wide ones every other has many ops of three operands. */
static uint8_t *put_any_key(uint8_t *at, int wide) {
    int three = wide && below(2) == 0;
    at = put(at, wide ? YUZUKNOLL_KIND_WIDE_KEY : YUZUKNOLL_KIND_KEY);
    for (int stage = 0; stage < 8; stage++) {
        for (int role = 0; role < 2; role++) {
            unsigned op = three && below(2) == 0 ? YUZUKNOLL_OP_MULTIPLYADD + below(2) : 1 + below(26);
            at = put(at, below(12) == 0 ? YUZUKNOLL_OP_DISABLE : op);
            at = put_argument(put_argument(at));
        }
        if (wide)
            at = put_argument(put_argument(at));
        at = put(at, below(4));
    }
    return put(put(at, below(2)), below(2) == 0 ? 0 : below(256));
}

static uint8_t *put_key(uint8_t *at) { return put_any_key(at, 0); }
static uint8_t *put_wide_key(uint8_t *at) { return put_any_key(at, 1); }

static uint8_t *put_variant(uint8_t *at) {
    at = put(at, YUZUKNOLL_KIND_VARIANT);
    at = put(put(put(at, below(10)), below(4)), below(4));
    for (int byte = 0; byte < 14; byte++)
        at = put(at, below(3) == 0 ? below(256) : 0);
    return put(put(at, below(256)), below(64));
}

static uint8_t *put_name(uint8_t *at, const char *name) {
    memset(at, 0, YUZUKNOLL_ENTRY_RECORD_LENGTH);
    at[0] = YUZUKNOLL_KIND_ENTRY;
    at[1] = (uint8_t)strlen(name);
    memcpy(at + 2, name, strlen(name));
    return at + YUZUKNOLL_ENTRY_RECORD_LENGTH;
}

static uint8_t *put_entry(uint8_t *at) {
    static const char *const words[] = {"t0", "s7", "in", "if", "oC0", "pc3", "temp", "samp5", "proj1", "float4", "current",
                                        "Varyings", "fog_range", "point_coord", "mtld3d_linear_to_srgb"};
    static const char letters[] = "_ABCDEFGHIJKLMNOPQRSTUVWXYZabcdefghijklmnopqrstuvwxyz0123456789";
    if (below(12) == 0)
        return put_name(at, words[below(sizeof words / sizeof *words)]);
    char name[33] = {0};
    for (unsigned i = 0, length = 1 + below(32); i < length; i++)
        name[i] = letters[below(i == 0 ? 53 : 63)];
    return put_name(at, name);
}

static uint8_t *put_write(uint8_t *at) {
    static const uint8_t types[] = {YUZUKNOLL_STATE_TEXTURE_BOUND, YUZUKNOLL_STATE_COLOUR_OP,  YUZUKNOLL_STATE_COLOUR_ARG1, YUZUKNOLL_STATE_COLOUR_ARG2,
                                    YUZUKNOLL_STATE_ALPHA_OP,      YUZUKNOLL_STATE_ALPHA_ARG1, YUZUKNOLL_STATE_ALPHA_ARG2,  YUZUKNOLL_STATE_COLOUR_ARG0,
                                    YUZUKNOLL_STATE_ALPHA_ARG0,    YUZUKNOLL_STATE_RESULT_ARG};
    unsigned type = types[below(sizeof types)], value = below(27);
    if (type == YUZUKNOLL_STATE_TEXTURE_BOUND)
        value = below(2);
    if (type == YUZUKNOLL_STATE_RESULT_ARG)
        value = below(2) == 0 ? YUZUKNOLL_ARG_CURRENT : YUZUKNOLL_ARG_TEMP;
    at = put(put(at, YUZUKNOLL_KIND_STATE), below(40) == 0 ? 8 : below(8));
    at = put(put(at, below(40) == 0 ? 25 : type), value);
    return put(put(put(at, below(40) == 0), 0), 0);
}

/* Buffers that are large enough, or of any length. */
static uint8_t *put_lengths(uint8_t *at) {
    unsigned room = below(4) == 0 ? below(4000) : YUZUKNOLL_TEXT_LENGTH;
    return put(put(put(at, room & 255), room >> 8), below(90));
}

static uint8_t *put_held(uint8_t *at) {
    memset(at, 0, YUZUKNOLL_HELD_LENGTH);
    if (below(4) != 0) {
        put_any_key(at + YUZUKNOLL_HELD_KEY, below(2) == 0);
        put_variant(at + YUZUKNOLL_HELD_VARIANT);
        put_entry(at + YUZUKNOLL_HELD_ENTRY);
    }
    return at + YUZUKNOLL_HELD_LENGTH;
}

static uint8_t *put_records(uint8_t *at) {
    for (unsigned left = below(10); left != 0; left--) {
        switch (below(9)) {
        case 0: at = put_key(at); break;
        case 8: at = put_wide_key(at); break;
        case 1: at = put_variant(at); break;
        case 2: at = put_entry(at); break;
        case 3:
        case 4:
        case 5: at = put_write(at); break;
        default: at = put(at, YUZUKNOLL_KIND_EMIT);
        }
    }
    return put(at, YUZUKNOLL_KIND_EMIT);
}

int main(int count, char **arguments) {
    static uint8_t input[MOST];
    if (count != 3)
        return 2;
    for (int n = atoi(arguments[2]); n != 0; n--) {
        char path[4096];
        snprintf(path, sizeof path, "%s/%03d", arguments[1], n);
        FILE *file = fopen(path, "wb");
        if (file == NULL)
            return 1;
        uint8_t *end = put_records(put_held(put_lengths(input)));
        fwrite(input, 1, (size_t)(end - input), file);
        if (fclose(file) != 0)
            return 1;
    }
    return 0;
}
