/* From state writes to a text: a scene's list of texture stage state writes, as a program that draws with Direct3D 9 issues them, becomes a key. */
#include <inttypes.h>
#include <stdio.h>
#include <string.h>

#include "yuzuknoll.h"

/* A state of Direct3D that no key has. */
#define D3DTSS_TEXCOORDINDEX 11

/* A lit texture at stage 0, and a detail texture that is added at stage 1. The second write of an op counts. What no write sets has Direct3D's default:
 * stage 0 modulates, and stage 2 is disabled. */
static const yuzuknoll_state_write scene[] = {
    YUZUKNOLL_STATE_WRITE(0, YUZUKNOLL_STATE_TEXTURE_BOUND, 1),
    YUZUKNOLL_STATE_WRITE(0, YUZUKNOLL_STATE_COLOUR_ARG2, YUZUKNOLL_ARG_DIFFUSE),
    YUZUKNOLL_STATE_WRITE(1, YUZUKNOLL_STATE_TEXTURE_BOUND, 1),
    YUZUKNOLL_STATE_WRITE(1, YUZUKNOLL_STATE_COLOUR_OP, YUZUKNOLL_OP_ADD),
    YUZUKNOLL_STATE_WRITE(1, D3DTSS_TEXCOORDINDEX, 0),
    YUZUKNOLL_STATE_WRITE(1, YUZUKNOLL_STATE_COLOUR_OP, YUZUKNOLL_OP_ADDSIGNED),
};
static const yuzuknoll_variant variant = {0};
static const yuzuknoll_entry entry = YUZUKNOLL_ENTRY("scene");

static yuzuknoll_held held;
static uint8_t text[YUZUKNOLL_TEXT_LENGTH];

/* Applies one record. A refused one changes nothing, so a list may go on behind it. */
static uint64_t apply(uint8_t kind, const void *body, size_t length, yuzuknoll_applied *applied) {
    uint8_t record[YUZUKNOLL_KEY_RECORD_LENGTH] = {kind};
    memcpy(record + 1, body, length);
    return yuzuknoll_apply(&held, record, 1 + length, text, sizeof text, applied);
}

/* The key that is held, behind its kind. */
static void print_key(void) {
    yuzuknoll_key key;
    memcpy(&key, held.bytes + 1, sizeof key);
    for (int i = 0; i < 3; i++) {
        const yuzuknoll_stage *stage = &key.stages[i];
        printf("stage %d: colour %d %d %d, alpha %d %d %d, flags %d\n", i, stage->colour_op, stage->colour_arg1, stage->colour_arg2, stage->alpha_op,
               stage->alpha_arg1, stage->alpha_arg2, stage->flags);
    }
}

int main(void) {
    yuzuknoll_applied applied;
    for (size_t i = 0; i < sizeof scene / sizeof *scene; i++) {
        uint64_t refusal = apply(YUZUKNOLL_KIND_STATE, &scene[i], sizeof scene[i], &applied);
        if (refusal != YUZUKNOLL_ACCEPTED)
            printf("write %zu: refused with %" PRIu64 "\n", i, refusal);
    }
    print_key();
    apply(YUZUKNOLL_KIND_VARIANT, &variant, sizeof variant, &applied);
    apply(YUZUKNOLL_KIND_ENTRY, &entry, sizeof entry, &applied);
    if (apply(YUZUKNOLL_KIND_EMIT, "", 0, &applied) != YUZUKNOLL_ACCEPTED)
        return 1;
    printf("a text of %" PRIu64 " bytes with %" PRIu64 " lookups\n", applied.result.length, applied.result.lookups);
    return 0;
}
