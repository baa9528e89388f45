/* From records to texts: takes a stream of records, as a file or a connection would give it, and reports each text and its warnings. */
#include <inttypes.h>
#include <stdio.h>
#include <string.h>

#include "yuzuknoll.h"

/* A stage that shows its texture, as it is or lit by the diffuse colour. */
static const yuzuknoll_key plain = {
    .stages = {{.colour_op = YUZUKNOLL_OP_SELECTARG1,
                .colour_arg1 = YUZUKNOLL_ARG_TEXTURE,
                .alpha_op = YUZUKNOLL_OP_DISABLE,
                .flags = YUZUKNOLL_STAGE_TEXTURED},
               {.colour_op = YUZUKNOLL_OP_DISABLE}},
};
static const yuzuknoll_key lit = {
    .stages = {{.colour_op = YUZUKNOLL_OP_MODULATE,
                .colour_arg1 = YUZUKNOLL_ARG_TEXTURE,
                .colour_arg2 = YUZUKNOLL_ARG_DIFFUSE,
                .alpha_op = YUZUKNOLL_OP_DISABLE,
                .flags = YUZUKNOLL_STAGE_TEXTURED},
               {.colour_op = YUZUKNOLL_OP_DISABLE}},
};
/* One from elsewhere: PREMODULATE, which has no formula here, and an argument that there is not. */
static const yuzuknoll_key foreign = {
    .stages = {{.colour_op = YUZUKNOLL_OP_SELECTARG1,
                .colour_arg1 = YUZUKNOLL_ARG_TEXTURE,
                .alpha_op = YUZUKNOLL_OP_DISABLE,
                .flags = YUZUKNOLL_STAGE_TEXTURED},
               {.colour_op = 17, .colour_arg1 = YUZUKNOLL_ARG_CURRENT, .alpha_op = YUZUKNOLL_OP_DISABLE},
               {.colour_op = YUZUKNOLL_OP_ADD,
                .colour_arg1 = YUZUKNOLL_ARG_CURRENT,
                .colour_arg2 = 9,
                .alpha_op = YUZUKNOLL_OP_DISABLE},
               {.colour_op = YUZUKNOLL_OP_DISABLE}},
};
static const yuzuknoll_variant foggy = {.fog_table_mode = YUZUKNOLL_FOG_EXP, .flags = YUZUKNOLL_VARIANT_FOG_SOURCE_W};
static const yuzuknoll_entry mirror = YUZUKNOLL_ENTRY("mirror");

static size_t put_record(uint8_t *at, uint8_t kind, const void *body, size_t length) {
    at[0] = kind;
    memcpy(at + 1, body, length);
    return 1 + length;
}

/* A text of the plain key, those of the other keys with the same variant and entry, and a variant that is cut short. */
static size_t make_records(uint8_t *records) {
    size_t at = 0;
    at += put_record(records + at, YUZUKNOLL_KIND_KEY, &plain, sizeof plain);
    at += put_record(records + at, YUZUKNOLL_KIND_VARIANT, &foggy, sizeof foggy);
    at += put_record(records + at, YUZUKNOLL_KIND_ENTRY, &mirror, sizeof mirror);
    at += put_record(records + at, YUZUKNOLL_KIND_EMIT, "", 0);
    at += put_record(records + at, YUZUKNOLL_KIND_KEY, &lit, sizeof lit);
    at += put_record(records + at, YUZUKNOLL_KIND_EMIT, "", 0);
    at += put_record(records + at, YUZUKNOLL_KIND_KEY, &foreign, sizeof foreign);
    at += put_record(records + at, YUZUKNOLL_KIND_EMIT, "", 0);
    at += put_record(records + at, YUZUKNOLL_KIND_VARIANT, &foggy, sizeof foggy);
    return at - 1;
}

static void report_text(const yuzuknoll_result *result) {
    printf("a text of %" PRIu64 " bytes with %" PRIu64 " lookup\n", result->length, result->lookups);
    for (int stage = 0; stage < 8; stage++) {
        if (result->op_warnings >> stage & 1)
            printf("  stage %d: unsupported op\n", stage);
        if (result->selector_warnings >> stage & 1)
            printf("  stage %d: unsupported argument\n", stage);
        if (result->modifier_warnings >> stage & 1)
            printf("  stage %d: unsupported modifier\n", stage);
    }
    if (result->alpha_warning)
        printf("  unsupported alpha function\n");
}

int main(void) {
    static uint8_t text[YUZUKNOLL_TEXT_LENGTH];
    uint8_t records[4 * YUZUKNOLL_HELD_LENGTH];
    size_t length = make_records(records);
    yuzuknoll_held held = {{0}};
    for (size_t at = 0; at < length;) {
        yuzuknoll_applied applied;
        uint64_t refusal = yuzuknoll_apply(&held, records + at, length - at, text, sizeof text, &applied);
        if (refusal != YUZUKNOLL_ACCEPTED) {
            printf("refused with %" PRIu64 " at %zu\n", refusal, at);
            break;
        }
        if (applied.kind == YUZUKNOLL_KIND_EMIT)
            report_text(&applied.result);
        else
            printf("a record of kind %" PRIu64 ", %" PRIu64 " bytes\n", applied.kind, applied.taken);
        at += applied.taken;
    }
    return 0;
}
