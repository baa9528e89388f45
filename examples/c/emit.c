/* From values to a text: prints the Metal function of a lit texture with an alpha test. */
#include <inttypes.h>
#include <stdio.h>

#include "yuzuknoll.h"

/* The texture is lit by the diffuse colour, and the texture factor is added. Alpha is the texture's. */
static const yuzuknoll_key key = {
    .stages =
        {
            {
                .colour_op = YUZUKNOLL_OP_MODULATE,
                .colour_arg1 = YUZUKNOLL_ARG_TEXTURE,
                .colour_arg2 = YUZUKNOLL_ARG_DIFFUSE,
                .alpha_op = YUZUKNOLL_OP_SELECTARG1,
                .alpha_arg1 = YUZUKNOLL_ARG_TEXTURE,
                .flags = YUZUKNOLL_STAGE_TEXTURED,
            },
            {
                .colour_op = YUZUKNOLL_OP_ADD,
                .colour_arg1 = YUZUKNOLL_ARG_CURRENT,
                .colour_arg2 = YUZUKNOLL_ARG_TFACTOR,
                .alpha_op = YUZUKNOLL_OP_SELECTARG1,
                .alpha_arg1 = YUZUKNOLL_ARG_CURRENT,
            },
            {.colour_op = YUZUKNOLL_OP_DISABLE},
        },
};

/* Pixels are kept if alpha is above the reference value. */
static const yuzuknoll_variant variant = {.alpha_function = YUZUKNOLL_CMP_GREATER};

static const yuzuknoll_entry entry = YUZUKNOLL_ENTRY("windscreen");

int main(void) {
    static uint8_t text[YUZUKNOLL_TEXT_LENGTH];
    yuzuknoll_result result;
    uint64_t refusal = yuzuknoll_emit(&key, &variant, &entry, text, sizeof text, &result);
    if (refusal != YUZUKNOLL_ACCEPTED) {
        fprintf(stderr, "refused with %" PRIu64 "\n", refusal);
        return 1;
    }
    printf("// mask %" PRIu64 ", rows %" PRIu64 ", lookups %" PRIu64, result.mask, result.rows, result.lookups);
    printf(", warnings %" PRIu64 " %" PRIu64 " %" PRIu64 " %" PRIu64 "\n", result.op_warnings, result.selector_warnings, result.modifier_warnings,
           result.alpha_warning);
    fwrite(text, 1, result.length, stdout);
    return 0;
}
