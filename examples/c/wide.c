/* Three operands: a wide key whose first stage blends its texture with the diffuse colour by the texture factor, and adds in alpha. Prints the lines of
 * the stages. */
#include <inttypes.h>
#include <stdio.h>
#include <string.h>

#include "yuzuknoll.h"

static const yuzuknoll_wide_key key = {
    .stages =
        {
            {
                .colour_op = YUZUKNOLL_OP_LERP,
                .colour_arg0 = YUZUKNOLL_ARG_TFACTOR,
                .colour_arg1 = YUZUKNOLL_ARG_TEXTURE,
                .colour_arg2 = YUZUKNOLL_ARG_DIFFUSE,
                .alpha_op = YUZUKNOLL_OP_MULTIPLYADD,
                .alpha_arg0 = YUZUKNOLL_ARG_CONSTANT,
                .alpha_arg1 = YUZUKNOLL_ARG_TEXTURE,
                .alpha_arg2 = YUZUKNOLL_ARG_DIFFUSE,
                .flags = YUZUKNOLL_STAGE_TEXTURED,
            },
            {.colour_op = YUZUKNOLL_OP_DISABLE},
        },
};
static const yuzuknoll_variant variant = {0};
static const yuzuknoll_entry entry = YUZUKNOLL_ENTRY("blend");

int main(void) {
    static uint8_t text[YUZUKNOLL_TEXT_LENGTH + 1];
    yuzuknoll_result result;
    uint64_t refusal = yuzuknoll_emit_wide(&key, &variant, &entry, text, YUZUKNOLL_TEXT_LENGTH, &result);
    if (refusal != YUZUKNOLL_ACCEPTED) {
        fprintf(stderr, "refused with %" PRIu64 "\n", refusal);
        return 1;
    }
    printf("mask %" PRIu64 ", rows %" PRIu64 ", lookups %" PRIu64 "\n", result.mask, result.rows, result.lookups);
    for (char *line = strtok((char *)text, "\n"); line != NULL; line = strtok(NULL, "\n"))
        if (strncmp(line, "    current = ", 14) == 0)
            puts(line);
    return 0;
}
