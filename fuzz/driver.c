/* driver COUNT SEED FILE..: without libFuzzer, COUNT inputs for interface.c, each a file's bytes with a few altered. */
#include <stdint.h>
#include <stdio.h>
#include <stdlib.h>
#include <string.h>

#define MOST 4096

int LLVMFuzzerTestOneInput(const uint8_t *data, size_t size);

static uint64_t state;

static size_t below(size_t bound) {
    state = state * 6364136223846793005u + 1442695040888963407u;
    return (size_t)(state >> 33) % bound;
}

static size_t load(const char *path, uint8_t *input) {
    FILE *file = fopen(path, "rb");
    if (file == NULL)
        exit(2);
    size_t size = fread(input, 1, MOST / 2, file);
    fclose(file);
    return size;
}

/* A bit or a byte altered, one taken out, one put in, or the rest cut off. */
static size_t alter(uint8_t *input, size_t size) {
    size_t at = below(size);
    switch (below(8)) {
    case 0: return at + 1;
    case 1: memmove(input + at, input + at + 1, size - at - 1); return size > 1 ? size - 1 : size;
    case 2: memmove(input + at + 1, input + at, size - at); return size + 1;
    case 3: input[at] = (uint8_t)below(256); return size;
    default: input[at] ^= (uint8_t)(1u << below(8)); return size;
    }
}

int main(int count, char **arguments) {
    static uint8_t input[MOST];
    if (count < 4)
        return 2;
    state = strtoull(arguments[2], NULL, 10);
    for (long left = atol(arguments[1]); left != 0; left--) {
        size_t size = load(arguments[3 + below((size_t)count - 3)], input);
        for (size_t changes = below(6); changes != 0; changes--)
            size = alter(input, size);
        LLVMFuzzerTestOneInput(input, size);
    }
    return 0;
}
