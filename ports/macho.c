/* Stands for the library in a program that is linked with no archive: loads a Mach-O library for this processor from the file that YUZUKNOLL_MACHO names,
 * and calls its functions. So the code for Macs can be run where there is no Mac. It asks for a library that has only code and constants, calls nothing
 * and needs no relocation, which ports/test links. Macs pass numbers of 64 bits and pointers as Linux does on the same processor.
 */
#define _GNU_SOURCE
#include <stdint.h>
#include <stdio.h>
#include <stdlib.h>
#include <string.h>
#include <sys/mman.h>

#include "yuzuknoll.h"

#define MOST 0x100000
#define MAGIC 0xfeedfacf
#define SEGMENT 0x19
#define SYMBOLS 0x2

struct header {
    uint32_t magic, processor, subtype, type, commands, commands_length, flags, reserved;
};
struct segment {
    uint32_t command, length;
    char name[16];
    uint64_t address, memory_length, offset, file_length;
};
struct symbols {
    uint32_t command, length, offset, count, strings, strings_length;
};
struct symbol {
    uint32_t name;
    uint8_t type, section;
    uint16_t description;
    uint64_t address;
};

static uint8_t file[MOST];
static uint8_t *image;
static struct symbols symbols;

static void need(int good, const char *what) {
    if (!good) {
        fprintf(stderr, "macho: %s\n", what);
        exit(2);
    }
}

static void load_segment(const struct segment *segment) {
    need(strcmp(segment->name, "__TEXT") == 0 || strcmp(segment->name, "__LINKEDIT") == 0, "a segment of data");
    need(segment->address + segment->file_length <= MOST && segment->offset + segment->file_length <= MOST, "a segment that is too long");
    memcpy(image + segment->address, file + segment->offset, segment->file_length);
}

static void load(void) {
    const char *path = getenv("YUZUKNOLL_MACHO");
    FILE *stream = path == NULL ? NULL : fopen(path, "rb");
    need(stream != NULL && fread(file, 1, sizeof file, stream) > sizeof(struct header), "no file");
    fclose(stream);
    image = mmap(NULL, MOST, PROT_READ | PROT_WRITE, MAP_PRIVATE | MAP_ANONYMOUS, -1, 0);
    need(image != MAP_FAILED, "no memory");
    struct header header;
    memcpy(&header, file, sizeof header);
    need(header.magic == MAGIC, "no Mach-O file");
    const uint8_t *at = file + sizeof header;
    for (uint32_t i = 0; i < header.commands; i++) {
        struct segment command;
        memcpy(&command, at, sizeof command);
        if (command.command == SEGMENT)
            load_segment(&command);
        if (command.command == SYMBOLS)
            memcpy(&symbols, at, sizeof symbols);
        at += command.length;
    }
    need(mprotect(image, MOST, PROT_READ | PROT_EXEC) == 0, "memory that cannot be run");
    __builtin___clear_cache((char *)image, (char *)image + MOST);
}

static void *find(const char *name) {
    if (image == NULL)
        load();
    for (uint32_t i = 0; i < symbols.count; i++) {
        struct symbol symbol;
        memcpy(&symbol, file + symbols.offset + i * sizeof symbol, sizeof symbol);
        const char *found = (const char *)file + symbols.strings + symbol.name;
        if (found[0] == '_' && strcmp(found + 1, name) == 0)
            return image + symbol.address;
    }
    need(0, name);
    return NULL;
}

/* A function of the header that finds its counterpart at its first call. */
#define LOADED(result, name, parameters, arguments) \
    result name parameters { \
        typedef result function parameters; \
        static function *found; \
        if (found == NULL) \
            found = (function *)find(#name); \
        return found arguments; \
    }

LOADED(uint64_t, yuzuknoll_emit,
       (const yuzuknoll_key *key, const yuzuknoll_variant *variant, const yuzuknoll_entry *entry, uint8_t *text, size_t length, yuzuknoll_result *result),
       (key, variant, entry, text, length, result))
LOADED(uint64_t, yuzuknoll_emit_wide,
       (const yuzuknoll_wide_key *key, const yuzuknoll_variant *variant, const yuzuknoll_entry *entry, uint8_t *text, size_t length,
        yuzuknoll_result *result),
       (key, variant, entry, text, length, result))
LOADED(uint64_t, yuzuknoll_read, (const uint8_t *bytes, size_t length, yuzuknoll_record *record), (bytes, length, record))
LOADED(uint64_t, yuzuknoll_write, (const uint8_t *bytes, size_t length, uint8_t *out, size_t out_length, yuzuknoll_record *record),
       (bytes, length, out, out_length, record))
LOADED(uint64_t, yuzuknoll_apply,
       (yuzuknoll_held *held, const uint8_t *bytes, size_t length, uint8_t *text, size_t text_length, yuzuknoll_applied *applied),
       (held, bytes, length, text, text_length, applied))
LOADED(void, yuzuknoll_entry_start, (uint64_t state[3]), (state))
LOADED(void, yuzuknoll_entry_step, (uint64_t state[3], uint8_t byte), (state, byte))
LOADED(uint64_t, yuzuknoll_entry_possible, (const uint64_t state[3]), (state))
