/* texts: the texts that clang is to read, made by the archive through include/yuzuknoll.h.
 *
 *   texts CORPUS...       one source with the different texts of these corpora, each in a namespace that bears its name; the last line counts them
 *   texts records NAME    the records of the text NAME and an emit record, in hexadecimal, one to a line
 *   texts whole NAME      the text NAME as it is
 *   texts word WORD N     the shortest text (0), the rich one (1) or a small one (2 to 49) under the entry WORD, as it is
 *   texts word-records WORD N    the records of that text
 *   texts words N         a file with the text N for each word on standard input, under its name in this folder
 *   texts reserved        the words on standard input that are refused as entries with 13
 *   texts smalls WORD     a file for each of the small texts, under its number in this folder
 *   texts attributes      looks at the attributes of one text on standard input
 *
 * Corpora: worked, everyday, selectors, kinds, flags, lookups, bump, mixed, three, wide; and sweep, whose texts clang does not all accept, and where a text that
 * was there before is told in a line `// same NAME EARLIER`.
 */
#define _POSIX_C_SOURCE 200809L
#include <stdarg.h>
#include <stdbool.h>
#include <stdint.h>
#include <stdio.h>
#include <stdlib.h>
#include <string.h>

#include "../include/yuzuknoll.h"

#define COUNT(array) (sizeof(array) / sizeof((array)[0]))

#define OP(name) YUZUKNOLL_OP_##name
#define ARG(name) YUZUKNOLL_ARG_##name
#define FLAG(name) YUZUKNOLL_VARIANT_##name
#define MASK(name) YUZUKNOLL_MASK_##name

enum { STAGES = 8, MASKS = 7, ALL_FLAGS = 63 };

struct input {
    yuzuknoll_key key;
    yuzuknoll_variant variant;
    yuzuknoll_entry entry;
    /* With these the key is one of kind 6. */
    bool wide;
    uint8_t colour_arg0[STAGES], alpha_arg0[STAGES];
};

struct combiner {
    int op, first, second;
};

static const struct combiner kept = {OP(DISABLE), 0, 0};
static const struct combiner diffuse = {OP(SELECTARG1), ARG(DIFFUSE), 0};
static const struct combiner texel = {OP(SELECTARG1), ARG(TEXTURE), 0};

static void fail(const char *what, const char *name) {
    fprintf(stderr, "texts: %s: %s\n", name, what);
    exit(1);
}

/* ---- Inputs ---- */

static void set_stage(struct input *in, int stage, struct combiner colour, struct combiner alpha, int flags) {
    in->key.stages[stage] = (yuzuknoll_stage){
        .colour_op = (uint8_t)colour.op,
        .colour_arg1 = (uint8_t)colour.first,
        .colour_arg2 = (uint8_t)colour.second,
        .alpha_op = (uint8_t)alpha.op,
        .alpha_arg1 = (uint8_t)alpha.first,
        .alpha_arg2 = (uint8_t)alpha.second,
        .flags = (uint8_t)flags,
    };
}

static void set_arguments0(struct input *in, int stage, int colour, int alpha) {
    in->wide = true;
    in->colour_arg0[stage] = (uint8_t)colour;
    in->alpha_arg0[stage] = (uint8_t)alpha;
}

static yuzuknoll_wide_key wide_key(const struct input *in) {
    yuzuknoll_wide_key key = {.specular = in->key.specular, .projected = in->key.projected};
    for (int i = 0; i < STAGES; i++) {
        const yuzuknoll_stage *stage = &in->key.stages[i];
        key.stages[i] = (yuzuknoll_wide_stage){
            .colour_op = stage->colour_op,
            .colour_arg1 = stage->colour_arg1,
            .colour_arg2 = stage->colour_arg2,
            .alpha_op = stage->alpha_op,
            .alpha_arg1 = stage->alpha_arg1,
            .alpha_arg2 = stage->alpha_arg2,
            .colour_arg0 = in->colour_arg0[i],
            .alpha_arg0 = in->alpha_arg0[i],
            .flags = stage->flags,
        };
    }
    return key;
}

static void set_specular(struct input *in, int on) { in->key.specular = (uint8_t)on; }
static void set_projected(struct input *in, int mask) { in->key.projected = (uint8_t)mask; }
static void set_alpha_function(struct input *in, int code) { in->variant.alpha_function = (uint8_t)code; }
static void set_fog(struct input *in, int mode, int table) { in->variant.fog_mode = (uint8_t)mode, in->variant.fog_table_mode = (uint8_t)table; }
static void set_sample_mask(struct input *in, int mask) { in->variant.sample_mask = (uint8_t)mask; }
static void set_flags(struct input *in, int flags) { in->variant.flags = (uint8_t)flags; }

/* Bit n of bits is the stage's bit in mask n. */
static void set_stage_bits(struct input *in, int stage, unsigned bits) {
    for (int mask = 0; mask < MASKS; mask++) {
        uint8_t *low = &in->variant.masks[mask][0];
        *low = (uint8_t)((*low & ~(1u << stage)) | (bits >> mask & 1u) << stage);
    }
}

static void set_entry(struct input *in, const char *name) {
    size_t length = strlen(name);
    if (length == 0 || length > sizeof in->entry.name) fail("not 1 to 32 bytes", name);
    in->entry = (yuzuknoll_entry){.length = (uint8_t)length};
    memcpy(in->entry.name, name, length);
}

/* Every stage disabled, a variant of zeros, the entry m. */
static struct input nothing(void) {
    struct input in;
    memset(&in, 0, sizeof in);
    for (int i = 0; i < STAGES; i++) set_stage(&in, i, kept, kept, 0);
    set_entry(&in, "m");
    return in;
}

/* A stage that does nothing but look its texture up. */
static void set_lookup(struct input *in, int stage) { set_stage(in, stage, texel, kept, YUZUKNOLL_STAGE_TEXTURED); }

static void set_bump(struct input *in, int stage, bool luminance, bool textured) {
    struct combiner colour = {luminance ? OP(BUMPENVMAPLUMINANCE) : OP(BUMPENVMAP), ARG(DIFFUSE), ARG(CURRENT)};
    set_stage(in, stage, colour, kept, textured ? YUZUKNOLL_STAGE_TEXTURED : 0);
}

/* ---- Output ---- */

static struct {
    const char *wanted; /* the one text that is asked for, or null for all */
    bool whole, found, same_told;
    unsigned long inputs, texts;
} output;

static uint8_t text[YUZUKNOLL_TEXT_LENGTH + 1];

static size_t emitted(const struct input *in, const char *name) {
    yuzuknoll_result result;
    yuzuknoll_wide_key wide = wide_key(in);
    uint64_t refusal = in->wide ? yuzuknoll_emit_wide(&wide, &in->variant, &in->entry, text, YUZUKNOLL_TEXT_LENGTH, &result)
                                : yuzuknoll_emit(&in->key, &in->variant, &in->entry, text, YUZUKNOLL_TEXT_LENGTH, &result);
    if (refusal != YUZUKNOLL_ACCEPTED) fail("the emitter refuses it", name);
    return result.length;
}

/* The name of an earlier equal text, or null for a new one, which is kept. Texts are told apart by 64 bits of FNV-1a: that two of some 9,000 fall
 * together by chance, and one of them stays unread, is less likely than one in ten thousand million. */
static const char *earlier(const char *name, size_t length) {
    enum { SLOTS = 1 << 18 };
    static struct {
        uint64_t hash;
        char *name;
    } seen[SLOTS];
    uint64_t hash = 0xcbf29ce484222325u;
    for (size_t i = 0; i < length; i++) hash = (hash ^ text[i]) * 0x100000001b3u;
    if (output.texts > SLOTS / 2) fail("too many texts", name);
    size_t slot = hash % SLOTS;
    while (seen[slot].name != NULL && seen[slot].hash != hash) slot = (slot + 1) % SLOTS;
    if (seen[slot].name != NULL) return seen[slot].name;
    seen[slot].hash = hash;
    seen[slot].name = strdup(name);
    if (seen[slot].name == NULL) fail("no memory", name);
    return NULL;
}

/* ---- Attributes: clang passes over those of Metal ---- */

/* The attributes of a text; those with a limit have an index below it, once in a text. The limits are from memory of Metal's feature tables. */
enum { ATTRIBUTE_LIMIT = 128 };
static const struct {
    const char *name;
    unsigned long limit;
} attributes[] = {{"position, invariant", 0}, {"flat", 0},        {"center_no_perspective", 0}, {"point_size", 0}, {"stage_in", 0},
                  {"point_coord", 0},         {"sample_mask", 0}, {"color", 8},                 {"buffer", 31},    {"texture", 128},
                  {"sampler", 16}};

static size_t attribute_of(const char *word, size_t length, const char *name) {
    for (size_t at = 0; at < COUNT(attributes); at++)
        if (strlen(attributes[at].name) == length && memcmp(attributes[at].name, word, length) == 0) return at;
    fail("an unknown attribute", name);
    return 0;
}

static void check_attribute(const char *inside, bool (*used)[ATTRIBUTE_LIMIT], const char *name) {
    size_t length = strcspn(inside, "(]");
    size_t at = attribute_of(inside, length, name);
    const char *behind = inside + length;
    if (attributes[at].limit != 0) {
        char *end;
        unsigned long index = behind[0] == '(' && behind[1] >= '0' && behind[1] <= '9' ? strtoul(behind + 1, &end, 10) : ATTRIBUTE_LIMIT;
        if (index >= attributes[at].limit || *end != ')') fail("an attribute without an index in its range", name);
        if (used[at][index]) fail("an attribute's index twice", name);
        used[at][index] = true;
        behind = end + 1;
    }
    if (strncmp(behind, "]]", 2) != 0) fail("an attribute that does not end", name);
}

static void check_attributes(size_t length, const char *name) {
    bool used[COUNT(attributes)][ATTRIBUTE_LIMIT] = {{false}};
    text[length] = 0;
    for (const char *at = strstr((const char *)text, "[["); at != NULL; at = strstr(at + 2, "[[")) check_attribute(at + 2, used, name);
}

/* The text without its own include, whose line the namespace takes, so that the lines of clang's messages are the text's. */
static void write_in_namespace(const char *name, size_t length) {
    static const char include[] = "#include <metal_stdlib>\n";
    size_t skipped = sizeof include - 1;
    if (length < skipped || memcmp(text, include, skipped) != 0) fail("it does not begin with its include", name);
    printf("#line 1 \"%s\"\nnamespace %s {\n", name, name);
    fwrite(text + skipped, 1, length - skipped, stdout);
    fputs("}\n", stdout);
}

static void write_record(int kind, const void *body, size_t length) {
    const uint8_t *bytes = body;
    printf("%02x", kind);
    for (size_t i = 0; i < length; i++) printf("%02x", bytes[i]);
    putchar('\n');
}

static void write_records(const struct input *in) {
    yuzuknoll_wide_key wide = wide_key(in);
    if (in->wide) {
        write_record(YUZUKNOLL_KIND_WIDE_KEY, &wide, sizeof wide);
    } else {
        write_record(YUZUKNOLL_KIND_KEY, &in->key, sizeof in->key);
    }
    write_record(YUZUKNOLL_KIND_VARIANT, &in->variant, sizeof in->variant);
    write_record(YUZUKNOLL_KIND_ENTRY, &in->entry, sizeof in->entry);
    write_record(YUZUKNOLL_KIND_EMIT, "", 0);
}

static void write_if_new(const char *name, size_t length) {
    const char *same = earlier(name, length);
    if (same == NULL) {
        check_attributes(length, name);
        output.texts++;
        write_in_namespace(name, length);
    } else if (output.same_told) {
        printf("// same %s %s\n", name, same);
    }
}

__attribute__((format(printf, 2, 3))) static void put(const struct input *in, const char *format, ...) {
    char name[96];
    va_list arguments;
    va_start(arguments, format);
    int written = vsnprintf(name, sizeof name, format, arguments);
    va_end(arguments);
    if (written < 0 || (size_t)written >= sizeof name) fail("the name is too long", format);
    if (output.wanted != NULL && (output.found || strcmp(output.wanted, name) != 0)) return;
    output.found = true;
    output.inputs++;
    size_t length = emitted(in, name);
    if (output.wanted != NULL && output.whole) {
        fwrite(text, 1, length, stdout);
    } else if (output.wanted != NULL) {
        write_records(in);
    } else {
        write_if_new(name, length);
    }
}

/* ---- The rule of docs/METAL.md ---- */

static bool has(unsigned bits, int mask) { return (bits >> mask & 1) != 0; }

/* Whether a written lookup of a stage with these bits is ill-typed. */
static bool lookup_refused(unsigned bits) {
    bool three = has(bits, MASK(VOLUME)) || has(bits, MASK(CUBE));
    if (has(bits, MASK(DEPTH_SAMPLER))) return false;
    if (has(bits, MASK(FETCH4))) return three;
    return has(bits, MASK(DEPTH_FETCH)) && (three || has(bits, MASK(RAW_DEPTH_RED)));
}

/* ---- Random numbers: SplitMix64, as the oracle's generators ---- */

static uint64_t state;

static uint64_t random64(void) {
    state += 0x9e3779b97f4a7c15u;
    uint64_t z = (state ^ (state >> 30)) * 0xbf58476d1ce4e5b9u;
    z = (z ^ (z >> 27)) * 0x94d049bb133111ebu;
    return z ^ (z >> 31);
}

static int below(int bound) { return (int)(random64() % (uint64_t)bound); }
static bool percent(int share) { return below(100) < share; }

struct choice {
    int weight, value;
};

static int weighted(const struct choice *from, size_t count) {
    int all = 0;
    for (size_t i = 0; i < count; i++) all += from[i].weight;
    int left = below(all);
    size_t at = 0;
    while (left >= from[at].weight) left -= from[at++].weight;
    return from[at].value;
}

#define WEIGHTED(...) weighted((const struct choice[]){__VA_ARGS__}, COUNT(((const struct choice[]){__VA_ARGS__})))

/* ---- Corpora ---- */

/* 01's worked stages. */
static void worked(void) {
    struct input in = nothing();
    in.key = (yuzuknoll_key){.stages = {{.colour_op = OP(DISABLE)}}};
    put(&in, "Z1");
    in = nothing();
    set_stage(&in, 0, (struct combiner){OP(MODULATE), ARG(TEXTURE), ARG(DIFFUSE)}, kept, YUZUKNOLL_STAGE_TEXTURED);
    put(&in, "Z2");
    for (int op = OP(SELECTARG1); op <= OP(MODULATE); op += 2) {
        set_stage(&in, 0, (struct combiner){op, ARG(DIFFUSE), ARG(TEXTURE)}, kept, 0);
        put(&in, "Z3_op%d", op);
    }
    set_stage(&in, 0, diffuse, kept, 0);
    set_stage(&in, 1, diffuse, kept, 0);
    set_stage(&in, 2, (struct combiner){OP(SELECTARG1), ARG(CONSTANT) | ARG(COMPLEMENT) | ARG(ALPHAREPLICATE), 0}, kept, 0);
    put(&in, "Z4");
    for (int op = 4; op <= 17; op += 13) {
        in = nothing();
        set_stage(&in, 0, (struct combiner){op, ARG(DIFFUSE), ARG(TEMP)}, kept, 0);
        put(&in, "Z5_op%d", op);
    }
    for (int argument = 0; argument <= 2; argument += 2) {
        set_stage(&in, 0, (struct combiner){OP(BUMPENVMAP), 0, 0}, kept, YUZUKNOLL_STAGE_TEXTURED);
        set_stage(&in, 1, (struct combiner){OP(SELECTARG1), argument, 0}, kept, YUZUKNOLL_STAGE_TEXTURED);
        put(&in, "Z6_argument%d", argument);
    }
    set_bump(&in, 0, true, false);
    put(&in, "Z7");
    for (int code = 8; code <= 9; code++) {
        in = nothing();
        set_alpha_function(&in, code);
        put(&in, "Z8_function%d", code);
    }
    in = nothing();
    set_stage(&in, 0, (struct combiner){OP(BLENDTEXTUREALPHA), ARG(DIFFUSE), ARG(SPECULAR)}, kept, 0);
    put(&in, "Z9");
}

static void set_everyday_stage(struct input *in, int stage) {
    static const int others[] = {ARG(DIFFUSE), ARG(TFACTOR), ARG(SPECULAR), ARG(CONSTANT)};
    bool textured = stage == 0 || (stage == 1 && percent(60));
    int first = textured ? ARG(TEXTURE) : others[below(4)];
    int before = stage == 0 ? ARG(DIFFUSE) : ARG(CURRENT);
    int blend = textured ? OP(BLENDTEXTUREALPHA) : OP(BLENDCURRENTALPHA);
    int op = WEIGHTED({10, OP(MODULATE)}, {4, OP(SELECTARG1)}, {3, OP(ADD)}, {3, OP(MODULATE2X)}, {2, blend}, {1, OP(MODULATE4X)},
                      {1, OP(ADDSIGNED)}, {1, OP(SUBTRACT)}, {1, OP(ADDSMOOTH)}, {1, OP(BLENDDIFFUSEALPHA)}, {1, OP(BLENDFACTORALPHA)});
    int alpha = WEIGHTED({4, OP(SELECTARG1)}, {4, OP(MODULATE)}, {3, OP(DISABLE)}, {2, OP(SELECTARG2)});
    set_stage(in, stage, (struct combiner){op, first, before}, (struct combiner){alpha, first, before}, textured ? YUZUKNOLL_STAGE_TEXTURED : 0);
}

static struct input everyday_input(void) {
    struct input in = nothing();
    int count = WEIGHTED({1, 0}, {6, 1}, {7, 2}, {3, 3}, {2, 4});
    for (int i = 0; i < count; i++) set_everyday_stage(&in, i);
    set_specular(&in, below(8) == 0);
    if (below(16) == 0) set_projected(&in, 1 << below(2));
    set_alpha_function(&in, WEIGHTED({6, 0}, {2, YUZUKNOLL_CMP_GREATER}, {2, YUZUKNOLL_CMP_GREATEREQUAL}, {1, YUZUKNOLL_CMP_ALWAYS}));
    int kind = below(8);
    if (kind < 2) set_fog(&in, YUZUKNOLL_FOG_LINEAR, YUZUKNOLL_FOG_NONE);
    if (kind == 2) set_fog(&in, 0, 1 + below(3)), set_flags(&in, FLAG(FOG_SOURCE_W));
    if (kind == 3) set_flags(&in, FLAG(FLAT_SHADE));
    set_entry(&in, "mtld3d_ps");
    return in;
}

/* A thousand different texts of usual scenes, of none to four stages; the oracle's generator. */
static void everyday(void) {
    state = 1;
    unsigned long before = output.texts;
    for (int i = 0; output.texts - before < 1000; i++) {
        if (i == 100000 && output.wanted == NULL) fail("no thousand different texts", "everyday");
        if (i == 100000) return; /* one text alone is wanted, and it is not among these */
        struct input in = everyday_input();
        put(&in, "everyday_%d", i);
    }
}

static const int ops[] = {0,  1,  2,  3,  4,  5,  6,  7,  8,  9,  10, 11, 12, 13, 14,  15, 16,
                          17, 18, 19, 20, 21, 22, 23, 24, 25, 26, 27, 28, 64, 128, 200, 255};

static void put_selectors(struct combiner c, bool alpha, int flags) {
    static const struct combiner temp_reader = {OP(SELECTARG1), ARG(TEMP), 0};
    const char *role = alpha ? "alpha" : "colour";
    struct input in = nothing();
    set_stage(&in, 0, alpha ? diffuse : c, alpha ? c : kept, flags);
    put(&in, "selectors_%s_op%d_%d_%d_flags%d", role, c.op, c.first, c.second, flags);
    if ((flags & YUZUKNOLL_STAGE_TO_TEMP) == 0) return;
    set_stage(&in, 1, temp_reader, kept, 0);
    put(&in, "selectors_%s_op%d_%d_%d_flags%d_read", role, c.op, c.first, c.second, flags);
}

/* One stage: every op with every pair of selectors, in colour and in alpha, with a texture and without, to CURRENT, to TEMP, and to TEMP with a
 * reader behind it. A name that is declared here is used by this one stage or by none. */
static void selectors(void) {
    for (size_t op = 0; op < COUNT(ops); op++)
        for (int pair = 0; pair < 256; pair++)
            for (int role = 0; role < 2; role++)
                for (int flags = 0; flags < 4; flags++) put_selectors((struct combiner){ops[op], pair / 16, pair % 16}, role == 1, flags);
}

/* Eight stages, stage i with selector i as argument 2: every op with every argument 1 (selectors 0 to 7 with every complement and alpha replicate)
 * and every argument 2, in colour and in alpha. */
enum role { IN_COLOUR, IN_ALPHA, IN_BOTH };
static const char *const role_names[] = {"colour", "alpha", "both"};

static void put_kinds(int op, int first, int modifier, enum role role, bool textured) {
    struct input in = nothing();
    for (int i = 0; i < STAGES; i++) {
        struct combiner c = {op, first, modifier | i};
        set_stage(&in, i, role == IN_ALPHA ? diffuse : c, role == IN_COLOUR ? kept : c, textured ? YUZUKNOLL_STAGE_TEXTURED : 0);
    }
    put(&in, "kinds_%s_op%d_%02x_%xx%s", role_names[role], op, (unsigned)first, (unsigned)modifier >> 4, textured ? "_textured" : "");
}

static void put_roles(int op, int first, int modifier) {
    /* Ops 1, 22, 23 and 24 in colour decide what becomes of alpha. */
    if (op == OP(DISABLE) || op >= OP(BUMPENVMAP)) {
        put_kinds(op, first, modifier, IN_COLOUR, true);
        put_kinds(op, first, modifier, IN_ALPHA, true);
        return;
    }
    put_kinds(op, first, modifier, IN_BOTH, true);
    /* Without a texture only these have another text. */
    if (op == OP(BLENDTEXTUREALPHA) || op == OP(BLENDTEXTUREALPHAPM)) put_kinds(op, first, modifier, IN_BOTH, false);
}

static void kinds(void) {
    for (size_t op = 0; op < COUNT(ops); op++)
        for (int first = 0; first < 32; first++)
            for (int modifier = 0; modifier < 4; modifier++) put_roles(ops[op], (first & 7) | (first >> 3) << 4, modifier << 4);
    /* Bits 0x40 and 0x80 have no effect. */
    for (int bits = 1; bits < 4; bits++) put_roles(OP(MODULATE), bits << 6 | ARG(TEXTURE), bits << 6);
}

static void put_flags(int fog_mode, int table, int function, int flags, int specular) {
    struct input in = nothing();
    set_lookup(&in, 0);
    set_specular(&in, specular);
    set_fog(&in, fog_mode, table);
    set_alpha_function(&in, function);
    set_flags(&in, flags);
    put(&in, "flags_%d_fog%d_table%d_function%d%s", flags, fog_mode, table, function, specular ? "_specular" : "");
}

/* Every flag, fog and test combination; specular add with every flag; every sample mask. */
static void flags(void) {
    static const int fogs[] = {0, 1, 2, 3, 4, 255};
    static const int functions[] = {0, 1, 2, 3, 4, 5, 6, 7, 8, 9, 128, 255};
    for (int set = 0; set <= ALL_FLAGS; set++)
        for (size_t mode = 0; mode < COUNT(fogs); mode++)
            for (size_t table = 0; table < COUNT(fogs); table++)
                for (size_t function = 0; function < COUNT(functions); function++)
                    put_flags(fogs[mode], fogs[table], functions[function], set, 0);
    for (int set = 0; set <= ALL_FLAGS; set++) put_flags(YUZUKNOLL_FOG_LINEAR, YUZUKNOLL_FOG_LINEAR, YUZUKNOLL_CMP_GREATER, set, 1);
    for (int mask = 0; mask < 256; mask++) {
        struct input in = nothing();
        set_sample_mask(&in, mask);
        set_flags(&in, FLAG(SAMPLE_MASK));
        put(&in, "flags_sample_mask%d", mask);
    }
}

/* What may stand before a stage with a lookup. */
enum before { ORDINARY, BUMPED, LIT, LIT_UNBOUND, BEFORES };
static const char *const before_names[] = {"ordinary", "bumped", "lit", "lit_unbound"};

/* The lookup of a stage with these bits, the stages before it idle but for the last. */
static struct input lookup_at(int stage, enum before before, unsigned bits, int projected, int flags) {
    struct input in = nothing();
    for (int i = 0; i < stage; i++) set_stage(&in, i, diffuse, kept, 0);
    if (before != ORDINARY) set_bump(&in, stage - 1, before != BUMPED, before != LIT_UNBOUND);
    set_lookup(&in, stage);
    set_stage_bits(&in, stage, bits);
    set_projected(&in, projected << stage);
    set_flags(&in, flags);
    return in;
}

static const char *bits_name(unsigned bits) {
    static char name[MASKS + 1];
    for (int mask = 0; mask < MASKS; mask++) name[mask] = has(bits, mask) ? '1' : '0';
    return name;
}

static const char *verdict(bool refused) { return refused ? "refused" : "accepted"; }

/* The lookups of a stage, those that the rule refuses only where they are wanted: every combination of its bits, at every stage, projected or not,
 * with every kind of stage before it; at stages 0 and 1 also with LOD_BIAS and POINT_SPRITE. */
static void put_lookups(const char *corpus, bool refused_too) {
    for (unsigned bits = 0; bits < 1u << MASKS; bits++) {
        if (lookup_refused(bits) && !refused_too) continue;
        for (int stage = 0; stage < STAGES; stage++)
            for (int before = stage == 0 ? ORDINARY : 0; before < (stage == 0 ? 1 : BEFORES); before++)
                for (int more = 0; more < 8; more++) {
                    if (stage > 1 && more > 1) continue;
                    int set = ((more & 2) != 0 ? FLAG(LOD_BIAS) : 0) | ((more & 4) != 0 ? FLAG(POINT_SPRITE) : 0);
                    struct input in = lookup_at(stage, (enum before)before, bits, more & 1, set);
                    put(&in, "%s_%s_stage%d_%s%s_flags%d_%s", corpus, bits_name(bits), stage, before_names[before],
                        (more & 1) != 0 ? "_projected" : "", set, verdict(lookup_refused(bits)));
                }
    }
}

static void lookups(void) { put_lookups("lookups", false); }

/* Every combination again, the refused ones too; then bits where no lookup is written, bits of a bump stage, and bits 8 to 15 of the masks. */
static void sweep(void) {
    output.same_told = true;
    put_lookups("sweep", true);
    for (unsigned bits = 0; bits < 1u << MASKS; bits++) {
        struct input in = nothing();
        set_stage(&in, 0, diffuse, kept, YUZUKNOLL_STAGE_TEXTURED);
        set_stage_bits(&in, 0, bits);
        put(&in, "sweep_%s_unread_accepted", bits_name(bits));
        in = nothing();
        set_stage_bits(&in, 0, bits);
        put(&in, "sweep_%s_disabled_accepted", bits_name(bits));
        in = lookup_at(0, ORDINARY, 0, 0, 0);
        for (int mask = 0; mask < MASKS; mask++) in.variant.masks[mask][1] = has(bits, mask) ? 0xff : 0;
        put(&in, "sweep_%s_high_accepted", bits_name(bits));
        for (int luminance = 0; luminance < 2; luminance++) {
            in = lookup_at(1, luminance ? LIT : BUMPED, 0, 0, 0);
            set_stage_bits(&in, 0, bits);
            put(&in, "sweep_%s_of_bump%d_%s", bits_name(bits), luminance, verdict(lookup_refused(bits)));
            set_stage(&in, 1, diffuse, kept, YUZUKNOLL_STAGE_TEXTURED);
            put(&in, "sweep_%s_of_bump%d_unread_accepted", bits_name(bits), luminance);
        }
    }
}

/* Chains of bump stages, two bits of the pattern for each (texture, luminance), and behind them a stage that samples or one that does not. */
static void put_bump_chain(int length, int pattern, bool sampled, bool projected) {
    struct input in = nothing();
    for (int i = 0; i < length; i++) set_bump(&in, i, (pattern >> (2 * (i % 4)) & 2) != 0, (pattern >> (2 * (i % 4)) & 1) != 0);
    if (length < STAGES) set_stage(&in, length, sampled ? texel : diffuse, kept, YUZUKNOLL_STAGE_TEXTURED);
    set_projected(&in, projected ? 0xff : 0);
    put(&in, "bump_%d_%d%s%s", length, pattern, sampled ? "_sampled" : "", projected ? "_projected" : "");
}

static void bump(void) {
    for (int length = 1; length <= STAGES; length++)
        for (int pattern = 0; pattern < 1 << (2 * (length < 4 ? length : 4)); pattern++)
            for (int more = 0; more < 4; more++) put_bump_chain(length, pattern, (more & 1) != 0, (more & 2) != 0);
}

static int mixed_argument(void) {
    int known = WEIGHTED({8, ARG(TEXTURE)}, {4, ARG(TEMP)}, {4, ARG(CONSTANT)}, {3, ARG(DIFFUSE)}, {3, ARG(CURRENT)}, {2, ARG(TFACTOR)},
                         {2, ARG(SPECULAR)});
    int selector = percent(94) ? known : 7 + below(9);
    return selector | (percent(60) ? 0 : below(16) << 4);
}

static struct combiner mixed_combiner(void) {
    static const int frequent[] = {13, 15, 17, 22, 23, 24};
    int op = percent(60) ? ops[below((int)COUNT(ops))] : frequent[below((int)COUNT(frequent))];
    struct combiner c = {op == OP(DISABLE) && percent(80) ? OP(MODULATE) : op, mixed_argument(), mixed_argument()};
    return c;
}

/* Unusual keys and variants in which textures, TEMP, bump stages, constants and unknown codes meet, with stage bits that the rule does not refuse. */
static struct input mixed_input(void) {
    struct input in = nothing();
    for (int stage = 0; stage < STAGES; stage++) {
        struct combiner colour = mixed_combiner(), alpha = mixed_combiner();
        set_stage(&in, stage, colour, alpha, (percent(60) ? YUZUKNOLL_STAGE_TEXTURED : 0) | (percent(25) ? YUZUKNOLL_STAGE_TO_TEMP : 0));
        unsigned bits = (unsigned)random64() & ((1u << MASKS) - 1);
        set_stage_bits(&in, stage, percent(50) || lookup_refused(bits) ? 0 : bits);
    }
    set_specular(&in, below(4) == 0);
    set_projected(&in, percent(50) ? 0 : below(256));
    set_alpha_function(&in, below(11));
    set_fog(&in, percent(50) ? 0 : below(256), percent(50) ? 0 : below(5));
    set_sample_mask(&in, below(256));
    set_flags(&in, percent(40) ? 0 : below(ALL_FLAGS + 1));
    return in;
}

static void mixed(void) {
    state = 2;
    for (int i = 0; i < 500; i++) {
        struct input in = mixed_input();
        put(&in, "mixed_%d", i);
    }
}

/* ---- Keys of kind 6 ---- */

/* One stage: the ops of three operands with every choice of three selectors, 7 for all above 6, in colour and in alpha, with a texture and without. */
static void put_three(int op, const int argument[3], bool alpha, int flags) {
    struct combiner c = {op, argument[1], argument[2]};
    struct input in = nothing();
    set_stage(&in, 0, alpha ? diffuse : c, alpha ? c : kept, flags);
    set_arguments0(&in, 0, alpha ? 0 : argument[0], alpha ? argument[0] : 0);
    put(&in, "three_%s_op%d_%d_%d_%d_flags%d", alpha ? "alpha" : "colour", op, argument[0], argument[1], argument[2], flags);
}

/* Eight stages, stage i with selector i as argument 2: every argument 0 (selectors 0 to 7 with every complement and alpha replicate) with every
 * modifier of the two others, in colour and in alpha, with a texture. */
static void put_three_kinds(int op, int zeroth, int modifier) {
    struct input in = nothing();
    for (int i = 0; i < STAGES; i++) {
        struct combiner c = {op, modifier | (i + 1) % STAGES, modifier | i};
        set_stage(&in, i, c, c, YUZUKNOLL_STAGE_TEXTURED);
        set_arguments0(&in, i, zeroth, zeroth);
    }
    put(&in, "three_both_op%d_%02x_%xx", op, (unsigned)zeroth, (unsigned)modifier >> 4);
}

static void three(void) {
    for (int op = OP(MULTIPLYADD); op <= OP(LERP); op++) {
        for (int choice = 0; choice < 512; choice++)
            for (int more = 0; more < 4; more++)
                put_three(op, (const int[3]){choice >> 6, choice >> 3 & 7, choice & 7}, (more & 1) != 0,
                          (more & 2) != 0 ? YUZUKNOLL_STAGE_TEXTURED : 0);
        for (int zeroth = 0; zeroth < 32; zeroth++)
            for (int modifier = 0; modifier < 4; modifier++) put_three_kinds(op, (zeroth & 7) | (zeroth >> 3) << 4, modifier << 4);
    }
}

/* As mixed, of kind 6, with ops of three operands in the place of many others. */
static void wide(void) {
    state = 3;
    for (int i = 0; i < 500; i++) {
        struct input in = mixed_input();
        for (int stage = 0; stage < STAGES; stage++) {
            yuzuknoll_stage *s = &in.key.stages[stage];
            if (s->colour_op < OP(BUMPENVMAP) && percent(40)) s->colour_op = (uint8_t)(OP(MULTIPLYADD) + below(2));
            if (s->alpha_op < OP(BUMPENVMAP) && percent(40)) s->alpha_op = (uint8_t)(OP(MULTIPLYADD) + below(2));
            set_arguments0(&in, stage, mixed_argument(), mixed_argument());
        }
        put(&in, "wide_%d", i);
    }
}

/* ---- Texts for entry words ---- */

/* Every kind of texture and of lookup, divided, displaced and projected coordinates, TEMP, constants, a dot product, specular add, EXP2 fog, a test
 * and every flag: every word that a text can have, but for stage numbers, fog_range, false and true. */
static struct input rich(void) {
    struct input in = nothing();
    for (int i = 0; i < STAGES; i++) set_lookup(&in, i);
    set_bump(&in, 0, true, true);
    set_stage(&in, 2, (struct combiner){OP(DOTPRODUCT3), ARG(TEXTURE), ARG(TEMP)}, kept, YUZUKNOLL_STAGE_TEXTURED | YUZUKNOLL_STAGE_TO_TEMP);
    set_stage(&in, 3, (struct combiner){OP(MODULATEALPHA_ADDCOLOR), ARG(TEXTURE), ARG(TFACTOR)},
              (struct combiner){OP(ADDSMOOTH), ARG(SPECULAR), ARG(CONSTANT)}, YUZUKNOLL_STAGE_TEXTURED);
    set_stage_bits(&in, 2, 1u << MASK(DEPTH_SAMPLER));
    set_stage_bits(&in, 3, 1u << MASK(DEPTH_SAMPLER));
    set_stage_bits(&in, 4, 1u << MASK(FETCH4) | 1u << MASK(FETCH4_ALPHA));
    set_stage_bits(&in, 5, 1u << MASK(DEPTH_FETCH));
    set_stage_bits(&in, 6, 1u << MASK(VOLUME));
    set_stage_bits(&in, 7, 1u << MASK(CUBE));
    set_projected(&in, 1 << 1 | 1 << 3 | 1 << 5 | 1 << 6);
    set_specular(&in, 1);
    set_fog(&in, YUZUKNOLL_FOG_EXP, YUZUKNOLL_FOG_EXP2);
    set_alpha_function(&in, YUZUKNOLL_CMP_GREATER);
    set_sample_mask(&in, 5);
    set_flags(&in, ALL_FLAGS);
    return in;
}

/* The place from 0 of a pair of bits, a below b, as bits. */
static unsigned pair_of_bits(int place) {
    for (int b = 1; b < MASKS; b++)
        for (int a = 0; a < b; a++)
            if (place-- == 0) return 1u << a | 1u << b;
    return 0;
}

/* Small texts by how much is set: one flag; one lookup, with one flag, projected, with one bit, projected with one bit, with two bits. */
static struct input small(int number) {
    struct input in = nothing();
    if (number < 6) return set_flags(&in, 1 << number), in;
    number -= 6;
    set_lookup(&in, 0);
    if (number < 6) return set_flags(&in, 1 << number), in;
    number -= 6;
    if (number < MASKS) return set_stage_bits(&in, 0, 1u << number), in;
    number -= MASKS;
    if (number <= MASKS) return set_projected(&in, 1), set_stage_bits(&in, 0, number == 0 ? 0 : 1u << (number - 1)), in;
    number -= MASKS + 1;
    return set_stage_bits(&in, 0, pair_of_bits(number)), in;
}

enum { SMALL_TEXTS = 6 + 6 + MASKS + (MASKS + 1) + MASKS * (MASKS - 1) / 2 };
_Static_assert(SMALL_TEXTS == 48, "the usage says so");

static struct input word_input(const char *word, int number) {
    struct input in = number == 0 ? nothing() : number == 1 ? rich() : small(number - 2);
    set_entry(&in, word);
    return in;
}

static int number_of(const char *digits) {
    char *end;
    unsigned long number = strtoul(digits, &end, 10);
    if (*digits == 0 || *end != 0 || number >= SMALL_TEXTS + 2) fail("is not 0 to 49", digits);
    return (int)number;
}

static void put_word(const char *word, const char *number, bool records) {
    struct input in = word_input(word, number_of(number));
    size_t length = emitted(&in, word);
    if (records) {
        write_records(&in);
    } else {
        fwrite(text, 1, length, stdout);
    }
}

/* The stand-in's vector constructors are macros, and Metal's are not. */
static bool is_constructor(const char *word) {
    static const char *const constructors[] = {"int2", "int3", "int4", "uint2", "uint3", "uint4"};
    for (size_t i = 0; i < COUNT(constructors); i++)
        if (strcmp(word, constructors[i]) == 0) return true;
    return false;
}

/* A file with a text under a word as its entry, whole and in no namespace, where names would be found otherwise. */
static void write_file(const char *path, const char *word, int number) {
    struct input in = word_input(word, number);
    size_t length = emitted(&in, word);
    FILE *file = fopen(path, "w");
    if (file == NULL) fail("cannot be opened", path);
    fputs("#include <metal_stdlib>\n", file);
    if (is_constructor(word)) fprintf(file, "#undef %s\n", word);
    fprintf(file, "#line 1 \"%s\"\n", path);
    fwrite(text, 1, length, file);
    if (ferror(file) || fclose(file) != 0) fail("is not written", path);
}

static void write_word_files(int number) {
    char word[64];
    while (scanf("%63s", word) == 1) write_file(word, word, number);
}

static void put_reserved(void) {
    char word[64];
    while (scanf("%63s", word) == 1) {
        struct input in = word_input(word, 0);
        yuzuknoll_result result;
        uint64_t refusal = yuzuknoll_emit(&in.key, &in.variant, &in.entry, text, YUZUKNOLL_TEXT_LENGTH, &result);
        if (refusal == YUZUKNOLL_REFUSED_RESERVED_WORD) puts(word);
    }
}

static void write_small_files(const char *word) {
    for (int number = 2; number < SMALL_TEXTS + 2; number++) {
        char path[3] = {(char)('0' + number / 10), (char)('0' + number % 10), 0};
        write_file(path, word, number);
    }
}

static const struct {
    const char *name;
    void (*put_all)(void);
} corpora[] = {{"worked", worked},   {"everyday", everyday}, {"selectors", selectors}, {"kinds", kinds}, {"flags", flags},
               {"lookups", lookups}, {"bump", bump},         {"mixed", mixed},         {"three", three}, {"wide", wide},
               {"sweep", sweep}};

static void put_corpus(const char *name) {
    size_t at = 0;
    while (at < COUNT(corpora) && strcmp(corpora[at].name, name) != 0) at++;
    if (at == COUNT(corpora)) fail("no such corpus", name);
    corpora[at].put_all();
}

static void put_one(const char *name, bool whole) {
    output.wanted = name;
    output.whole = whole;
    for (size_t at = 0; at < COUNT(corpora); at++) corpora[at].put_all();
    if (!output.found) fail("no such text", name);
}

int main(int count, char **words) {
    if (count == 3 && strcmp(words[1], "records") == 0) {
        put_one(words[2], false);
    } else if (count == 3 && strcmp(words[1], "whole") == 0) {
        put_one(words[2], true);
    } else if (count == 4 && strcmp(words[1], "word") == 0) {
        put_word(words[2], words[3], false);
    } else if (count == 4 && strcmp(words[1], "word-records") == 0) {
        put_word(words[2], words[3], true);
    } else if (count == 3 && strcmp(words[1], "words") == 0) {
        write_word_files(number_of(words[2]));
    } else if (count == 3 && strcmp(words[1], "smalls") == 0) {
        write_small_files(words[2]);
    } else if (count == 2 && strcmp(words[1], "reserved") == 0) {
        put_reserved();
    } else if (count == 2 && strcmp(words[1], "attributes") == 0) {
        check_attributes(fread(text, 1, YUZUKNOLL_TEXT_LENGTH, stdin), "standard input");
    } else {
        puts("#include <metal_stdlib>");
        for (int i = 1; i < count; i++) put_corpus(words[i]);
        printf("// %lu texts of %lu inputs\n", output.texts, output.inputs);
    }
    if (fflush(stdout) != 0 || ferror(stdout)) fail("not written", "standard output");
    return 0;
}
