/* Yuzuknoll writes Metal fragment functions for the fixed-function pixel stages of Direct3D 9.
 *
 *     yuzuknoll_key key = {.stages = {{.colour_op = YUZUKNOLL_OP_MODULATE,
 *                                      .colour_arg1 = YUZUKNOLL_ARG_TEXTURE,
 *                                      .colour_arg2 = YUZUKNOLL_ARG_DIFFUSE,
 *                                      .alpha_op = YUZUKNOLL_OP_SELECTARG1,
 *                                      .alpha_arg1 = YUZUKNOLL_ARG_TEXTURE,
 *                                      .flags = YUZUKNOLL_STAGE_TEXTURED},
 *                                     {.colour_op = YUZUKNOLL_OP_DISABLE}}};
 *     yuzuknoll_variant variant = {0};
 *     yuzuknoll_entry entry = YUZUKNOLL_ENTRY("my_shader");
 *     yuzuknoll_result result;
 *     static uint8_t text[YUZUKNOLL_TEXT_LENGTH];
 *     if (yuzuknoll_emit(&key, &variant, &entry, text, sizeof text, &result) == YUZUKNOLL_ACCEPTED)
 *         fwrite(text, 1, result.length, stdout);
 *
 * The command `tools/archive` makes the library, target/staticlib/libyuzuknoll.a, for x86-64 Linux, with a processor
 * of the level x86-64-v2 (2009 or later). The command `ports/build` makes it for 64-bit Arm Linux, Macs and
 * WebAssembly too. These give the same bytes on the calls that ports/test makes; the code for Macs was run, but not on
 * a Mac. docs/PORTS.md says what was run where.
 *
 * The library needs no set-up, keeps nothing between calls and allocates no memory. Threads may call it at the same
 * time, as long as no call writes to memory that another one uses.
 *
 * Every call but those that check an entry byte by byte returns YUZUKNOLL_ACCEPTED (0) or the number of a refusal. On
 * refusal nothing is modified: no buffer and no struct. No pointer may be null, not even one to a buffer of length 0. What
 * a call writes must not overlap anything else that is passed to the same call.
 */
#ifndef YUZUKNOLL_H
#define YUZUKNOLL_H

#include <stddef.h>
#include <stdint.h>

#ifdef __cplusplus
extern "C" {
#endif

#define YUZUKNOLL_VERSION "0.13.0"
#define YUZUKNOLL_VERSION_MAJOR 0
#define YUZUKNOLL_VERSION_MINOR 13
#define YUZUKNOLL_VERSION_PATCH 0

/* ---- Refusals ---- */

/* What a call returns. Of several causes it returns the first one, in the order that is given with the call. */
#define YUZUKNOLL_ACCEPTED 0
#define YUZUKNOLL_REFUSED_CUT_SHORT 1      /* There is no byte to read, or the record ends before its length. */
#define YUZUKNOLL_REFUSED_UNKNOWN_KIND 2   /* The first byte of the record is not one of YUZUKNOLL_KIND_... */
#define YUZUKNOLL_REFUSED_STAGE_FLAGS 3    /* The flags of a stage have a bit that is not one of YUZUKNOLL_STAGE_... */
#define YUZUKNOLL_REFUSED_SPECULAR_ADD 4   /* The specular byte of the key is neither 0 nor 1. */
#define YUZUKNOLL_REFUSED_VARIANT_FLAGS 5  /* The variant's flags have a bit that is not one of YUZUKNOLL_VARIANT_... */
#define YUZUKNOLL_REFUSED_ENTRY_NAME 6     /* The entry is no name, by the rules given with yuzuknoll_entry. */
#define YUZUKNOLL_REFUSED_EMIT_TOO_EARLY 7 /* An emit record came before a key, a variant and an entry were held. */
#define YUZUKNOLL_REFUSED_NO_ROOM 8        /* The text, or the record to write, is longer than the buffer. */
#define YUZUKNOLL_REFUSED_INPUT_TOO_LONG 9 /* No call returns this. The program ffps takes no more than 32,768 bytes. */
#define YUZUKNOLL_REFUSED_STAGE_NUMBER 10  /* The stage of a state write is above 7. */
#define YUZUKNOLL_REFUSED_STATE_TYPE 11    /* The type of a state write is not one of YUZUKNOLL_STATE_... */
#define YUZUKNOLL_REFUSED_STATE_VALUE 12   /* The type of a state write does not take its value. */
#define YUZUKNOLL_REFUSED_RESERVED_WORD 13 /* The entry is a reserved word. They are given with yuzuknoll_entry. */

/* ---- Keys ---- */

/* The ops of a stage, with Direct3D's numbers (D3DTOP_...). In the formulas A is argument 1, B is argument 2, Z is
 * argument 0, and t is the texel of the stage. The results of ops 5 to 11, 15, 18 to 21, 24 and 25 are clamped to the
 * range from 0 to 1. Every other number gives A, and an op warning; so do 25 and 26 in a yuzuknoll_key, which has no
 * argument 0. If a stage has no texture, and an op reads YUZUKNOLL_ARG_TEXTURE, the op gives YUZUKNOLL_ARG_CURRENT. */
#define YUZUKNOLL_OP_DISABLE 1                    /* as colour op: the stages end here; as alpha op: alpha is kept */
#define YUZUKNOLL_OP_SELECTARG1 2                 /* A */
#define YUZUKNOLL_OP_SELECTARG2 3                 /* B */
#define YUZUKNOLL_OP_MODULATE 4                   /* A * B */
#define YUZUKNOLL_OP_MODULATE2X 5                 /* 2 * A * B */
#define YUZUKNOLL_OP_MODULATE4X 6                 /* 4 * A * B */
#define YUZUKNOLL_OP_ADD 7                        /* A + B */
#define YUZUKNOLL_OP_ADDSIGNED 8                  /* A + B - 0.5 */
#define YUZUKNOLL_OP_ADDSIGNED2X 9                /* 2 * (A + B - 0.5) */
#define YUZUKNOLL_OP_SUBTRACT 10                  /* A - B */
#define YUZUKNOLL_OP_ADDSMOOTH 11                 /* A + B * (1 - A) */
#define YUZUKNOLL_OP_BLENDDIFFUSEALPHA 12         /* A * x + B * (1 - x), where x is the alpha of the diffuse colour */
#define YUZUKNOLL_OP_BLENDTEXTUREALPHA 13         /* the same with the alpha of t; without a texture: B */
#define YUZUKNOLL_OP_BLENDFACTORALPHA 14          /* the same with the alpha of the texture factor */
#define YUZUKNOLL_OP_BLENDTEXTUREALPHAPM 15       /* A + B * (1 - t.alpha); without a texture: A + B */
#define YUZUKNOLL_OP_BLENDCURRENTALPHA 16         /* the same as 12 with the alpha of the stages before */
#define YUZUKNOLL_OP_MODULATEALPHA_ADDCOLOR 18    /* A + A.alpha * B */
#define YUZUKNOLL_OP_MODULATECOLOR_ADDALPHA 19    /* A * B + A.alpha */
#define YUZUKNOLL_OP_MODULATEINVALPHA_ADDCOLOR 20 /* A + (1 - A.alpha) * B */
#define YUZUKNOLL_OP_MODULATEINVCOLOR_ADDALPHA 21 /* (1 - A) * B + A.alpha */
#define YUZUKNOLL_OP_BUMPENVMAP 22                /* t displaces the next stage's lookup; as alpha op: alpha is kept */
#define YUZUKNOLL_OP_BUMPENVMAPLUMINANCE 23       /* the same, and t scales the next stage's texel */
#define YUZUKNOLL_OP_DOTPRODUCT3 24               /* 4 * dot(A - 0.5, B - 0.5); as colour op it sets alpha too */
#define YUZUKNOLL_OP_MULTIPLYADD 25               /* Z + A * B; only in a yuzuknoll_wide_key */
#define YUZUKNOLL_OP_LERP 26                      /* Z * A + (1 - Z) * B; only in a yuzuknoll_wide_key */

/* The arguments of an op, with Direct3D's numbers (D3DTA_...). Add a modifier, or both, to one of the first seven. The
 * numbers 7 to 15 in the low four bits mean white and give a selector warning. The bits 0x40 and 0x80 have no effect and
 * give a modifier warning. */
#define YUZUKNOLL_ARG_DIFFUSE 0           /* the interpolated diffuse colour */
#define YUZUKNOLL_ARG_CURRENT 1           /* the result of the stages before; at first the diffuse colour */
#define YUZUKNOLL_ARG_TEXTURE 2           /* the texel of this stage */
#define YUZUKNOLL_ARG_TFACTOR 3           /* the texture factor, ps_c[0] */
#define YUZUKNOLL_ARG_SPECULAR 4          /* the interpolated specular colour */
#define YUZUKNOLL_ARG_TEMP 5              /* the register TEMP; at first zero */
#define YUZUKNOLL_ARG_CONSTANT 6          /* the constant of this stage, ps_c[stage + 1] */
#define YUZUKNOLL_ARG_COMPLEMENT 0x10     /* modifier: one minus the argument */
#define YUZUKNOLL_ARG_ALPHAREPLICATE 0x20 /* modifier: the argument's alpha in all four channels */

/* The flags of a stage. */
#define YUZUKNOLL_STAGE_TEXTURED 1 /* A texture is bound to the stage. */
#define YUZUKNOLL_STAGE_TO_TEMP 2  /* The result goes to the register TEMP, not to the next stage. */

/* One texture stage. Set the alpha op too: YUZUKNOLL_OP_DISABLE keeps alpha, and 0 gives argument 1 and a warning. */
typedef struct {
    uint8_t colour_op, colour_arg1, colour_arg2;
    uint8_t alpha_op, alpha_arg1, alpha_arg2;
    uint8_t flags;
} yuzuknoll_stage;

/* What the pixel stages compute. The stages before the first one with colour op YUZUKNOLL_OP_DISABLE are active. A stage
 * of zeros is not disabled: its colour op is 0, which gives argument 1 and a warning. */
typedef struct {
    yuzuknoll_stage stages[8];
    uint8_t specular;  /* 1 adds the specular colour behind the last stage, 0 does not. */
    uint8_t projected; /* Bit i divides the texture coordinate of stage i by its w, and makes it 0 where w is 0. */
} yuzuknoll_key;

/* One texture stage with a third operand, argument 0, for its colour op and one for its alpha op. All ops but
 * YUZUKNOLL_OP_MULTIPLYADD and YUZUKNOLL_OP_LERP ignore it. */
typedef struct {
    uint8_t colour_op, colour_arg1, colour_arg2;
    uint8_t alpha_op, alpha_arg1, alpha_arg2;
    uint8_t colour_arg0, alpha_arg0;
    uint8_t flags;
} yuzuknoll_wide_stage;

/* What the pixel stages compute, as a yuzuknoll_key says it, with YUZUKNOLL_OP_MULTIPLYADD and YUZUKNOLL_OP_LERP. Without
 * these two a wide key gives what the key of the same stages without arguments 0 gives. */
typedef struct {
    yuzuknoll_wide_stage stages[8];
    uint8_t specular;
    uint8_t projected;
} yuzuknoll_wide_key;

/* ---- State writes ---- */

/* The types of texture stage states, with Direct3D's numbers (D3DTSS_...) but for 0, and the values that each takes. */
#define YUZUKNOLL_STATE_TEXTURE_BOUND 0 /* ours: 1 if a texture is bound to the stage, else 0 */
#define YUZUKNOLL_STATE_COLOUR_OP 1     /* 0 to 255, as in a yuzuknoll_stage; so are the five below */
#define YUZUKNOLL_STATE_COLOUR_ARG1 2
#define YUZUKNOLL_STATE_COLOUR_ARG2 3
#define YUZUKNOLL_STATE_ALPHA_OP 4
#define YUZUKNOLL_STATE_ALPHA_ARG1 5
#define YUZUKNOLL_STATE_ALPHA_ARG2 6
#define YUZUKNOLL_STATE_COLOUR_ARG0 26  /* 0 to 255, as in a yuzuknoll_wide_stage; so is the one below */
#define YUZUKNOLL_STATE_ALPHA_ARG0 27
#define YUZUKNOLL_STATE_RESULT_ARG 28   /* where the result goes: YUZUKNOLL_ARG_CURRENT or YUZUKNOLL_ARG_TEMP */

/* A write of one state of one stage. yuzuknoll_apply makes a key from the records of such writes. The value has four bytes,
 * low byte first.
 *
 * A key that begins with a write has Direct3D's defaults elsewhere:
 *   the colour op is YUZUKNOLL_OP_MODULATE at stage 0, YUZUKNOLL_OP_DISABLE at the others
 *   the alpha op is YUZUKNOLL_OP_SELECTARG1 at stage 0, YUZUKNOLL_OP_DISABLE at the others
 *   argument 1 is YUZUKNOLL_ARG_TEXTURE and argument 2 YUZUKNOLL_ARG_CURRENT, in colour and alpha of every stage
 *   the result goes to YUZUKNOLL_ARG_CURRENT, and no texture is bound
 * Its specular and projected are 0, and no write changes them.
 *
 * A write of YUZUKNOLL_STATE_COLOUR_ARG0 or YUZUKNOLL_STATE_ALPHA_ARG0, whatever its value, makes the key a wide key, with
 * YUZUKNOLL_ARG_CURRENT as every argument 0 that is not written. Other writes leave a key what it is. */
typedef struct {
    uint8_t stage;
    uint8_t type; /* One of YUZUKNOLL_STATE_... */
    uint8_t value[4];
} yuzuknoll_state_write;

/* Initializes a state write. Evaluates the value, of which the low 32 bits count, four times:
 *
 *     yuzuknoll_state_write lit = YUZUKNOLL_STATE_WRITE(0, YUZUKNOLL_STATE_COLOUR_OP, YUZUKNOLL_OP_MODULATE2X);
 */
#define YUZUKNOLL_STATE_WRITE(stage, type, value) \
    {(stage), (type), \
     {YUZUKNOLL_BYTE(value, 0), YUZUKNOLL_BYTE(value, 8), YUZUKNOLL_BYTE(value, 16), YUZUKNOLL_BYTE(value, 24)}}
#define YUZUKNOLL_BYTE(value, shift) (uint8_t)((uint32_t)(value) >> (shift) & 255)

/* ---- Variants ---- */

/* The comparisons of the alpha test, with Direct3D's numbers (D3DCMP_...). A pixel is kept if its alpha compares so with
 * the reference value. 0 tests nothing. Numbers above 8 keep every pixel and give the alpha warning. */
#define YUZUKNOLL_CMP_NEVER 1
#define YUZUKNOLL_CMP_LESS 2
#define YUZUKNOLL_CMP_EQUAL 3
#define YUZUKNOLL_CMP_LESSEQUAL 4
#define YUZUKNOLL_CMP_GREATER 5
#define YUZUKNOLL_CMP_NOTEQUAL 6
#define YUZUKNOLL_CMP_GREATEREQUAL 7
#define YUZUKNOLL_CMP_ALWAYS 8

/* Fog modes, with Direct3D's numbers (D3DFOG_...). As fog_table_mode, numbers above 3 mean YUZUKNOLL_FOG_LINEAR. As
 * fog_mode, all numbers but 0 mean the same, since the factor of the vertices is computed elsewhere. */
#define YUZUKNOLL_FOG_NONE 0
#define YUZUKNOLL_FOG_EXP 1
#define YUZUKNOLL_FOG_EXP2 2
#define YUZUKNOLL_FOG_LINEAR 3

/* The indices of the masks of a variant. A mask has two bytes, low byte first. Its bit i is for stage i; bits 8 to 15
 * have no effect. */
#define YUZUKNOLL_MASK_DEPTH_SAMPLER 0 /* The texture has a depth format. The lookup compares depths. */
#define YUZUKNOLL_MASK_DEPTH_FETCH 1   /* The lookup reads the stored depth and compares nothing. */
#define YUZUKNOLL_MASK_FETCH4 2        /* The lookup gathers four texels, whatever the two masks above say. */
#define YUZUKNOLL_MASK_FETCH4_ALPHA 3  /* The four texels are read from alpha, unless the format is one of depth. */
#define YUZUKNOLL_MASK_RAW_DEPTH_RED 4 /* The stored depth goes to red alone; green and blue are 0, alpha is 1. */
#define YUZUKNOLL_MASK_VOLUME 5        /* The texture is a volume. */
#define YUZUKNOLL_MASK_CUBE 6          /* The texture is a cube. */

/* The flags of a variant. */
#define YUZUKNOLL_VARIANT_FLAT_SHADE 1    /* The diffuse and the specular colour are not interpolated. */
#define YUZUKNOLL_VARIANT_SRGB_WRITE 2    /* The function encodes its colour as sRGB. */
#define YUZUKNOLL_VARIANT_SAMPLE_MASK 4   /* The function returns the sample mask too. */
#define YUZUKNOLL_VARIANT_POINT_SPRITE 8  /* Texture coordinates come from the place in the point. */
#define YUZUKNOLL_VARIANT_LOD_BIAS 16     /* Lookups take their level-of-detail bias from a buffer. */
#define YUZUKNOLL_VARIANT_FOG_SOURCE_W 32 /* Table fog goes by the eye's W in place of the depth. */

/* The render states beside the key that shape the function. A variant of zeros has no alpha test, no fog and plain
 * two-dimensional textures. */
typedef struct {
    uint8_t alpha_function; /* One of YUZUKNOLL_CMP_..., or 0. */
    uint8_t fog_mode;       /* Unless it is YUZUKNOLL_FOG_NONE, fog is blended in by the factor of the vertices. */
    uint8_t fog_table_mode; /* Unless it is YUZUKNOLL_FOG_NONE, fog is computed for each pixel, whatever fog_mode is. */
    uint8_t masks[7][2];    /* Indexed by YUZUKNOLL_MASK_... */
    uint8_t sample_mask;    /* Only used with YUZUKNOLL_VARIANT_SAMPLE_MASK. */
    uint8_t flags;
} yuzuknoll_variant;

/* ---- Entries ---- */

/* The name of the function: 1 to 32 ASCII letters, digits and underscores, of which the first is no digit. The bytes
 * behind the name must be 0.
 *
 * These words are reserved, because the texts or Metal use them. No name may be one of them; case counts.
 *   t0 to t7, s0 to s7, samp0 to samp7, pc0 to pc7, bc0 to bc7, proj0 to proj7
 *   current temp oC0 in in_stage point_coord ps_c alpha_ref fog_data bump_env lod_bias fog_c fog_f fog_dz fog_range
 *   main metal Varyings FfPsOut mtld3d_linear_to_srgb fragment vertex kernel struct constant sampler static inline return
 *   if uint float float2 float3 float4
 * Metal refuses more words than these. A prefix of one's own, as in mtld3d_ps, is safe. */
typedef struct {
    uint8_t length;
    char name[32];
} yuzuknoll_entry;

/* Initializes an entry from a string literal, as in the example above. In C++ the literal has at most 31 characters. */
#define YUZUKNOLL_ENTRY(name) {sizeof(name) - 1, name}

/* These three calls check an entry byte by byte, so that a form can tell whether a name is still possible while someone
 * types it. They refuse nothing. The bytes are those of a yuzuknoll_entry in their order: the length, then the 32 bytes of
 * the name. A form that does not know the length yet takes 32:
 *
 *     uint64_t state[3];
 *     yuzuknoll_entry_start(state);
 *     yuzuknoll_entry_step(state, 32);
 *     while (yuzuknoll_entry_possible(state))
 *         yuzuknoll_entry_step(state, next_byte_typed());
 *
 * The state is the number of bytes taken so far, the length, and 1 if a byte was wrong, else 0. The calls read each of the
 * three numbers modulo 256, and accept any state. */

/* Sets a state that has taken no byte: three zeros. */
void yuzuknoll_entry_start(uint64_t state[3]);

/* Takes the next byte. */
void yuzuknoll_entry_step(uint64_t state[3], uint8_t byte);

/* Returns 1 if some entry that begins with the bytes taken so far keeps the rules given with yuzuknoll_entry, and 0 if
 * none does; that a word is reserved does not count here. For all 33 bytes of an entry it returns 0 exactly where the
 * other calls refuse the entry with 6. After more than 33 bytes it returns 0. Does not modify the state. */
uint64_t yuzuknoll_entry_possible(const uint64_t state[3]);

/* ---- Emission ---- */

/* No text has more bytes than this, so a buffer of this length takes every text. */
#define YUZUKNOLL_TEXT_LENGTH 16384

/* The lengths of the longest text of a yuzuknoll_key and of the longest one of a yuzuknoll_wide_key, with an entry of 32
 * bytes. With an entry of n bytes the longest text is 32 - n bytes shorter. A slot for texts of both needs the second. */
#define YUZUKNOLL_KEY_TEXT_LENGTH 6516
#define YUZUKNOLL_WIDE_KEY_TEXT_LENGTH 6657

/* What yuzuknoll_emit and yuzuknoll_emit_wide report of a text. In the four masks bit i is for stage i, and the other bits are 0.
 *
 * A warning is no refusal: there is a text. One bit is for the colour and the alpha of its stage:
 *
 *     for (int stage = 0; stage < 8; stage++)
 *         if (result.op_warnings >> stage & 1)
 *             printf("stage %d has an unsupported op\n", stage);
 *
 * The op and both arguments of a stage warn in colour and in alpha, even if their result is not used; argument 0 warns
 * with them if the op takes it. They do not warn in a stage that is not active or that displaces the next one's lookup,
 * where an unbound texture makes the op give YUZUKNOLL_ARG_CURRENT, nor in alpha that is kept or that the colour op
 * sets. */
typedef struct {
    uint64_t length;            /* The number of bytes of the text. */
    uint64_t mask;              /* Mask of the stages that are active and have a texture. */
    uint64_t rows;              /* The number of rows that the buffer ps_c must have: 0 to 9. */
    uint64_t lookups;           /* The number of texture lookups in the text: 0 to 8. */
    uint64_t op_warnings;       /* Mask of the stages with an op that has no formula. Its argument 1 was used. */
    uint64_t selector_warnings; /* Mask of the stages with an argument's selector from 7 to 15. White was used. */
    uint64_t modifier_warnings; /* Mask of the stages with an argument's bit 0x40 or 0x80. It was ignored. */
    uint64_t alpha_warning;     /* 1 if the alpha function is above 8, else 0. Every pixel is then kept. */
} yuzuknoll_result;

/* Writes the Metal function of a key, a variant and an entry to the front of text, as ASCII without a zero at the end.
 *
 * Stage i has texture i and sampler i. The function takes these buffers, all but ps_c only if it needs them:
 *   15 ps_c       row 0 is the texture factor, row i + 1 the constant of stage i
 *   14 alpha_ref  the reference value of the alpha test
 *   13 fog_data   row 0 is the fog colour; row 1 holds start, end, density and depth bias
 *   12 bump_env   row 2 * i is the matrix of stage i (m00, m01, m10, m11); row 2 * i + 1 has luminance scale and offset
 *   11 lod_bias   row i holds the bias of stage i in x, and in w the level for a lookup of depth
 *
 * Refuses with 3, 4, 5, 6, 13 or 8, in this order. Does not modify the bytes after the text. On refusal nothing is
 * modified. */
uint64_t yuzuknoll_emit(const yuzuknoll_key *key, const yuzuknoll_variant *variant, const yuzuknoll_entry *entry,
                        uint8_t *text, size_t text_length, yuzuknoll_result *result);

/* The same of a wide key. */
uint64_t yuzuknoll_emit_wide(const yuzuknoll_wide_key *key, const yuzuknoll_variant *variant, const yuzuknoll_entry *entry,
                             uint8_t *text, size_t text_length, yuzuknoll_result *result);

/* ---- Records ---- */

/* Keys, variants, entries and state writes can be stored and sent as records. A record is a byte for its kind, followed by
 * the bytes of a yuzuknoll_key, yuzuknoll_variant, yuzuknoll_entry, yuzuknoll_state_write or yuzuknoll_wide_key. An emit
 * record, which asks for a text, is its kind alone. */
#define YUZUKNOLL_KIND_KEY 1
#define YUZUKNOLL_KIND_VARIANT 2
#define YUZUKNOLL_KIND_ENTRY 3
#define YUZUKNOLL_KIND_EMIT 4
#define YUZUKNOLL_KIND_STATE 5
#define YUZUKNOLL_KIND_WIDE_KEY 6

/* The number of bytes of a record, its kind included. */
#define YUZUKNOLL_KEY_RECORD_LENGTH 59
#define YUZUKNOLL_VARIANT_RECORD_LENGTH 20
#define YUZUKNOLL_ENTRY_RECORD_LENGTH 34
#define YUZUKNOLL_EMIT_RECORD_LENGTH 1
#define YUZUKNOLL_STATE_RECORD_LENGTH 7
#define YUZUKNOLL_WIDE_KEY_RECORD_LENGTH 75

/* What yuzuknoll_read and yuzuknoll_write report. */
typedef struct {
    uint64_t kind;  /* One of YUZUKNOLL_KIND_... */
    uint64_t taken; /* The number of bytes of the record. */
} yuzuknoll_record;

/* Checks the record at the front of bytes. The bytes after it do not matter.
 *
 * Refuses with 1 if there is no byte, with 2, with 1 if the record is cut short, or with the first cause of its kind: 3, 4
 * of a key or a wide key, 5 of a variant, 6, 13 of an entry, 10, 11, 12 of a state write. On refusal nothing is
 * modified. */
uint64_t yuzuknoll_read(const uint8_t *bytes, size_t length, yuzuknoll_record *record);

/* Checks the record at the front of bytes and copies it to the front of out. The bytes after it do not matter.
 *
 * Refuses as yuzuknoll_read does, then with 8. Does not modify the bytes of out after the record. On refusal nothing is
 * modified. */
uint64_t yuzuknoll_write(const uint8_t *bytes, size_t length, uint8_t *out, size_t out_length, yuzuknoll_record *record);

/* ---- Sessions ---- */

/* The key, the variant and the entry that the records so far have set: their records, each at the front of its part. The
 * key's part has room for a wide key; behind the record of a key it has 16 bytes that do not matter. A struct of zeros
 * holds nothing. A part that yuzuknoll_read refuses, or that has another kind, counts as not held. A key that state writes
 * have set is held as the key record that gives the same key. */
#define YUZUKNOLL_HELD_LENGTH 129
#define YUZUKNOLL_HELD_KEY 0      /* where the parts begin */
#define YUZUKNOLL_HELD_VARIANT 75
#define YUZUKNOLL_HELD_ENTRY 95
typedef struct {
    uint8_t bytes[YUZUKNOLL_HELD_LENGTH];
} yuzuknoll_held;

/* What yuzuknoll_apply reports. */
typedef struct {
    uint64_t kind;           /* One of YUZUKNOLL_KIND_... */
    uint64_t taken;          /* The number of bytes of the record. The next record begins there. */
    yuzuknoll_result result; /* What yuzuknoll_emit reports, if this is an emit record. All 0 if it is not. */
} yuzuknoll_applied;

/* Takes the record at the front of bytes. A key of either kind, a variant or an entry replaces the one that is held. A
 * state write sets one state of the held key and leaves the rest of it; if no key is held, it sets the state in the
 * defaults, and that key is held from then on. So after any list of writes the key has, for each stage and type, the
 * last value written, or else what it had before. An emit record writes the Metal function of what is held to the front
 * of text, as yuzuknoll_emit or, of a wide key, yuzuknoll_emit_wide does. The bytes after the record do not matter.
 *
 * Refuses as yuzuknoll_read does, and an emit record also with 7 or 8, in this order. Does not modify the other parts
 * of held, nor the bytes after the text; unless it is an emit record, text is not modified. On refusal nothing is
 * modified. */
uint64_t yuzuknoll_apply(yuzuknoll_held *held, const uint8_t *bytes, size_t length, uint8_t *text, size_t text_length,
                         yuzuknoll_applied *applied);

/* ---- Sizes ---- */

/* The library relies on these sizes. */
#if defined(__cplusplus) && __cplusplus >= 201103L
#define YUZUKNOLL_SIZE(type, bytes) static_assert(sizeof(type) == (bytes), "the size of " #type)
#elif !defined(__cplusplus) && defined(__STDC_VERSION__) && __STDC_VERSION__ >= 201112L
#define YUZUKNOLL_SIZE(type, bytes) _Static_assert(sizeof(type) == (bytes), "the size of " #type)
#else
#define YUZUKNOLL_SIZE(type, bytes) extern char yuzuknoll_size_of_##type[sizeof(type) == (bytes) ? 1 : -1]
#endif
YUZUKNOLL_SIZE(yuzuknoll_key, 58);
YUZUKNOLL_SIZE(yuzuknoll_wide_key, 74);
YUZUKNOLL_SIZE(yuzuknoll_state_write, 6);
YUZUKNOLL_SIZE(yuzuknoll_variant, 19);
YUZUKNOLL_SIZE(yuzuknoll_entry, 33);
YUZUKNOLL_SIZE(yuzuknoll_result, 64);
YUZUKNOLL_SIZE(yuzuknoll_record, 16);
YUZUKNOLL_SIZE(yuzuknoll_applied, 80);
YUZUKNOLL_SIZE(yuzuknoll_held, YUZUKNOLL_HELD_LENGTH);
#undef YUZUKNOLL_SIZE

#ifdef __cplusplus
}
#endif

#endif
