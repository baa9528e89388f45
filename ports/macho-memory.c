/* What a Mac's C library has and the library calls, for macho.c. On x86-64 a Mac has bzero by another name. */
typedef __SIZE_TYPE__ size_t;

void *memcpy(void *to, const void *from, size_t count) {
    char *out = to;
    for (const char *in = from; count != 0; count--)
        *out++ = *in++;
    return to;
}

void *memset(void *to, int byte, size_t count) {
    for (char *out = to; count != 0; count--)
        *out++ = (char)byte;
    return to;
}

void bzero(void *to, size_t count) { memset(to, 0, count); }
void __bzero(void *to, size_t count) { memset(to, 0, count); }
