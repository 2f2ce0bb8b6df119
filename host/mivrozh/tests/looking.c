/*
 * Is linked with c/example.c and looks at what it leaves. The linker's option --wrap puts these functions in the place of the
 * named ones. Memory that is given back must be zeros, and at each line that is printed no piece of the key may stand in the
 * stack below.
 */
#define _DEFAULT_SOURCE
#include <mivrozh.h>

#include <malloc.h>
#include <stdarg.h>
#include <stdio.h>
#include <string.h>
#include <unistd.h>

/* Deeper than any call, and not below what the wiping has touched. */
enum { KEY = 64, PIECE = 8, DEPTH = MIVROZH_MOST_STACK + 4096 };

static const uint8_t *key;

static void complain(const char *what) {
    fprintf(stderr, "%s\n", what);
    _exit(3);
}

void __real_free(void *start);
void __wrap_free(void *start) {
    const uint8_t *bytes = start;
    size_t length = malloc_usable_size(start);
    for (size_t at = 0; at < length; at++)
        if (bytes[at] != 0) complain("memory is given back that was not wiped");
    __real_free(start);
}

uint8_t __real_mivrozh_format(uint8_t *image, size_t image_len, uint8_t profile, uint32_t stripes, const uint8_t *given,
                              size_t key_len, const uint8_t salt[32], uint32_t count, const uint8_t *uuid, size_t uuid_len,
                              uint64_t *values);
uint8_t __wrap_mivrozh_format(uint8_t *image, size_t image_len, uint8_t profile, uint32_t stripes, const uint8_t *given,
                              size_t key_len, const uint8_t salt[32], uint32_t count, const uint8_t *uuid, size_t uuid_len,
                              uint64_t *values) {
    key = given;
    return __real_mivrozh_format(image, image_len, profile, stripes, given, key_len, salt, count, uuid, uuid_len, values);
}

/* The first line of a function's frame downwards; what stands there is dead. Nothing is called that would overwrite it. */
static int has_piece(const volatile uint8_t *below) {
    for (const volatile uint8_t *at = below - DEPTH; at < below - 256; at++)
        for (size_t from = 0; from + PIECE <= KEY; from++) {
            size_t same = 0;
            while (same < PIECE && at[same] == key[from + same]) same++;
            if (same == PIECE) return 1;
        }
    return 0;
}

int __wrap_printf(const char *format, ...) {
    va_list arguments;
    int said;
    if (has_piece(__builtin_frame_address(0))) complain("a piece of the key stands in the stack");
    va_start(arguments, format);
    said = vprintf(format, arguments);
    va_end(arguments);
    return said;
}
