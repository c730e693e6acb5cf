/* bytes.h: bytes as the vectors write them. */
#ifndef BYTES_H
#define BYTES_H

#include <stddef.h>
#include <stdint.h>

struct bytes {
    uint8_t *bytes; /* of exactly this length, so that a checker of addresses sees every access behind it */
    size_t length;
};

char *copy_text(const char *text, size_t length);

/* The text with its groups {N*BYTES} written out; other escapes stay. */
char *expand(const char *text, size_t length);

/* The bytes that the text stands for. */
struct bytes unescape(const char *text, size_t length);

/* Writes bytes readably behind text. */
void append_readable(char *text, const uint8_t *bytes, size_t length);

#endif
