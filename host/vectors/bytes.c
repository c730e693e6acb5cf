#include "bytes.h"

#include <stdio.h>
#include <stdlib.h>
#include <string.h>

struct text {
    char *bytes;
    size_t length, room;
};

static void add(struct text *text, const char *bytes, size_t length)
{
    while (text->length + length + 1 > text->room) {
        text->room = 2 * text->room + 64;
        text->bytes = realloc(text->bytes, text->room);
        if (text->bytes == NULL)
            abort();
    }
    memcpy(text->bytes + text->length, bytes, length);
    text->length += length;
    text->bytes[text->length] = 0;
}

char *copy_text(const char *text, size_t length)
{
    struct text copy = {NULL, 0, 0};
    add(&copy, text, length);
    return copy.bytes;
}

/* The place of the brace that closes the group whose inside begins here. */
static size_t closing(const char *text, size_t from, size_t length)
{
    int depth = 1;
    size_t i = from;
    for (; i < length; i++) {
        if (text[i] == '\\')
            i++;
        else if (text[i] == '{')
            depth++;
        else if (text[i] == '}' && --depth == 0)
            break;
    }
    return i;
}

static void expand_into(struct text *out, const char *text, size_t length)
{
    for (size_t i = 0; i < length; i++) {
        if (text[i] == '\\') {
            add(out, text + i, 2);
            i++;
        } else if (text[i] == '{') {
            char *star;
            unsigned long times = strtoul(text + i + 1, &star, 10);
            size_t from = (size_t)(star - text) + 1, to = closing(text, from, length);
            for (unsigned long j = 0; j < times; j++)
                expand_into(out, text + from, to - from);
            i = to;
        } else {
            add(out, text + i, 1);
        }
    }
}

char *expand(const char *text, size_t length)
{
    struct text out = {NULL, 0, 0};
    add(&out, "", 0);
    expand_into(&out, text, length);
    return out.bytes;
}

static int hex_digit(char digit)
{
    static const char digits[] = "0123456789ABCDEF";
    const char *at = strchr(digits, digit);
    if (digit == 0 || at == NULL) {
        fprintf(stderr, "a vector has the hexadecimal digit %c\n", digit);
        exit(2);
    }
    return (int)(at - digits);
}

struct bytes unescape(const char *text, size_t length)
{
    char *expanded = expand(text, length);
    struct text out = {NULL, 0, 0};
    add(&out, "", 0);
    for (const char *at = expanded; *at != 0; at++) {
        char byte = *at;
        if (byte == '\\') {
            at++;
            switch (*at) {
            case 's': byte = ' '; break;
            case 't': byte = '\t'; break;
            case 'n': byte = '\n'; break;
            case 'x': byte = (char)(16 * hex_digit(at[1]) + hex_digit(at[2])); at += 2; break;
            case 'D': add(&out, "<?xml version=\"1.0\" encoding=\"UTF-8\"?>", 38); byte = '\n'; break;
            default: byte = *at;
            }
        }
        add(&out, &byte, 1);
    }
    struct bytes bytes = {malloc(out.length > 0 ? out.length : 1), out.length};
    if (bytes.bytes == NULL)
        abort();
    memcpy(bytes.bytes, out.bytes, out.length);
    free(out.bytes);
    free(expanded);
    return bytes;
}

void append_readable(char *text, const uint8_t *bytes, size_t length)
{
    text += strlen(text);
    for (size_t i = 0; i < length; i++)
        if (bytes[i] > 0x20 && bytes[i] < 0x7F && bytes[i] != '\\')
            text += sprintf(text, "%c", bytes[i]);
        else
            text += sprintf(text, bytes[i] == ' ' ? "\\s" : bytes[i] == '\t' ? "\\t" : bytes[i] == '\n' ? "\\n" : "\\x%02X", bytes[i]);
}
