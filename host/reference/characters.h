/* characters.h: the characters of XML 1.0, Fifth Edition, and their bytes in UTF-8. */
#ifndef CHARACTERS_H
#define CHARACTERS_H

#include <stddef.h>
#include <stdint.h>

/* Which characters a name may begin with, a name may go on with, and a text may have. */
enum character_class { NAME_START, NAME, ANY };

/* Whether the first bytes of some character of the class are these, all of it included. One byte at least. */
int character_begins(enum character_class class, const uint8_t *bytes, size_t count);

/* Whether bytes with which a character begins are all of it. */
int character_whole(const uint8_t *bytes, size_t count);

/* How many bytes the character of the class takes that stands here, 0 if there is none. */
size_t character_length(enum character_class class, const uint8_t *bytes, size_t count);

/* The same for the first byte alone; the end of the input is a negative byte, which begins nothing. */
int first_byte(enum character_class class, int byte);

#endif
