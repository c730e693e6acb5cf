/* character.h: random characters in UTF-8, right and wrong. */
#ifndef CHARACTER_H
#define CHARACTER_H

#include <stddef.h>
#include <stdint.h>

#include "random.h"

enum { CHARACTER_ROOM = 8 };

/* Where a character stands: as a name's first, later in a name, or in a text or value. */
enum character_place { NAME_FIRST, NAME_LATER, IN_TEXT };

/* A character of two to four bytes that is allowed at the place, often the first or last of a range. Answers its length. */
size_t random_character(struct random *r, enum character_place place, uint8_t *out);

/* What is wrong with a character. */
enum wrong_character { BESIDE, OVERLONG, SURROGATE, TOO_GREAT, CUT, ALONE, WRONG_CHARACTERS };

/* Bytes that are no character that is allowed at the place, for this reason: beside a range, in more bytes than needed, and so on.
 * Answers how many, at most CHARACTER_ROOM. */
size_t random_wrong_character(struct random *r, enum character_place place, enum wrong_character wrong, uint8_t *out);

#endif
