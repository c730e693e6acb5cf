/* characters.h: every character beside the parsers. */
#ifndef CHARACTERS_H
#define CHARACTERS_H

#include "../engine.h"

struct checked_characters {
    unsigned long passed, failed;
    unsigned long granted;          /* inputs that load and libxml2 read */
    unsigned long of_fifth_edition; /* of these, those that expat does not read: names */
};

/* Loads every code of UTF-8, broken ones too, at each place that a character can have; adds to the counts. */
void check_characters(const struct engine *engine, struct checked_characters *counts);

#endif
