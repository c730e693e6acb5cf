/* place.h: where in a document a byte stands. */
#ifndef PLACE_H
#define PLACE_H

/* A place in a document: in a tag, in a value of it (the quote is not 0), or in a text. */
struct place {
    int in_tag, quote;
};

static inline struct place place_behind(struct place place, int byte)
{
    if (place.quote != 0)
        place.quote = byte == place.quote ? 0 : place.quote;
    else if (place.in_tag && (byte == '"' || byte == '\''))
        place.quote = byte;
    else if (byte == '<' || byte == '>')
        place.in_tag = byte == '<';
    return place;
}

#endif
