/* The sheet printer's input for the C hosts: three files, each after its count of words. */
#ifndef INPUT_H
#define INPUT_H

#include "sections.h"

enum { MOST_INPUT_BYTES = 65536 };

/* Takes one file after its count; the place after it, or 0 if the input ends early. */
static inline size_t take_file(struct bytes input, size_t at, struct words *file)
{
    size_t count;
    if (input.length - at < 2) {
        return 0;
    }
    count = (size_t)input.byte[at] + 256 * (size_t)input.byte[at + 1];
    at += 2;
    if (input.length - at < 2 * count) {
        return 0;
    }
    *file = words_of(input.byte + at, count);
    return at + 2 * count;
}

/* Cuts an input into its three files, which are to be freed; 0 if it ends early, goes on, or is too long. */
static inline int split(struct bytes input, struct files *files)
{
    static const struct files none;
    size_t at;
    *files = none;
    if (input.length > MOST_INPUT_BYTES) {
        return 0;
    }
    at = take_file(input, 0, &files->sheet_template);
    at = at ? take_file(input, at, &files->script) : 0;
    at = at ? take_file(input, at, &files->bookings) : 0;
    return at != 0 && at == input.length;
}

#endif
