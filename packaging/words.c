/*
 * The library's version, and its refusals in words. Nothing here is proved: it reads a table and
 * calls nothing. ./package puts it into libprep beside the proved functions.
 */
#include "prep.h"

uint32_t prep_version(void)
{
    return PREP_VERSION;
}

const char *prep_reason(uint16_t refusal_number)
{
    switch (refusal_number) {
    case PREP_NOT_REFUSED:
        return "nothing is refused";
#define PREP_REFUSAL(number, name, file, words) \
    case number:                                \
        return words;
#include "prep_refusals.def"
    default:
        return "refused, by a number that this version has no words for";
    }
}

enum prep_file prep_file_of(uint16_t refusal_number)
{
    switch (refusal_number) {
#define PREP_REFUSAL(number, name, file, words) \
    case number:                                \
        return PREP_IN_##file;
#include "prep_refusals.def"
    default:
        return PREP_IN_NOTHING;
    }
}

/* Whether a refusal is this one of this call, at fault in no word of a file. */
#define IS_OF_CALL(call, name) \
    (refused_call == PREP_CALL_##call && refusal_number == PREP_##name && refusal_place == 0)

const char *prep_call_reason(enum prep_call refused_call, uint16_t refusal_number, size_t refusal_place)
{
#define PREP_CALL_REFUSAL(call, name, file, words) \
    if (IS_OF_CALL(call, name)) {                  \
        return words;                              \
    }
#include "prep_refusals.def"
    return prep_reason(refusal_number);
}

enum prep_file prep_call_file(enum prep_call refused_call, uint16_t refusal_number, size_t refusal_place)
{
#define PREP_CALL_REFUSAL(call, name, file, words) \
    if (IS_OF_CALL(call, name)) {                  \
        return PREP_IN_##file;                     \
    }
#include "prep_refusals.def"
    return prep_file_of(refusal_number);
}
