/*
 * Prep sheet shapes for C and C++: read a template, fit counts, read a script, the links of a card,
 * the two typings of a script, judge a grid, and tidy a stored booking list. The library is
 * libprep.a or libprep.so, for x86-64 Linux. FORMAT.md sets out words, typings and refusals.
 *
 * Words and grids. Template, script, bookings and counts are arrays of 16-bit words in the
 * machine's own byte order; in a file they stand low byte first. A grid is an array of cards x
 * shapes bytes, 1 where card n has shape t, at place n * shapes + t, else 0. Each array is lent for
 * the length of the call and is given as a pointer and its length in elements. A pointer to words
 * must be aligned to 2 bytes. A pointer whose length is 0 may be NULL; every other pointer must
 * point to that many elements. Arrays that a call only reads (const) may overlap each other; an
 * array that a call writes may overlap no other array of the call, and need not be set before.
 *
 * Desks. Two desks, those of enum prep_desk, book in one list: each booking says whose it is, and
 * each call that reads such a list says for which desk it asks. The whole list is read whichever
 * desk that is, so a fault of any booking is told. Then only the bookings of this desk count: what
 * the other one books changes no typing.
 *
 * Answers and refusals. No input is forbidden: what is wrong with it is answered by a refusal.
 * `number` is 0 where nothing is refused. Otherwise `number` is a constant of enum prep_refusal and
 * `place` is the index of the word at fault in its own array, in a grid that of the byte;
 * PREP_NOT_MET and PREP_GRID_NOT_MET have a card and a shape instead. What an answer does not say
 * is 0. Each call tests in a fixed order and answers the first fault. A refusal other than
 * PREP_NOT_MET changes no array.
 *
 * What is proved. The functions from prep_read_template to prep_tidy_bookings are proved to answer
 * as FORMAT.md says, on all inputs, to do nothing undefined, and to end, as long as pointers and
 * lengths are what they say. prep_version and the functions after it are plain C: words are no matter
 * of proof.
 *
 * Threads and memory. The library keeps no state, allocates nothing, writes to no file and calls
 * nothing of the C library but memset. Any number of threads may call it at once, each with arrays
 * of its own to write.
 *
 * Debugging. There is no debug information, and the proved functions have neither unwind tables
 * (.eh_frame, .debug_frame) nor frame pointers: the kit that compiles them writes none and cannot be
 * told to. So a debugger, a profiler or a crash handler that looks while such a call runs sees where
 * it is, but not who called; before the call and after it all frames are there. prep_version and the
 * functions after it have unwind tables. Symbols: in libprep.a those of inner functions too, in
 * libprep.so only those declared here. Nothing is called back and nothing is thrown, so no exception
 * has to pass through a call. A signal handler must not throw one through it, and a thread must not
 * be cancelled asynchronously inside it.
 *
 * Binary compatibility. Of two versions with the same PREP_VERSION_MAJOR the later has every
 * function, struct and constant of the earlier, with the same layout and value, and gives the same
 * answer to every call. Functions, structs and constants may be added (PREP_VERSION_MINOR), and
 * prep_file_of and prep_call_file then know the added refusals; the words of refusals and
 * PREP_STACK_BYTES may change with any version. So a program built with an older header runs with a
 * newer shared library of the same major version, and the soname is libprep.so.MAJOR. Whatever else
 * changes an answer or a struct raises the major version. Structs are passed as the System V ABI for
 * x86-64 says.
 */
#ifndef PREP_H
#define PREP_H

#include <stddef.h>
#include <stdint.h>

/* The version of this header; prep_version gives the library's. */
#define PREP_VERSION_MAJOR 6
#define PREP_VERSION_MINOR 0
#define PREP_VERSION_PATCH 1
#define PREP_VERSION (PREP_VERSION_MAJOR * 10000 + PREP_VERSION_MINOR * 100 + PREP_VERSION_PATCH)

/* The format's limits, for callers that set arrays aside. */
enum {
    PREP_MAX_TEMPLATE_WORDS = 4096,
    PREP_MAX_KINDS = 64,
    PREP_MAX_SHAPES = 32,
    PREP_MAX_CARDS = 1024,
    PREP_MAX_LINKS = 8192,
    PREP_MAX_SCRIPT_WORDS = 2 + 3 * 8192,
    PREP_MAX_BOOKINGS = 1024, /* of both desks together */
    PREP_MAX_BOOKING_WORDS = 1 + 3 * 1024,
    PREP_MAX_STORED_WORDS = 1 + 2 * 1024, /* of a list that prep_tidy_bookings reads */
    PREP_MAX_COUNTS = 2 * 64,             /* how many counts */
    PREP_MAX_COUNT = 8192,                /* how large each is */
    PREP_MAX_GRID_BYTES = 1024 * 32
};

/*
 * The size of a thread's stack that is enough for any call. This figure is measured, not proved: on
 * inputs at the limits no call took more than some 131,000 bytes, and the C library took some 4,500
 * of a thread's stack for itself; the rest is for the caller's own functions. The example stack.c
 * makes every call in a thread with a stack of just this size.
 */
enum { PREP_STACK_BYTES = 192 * 1024 };

/* The desks that book, as a booking and a call number them. */
enum prep_desk { PREP_DESK_RADIO = 0, PREP_DESK_TELEVISION = 1 };

/*
 * A constant for each refusal, PREP_TEMPLATE_SIZE to PREP_BOOKINGS_DESK; prep_refusals.def lists
 * them with their numbers and words. PREP_NOT_MET and PREP_GRID_NOT_MET have a card and a shape
 * instead of a place. PREP_BOOKINGS_DESK at place 0, where no booking stands, is for the desk that
 * the call takes. PREP_INPUT is the sheet printer's; no function here answers it. Later versions
 * may have more, so test `number != 0` for "refused".
 */
enum prep_refusal {
    PREP_NOT_REFUSED = 0,
#define PREP_REFUSAL(number, name, file, words) PREP_##name = number,
#include "prep_refusals.def"
};

/* Where a refusal's place is counted: in a file, in another array of the call, or in nothing. */
enum prep_file {
    PREP_IN_NOTHING = 0,
    PREP_IN_TEMPLATE = 1,
    PREP_IN_SCRIPT = 2,
    PREP_IN_BOOKINGS = 3,
    PREP_IN_COUNTS = 4,
    PREP_IN_GRID = 5,
    PREP_IN_INPUT = 6,
    PREP_IN_TIDIED = 7 /* the array that prep_tidy_bookings writes */
};

/* The functions that refuse, for those that tell a refusal in words. */
enum prep_call {
    PREP_CALL_READ_TEMPLATE = 1,
    PREP_CALL_FIT_COUNTS = 2,
    PREP_CALL_READ_SCRIPT = 3,
    PREP_CALL_LARGEST = 4,
    PREP_CALL_SMALLEST = 5,
    PREP_CALL_BOTH_TYPINGS = 6,
    PREP_CALL_JUDGE = 7,
    PREP_CALL_TIDY_BOOKINGS = 8
};

/* A template's counts of kinds and of shapes. */
struct prep_template_answer {
    uint16_t number;
    uint16_t kinds;
    uint16_t shapes;
    size_t place;
};

/* Whether counts fit: 1 or 0. */
struct prep_fit_answer {
    uint16_t number;
    uint16_t fits;
    size_t place;
};

/* A script's counts of cards and of links. */
struct prep_script_answer {
    uint16_t number;
    uint16_t cards;
    uint16_t links;
    size_t place;
};

/* Of the largest typing: its rounds, the pairs struck, and the cards with some link and no shape. */
struct prep_largest_answer {
    uint16_t number;
    size_t place;
    size_t rounds;
    size_t struck;
    size_t bare;
};

/* Of the smallest typing: its pairs. With PREP_NOT_MET: the card and the shape that are not met. */
struct prep_smallest_answer {
    uint16_t number;
    uint16_t card;
    uint16_t shape;
    size_t place;
    size_t pairs;
};

/*
 * Of both typings. With PREP_NOT_MET rounds, struck and bare are the largest typing's, and card and
 * shape are not met.
 */
struct prep_both_answer {
    uint16_t number;
    uint16_t card;
    uint16_t shape;
    size_t place;
    size_t rounds;
    size_t struck;
    size_t bare;
    size_t pairs;
};

/*
 * Of a grid that is judged, which is accepted where number is 0. With PREP_GRID_NOT_MET: the card
 * and the shape that are not met.
 */
struct prep_judge_answer {
    uint16_t number;
    uint16_t card;
    uint16_t shape;
    size_t place;
};

/* Of a function that writes into an array: how many elements it wrote, from the array's start. */
struct prep_written_answer {
    uint16_t number;
    size_t place;
    size_t written;
};

#ifdef __cplusplus
extern "C" {
#endif

/*
 * Reads a template. A shape whose first word is 18 is open: it ignores links that start at a card
 * and are of a kind that it does not name as outgoing. Every other shape is closed: a card with such
 * a link does not have it. Refusals: 1 to 12, and 64 for 18 as the code of a part.
 */
struct prep_template_answer prep_read_template(const uint16_t *template_words, size_t template_length);

/*
 * Whether counts of links fit a shape. There are 2 x kinds counts: for each kind the links that
 * start at a card, then for each kind those that arrive there. A kind that the shape does not name
 * as outgoing has to count 0 in the first half if the shape is closed, and is ignored if it is open;
 * one that it does not name as incoming is ignored in the second half, whatever it counts. Refusals:
 * the template's, then 42 and 41 at place 0, and 43 at the first count over 8,192, in either half.
 */
struct prep_fit_answer prep_fit_counts(const uint16_t *template_words, size_t template_length, uint16_t shape_number,
                                       const uint16_t *label_counts, size_t counts_length);

/* Reads a script with its template. Refusals: the template's, then 20 to 25. */
struct prep_script_answer prep_read_script(const uint16_t *template_words, size_t template_length,
                                           const uint16_t *script_words, size_t script_length);

/*
 * The links that start at a card, three words each (from, kind, to), in the script's order; those
 * that arrive at it are not among them. Writes as many words as `link_words` has room for, leaves
 * the rest of it as it was, and returns how many words there are, which may be more. A length of 0
 * only asks how many. Returns 0 if the template or the script is refused, or if there is no such
 * card or no link starts at it; prep_read_script tells which.
 */
size_t prep_links_of_card(const uint16_t *template_words, size_t template_length, const uint16_t *script_words,
                          size_t script_length, uint16_t card_number, uint16_t *link_words, size_t links_length);

/*
 * Writes the largest typing of the script to `largest_grid`, which has cards x shapes bytes. A
 * program that strikes pairs one at a time, in any order, comes to the same: from every pair on it
 * strikes only pairs that are left and not met at that moment, and stops when all left are met. Then
 * just the pairs of `largest_grid` are left, and it has made `struck` strikes.
 * Refusals: the template's, the script's, then 40 at place 0.
 */
struct prep_largest_answer prep_largest(const uint16_t *template_words, size_t template_length,
                                        const uint16_t *script_words, size_t script_length, uint8_t *largest_grid,
                                        size_t largest_length);

/*
 * Writes the smallest typing that holds the desk's bookings to `smallest_grid`, which has cards x
 * shapes bytes. The list is a count and then the desk, the card and the shape of each booking.
 * Refusals: the template's, the script's, the list's (30 and 31 at place 0; for each booking 66 at
 * its desk, 32 at its card, 33 at its shape, and 65 at its card if the same desk books the pair
 * earlier in the list), then 66 at place 0 for `desk_number`, and 40 at place 0. Last 50, with the
 * lowest card and then lowest shape of the closure of the desk's bookings that is not met: then the
 * grid is all 0.
 */
struct prep_smallest_answer prep_smallest(const uint16_t *template_words, size_t template_length,
                                          const uint16_t *script_words, size_t script_length,
                                          const uint16_t *booking_words, size_t bookings_length,
                                          uint16_t desk_number, uint8_t *smallest_grid, size_t smallest_length);

/*
 * Both typings in one call, each as its own call gives it: the largest is the same for either desk.
 * Refusals: those of prep_smallest, 40 for either grid. With 50 `smallest_grid` is all 0 and
 * `largest_grid` has the largest typing.
 */
struct prep_both_answer prep_both_typings(const uint16_t *template_words, size_t template_length,
                                          const uint16_t *script_words, size_t script_length,
                                          const uint16_t *booking_words, size_t bookings_length,
                                          uint16_t desk_number, uint8_t *smallest_grid, size_t smallest_length,
                                          uint8_t *largest_grid, size_t largest_length);

/*
 * Judges a grid of cards x shapes bytes, which is only read: nothing is refused exactly if it is a
 * sound typing that holds the desk's bookings. Refusals: the template's, the script's, the list's
 * and the desk's as for prep_smallest, then 40 at place 0 and 61 at the first byte over 1. Then 62,
 * with the lowest card and then lowest shape of the grid that is not met under it. Last 63, at the
 * card of the first booking of the desk that is not in the grid.
 */
struct prep_judge_answer prep_judge(const uint16_t *template_words, size_t template_length,
                                    const uint16_t *script_words, size_t script_length,
                                    const uint16_t *booking_words, size_t bookings_length,
                                    uint16_t desk_number, const uint8_t *judged_grid, size_t judged_length);

/*
 * Tidies a list that was stored without desks: a count and then the card and the shape of each
 * booking, two words each, where a pair may stand several times. Writes to `tidied_words`,
 * which has 1 + 3 x count words, the new count and then the first booking of each pair, in the
 * list's order, with the radio desk before it; leaves the rest as it was, and answers how many words
 * were written. The list that is written has no fault: for the radio desk it books what the stored
 * list books, for the television desk nothing. Refusals: the template's, the script's, 30 to 33 at
 * places of the stored list, then 40 at place 0 if `tidied_words` has another length.
 */
struct prep_written_answer prep_tidy_bookings(const uint16_t *template_words, size_t template_length,
                                              const uint16_t *script_words, size_t script_length,
                                              const uint16_t *stored_words, size_t stored_length,
                                              uint16_t *tidied_words, size_t tidied_length);

/* The version of the library that is linked, as PREP_VERSION is made. */
uint32_t prep_version(void);

/*
 * What a refusal's number means, whichever call it is of, in English words without the place; never
 * NULL. The text is the library's: do not free it.
 */
const char *prep_reason(uint16_t refusal_number);

/*
 * Where the place of a refusal with this number is counted, if it is that of a word or a byte at
 * fault. PREP_IN_NOTHING for 0, for 42, 50 and 62, and for numbers not known.
 */
enum prep_file prep_file_of(uint16_t refusal_number);

/*
 * The same two for a refusal as a call answered it, with the words that are right for this call. The
 * place tells the desk of the call, 66 at place 0, from that of a booking; 40 is for one array or
 * for another. Where there is nothing of the kind to tell, or no such call, these answer what the
 * functions above do.
 */
const char *prep_call_reason(enum prep_call refused_call, uint16_t refusal_number, size_t refusal_place);
enum prep_file prep_call_file(enum prep_call refused_call, uint16_t refusal_number, size_t refusal_place);

#ifdef __cplusplus
}
#endif

#endif
