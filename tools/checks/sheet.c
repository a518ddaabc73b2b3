/*
 * The cases of the sheet printer, over the library's C functions. On the way it is checked that the calls agree with
 * each other: both typings, for each desk, with each typing alone, with how they are judged and with the counts that
 * fit, the links of the cards with the script, what a desk books with how it is tidied, and that a refusal is the same
 * for every desk and leaves the grids alone.
 */
#include "cases.h"
#include "input.h"
#include "prep.h"

#include <string.h>

/* NO_DESK is the first number that is none. */
enum { UNTOUCHED = 0xa5, NO_DESK = PREP_DESK_TELEVISION + 1 };

/* The files of the case. */
static struct files sheet;
static uint8_t smallest[PREP_MAX_GRID_BYTES], largest[PREP_MAX_GRID_BYTES], alone[PREP_MAX_GRID_BYTES];
static uint16_t links[PREP_MAX_SCRIPT_WORDS], counts[PREP_MAX_COUNTS];
static uint16_t stored[PREP_MAX_STORED_WORDS], tidied[PREP_MAX_BOOKING_WORDS];

/* What every call is lent. */
#define TEMPLATE LENT(sheet.sheet_template)
#define SCRIPT LENT(sheet.script)
#define BOOKINGS LENT(sheet.bookings)

/* A line for each card: its shapes, ascending. */
static void print_cards(const uint8_t *grid, size_t cards, size_t shapes)
{
    size_t card, shape;
    for (card = 0; card < cards; card++) {
        printf("card %zu:", card);
        for (shape = 0; shape < shapes; shape++) {
            if (grid[card * shapes + shape]) {
                printf(" %zu", shape);
            }
        }
        printf("\n");
    }
}

/* Both typings for a desk, in grids that hold other bytes before. */
static struct prep_both_answer both_for(uint16_t desk, size_t size)
{
    memset(smallest, UNTOUCHED, sizeof smallest);
    memset(largest, UNTOUCHED, sizeof largest);
    return prep_both_typings(TEMPLATE, SCRIPT, BOOKINGS, desk, smallest, size, largest, size);
}

/* A smallest typing, which stands in the grid for one alone, is that of both typings. */
static void check_same(const struct prep_smallest_answer *s, const struct prep_both_answer *both, size_t size)
{
    REQUIRE(s->number == both->number && s->card == both->card && s->shape == both->shape);
    REQUIRE(s->pairs == both->pairs && s->place == both->place);
    REQUIRE(memcmp(alone, smallest, size) == 0);
}

/* The largest is the one without a desk, so it is the same for both; the smallest is the desk's. */
static void check_alone(const struct prep_both_answer *both, uint16_t desk, size_t size)
{
    struct prep_largest_answer l = prep_largest(TEMPLATE, SCRIPT, alone, size);
    struct prep_smallest_answer s;
    REQUIRE(l.number == 0 && l.rounds == both->rounds && l.struck == both->struck && l.bare == both->bare);
    REQUIRE(memcmp(alone, largest, size) == 0);
    s = prep_smallest(TEMPLATE, SCRIPT, BOOKINGS, desk, alone, size);
    check_same(&s, both, size);
}

/* Judges a grid of the sheet for a desk. */
static struct prep_judge_answer judge(uint16_t desk, const uint8_t *grid, size_t size)
{
    return prep_judge(TEMPLATE, SCRIPT, BOOKINGS, desk, grid, size);
}

/* Both typings are accepted if the bookings are met; if not, neither holds them. A byte over 1 is told where it is. */
static void check_judged(const struct prep_both_answer *both, uint16_t desk, size_t size)
{
    uint16_t owed = both->number == PREP_NOT_MET ? PREP_GRID_NOT_HELD : PREP_NOT_REFUSED;
    struct prep_judge_answer over;
    size_t place = size / 2;
    REQUIRE(judge(desk, smallest, size).number == owed);
    REQUIRE(judge(desk, largest, size).number == owed);
    if (size > 0) {
        memcpy(alone, largest, size);
        alone[place] = 2;
        over = judge(desk, alone, size);
        REQUIRE(over.number == PREP_GRID_BYTE && over.place == place);
    }
}

/* The links of all cards, one card after the other, are the script's words. */
static void check_links(size_t cards)
{
    size_t card, at = 2;
    for (card = 0; card < cards; card++) {
        size_t count = prep_links_of_card(TEMPLATE, SCRIPT, (uint16_t)card, links, PREP_MAX_SCRIPT_WORDS);
        REQUIRE(count <= sheet.script.length - at);
        REQUIRE(memcmp(links, sheet.script.word + at, count * sizeof links[0]) == 0);
        at += count;
    }
    REQUIRE(at == sheet.script.length);
}

/* Counts the links of a card by kind: those that start there, then those that arrive. */
static void count_links(size_t card, size_t kinds)
{
    size_t at;
    memset(counts, 0, sizeof counts);
    for (at = 2; at < sheet.script.length; at += 3) {
        counts[sheet.script.word[at + 1]] += sheet.script.word[at] == card;
        counts[kinds + sheet.script.word[at + 1]] += sheet.script.word[at + 2] == card;
    }
}

/* The counts of each card fit every shape that it has in the largest typing. */
static void check_counts(size_t cards, size_t kinds, size_t shapes)
{
    size_t card, shape;
    for (card = 0; card < cards; card++) {
        count_links(card, kinds);
        for (shape = 0; shape < shapes; shape++) {
            if (largest[card * shapes + shape]) {
                struct prep_fit_answer fit = prep_fit_counts(TEMPLATE, (uint16_t)shape, counts, 2 * kinds);
                REQUIRE(fit.number == 0 && fit.fits == 1);
            }
        }
    }
}

/* Stores the pairs that a desk books in a list without desks; how many words it has. */
static size_t store_pairs(uint16_t desk)
{
    size_t at, length = 1;
    for (at = 1; at < sheet.bookings.length; at += 3) {
        if (sheet.bookings.word[at] == desk) {
            stored[length++] = sheet.bookings.word[at + 1];
            stored[length++] = sheet.bookings.word[at + 2];
        }
    }
    stored[0] = (uint16_t)(length / 2);
    return length;
}

/* What a desk books, stored and tidied, has this desk's smallest typing for the radio; television books nothing. */
static void check_tidied(const struct prep_both_answer *both, uint16_t desk, size_t size)
{
    size_t length = store_pairs(desk), words = 1 + 3 * (size_t)stored[0], i;
    struct prep_written_answer t = prep_tidy_bookings(TEMPLATE, SCRIPT, stored, length, tidied, words);
    struct prep_smallest_answer s;
    REQUIRE(t.number == 0 && t.place == 0 && t.written == words && tidied[0] == stored[0]);
    s = prep_smallest(TEMPLATE, SCRIPT, tidied, words, PREP_DESK_RADIO, alone, size);
    check_same(&s, both, size);
    s = prep_smallest(TEMPLATE, SCRIPT, tidied, words, PREP_DESK_TELEVISION, alone, size);
    REQUIRE(s.number == 0 && s.pairs == 0);
    for (i = 0; i < size; i++) {
        require(alone[i] == 0, "the grid is all 0 where nothing is booked");
    }
}

static void check_untouched(void)
{
    size_t i;
    for (i = 0; i < PREP_MAX_GRID_BYTES; i++) {
        require(smallest[i] == UNTOUCHED && largest[i] == UNTOUCHED, "a refusal leaves the grids alone");
    }
}

/* The desk of a call is tested after the files and before the grids, which here have other sizes where they can. */
static void check_no_desk(size_t size)
{
    struct prep_both_answer both = both_for(NO_DESK, size / 2);
    struct prep_smallest_answer small = prep_smallest(TEMPLATE, SCRIPT, BOOKINGS, NO_DESK, smallest, size / 2);
    struct prep_judge_answer judged = judge(NO_DESK, largest, size / 2);
    REQUIRE(both.number == PREP_BOOKINGS_DESK && both.place == 0);
    REQUIRE(small.number == PREP_BOOKINGS_DESK && small.place == 0);
    REQUIRE(judged.number == PREP_BOOKINGS_DESK && judged.place == 0);
    check_untouched();
}

/*
 * Whichever desk asks, what is wrong with the files is told by both typings, the smallest and the judge, and the grids
 * are left alone. Tidying tells the same of the template and the script.
 */
static void check_refused(const struct prep_both_answer *refused, size_t size)
{
    struct prep_written_answer t = prep_tidy_bookings(TEMPLATE, SCRIPT, BOOKINGS, NULL, 0);
    uint16_t desk;
    for (desk = PREP_DESK_RADIO; desk <= NO_DESK; desk++) {
        struct prep_both_answer both = both_for(desk, size);
        struct prep_smallest_answer small = prep_smallest(TEMPLATE, SCRIPT, BOOKINGS, desk, smallest, size);
        struct prep_judge_answer judged = judge(desk, largest, size);
        REQUIRE(both.number == refused->number && both.place == refused->place);
        REQUIRE(small.number == refused->number && small.place == refused->place);
        REQUIRE(judged.number == refused->number && judged.place == refused->place);
        check_untouched();
    }
    if (prep_file_of(refused->number) != PREP_IN_BOOKINGS) {
        REQUIRE(t.number == refused->number && t.place == refused->place && t.written == 0);
    }
}

static void print_smallest(const struct prep_both_answer *both, size_t cards, size_t shapes)
{
    if (both->number == PREP_NOT_MET) {
        printf("smallest no %u %u\n", (unsigned)both->card, (unsigned)both->shape);
    } else {
        printf("smallest %zu\n", both->pairs);
        print_cards(smallest, cards, shapes);
    }
}

static void print_sheet(void)
{
    struct prep_template_answer t = prep_read_template(TEMPLATE);
    struct prep_script_answer s = prep_read_script(TEMPLATE, SCRIPT);
    size_t size = (size_t)s.cards * t.shapes;
    struct prep_both_answer both = both_for(PREP_DESK_RADIO, size);
    uint16_t desk;
    if (both.number != 0 && both.number != PREP_NOT_MET) {
        check_refused(&both, size);
        printf("refused %u %zu\n", (unsigned)both.number, both.place);
        return;
    }
    printf("largest %zu %zu %zu\n", both.rounds, both.struck, both.bare);
    print_cards(largest, s.cards, t.shapes);
    for (desk = PREP_DESK_RADIO; desk <= PREP_DESK_TELEVISION; desk++) {
        both = both_for(desk, size);
        print_smallest(&both, s.cards, t.shapes);
        check_alone(&both, desk, size);
        check_judged(&both, desk, size);
        check_tidied(&both, desk, size);
    }
    check_links(s.cards);
    check_counts(s.cards, t.kinds, t.shapes);
    check_no_desk(size);
}

void sheet_case(void)
{
    struct bytes input = read_bytes();
    if (split(input, &sheet)) {
        print_sheet();
    } else {
        printf("refused %d 0\n", PREP_INPUT);
    }
    free_files(&sheet);
    free(input.byte);
}
