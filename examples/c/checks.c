/*
 * Checks of the library as a C caller sees it: an answer and a refusal of each function, links that
 * arrive, open shapes, bookings of two desks and bookings that stand twice, arrays that a refusal
 * leaves alone, empty arrays given as NULL, refusals in words, and the layout of answers. Builds as C
 * and as C++.
 */
#include "prep.h"

#include <stdio.h>
#include <string.h>

#define LENGTH(array) (sizeof(array) / sizeof((array)[0]))

/* An array as the two parameters that lend it. */
#define LENT(array) (array), LENGTH(array)

/* The desks, and a number that is none. */
enum { RADIO = PREP_DESK_RADIO, TELEVISION = PREP_DESK_TELEVISION, NO_DESK = 2 };

static const uint16_t sheet_template[] = {2, 2, 10, 17, 2, 256, 1, 1, 1, 257, 0, 0, 1, 1, 0};
static const uint16_t sheet_script[] = {3, 3, 0, 0, 2, 0, 1, 1, 1, 0, 0};
static const uint16_t sheet_bookings[] = {1, RADIO, 2, 1};
static const uint16_t unmet_bookings[] = {1, RADIO, 0, 0};
static const uint8_t sheet_grid[] = {0, 0, 0, 0, 0, 1};
static const uint16_t small_template[] = {1, 1, 1, 0};
static const uint16_t guests_template[] = {1, 2, 4, 256, 1, 1, 65535, 4, 320, 0, 1, 65535};
static const uint16_t tolerant_template[] = {2, 2, 5, 18, 256, 1, 1, 1, 1, 0};
static const uint16_t two_cards[] = {2, 0};
static const uint16_t no_cards[] = {0, 0};
static const uint16_t no_bookings[] = {0};
static const uint16_t code_4[] = {1, 1, 1, 4};
static const uint16_t to_card_2[] = {2, 1, 0, 0, 2};

static int failures = 0;

static void check(int holds, const char *what)
{
    if (!holds) {
        fprintf(stderr, "checks: %s\n", what);
        failures++;
    }
}

#define CHECK(holds) check((holds) != 0, #holds)

static int all_are(const uint8_t *bytes, size_t length, uint8_t value)
{
    size_t i;
    for (i = 0; i < length; i++) {
        if (bytes[i] != value) {
            return 0;
        }
    }
    return 1;
}

static void check_readings(void)
{
    struct prep_template_answer t = prep_read_template(LENT(sheet_template));
    struct prep_script_answer s;
    CHECK(t.number == 0 && t.kinds == 2 && t.shapes == 2 && t.place == 0);
    t = prep_read_template(LENT(code_4));
    CHECK(t.number == PREP_TEMPLATE_CODE && t.place == 3 && t.kinds == 0 && t.shapes == 0);
    t = prep_read_template(NULL, 0);
    CHECK(t.number == PREP_TEMPLATE_SIZE && t.place == 0);

    s = prep_read_script(LENT(sheet_template), LENT(sheet_script));
    CHECK(s.number == 0 && s.cards == 3 && s.links == 3 && s.place == 0);
    s = prep_read_script(LENT(sheet_template), LENT(to_card_2));
    CHECK(s.number == PREP_SCRIPT_NO_CARD && s.place == 4 && s.cards == 0 && s.links == 0);
    s = prep_read_script(LENT(sheet_template), NULL, 0);
    CHECK(s.number == PREP_SCRIPT_SIZE && s.place == 0);
    s = prep_read_script(NULL, 0, NULL, 0);
    CHECK(s.number == PREP_TEMPLATE_SIZE && s.place == 0);
}

/* Codes of links that start at a card and of links that arrive there, and what is refused behind them. */
static void check_codes(void)
{
    uint16_t link[] = {1, 1, 4, 320, 0, 0, 1};
    uint16_t two_links[] = {1, 1, 10, 17, 2, 256, 0, 0, 1, 320, 0, 0, 1};
    struct prep_template_answer t = prep_read_template(LENT(guests_template));
    CHECK(t.number == 0 && t.kinds == 1 && t.shapes == 2 && t.place == 0);
    t = prep_read_template(LENT(link));
    CHECK(t.number == 0 && t.kinds == 1 && t.shapes == 1);
    link[3] = 321;
    t = prep_read_template(LENT(link));
    CHECK(t.number == PREP_TEMPLATE_NO_KIND && t.place == 3);
    link[3] = 383;
    t = prep_read_template(LENT(link));
    CHECK(t.number == PREP_TEMPLATE_NO_KIND && t.place == 3);
    link[0] = PREP_MAX_KINDS;
    t = prep_read_template(LENT(link));
    CHECK(t.number == 0 && t.kinds == PREP_MAX_KINDS && t.shapes == 1);
    link[3] = 384;
    t = prep_read_template(LENT(link));
    CHECK(t.number == PREP_TEMPLATE_CODE && t.place == 3);
    t = prep_read_template(LENT(two_links));
    CHECK(t.number == 0 && t.kinds == 1 && t.shapes == 1);
    two_links[5] = 320;
    t = prep_read_template(LENT(two_links));
    CHECK(t.number == PREP_TEMPLATE_KIND_TWICE && t.place == 9);
    two_links[5] = two_links[9] = 256;
    t = prep_read_template(LENT(two_links));
    CHECK(t.number == PREP_TEMPLATE_KIND_TWICE && t.place == 9);
}

/* Whether a template is refused by this number at this place; number 0 is for one that is read. */
static int template_refused(const uint16_t *words, size_t length, uint16_t number, size_t place)
{
    struct prep_template_answer t = prep_read_template(words, length);
    return t.number == number && t.place == place;
}

/* 18 as the first word of a shape, as another code, and as a count. */
static void check_open_codes(void)
{
    static const uint16_t any_card[] = {1, 1, 2, 18, 0};
    static const uint16_t alone[] = {1, 1, 1, 18};
    static const uint16_t twice[] = {1, 1, 3, 18, 18, 0};
    static const uint16_t inside[] = {1, 1, 5, 17, 2, 0, 18, 0};
    static const uint16_t count[] = {1, 1, 4, 17, 18, 0, 0};
    static const uint16_t left_over[] = {1, 1, 6, 18, 256, 0, 1, 1, 0};
    static const uint16_t code_19[] = {1, 1, 1, 19};
    CHECK(template_refused(LENT(any_card), PREP_NOT_REFUSED, 0));
    CHECK(template_refused(LENT(tolerant_template), PREP_NOT_REFUSED, 0));
    CHECK(template_refused(LENT(alone), PREP_TEMPLATE_MISSING, 4));
    CHECK(template_refused(LENT(twice), PREP_TEMPLATE_OPEN, 4));
    CHECK(template_refused(LENT(inside), PREP_TEMPLATE_OPEN, 6));
    CHECK(template_refused(LENT(count), PREP_TEMPLATE_GROUP_COUNT, 4));
    CHECK(template_refused(LENT(left_over), PREP_TEMPLATE_LEFT_OVER, 8));
    CHECK(template_refused(LENT(code_19), PREP_TEMPLATE_CODE, 3));
}

/* Every number of an answer to prep_fit_counts. */
static int fitted(struct prep_fit_answer f, uint16_t number, uint16_t fits, size_t place)
{
    return f.number == number && f.fits == fits && f.place == place;
}

static void check_counts(void)
{
    static const uint16_t fitting[] = {1, 1, 0, 0};
    static const uint16_t unfitting[] = {2, 1, 0, 0};
    static const uint16_t arriving[] = {1, 1, 8192, 8192};
    static const uint16_t over[] = {1, 8193, 0, 8193};
    static const uint16_t over_arriving[] = {1, 1, 0, 8193};
    static const uint16_t five[] = {1, 1, 0, 8193, 0};
    CHECK(fitted(prep_fit_counts(LENT(sheet_template), 0, LENT(fitting)), 0, 1, 0));
    CHECK(fitted(prep_fit_counts(LENT(sheet_template), 0, LENT(unfitting)), 0, 0, 0));
    CHECK(fitted(prep_fit_counts(LENT(sheet_template), 0, LENT(arriving)), 0, 1, 0));
    CHECK(fitted(prep_fit_counts(LENT(sheet_template), 2, NULL, 0), PREP_COUNTS_NO_SHAPE, 0, 0));
    CHECK(fitted(prep_fit_counts(LENT(sheet_template), 0, NULL, 0), PREP_COUNTS_SIZE, 0, 0));
    CHECK(fitted(prep_fit_counts(LENT(sheet_template), 0, over, 2), PREP_COUNTS_SIZE, 0, 0));
    CHECK(fitted(prep_fit_counts(LENT(sheet_template), 0, over, 3), PREP_COUNTS_SIZE, 0, 0));
    CHECK(fitted(prep_fit_counts(LENT(sheet_template), 0, LENT(five)), PREP_COUNTS_SIZE, 0, 0));
    CHECK(fitted(prep_fit_counts(LENT(sheet_template), 0, LENT(over)), PREP_COUNTS_TOO_BIG, 0, 1));
    CHECK(fitted(prep_fit_counts(LENT(sheet_template), 0, LENT(over_arriving)), PREP_COUNTS_TOO_BIG, 0, 3));
    CHECK(fitted(prep_fit_counts(NULL, 0, 0, LENT(fitting)), PREP_TEMPLATE_SIZE, 0, 0));
}

/* Items and guests of FORMAT.md: outgoing kinds that are not named count 0, incoming ones are ignored. */
static void check_guest_counts(void)
{
    static const uint16_t pointed_at[] = {0, 1};
    static const uint16_t nobody[] = {0, 0};
    static const uint16_t both_ways[] = {1, 1};
    static const uint16_t ignored[] = {1, 7};
    static const uint16_t over[] = {1, 8193};
    CHECK(fitted(prep_fit_counts(LENT(guests_template), 1, LENT(pointed_at)), 0, 1, 0));
    CHECK(fitted(prep_fit_counts(LENT(guests_template), 1, LENT(nobody)), 0, 0, 0));
    CHECK(fitted(prep_fit_counts(LENT(guests_template), 1, LENT(both_ways)), 0, 0, 0));
    CHECK(fitted(prep_fit_counts(LENT(guests_template), 0, LENT(ignored)), 0, 1, 0));
    CHECK(fitted(prep_fit_counts(LENT(guests_template), 0, ignored, 1), PREP_COUNTS_SIZE, 0, 0));
    CHECK(fitted(prep_fit_counts(LENT(guests_template), 0, LENT(over)), PREP_COUNTS_TOO_BIG, 0, 1));
}

/* An open shape ignores outgoing kinds that it does not name, whatever they count. */
static void check_open_counts(void)
{
    static const uint16_t seven_more[] = {1, 7, 0, 0};
    static const uint16_t two_named[] = {2, 7, 0, 0};
    static const uint16_t most[] = {1, PREP_MAX_COUNT, PREP_MAX_COUNT, PREP_MAX_COUNT};
    static const uint16_t over[] = {1, PREP_MAX_COUNT + 1, 0, 0};
    CHECK(fitted(prep_fit_counts(LENT(tolerant_template), 0, LENT(seven_more)), 0, 1, 0));
    CHECK(fitted(prep_fit_counts(LENT(tolerant_template), 0, LENT(two_named)), 0, 0, 0));
    CHECK(fitted(prep_fit_counts(LENT(tolerant_template), 1, LENT(seven_more)), 0, 0, 0));
    CHECK(fitted(prep_fit_counts(LENT(tolerant_template), 0, LENT(most)), 0, 1, 0));
    CHECK(fitted(prep_fit_counts(LENT(tolerant_template), 0, LENT(over)), PREP_COUNTS_TOO_BIG, 0, 1));
}

/* As many counts as there may be, for a shape that names the last kind as incoming. */
static void check_most_counts(void)
{
    static const uint16_t last_kind[] = {64, 1, 4, 383, 0, 1, 8192};
    uint16_t counts[PREP_MAX_COUNTS + 1];
    memset(counts, 0, sizeof counts);
    CHECK(fitted(prep_fit_counts(LENT(last_kind), 0, counts, PREP_MAX_COUNTS), 0, 0, 0));
    counts[PREP_MAX_COUNTS - 1] = PREP_MAX_COUNT;
    CHECK(fitted(prep_fit_counts(LENT(last_kind), 0, counts, PREP_MAX_COUNTS), 0, 1, 0));
    CHECK(fitted(prep_fit_counts(LENT(last_kind), 0, counts, PREP_MAX_KINDS), PREP_COUNTS_SIZE, 0, 0));
    CHECK(fitted(prep_fit_counts(LENT(last_kind), 0, counts, PREP_MAX_COUNTS - 1), PREP_COUNTS_SIZE, 0, 0));
    CHECK(fitted(prep_fit_counts(LENT(last_kind), 0, counts, PREP_MAX_COUNTS + 1), PREP_COUNTS_SIZE, 0, 0));
    counts[PREP_MAX_COUNTS - 1] = PREP_MAX_COUNT + 1;
    CHECK(fitted(prep_fit_counts(LENT(last_kind), 0, counts, PREP_MAX_COUNTS), PREP_COUNTS_TOO_BIG, 0, 127));
    counts[PREP_MAX_KINDS - 1] = 65535;
    CHECK(fitted(prep_fit_counts(LENT(last_kind), 0, counts, PREP_MAX_COUNTS), PREP_COUNTS_TOO_BIG, 0, 63));
}

static void check_links(void)
{
    static const uint16_t card_0[] = {0, 0, 2, 0, 1, 1, 7};
    static const uint16_t two_words[] = {0, 0, 7};
    uint16_t links[7] = {7, 7, 7, 7, 7, 7, 7};
    uint16_t few[3] = {7, 7, 7};
    CHECK(prep_links_of_card(LENT(sheet_template), LENT(sheet_script), 0, links, 7) == 6);
    CHECK(memcmp(links, card_0, sizeof links) == 0);
    CHECK(prep_links_of_card(LENT(sheet_template), LENT(sheet_script), 0, few, 2) == 6);
    CHECK(memcmp(few, two_words, sizeof few) == 0);
    CHECK(prep_links_of_card(LENT(sheet_template), LENT(sheet_script), 0, NULL, 0) == 6);
    /* A link arrives at card 2, and none starts there. */
    CHECK(prep_links_of_card(LENT(sheet_template), LENT(sheet_script), 2, links, 7) == 0);
    CHECK(prep_links_of_card(LENT(sheet_template), LENT(sheet_script), 9, links, 7) == 0);
    CHECK(prep_links_of_card(NULL, 0, NULL, 0, 0, NULL, 0) == 0);
    CHECK(memcmp(links, card_0, sizeof links) == 0);
}

static void check_largest(void)
{
    uint8_t grid[6];
    struct prep_largest_answer l;
    memset(grid, 9, sizeof grid);
    l = prep_largest(LENT(sheet_template), LENT(sheet_script), grid, 5);
    CHECK(l.number == PREP_GRID_SIZE && l.place == 0 && l.rounds == 0 && all_are(LENT(grid), 9));
    l = prep_largest(LENT(sheet_template), LENT(sheet_script), LENT(grid));
    CHECK(l.number == 0 && l.rounds == 4 && l.struck == 5 && l.bare == 2);
    CHECK(memcmp(grid, sheet_grid, 6) == 0);
    l = prep_largest(LENT(sheet_template), LENT(no_cards), NULL, 0);
    CHECK(l.number == 0 && l.rounds == 1 && l.struck == 0 && l.bare == 0);
}

static void check_smallest(void)
{
    uint8_t grid[6];
    struct prep_smallest_answer s;
    memset(grid, 9, sizeof grid);
    s = prep_smallest(LENT(sheet_template), LENT(sheet_script), NULL, 0, RADIO, LENT(grid));
    CHECK(s.number == PREP_BOOKINGS_SIZE && s.place == 0 && all_are(LENT(grid), 9));
    s = prep_smallest(LENT(sheet_template), LENT(sheet_script), LENT(unmet_bookings), RADIO, LENT(grid));
    CHECK(s.number == PREP_NOT_MET && s.card == 0 && s.shape == 1 && s.place == 0 && s.pairs == 0);
    CHECK(all_are(LENT(grid), 0));
    s = prep_smallest(LENT(sheet_template), LENT(sheet_script), LENT(sheet_bookings), RADIO, LENT(grid));
    CHECK(s.number == 0 && s.pairs == 1 && memcmp(grid, sheet_grid, 6) == 0);
    s = prep_smallest(LENT(sheet_template), LENT(no_cards), LENT(no_bookings), RADIO, NULL, 0);
    CHECK(s.number == 0 && s.pairs == 0);
}

/* Both typings of the sheet with a booking list, for a desk. */
#define BOTH(bookings, desk, small, large) \
    prep_both_typings(LENT(sheet_template), LENT(sheet_script), LENT(bookings), (desk), LENT(small), LENT(large))

static void check_both(void)
{
    uint8_t grid[6];
    uint8_t other[6];
    struct prep_both_answer b;
    memset(grid, 9, sizeof grid);
    memset(other, 9, sizeof other);
    b = prep_both_typings(LENT(sheet_template), LENT(sheet_script), LENT(sheet_bookings), RADIO, grid, 6, other, 5);
    CHECK(b.number == PREP_GRID_SIZE && b.place == 0 && all_are(LENT(grid), 9) && all_are(LENT(other), 9));
    b = BOTH(unmet_bookings, RADIO, grid, other);
    CHECK(b.number == PREP_NOT_MET && b.card == 0 && b.shape == 1);
    CHECK(b.rounds == 4 && b.struck == 5 && b.bare == 2 && b.pairs == 0);
    CHECK(all_are(LENT(grid), 0) && memcmp(other, sheet_grid, 6) == 0);
    b = prep_both_typings(LENT(sheet_template), LENT(no_cards), LENT(no_bookings), RADIO, NULL, 0, NULL, 0);
    CHECK(b.number == 0 && b.rounds == 1 && b.pairs == 0);
}

/* A booking reaches along a link and against it, and a guest that nobody points at is none. */
static void check_guests(void)
{
    static const uint16_t one_guest[] = {2, 1, 0, 0, 1};
    static const uint16_t lonely_guest[] = {3, 1, 0, 0, 1};
    static const uint16_t guest_booked[] = {1, TELEVISION, 1, 1};
    static const uint16_t lonely_booked[] = {1, RADIO, 2, 1};
    static const uint8_t item_and_guest[] = {1, 0, 0, 1, 0, 0};
    static const uint8_t guest_alone[] = {0, 0, 0, 1};
    uint8_t small[6], large[6];
    struct prep_largest_answer l = prep_largest(LENT(guests_template), LENT(one_guest), large, 4);
    struct prep_smallest_answer s;
    struct prep_both_answer b;
    struct prep_judge_answer j;
    CHECK(l.number == 0 && l.rounds == 2 && l.struck == 2 && l.bare == 0);
    CHECK(memcmp(large, item_and_guest, 4) == 0);
    s = prep_smallest(LENT(guests_template), LENT(one_guest), LENT(guest_booked), TELEVISION, small, 4);
    CHECK(s.number == 0 && s.pairs == 2 && memcmp(small, item_and_guest, 4) == 0);
    j = prep_judge(LENT(guests_template), LENT(one_guest), LENT(guest_booked), TELEVISION, small, 4);
    CHECK(j.number == PREP_NOT_REFUSED);
    j = prep_judge(LENT(guests_template), LENT(one_guest), LENT(guest_booked), TELEVISION, LENT(guest_alone));
    CHECK(j.number == PREP_GRID_NOT_MET && j.card == 1 && j.shape == 1);

    memset(small, 9, sizeof small);
    s = prep_smallest(LENT(guests_template), LENT(lonely_guest), LENT(lonely_booked), RADIO, LENT(small));
    CHECK(s.number == PREP_NOT_MET && s.card == 2 && s.shape == 1 && s.pairs == 0 && all_are(LENT(small), 0));
    b = prep_both_typings(LENT(guests_template), LENT(lonely_guest), LENT(lonely_booked), RADIO, LENT(small),
                          LENT(large));
    CHECK(b.number == PREP_NOT_MET && b.card == 2 && b.shape == 1);
    CHECK(b.rounds == 2 && b.struck == 4 && b.bare == 0 && memcmp(large, item_and_guest, 6) == 0);
}

/* Card 0 has a link that its open shape ignores: the target need not have a shape, and the link is still there. */
static void check_open(void)
{
    static const uint16_t one_more[] = {3, 2, 0, 0, 1, 0, 1, 2};
    static const uint16_t first_booked[] = {1, RADIO, 0, 0};
    static const uint8_t all_kept[] = {1, 0, 0, 1, 0, 1};
    static const uint8_t needed[] = {1, 0, 0, 1, 0, 0};
    uint8_t small[6], large[6];
    struct prep_both_answer b;
    struct prep_judge_answer j;
    b = prep_both_typings(LENT(tolerant_template), LENT(one_more), LENT(first_booked), RADIO, LENT(small),
                          LENT(large));
    CHECK(b.number == 0 && b.rounds == 2 && b.struck == 3 && b.bare == 0 && b.pairs == 2);
    CHECK(memcmp(large, all_kept, 6) == 0 && memcmp(small, needed, 6) == 0);
    j = prep_judge(LENT(tolerant_template), LENT(one_more), LENT(first_booked), RADIO, LENT(needed));
    CHECK(j.number == PREP_NOT_REFUSED);
    CHECK(prep_links_of_card(LENT(tolerant_template), LENT(one_more), 0, NULL, 0) == 6);
}

/* A link from a card to itself counts both ways. */
static void check_self_link(void)
{
    static const uint16_t both_ways[] = {1, 1, 10, 17, 2, 256, 0, 1, 1, 320, 0, 1, 1};
    static const uint16_t to_itself[] = {1, 1, 0, 0, 0};
    uint8_t grid[1] = {9};
    struct prep_largest_answer l = prep_largest(LENT(both_ways), LENT(to_itself), LENT(grid));
    CHECK(l.number == 0 && l.rounds == 1 && l.struck == 0 && l.bare == 0 && grid[0] == 1);
}

/* Every number of an answer to prep_judge. */
static int judged(struct prep_judge_answer j, uint16_t number, uint16_t card, uint16_t shape, size_t place)
{
    return j.number == number && j.card == card && j.shape == shape && j.place == place;
}

/* A grid of the sheet that is judged with a booking list, for a desk. */
#define JUDGE(bookings, desk, grid) \
    prep_judge(LENT(sheet_template), LENT(sheet_script), LENT(bookings), (desk), LENT(grid))

static void check_judge(void)
{
    static const uint16_t second_unmet[] = {2, RADIO, 2, 1, RADIO, 0, 0};
    static const uint8_t empty_grid[] = {0, 0, 0, 0, 0, 0};
    static const uint8_t unmet_pairs[] = {0, 0, 1, 1, 0, 1};
    static const uint8_t last_over[] = {0, 1, 0, 0, 0, 2};
    CHECK(judged(JUDGE(sheet_bookings, RADIO, sheet_grid), PREP_NOT_REFUSED, 0, 0, 0));
    CHECK(judged(JUDGE(no_bookings, RADIO, empty_grid), PREP_NOT_REFUSED, 0, 0, 0));
    CHECK(judged(JUDGE(unmet_bookings, RADIO, last_over), PREP_GRID_BYTE, 0, 0, 5));
    CHECK(judged(JUDGE(unmet_bookings, RADIO, unmet_pairs), PREP_GRID_NOT_MET, 1, 0, 0));
    CHECK(judged(JUDGE(unmet_bookings, RADIO, sheet_grid), PREP_GRID_NOT_HELD, 0, 0, 2));
    CHECK(judged(JUDGE(second_unmet, RADIO, sheet_grid), PREP_GRID_NOT_HELD, 0, 0, 5));
}

/* What is refused before a grid is looked at. */
static void check_judge_refuses(void)
{
    static const uint16_t no_such_card[] = {1, RADIO, 3, 0};
    static const uint8_t one_short[] = {2, 2, 2, 2, 2};
    struct prep_judge_answer j = prep_judge(LENT(code_4), LENT(to_card_2), NULL, 0, RADIO, LENT(one_short));
    CHECK(judged(j, PREP_TEMPLATE_CODE, 0, 0, 3));
    j = prep_judge(LENT(sheet_template), LENT(to_card_2), NULL, 0, RADIO, LENT(one_short));
    CHECK(judged(j, PREP_SCRIPT_NO_CARD, 0, 0, 4));
    j = prep_judge(LENT(sheet_template), LENT(sheet_script), NULL, 0, RADIO, LENT(one_short));
    CHECK(judged(j, PREP_BOOKINGS_SIZE, 0, 0, 0));
    CHECK(judged(JUDGE(no_such_card, RADIO, one_short), PREP_BOOKINGS_NO_CARD, 0, 0, 2));
    CHECK(judged(JUDGE(sheet_bookings, RADIO, one_short), PREP_GRID_SIZE, 0, 0, 0));
    j = prep_judge(LENT(sheet_template), LENT(sheet_script), LENT(sheet_bookings), RADIO, NULL, 0);
    CHECK(judged(j, PREP_GRID_SIZE, 0, 0, 0));
    j = prep_judge(NULL, 0, NULL, 0, NULL, 0, NO_DESK, NULL, 0);
    CHECK(judged(j, PREP_TEMPLATE_SIZE, 0, 0, 0));
}

/* A judged grid stays as it was, may overlap what is only read, and may be empty; our own typings are accepted. */
static void check_judge_reads(void)
{
    static const uint16_t first_booked[] = {1, RADIO, 0, 0};
    uint8_t grid[6], small[2] = {9, 9}, large[2] = {9, 9};
    struct prep_judge_answer j;
    memcpy(grid, sheet_grid, sizeof grid);
    CHECK(JUDGE(sheet_bookings, RADIO, grid).number == PREP_NOT_REFUSED && memcmp(grid, sheet_grid, 6) == 0);
    memset(grid, 1, sizeof grid);
    CHECK(JUDGE(sheet_bookings, RADIO, grid).number == PREP_GRID_NOT_MET && all_are(LENT(grid), 1));
    memset(grid, 9, sizeof grid);
    CHECK(JUDGE(sheet_bookings, RADIO, grid).number == PREP_GRID_BYTE && all_are(LENT(grid), 9));
    memset(grid, 0, sizeof grid);
    CHECK(JUDGE(sheet_bookings, RADIO, grid).number == PREP_GRID_NOT_HELD && all_are(LENT(grid), 0));
    j = prep_judge(LENT(small_template), LENT(two_cards), LENT(no_bookings), RADIO, (const uint8_t *)no_bookings, 2);
    CHECK(judged(j, PREP_NOT_REFUSED, 0, 0, 0));
    j = prep_judge(LENT(sheet_template), LENT(no_cards), LENT(no_bookings), RADIO, NULL, 0);
    CHECK(judged(j, PREP_NOT_REFUSED, 0, 0, 0));

    prep_both_typings(LENT(small_template), LENT(two_cards), LENT(first_booked), RADIO, LENT(small), LENT(large));
    CHECK(small[0] == 1 && small[1] == 0 && all_are(LENT(large), 1));
    j = prep_judge(LENT(small_template), LENT(two_cards), LENT(first_booked), RADIO, LENT(small));
    CHECK(judged(j, PREP_NOT_REFUSED, 0, 0, 0));
    j = prep_judge(LENT(small_template), LENT(two_cards), LENT(first_booked), RADIO, LENT(large));
    CHECK(judged(j, PREP_NOT_REFUSED, 0, 0, 0));
}

/* Whether every call for a desk refuses a list of the sheet so, and leaves the grids as they were. */
static int refused_for(uint16_t desk, const uint16_t *words, size_t length, uint16_t number, size_t place)
{
    uint8_t small[6], large[6];
    struct prep_smallest_answer s;
    struct prep_both_answer b;
    struct prep_judge_answer j;
    memset(small, 9, sizeof small);
    memset(large, 9, sizeof large);
    s = prep_smallest(LENT(sheet_template), LENT(sheet_script), words, length, desk, LENT(small));
    b = prep_both_typings(LENT(sheet_template), LENT(sheet_script), words, length, desk, LENT(small), LENT(large));
    j = prep_judge(LENT(sheet_template), LENT(sheet_script), words, length, desk, LENT(large));
    return s.number == number && s.place == place && s.card == 0 && s.shape == 0 && s.pairs == 0 &&
           b.number == number && b.place == place && b.card == 0 && b.shape == 0 && b.rounds == 0 && b.pairs == 0 &&
           judged(j, number, 0, 0, place) && all_are(LENT(small), 9) && all_are(LENT(large), 9);
}

/* The same for either desk and for a desk that there is not: the list is read before that is looked at. */
static int bookings_refused(const uint16_t *words, size_t length, uint16_t number, size_t place)
{
    return refused_for(RADIO, words, length, number, place) && refused_for(TELEVISION, words, length, number, place) &&
           refused_for(NO_DESK, words, length, number, place);
}

/* A booking's desk is tested before its card, its card before its shape, and a list has three words a booking. */
static void check_bookings(void)
{
    static const uint16_t over[] = {1025, 2, 9, 9};
    static const uint16_t two_words[] = {1, 2, 1};
    static const uint16_t four_words[] = {1, 2, 9, 9, 9};
    static const uint16_t no_such_desk[] = {1, 2, 9, 9};
    static const uint16_t later_desk[] = {2, 1, 2, 1, 65535, 9, 9};
    static const uint16_t no_such_card[] = {1, 0, 3, 1};
    static const uint16_t no_such_shape[] = {2, 1, 2, 2, 2, 9, 9};
    CHECK(bookings_refused(NULL, 0, PREP_BOOKINGS_SIZE, 0));
    CHECK(bookings_refused(LENT(over), PREP_BOOKINGS_COUNT, 0));
    CHECK(bookings_refused(LENT(two_words), PREP_BOOKINGS_SIZE, 0));
    CHECK(bookings_refused(LENT(four_words), PREP_BOOKINGS_SIZE, 0));
    CHECK(bookings_refused(LENT(no_such_desk), PREP_BOOKINGS_DESK, 1));
    CHECK(bookings_refused(LENT(later_desk), PREP_BOOKINGS_DESK, 4));
    CHECK(bookings_refused(LENT(no_such_card), PREP_BOOKINGS_NO_CARD, 2));
    CHECK(bookings_refused(LENT(no_such_shape), PREP_BOOKINGS_NO_SHAPE, 3));
}

/* A pair is refused where a desk books it again: after the other faults of its booking, before those of the next. */
static void check_repeats(void)
{
    static const uint16_t twice[] = {2, 0, 2, 1, 0, 2, 1};
    static const uint16_t apart[] = {3, 1, 2, 1, 1, 0, 0, 1, 2, 1};
    static const uint16_t by_both_between[] = {3, 0, 2, 1, 1, 2, 1, 0, 2, 1};
    static const uint16_t before_no_desk[] = {3, 0, 2, 1, 0, 2, 1, 9, 9, 9};
    static const uint16_t after_no_card[] = {3, 0, 9, 9, 0, 2, 1, 0, 2, 1};
    static const uint16_t no_shape[] = {2, 0, 2, 1, 0, 2, 2};
    static const uint16_t two_repeats[] = {4, 0, 2, 1, 0, 0, 0, 0, 0, 0, 0, 2, 1};
    static const uint16_t too_long[] = {2, 0, 2, 1, 0, 2, 1, 0};
    static const uint16_t two_shapes[] = {2, 0, 0, 0, 0, 0, 1};
    uint8_t grid[6];
    struct prep_smallest_answer s;
    CHECK(bookings_refused(LENT(twice), PREP_BOOKINGS_TWICE, 5));
    CHECK(bookings_refused(LENT(apart), PREP_BOOKINGS_TWICE, 8));
    CHECK(bookings_refused(LENT(by_both_between), PREP_BOOKINGS_TWICE, 8));
    CHECK(bookings_refused(LENT(before_no_desk), PREP_BOOKINGS_TWICE, 5));
    CHECK(bookings_refused(LENT(after_no_card), PREP_BOOKINGS_NO_CARD, 2));
    CHECK(bookings_refused(LENT(no_shape), PREP_BOOKINGS_NO_SHAPE, 6));
    CHECK(bookings_refused(LENT(two_repeats), PREP_BOOKINGS_TWICE, 8));
    CHECK(bookings_refused(LENT(too_long), PREP_BOOKINGS_SIZE, 0));
    s = prep_smallest(LENT(sheet_template), LENT(sheet_script), LENT(two_shapes), RADIO, LENT(grid));
    CHECK(s.number == PREP_NOT_MET && s.card == 0 && s.shape == 1);
    /* A repeat comes before a grid of the wrong size. */
    s = prep_smallest(LENT(sheet_template), LENT(sheet_script), LENT(twice), RADIO, NULL, 0);
    CHECK(s.number == PREP_BOOKINGS_TWICE && s.place == 5);
}

/* Whether a desk's smallest typing of the sheet has these pairs and this grid, alone and with the largest. */
static int small_for(uint16_t desk, const uint16_t *words, size_t length, size_t pairs, const uint8_t *grid)
{
    uint8_t alone[6], small[6], large[6];
    struct prep_smallest_answer s;
    struct prep_both_answer b;
    memset(alone, 9, sizeof alone);
    memset(small, 9, sizeof small);
    s = prep_smallest(LENT(sheet_template), LENT(sheet_script), words, length, desk, LENT(alone));
    b = prep_both_typings(LENT(sheet_template), LENT(sheet_script), words, length, desk, LENT(small), LENT(large));
    return s.number == 0 && s.pairs == pairs && b.number == 0 && b.pairs == pairs && b.rounds == 4 &&
           memcmp(alone, grid, 6) == 0 && memcmp(small, grid, 6) == 0 && memcmp(large, sheet_grid, 6) == 0;
}

/* What one desk books changes nothing for the other, which may book the same pair. */
static void check_desks(void)
{
    static const uint16_t by_both[] = {2, RADIO, 2, 1, TELEVISION, 2, 1};
    static const uint16_t other_unmet[] = {2, TELEVISION, 0, 0, RADIO, 2, 1};
    static const uint16_t both_unmet[] = {2, RADIO, 0, 0, TELEVISION, 0, 0};
    static const uint8_t empty_grid[] = {0, 0, 0, 0, 0, 0};
    uint8_t small[6], large[6];
    uint16_t desk;
    CHECK(small_for(RADIO, LENT(sheet_bookings), 1, sheet_grid));
    CHECK(small_for(TELEVISION, LENT(sheet_bookings), 0, empty_grid));
    CHECK(small_for(TELEVISION, LENT(unmet_bookings), 0, empty_grid));
    CHECK(small_for(RADIO, LENT(by_both), 1, sheet_grid) && small_for(TELEVISION, LENT(by_both), 1, sheet_grid));
    CHECK(small_for(RADIO, LENT(other_unmet), 1, sheet_grid));
    CHECK(BOTH(other_unmet, TELEVISION, small, large).number == PREP_NOT_MET && all_are(LENT(small), 0));
    for (desk = RADIO; desk <= TELEVISION; desk++) {
        struct prep_both_answer b = BOTH(both_unmet, desk, small, large);
        CHECK(b.number == PREP_NOT_MET && b.card == 0 && b.shape == 1 && memcmp(large, sheet_grid, 6) == 0);
    }
    /* Of the judged grid each desk's own bookings are asked, and 63 has its place in the whole list. */
    CHECK(judged(JUDGE(other_unmet, RADIO, sheet_grid), PREP_NOT_REFUSED, 0, 0, 0));
    CHECK(judged(JUDGE(other_unmet, TELEVISION, sheet_grid), PREP_GRID_NOT_HELD, 0, 0, 2));
    CHECK(judged(JUDGE(other_unmet, RADIO, empty_grid), PREP_GRID_NOT_HELD, 0, 0, 5));
    CHECK(judged(JUDGE(by_both, TELEVISION, empty_grid), PREP_GRID_NOT_HELD, 0, 0, 5));
    CHECK(judged(JUDGE(sheet_bookings, TELEVISION, empty_grid), PREP_NOT_REFUSED, 0, 0, 0));
}

/* The desk of a call is tested after the list and before the grid. */
static void check_no_desk(void)
{
    static const uint8_t last_over[] = {0, 0, 0, 0, 2};
    uint8_t grid[6];
    struct prep_smallest_answer s;
    memset(grid, 9, sizeof grid);
    CHECK(refused_for(NO_DESK, LENT(sheet_bookings), PREP_BOOKINGS_DESK, 0));
    CHECK(refused_for(65535, LENT(no_bookings), PREP_BOOKINGS_DESK, 0));
    s = prep_smallest(LENT(sheet_template), LENT(sheet_script), LENT(sheet_bookings), NO_DESK, grid, 5);
    CHECK(s.number == PREP_BOOKINGS_DESK && s.place == 0 && all_are(LENT(grid), 9));
    CHECK(judged(JUDGE(sheet_bookings, NO_DESK, last_over), PREP_BOOKINGS_DESK, 0, 0, 0));
    s = prep_smallest(LENT(sheet_template), LENT(sheet_script), LENT(sheet_bookings), TELEVISION, grid, 5);
    CHECK(s.number == PREP_GRID_SIZE && s.place == 0 && all_are(LENT(grid), 9));
    s = prep_smallest(LENT(sheet_template), LENT(sheet_script), LENT(sheet_bookings), TELEVISION, LENT(grid));
    CHECK(s.number == PREP_NOT_REFUSED && s.pairs == 0 && all_are(LENT(grid), 0));
}

/* Every number of an answer to prep_tidy_bookings. */
static int tidied(struct prep_written_answer t, uint16_t number, size_t place, size_t words)
{
    return t.number == number && t.place == place && t.written == words;
}

/* A stored list of the sheet that is tidied. */
#define TIDY(stored, out, length) \
    prep_tidy_bookings(LENT(sheet_template), LENT(sheet_script), LENT(stored), (out), (length))

/* What an array holds before a list is tidied into it. */
static const uint16_t sevens[] = {7, 7, 7, 7, 7, 7, 7, 7, 7, 7, 7, 7, 7};

static void check_tidy(void)
{
    static const uint16_t apart[] = {3, 2, 1, 0, 0, 2, 1};
    static const uint16_t apart_tidied[] = {2, 0, 2, 1, 0, 0, 0, 7, 7, 7, 7, 7, 7};
    static const uint16_t alike[] = {4, 2, 1, 2, 1, 2, 1, 2, 1};
    static const uint16_t alike_tidied[] = {1, 0, 2, 1, 7, 7, 7, 7, 7, 7, 7, 7, 7};
    static const uint16_t different[] = {4, 2, 1, 0, 0, 0, 1, 2, 0};
    static const uint16_t different_tidied[] = {4, 0, 2, 1, 0, 0, 0, 0, 0, 1, 0, 2, 0};
    uint16_t out[13];
    uint8_t small[6];
    struct prep_smallest_answer s;
    memcpy(out, sevens, sizeof out);
    CHECK(tidied(TIDY(apart, out, 10), PREP_NOT_REFUSED, 0, 7) && memcmp(out, apart_tidied, sizeof out) == 0);
    s = prep_smallest(LENT(sheet_template), LENT(sheet_script), out, 7, RADIO, LENT(small));
    CHECK(s.number == PREP_NOT_MET && s.card == 0 && s.shape == 1);
    s = prep_smallest(LENT(sheet_template), LENT(sheet_script), out, 7, TELEVISION, LENT(small));
    CHECK(s.number == PREP_NOT_REFUSED && s.pairs == 0 && all_are(LENT(small), 0));
    memcpy(out, sevens, sizeof out);
    CHECK(tidied(TIDY(alike, out, 13), PREP_NOT_REFUSED, 0, 4) && memcmp(out, alike_tidied, sizeof out) == 0);
    CHECK(small_for(RADIO, out, 4, 1, sheet_grid));
    CHECK(tidied(TIDY(different, out, 13), PREP_NOT_REFUSED, 0, 13) && memcmp(out, different_tidied, sizeof out) == 0);
    memcpy(out, sevens, sizeof out);
    CHECK(tidied(TIDY(no_bookings, out, 1), PREP_NOT_REFUSED, 0, 1));
    CHECK(out[0] == 0 && memcmp(out + 1, sevens, 12 * sizeof out[0]) == 0);
}

/* The order of the refusals; none of them writes. */
static void check_tidy_refuses(void)
{
    static const uint16_t apart[] = {3, 2, 1, 0, 0, 2, 1};
    static const uint16_t over[] = {1025, 9};
    static const uint16_t with_desk[] = {1, 0, 9, 9};
    static const uint16_t no_such_card[] = {3, 2, 1, 2, 1, 3, 9};
    static const uint16_t no_such_shape[] = {1, 2, 2};
    uint16_t out[13];
    struct prep_written_answer t;
    memcpy(out, sevens, sizeof out);
    t = prep_tidy_bookings(LENT(code_4), LENT(to_card_2), LENT(over), LENT(out));
    CHECK(tidied(t, PREP_TEMPLATE_CODE, 3, 0));
    t = prep_tidy_bookings(LENT(sheet_template), LENT(to_card_2), LENT(over), LENT(out));
    CHECK(tidied(t, PREP_SCRIPT_NO_CARD, 4, 0));
    t = prep_tidy_bookings(LENT(sheet_template), LENT(sheet_script), NULL, 0, LENT(out));
    CHECK(tidied(t, PREP_BOOKINGS_SIZE, 0, 0));
    CHECK(tidied(TIDY(over, out, 13), PREP_BOOKINGS_COUNT, 0, 0));
    CHECK(tidied(TIDY(with_desk, out, 13), PREP_BOOKINGS_SIZE, 0, 0));
    CHECK(tidied(TIDY(no_such_card, out, 13), PREP_BOOKINGS_NO_CARD, 5, 0));
    CHECK(tidied(TIDY(no_such_shape, out, 13), PREP_BOOKINGS_NO_SHAPE, 2, 0));
    CHECK(tidied(TIDY(apart, out, 11), PREP_GRID_SIZE, 0, 0));
    CHECK(tidied(TIDY(apart, out, 9), PREP_GRID_SIZE, 0, 0));
    CHECK(tidied(TIDY(apart, out, 7), PREP_GRID_SIZE, 0, 0));
    CHECK(tidied(TIDY(apart, NULL, 0), PREP_GRID_SIZE, 0, 0));
    CHECK(memcmp(out, sevens, sizeof out) == 0);
    CHECK(tidied(prep_tidy_bookings(NULL, 0, NULL, 0, NULL, 0, NULL, 0), PREP_TEMPLATE_SIZE, 0, 0));
}

static const uint16_t all_cards[] = {PREP_MAX_CARDS, 0};

/* As many bookings as there may be: all of one desk, then the last one of the other, then that a repeat. */
static void check_most_bookings(void)
{
    static uint16_t list[PREP_MAX_BOOKING_WORDS];
    static uint8_t grid[PREP_MAX_CARDS];
    struct prep_smallest_answer s;
    size_t i;
    list[0] = PREP_MAX_BOOKINGS;
    for (i = 0; i < PREP_MAX_BOOKINGS; i++) {
        list[2 + 3 * i] = (uint16_t)(PREP_MAX_CARDS - 1 - i);
    }
    s = prep_smallest(LENT(small_template), LENT(all_cards), LENT(list), RADIO, LENT(grid));
    CHECK(s.number == PREP_NOT_REFUSED && s.pairs == PREP_MAX_BOOKINGS);
    list[PREP_MAX_BOOKING_WORDS - 3] = TELEVISION;
    list[PREP_MAX_BOOKING_WORDS - 2] = list[2];
    s = prep_smallest(LENT(small_template), LENT(all_cards), LENT(list), RADIO, LENT(grid));
    CHECK(s.number == PREP_NOT_REFUSED && s.pairs == PREP_MAX_BOOKINGS - 1);
    s = prep_smallest(LENT(small_template), LENT(all_cards), LENT(list), TELEVISION, LENT(grid));
    CHECK(s.number == PREP_NOT_REFUSED && s.pairs == 1 && grid[PREP_MAX_CARDS - 1] == 1);
    list[PREP_MAX_BOOKING_WORDS - 3] = RADIO;
    s = prep_smallest(LENT(small_template), LENT(all_cards), LENT(list), RADIO, LENT(grid));
    CHECK(s.number == PREP_BOOKINGS_TWICE && s.place == PREP_MAX_BOOKING_WORDS - 2);
}

/* As long a stored list as there may be: all different, then the last one a repeat, then all alike. */
static void check_most_stored(void)
{
    static uint16_t list[PREP_MAX_STORED_WORDS], out[PREP_MAX_BOOKING_WORDS];
    static uint8_t grid[PREP_MAX_CARDS];
    struct prep_smallest_answer s;
    struct prep_written_answer t;
    size_t i;
    list[0] = PREP_MAX_BOOKINGS;
    for (i = 0; i < PREP_MAX_BOOKINGS; i++) {
        list[1 + 2 * i] = (uint16_t)(PREP_MAX_CARDS - 1 - i);
    }
    t = prep_tidy_bookings(LENT(small_template), LENT(all_cards), LENT(list), LENT(out));
    CHECK(tidied(t, PREP_NOT_REFUSED, 0, LENGTH(out)) && out[0] == PREP_MAX_BOOKINGS);
    s = prep_smallest(LENT(small_template), LENT(all_cards), LENT(out), RADIO, LENT(grid));
    CHECK(s.number == PREP_NOT_REFUSED && s.pairs == PREP_MAX_BOOKINGS);
    list[PREP_MAX_STORED_WORDS - 2] = list[1];
    t = prep_tidy_bookings(LENT(small_template), LENT(all_cards), LENT(list), LENT(out));
    CHECK(tidied(t, PREP_NOT_REFUSED, 0, LENGTH(out) - 3) && out[0] == PREP_MAX_BOOKINGS - 1);
    for (i = 1; i < LENGTH(list); i++) {
        list[i] = 0;
    }
    t = prep_tidy_bookings(LENT(small_template), LENT(all_cards), LENT(list), LENT(out));
    CHECK(tidied(t, PREP_NOT_REFUSED, 0, 4) && out[0] == 1 && out[1] == RADIO && out[2] == 0 && out[3] == 0);
}

/* Each number of the table has words of its own and says where its place is; no other number has. */
static void check_words(void)
{
    uint16_t number;
    int known = 0;
    const char *unknown = prep_reason(65535);
    for (number = 1; number < 1000; number++) {
        known += strcmp(prep_reason(number), unknown) != 0;
    }
#define PREP_REFUSAL(value, name, file, words)         \
    CHECK(strcmp(prep_reason(PREP_##name), words) == 0); \
    CHECK(prep_file_of(value) == PREP_IN_##file);        \
    known--;
#include "prep_refusals.def"
    CHECK(known == 0);
    CHECK(strcmp(prep_reason(PREP_NOT_REFUSED), "nothing is refused") == 0);
    CHECK(prep_file_of(0) == PREP_IN_NOTHING && prep_file_of(65535) == PREP_IN_NOTHING);
    CHECK(prep_version() == PREP_VERSION);
}

/* Whether a refusal is told for a call as it is without one. */
static int told_alike(int call, uint16_t number, size_t place)
{
    return strcmp(prep_call_reason((enum prep_call)call, number, place), prep_reason(number)) == 0 &&
           prep_call_file((enum prep_call)call, number, place) == prep_file_of(number);
}

/* Each line of the table is told at place 0 of its call; all else is told as without a call. */
static void check_call_words(void)
{
    int call, others = 0;
    uint16_t number;
    for (call = 0; call <= PREP_CALL_TIDY_BOOKINGS + 1; call++) {
        for (number = 0; number < 100; number++) {
            others += !told_alike(call, number, 0);
            CHECK(told_alike(call, number, 1));
        }
    }
#define PREP_CALL_REFUSAL(of, name, file, words)                               \
    CHECK(strcmp(prep_call_reason(PREP_CALL_##of, PREP_##name, 0), words) == 0); \
    CHECK(prep_call_file(PREP_CALL_##of, PREP_##name, 0) == PREP_IN_##file);     \
    others--;
#include "prep_refusals.def"
    CHECK(others == 0);
}

/* The desk of a call is in no file, that of a booking is; a wrong length is told of the array that has it. */
static void check_told(void)
{
    static const uint16_t no_such_desk[] = {1, NO_DESK, 2, 1};
    uint8_t grid[6];
    uint16_t out[4];
    struct prep_smallest_answer s;
    struct prep_both_answer b;
    struct prep_written_answer t;
    s = prep_smallest(LENT(sheet_template), LENT(sheet_script), LENT(sheet_bookings), NO_DESK, LENT(grid));
    CHECK(prep_call_file(PREP_CALL_SMALLEST, s.number, s.place) == PREP_IN_NOTHING);
    s = prep_smallest(LENT(sheet_template), LENT(sheet_script), LENT(no_such_desk), RADIO, LENT(grid));
    CHECK(prep_call_file(PREP_CALL_SMALLEST, s.number, s.place) == PREP_IN_BOOKINGS);
    b = prep_both_typings(LENT(sheet_template), LENT(sheet_script), LENT(sheet_bookings), RADIO, LENT(grid), NULL, 0);
    CHECK(strstr(prep_call_reason(PREP_CALL_BOTH_TYPINGS, b.number, b.place), "smallest or the largest grid") != NULL);
    CHECK(prep_call_file(PREP_CALL_BOTH_TYPINGS, b.number, b.place) == PREP_IN_GRID);
    t = TIDY(no_bookings, out, 2);
    CHECK(strstr(prep_call_reason(PREP_CALL_TIDY_BOOKINGS, t.number, t.place), "grid") == NULL);
    CHECK(prep_call_file(PREP_CALL_TIDY_BOOKINGS, t.number, t.place) == PREP_IN_TIDIED);
}

/* The layout that binary compatibility promises for this major version. */
static void check_layout(void)
{
    CHECK(sizeof(struct prep_template_answer) == 16 && offsetof(struct prep_template_answer, place) == 8);
    CHECK(offsetof(struct prep_template_answer, kinds) == 2 && offsetof(struct prep_template_answer, shapes) == 4);
    CHECK(sizeof(struct prep_fit_answer) == 16 && offsetof(struct prep_fit_answer, place) == 8);
    CHECK(sizeof(struct prep_script_answer) == 16 && offsetof(struct prep_script_answer, place) == 8);
    CHECK(offsetof(struct prep_script_answer, cards) == 2 && offsetof(struct prep_script_answer, links) == 4);
    CHECK(sizeof(struct prep_largest_answer) == 40 && offsetof(struct prep_largest_answer, bare) == 32);
    CHECK(offsetof(struct prep_largest_answer, rounds) == 16 && offsetof(struct prep_largest_answer, struck) == 24);
    CHECK(sizeof(struct prep_smallest_answer) == 24 && offsetof(struct prep_smallest_answer, pairs) == 16);
    CHECK(offsetof(struct prep_smallest_answer, card) == 2 && offsetof(struct prep_smallest_answer, shape) == 4);
    CHECK(sizeof(struct prep_both_answer) == 48 && offsetof(struct prep_both_answer, pairs) == 40);
    CHECK(offsetof(struct prep_both_answer, rounds) == 16 && offsetof(struct prep_both_answer, struck) == 24);
    CHECK(sizeof(struct prep_judge_answer) == 16 && offsetof(struct prep_judge_answer, place) == 8);
    CHECK(offsetof(struct prep_judge_answer, card) == 2 && offsetof(struct prep_judge_answer, shape) == 4);
    CHECK(sizeof(struct prep_written_answer) == 24 && offsetof(struct prep_written_answer, place) == 8);
    CHECK(offsetof(struct prep_written_answer, written) == 16);
    CHECK(sizeof(enum prep_file) == 4 && sizeof(enum prep_call) == 4);
}

int main(void)
{
    check_layout();
    check_readings();
    check_codes();
    check_open_codes();
    check_counts();
    check_guest_counts();
    check_open_counts();
    check_most_counts();
    check_links();
    check_largest();
    check_smallest();
    check_both();
    check_guests();
    check_open();
    check_self_link();
    check_judge();
    check_judge_refuses();
    check_judge_reads();
    check_bookings();
    check_repeats();
    check_desks();
    check_no_desk();
    check_tidy();
    check_tidy_refuses();
    check_most_bookings();
    check_most_stored();
    check_words();
    check_call_words();
    check_told();
    return failures != 0;
}
