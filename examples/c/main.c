/*
 * Prints the sheet that FORMAT.md works through, for bookings of the radio desk that are met and for
 * some that are not. The television desk books nothing. Builds as C and as C++.
 */
#include "prep.h"

#include <stdio.h>

static const uint16_t sheet_template[] = {2, 2, 10, 17, 2, 256, 1, 1, 1, 257, 0, 0, 1, 1, 0};
static const uint16_t sheet_script[] = {3, 3, 0, 0, 2, 0, 1, 1, 1, 0, 0};
static const uint16_t met_bookings[] = {1, PREP_DESK_RADIO, 2, 1};
static const uint16_t unmet_bookings[] = {1, PREP_DESK_RADIO, 0, 0};

static uint8_t smallest[PREP_MAX_GRID_BYTES];
static uint8_t largest[PREP_MAX_GRID_BYTES];

#define LENGTH(array) (sizeof(array) / sizeof((array)[0]))

/* A line for each card: its shapes, ascending. */
static void print_cards(const uint8_t *grid, size_t cards, size_t shapes)
{
    size_t card, shape;
    for (card = 0; card < cards; card++) {
        printf("card %zu:", card);
        for (shape = 0; shape < shapes; shape++) {
            if (grid[card * shapes + shape]) {
                printf(" %zu", shape);
            }
        }
        printf("\n");
    }
}

/* A desk's smallest typing, or the pair that is not met. */
static void print_smallest(const struct prep_both_answer *both, size_t cards, size_t shapes)
{
    if (both->number == PREP_NOT_MET) {
        printf("smallest no %u %u\n", (unsigned)both->card, (unsigned)both->shape);
        return;
    }
    printf("smallest %zu\n", both->pairs);
    print_cards(smallest, cards, shapes);
}

/*
 * The largest typing, which is the same for both desks, and the smallest of each; or the refusal.
 * Returns 0 where the sheet is printed.
 */
static int print_sheet(const uint16_t *bookings, size_t bookings_length)
{
    const uint16_t *t = sheet_template, *s = sheet_script;
    struct prep_template_answer counts = prep_read_template(t, LENGTH(sheet_template));
    struct prep_script_answer script = prep_read_script(t, LENGTH(sheet_template), s, LENGTH(sheet_script));
    size_t grid_length = (size_t)script.cards * counts.shapes;
    uint16_t desk;

    for (desk = PREP_DESK_RADIO; desk <= PREP_DESK_TELEVISION; desk++) {
        struct prep_both_answer both =
            prep_both_typings(t, LENGTH(sheet_template), s, LENGTH(sheet_script), bookings, bookings_length, desk,
                              smallest, grid_length, largest, grid_length);
        if (both.number != PREP_NOT_REFUSED && both.number != PREP_NOT_MET) {
            printf("refused %u %zu\n", (unsigned)both.number, both.place);
            fprintf(stderr, "%s\n", prep_call_reason(PREP_CALL_BOTH_TYPINGS, both.number, both.place));
            return 1;
        }
        if (desk == PREP_DESK_RADIO) {
            printf("largest %zu %zu %zu\n", both.rounds, both.struck, both.bare);
            print_cards(largest, script.cards, counts.shapes);
        }
        print_smallest(&both, script.cards, counts.shapes);
    }
    return 0;
}

int main(void)
{
    int refused = print_sheet(met_bookings, LENGTH(met_bookings));
    return print_sheet(unmet_bookings, LENGTH(unmet_bookings)) || refused;
}
