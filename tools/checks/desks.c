/*
 * Compares what one desk is answered on two lists that book the same for it, whatever the other desk books. Standard
 * input holds cases of the sheet printer. Sheets 2k and 2k + 1 have the same template and script, and the same
 * bookings of desk k mod 2; for this desk the smallest typing of both must be the same, alone and with the largest.
 * How many pairs of sheets there were goes to standard error.
 */
#include "input.h"
#include "prep.h"

#include <string.h>

/* What a desk is answered on a sheet, and the grids: that of the smallest typing alone, and those of both typings. */
struct typings {
    struct prep_smallest_answer small;
    struct prep_both_answer both;
    size_t size;
    uint8_t alone[PREP_MAX_GRID_BYTES], smallest[PREP_MAX_GRID_BYTES], largest[PREP_MAX_GRID_BYTES];
};

/* The tag of the sheet printer's cases. */
enum { SHEET_TAG = 5 };

/* The sheet of the case whose tag was read. */
static struct files read_sheet(unsigned tag)
{
    struct files sheet;
    struct bytes input;
    REQUIRE(tag == SHEET_TAG);
    input = read_bytes();
    REQUIRE(split(input, &sheet));
    free(input.byte);
    return sheet;
}

static int same_words(struct words first, struct words second)
{
    return first.length == second.length &&
           memcmp(first.word, second.word, first.length * sizeof first.word[0]) == 0;
}

/* Whether each booking of a desk is also in another list. Both lists have three words a booking. */
static int books_no_more(uint16_t desk, struct words list, struct words other)
{
    size_t at, there;
    for (at = 1; at < list.length; at += 3) {
        for (there = 1; there < other.length; there += 3) {
            if (memcmp(list.word + at, other.word + there, 3 * sizeof list.word[0]) == 0) {
                break;
            }
        }
        if (list.word[at] == desk && there >= other.length) {
            return 0;
        }
    }
    return 1;
}

/* Types a sheet for a desk, in grids that hold this byte before. The sheet is not refused but perhaps with 50. */
static void type_sheet(const struct files *sheet, uint16_t desk, int byte, struct typings *found)
{
    struct prep_template_answer t = prep_read_template(LENT(sheet->sheet_template));
    struct prep_script_answer s = prep_read_script(LENT(sheet->sheet_template), LENT(sheet->script));
    size_t size = (size_t)s.cards * t.shapes;
    memset(found->alone, byte, sizeof found->alone);
    memset(found->smallest, byte, sizeof found->smallest);
    memset(found->largest, byte, sizeof found->largest);
    found->size = size;
    found->small = prep_smallest(LENT_FILES(*sheet), desk, found->alone, size);
    found->both = prep_both_typings(LENT_FILES(*sheet), desk, found->smallest, size, found->largest, size);
    REQUIRE(found->both.number == PREP_NOT_REFUSED || found->both.number == PREP_NOT_MET);
}

static void check_same(const struct typings *one, const struct typings *two)
{
    const struct prep_smallest_answer *s = &one->small, *u = &two->small;
    const struct prep_both_answer *b = &one->both, *c = &two->both;
    REQUIRE(s->number == u->number && s->card == u->card && s->shape == u->shape);
    REQUIRE(s->place == u->place && s->pairs == u->pairs);
    REQUIRE(b->number == c->number && b->card == c->card && b->shape == c->shape && b->place == c->place);
    REQUIRE(b->rounds == c->rounds && b->struck == c->struck && b->bare == c->bare && b->pairs == c->pairs);
    REQUIRE(one->size == two->size && memcmp(one->alone, two->alone, one->size) == 0);
    REQUIRE(memcmp(one->smallest, two->smallest, one->size) == 0);
    REQUIRE(memcmp(one->largest, two->largest, one->size) == 0);
}

/* Compares two sheets for a desk. */
static void compare(uint16_t desk, const struct files *first, const struct files *second)
{
    static struct typings one, two;
    REQUIRE(same_words(first->sheet_template, second->sheet_template) && same_words(first->script, second->script));
    type_sheet(first, desk, 0xa5, &one);
    type_sheet(second, desk, 0x5a, &two);
    REQUIRE(books_no_more(desk, first->bookings, second->bookings));
    REQUIRE(books_no_more(desk, second->bookings, first->bookings));
    check_same(&one, &two);
}

int main(void)
{
    size_t count = 0;
    unsigned tag;
    while ((tag = read_tag()) != 0) {
        struct files first = read_sheet(tag);
        struct files second = read_sheet(read_tag());
        compare((uint16_t)(count % 2), &first, &second);
        free_files(&first);
        free_files(&second);
        count++;
    }
    fprintf(stderr, "%zu\n", count);
    return count == 0 || fflush(stdout) != 0;
}
