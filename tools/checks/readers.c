/* The cases of reading templates and scripts, of counts and of the links of a card. Numbers that say nothing are 0. */
#include "cases.h"
#include "prep.h"
#include "sections.h"

#include <string.h>

static void print_counts(uint16_t number, size_t place, unsigned first, unsigned second)
{
    if (number == PREP_NOT_REFUSED) {
        REQUIRE(place == 0);
        printf("counts %u %u\n", first, second);
    } else {
        REQUIRE(first == 0 && second == 0);
        printf("refused %u %zu\n", (unsigned)number, place);
    }
}

void template_case(void)
{
    struct words words = read_words();
    struct prep_template_answer t = prep_read_template(LENT(words));
    print_counts(t.number, t.place, t.kinds, t.shapes);
    free(words.word);
}

void fit_case(void)
{
    struct words words = read_words();
    uint16_t shape = read_number();
    struct words counts = read_words();
    struct prep_fit_answer f = prep_fit_counts(LENT(words), shape, LENT(counts));
    if (f.number == PREP_NOT_REFUSED) {
        REQUIRE(f.place == 0);
        printf(f.fits ? "yes\n" : "no\n");
    } else {
        REQUIRE(f.fits == 0);
        printf("refused %u %zu\n", (unsigned)f.number, f.place);
    }
    free(words.word);
    free(counts.word);
}

void script_case(void)
{
    struct words words = read_words();
    struct words script = read_words();
    struct prep_script_answer s = prep_read_script(LENT(words), LENT(script));
    print_counts(s.number, s.place, s.cards, s.links);
    free(words.word);
    free(script.word);
}

/* The library is asked how many words there are, and then for these. */
void links_case(void)
{
    struct words words = read_words();
    struct words script = read_words();
    uint16_t card = read_number();
    struct words links = new_words(prep_links_of_card(LENT(words), LENT(script), card, NULL, 0));
    size_t i;
    REQUIRE(prep_links_of_card(LENT(words), LENT(script), card, LENT(links)) == links.length);
    printf("links");
    for (i = 0; i < links.length; i++) {
        printf(" %u", (unsigned)links.word[i]);
    }
    printf("\n");
    free(words.word);
    free(script.word);
    free(links.word);
}
