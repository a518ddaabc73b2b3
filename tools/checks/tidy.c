/*
 * The cases of tidying a stored list. On the way it is checked that a list that is written has no fault, that it is
 * the whole stored list, with the radio desk before each pair, exactly if no pair stands there twice, and that numbers
 * which say nothing are 0.
 */
#include "cases.h"
#include "prep.h"
#include "sections.h"

#include <string.h>

/* What is wrong with a booking list of the sheet; 0 or 40, for the grid that is not lent, if nothing is. */
static uint16_t fault_of(const struct files *files, struct words list)
{
    return prep_judge(LENT(files->sheet_template), LENT(files->script), LENT(list), PREP_DESK_RADIO, NULL, 0).number;
}

/* A stored list with the radio desk before each pair. */
static struct words with_desk(struct words stored)
{
    struct words list = new_words(1 + 3 * (size_t)stored.word[0]);
    size_t i;
    list.word[0] = stored.word[0];
    for (i = 0; i < stored.word[0]; i++) {
        list.word[1 + 3 * i] = PREP_DESK_RADIO;
        list.word[2 + 3 * i] = stored.word[1 + 2 * i];
        list.word[3 + 3 * i] = stored.word[2 + 2 * i];
    }
    return list;
}

/* Checks a list that was written, against the one that it is made of. */
static void check_tidy(const struct files *files, struct words tidied)
{
    struct words whole = with_desk(files->bookings);
    uint16_t fault = fault_of(files, tidied);
    REQUIRE(fault == PREP_NOT_REFUSED || fault == PREP_GRID_SIZE);
    if (fault_of(files, whole) == PREP_BOOKINGS_TWICE) {
        REQUIRE(tidied.length < whole.length);
    } else {
        REQUIRE(tidied.length == whole.length);
        REQUIRE(memcmp(tidied.word, whole.word, whole.length * sizeof whole.word[0]) == 0);
    }
    free(whole.word);
}

static void print_answer(struct prep_written_answer t, struct words buffer)
{
    size_t i;
    if (t.number == PREP_NOT_REFUSED) {
        REQUIRE(t.place == 0);
        printf("written %zu :", t.written);
    } else {
        REQUIRE(t.written == 0);
        printf("refused %u %zu :", (unsigned)t.number, t.place);
    }
    for (i = 0; i < buffer.length; i++) {
        printf(" %u", (unsigned)buffer.word[i]);
    }
    printf("\n");
}

void tidy_case(void)
{
    struct files files = read_files();
    struct words buffer = new_words(read_number());
    struct prep_written_answer t = prep_tidy_bookings(LENT_FILES(files), LENT(buffer));
    print_answer(t, buffer);
    if (t.number == PREP_NOT_REFUSED) {
        struct words tidied = {buffer.word, t.written};
        REQUIRE(t.written <= buffer.length);
        check_tidy(&files, tidied);
    }
    free_files(&files);
    free(buffer.word);
}
