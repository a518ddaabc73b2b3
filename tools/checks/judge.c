/*
 * The cases of judging a grid. On the way it is checked that the grid stays as it was, and that numbers which say
 * nothing are 0.
 */
#include "cases.h"
#include "prep.h"
#include "sections.h"

#include <string.h>

static void print_answer(struct prep_judge_answer j)
{
    if (j.number == PREP_NOT_REFUSED) {
        REQUIRE(j.card == 0 && j.shape == 0 && j.place == 0);
        printf("accepted\n");
    } else if (j.number == PREP_GRID_NOT_MET) {
        REQUIRE(j.place == 0);
        printf("refused %u %u %u\n", (unsigned)j.number, (unsigned)j.card, (unsigned)j.shape);
    } else {
        REQUIRE(j.card == 0 && j.shape == 0);
        printf("refused %u %zu\n", (unsigned)j.number, j.place);
    }
}

void judge_case(void)
{
    struct files files = read_files();
    uint16_t desk = read_number();
    struct bytes grid = read_bytes();
    uint8_t *before = (uint8_t *)memory(grid.length);
    memcpy(before, grid.byte, grid.length);
    print_answer(prep_judge(LENT_FILES(files), desk, grid.byte, grid.length));
    require(memcmp(before, grid.byte, grid.length) == 0, "the grid stays as it was");
    free_files(&files);
    free(grid.byte);
    free(before);
}
