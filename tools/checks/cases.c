/*
 * Answers cases by the library's C functions: a line for each, or the text of a sheet, goes to standard output, and
 * how many there were to standard error.
 */
#include "cases.h"
#include "sections.h"

/* What a tag asks, from 1 on. */
static void (*const operations[])(void) = {template_case, fit_case,   script_case, links_case,
                                           sheet_case,    judge_case, tidy_case};

int main(void)
{
    size_t count = 0;
    unsigned tag;
    while ((tag = read_tag()) != 0) {
        REQUIRE(tag <= sizeof operations / sizeof operations[0]);
        operations[tag - 1]();
        count++;
    }
    fprintf(stderr, "%zu\n", count);
    return count == 0 || fflush(stdout) != 0;
}
