/* The cases of each operation: the sections of the next one are read, and what the library answers is printed. */
#ifndef CASES_H
#define CASES_H

void template_case(void);
void fit_case(void);
void script_case(void);
void links_case(void);
void sheet_case(void);
void judge_case(void);
void tidy_case(void);

#endif
