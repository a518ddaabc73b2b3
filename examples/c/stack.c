/*
 * Runs each function in a thread with a stack of PREP_STACK_BYTES, on inputs at the limits, measures
 * what it takes, and fails if a thread writes past its stack. A measurement, not a proof. Builds as
 * C and as C++, on POSIX systems.
 */
#include "prep.h"

#include <pthread.h>
#include <stdio.h>
#include <stdlib.h>
#include <string.h>

#define LENGTH(array) (sizeof(array) / sizeof((array)[0]))

/* An array as the two parameters that lend it. */
#define LENT(array) (array), LENGTH(array)

/*
 * A thread's stack is the end of a block that is painted before, so that a call which writes past it
 * is seen by the paint.
 */
enum { PAINTED_BYTES = 1024 * 1024, PAINT = 0xa5 };

/* What stands at the deepest place of the template: nothing, a link, or one that is refused. */
enum { DEEP_NOTHING, DEEP_LINK, DEEP_FAULT, INPUTS };

/* Bytes of stack that a call takes, and bytes that the thread takes with it. */
struct taken {
    size_t call;
    size_t thread;
};

struct call {
    int function;
    const uint8_t *frame; /* where the caller's frame stands */
    int refused;
};

static uint16_t deep_template[PREP_MAX_TEMPLATE_WORDS];
static size_t deep_length;
static uint16_t full_script[PREP_MAX_SCRIPT_WORDS];
static uint16_t full_bookings[PREP_MAX_BOOKING_WORDS];
static uint16_t full_stored[PREP_MAX_STORED_WORDS];
static uint16_t zero_counts[PREP_MAX_COUNTS];
static uint16_t some_links[PREP_MAX_SCRIPT_WORDS];
static uint16_t tidied_bookings[PREP_MAX_BOOKING_WORDS];
static uint8_t smallest_grid[PREP_MAX_GRID_BYTES];
static uint8_t largest_grid[PREP_MAX_GRID_BYTES];

/* A shape of groups of 16 in groups of 16, as deep as they may be, with the group inside at the last place. */
static size_t put_deep_shape(uint16_t *words, int input)
{
    static const uint16_t link[] = {256, 0, 1, 1};
    static const size_t lengths[INPUTS] = {0, LENGTH(link), LENGTH(link) - 1};
    size_t at = 1, depth, i;
    for (depth = 1; depth < 12; depth++) {
        words[at++] = depth % 2 ? 17 : 16;
        words[at++] = 16;
        for (i = 0; i < 15; i++) {
            words[at++] = 0;
        }
    }
    if (input == DEEP_NOTHING) {
        words[at++] = 0;
    }
    for (i = 0; i < lengths[input]; i++) {
        words[at++] = link[i];
    }
    words[0] = (uint16_t)(at - 1);
    return at;
}

/*
 * 16 deep shapes, and 16 that are an optional star of one link of kind 0 each way. Of these eight
 * ask for themselves both ways, so that every card keeps them. Four ask for shape 0, which no card
 * can have, where a link leads, and four where one comes from.
 */
static void fill_template(int input)
{
    static const uint16_t plain[] = {14, 17, 2, 3, 1, 256, 0, 1, 1, 3, 1, 320, 0, 1, 1};
    uint16_t shape;
    deep_template[0] = PREP_MAX_KINDS;
    deep_template[1] = PREP_MAX_SHAPES;
    deep_length = 2;
    for (shape = 0; shape < PREP_MAX_SHAPES; shape++) {
        if (shape < 16) {
            deep_length += put_deep_shape(deep_template + deep_length, shape < 15 ? DEEP_NOTHING : input);
        } else {
            memcpy(deep_template + deep_length, plain, sizeof plain);
            deep_template[deep_length + 6] = shape < 20 ? 0 : shape;
            deep_template[deep_length + 12] = shape >= 20 && shape < 24 ? 0 : shape;
            deep_length += LENGTH(plain);
        }
    }
}

/* As many cards and links as there may be. */
static void fill_script(void)
{
    size_t i;
    full_script[0] = PREP_MAX_CARDS;
    full_script[1] = PREP_MAX_LINKS;
    for (i = 0; i < PREP_MAX_LINKS; i++) {
        full_script[2 + 3 * i] = (uint16_t)(i / 8);
        full_script[3 + 3 * i] = 0;
        full_script[4 + 3 * i] = (uint16_t)((i / 8 % 8) * 8 + i % 8);
    }
}

/* As many bookings as there may be, all of them of one desk, and a stored list of the same pairs. */
static void fill_bookings(void)
{
    size_t i;
    full_bookings[0] = full_stored[0] = PREP_MAX_BOOKINGS;
    for (i = 0; i < PREP_MAX_BOOKINGS; i++) {
        full_bookings[1 + 3 * i] = PREP_DESK_TELEVISION;
        full_bookings[2 + 3 * i] = full_stored[1 + 2 * i] = (uint16_t)i;
        full_bookings[3 + 3 * i] = full_stored[2 + 2 * i] = (uint16_t)(i % PREP_MAX_SHAPES);
    }
}

static const char *const functions[] = {"prep_read_template", "prep_fit_counts", "prep_read_script",
                                        "prep_links_of_card", "prep_largest",    "prep_smallest",
                                        "prep_both_typings",  "prep_judge",      "prep_tidy_bookings"};

/*
 * Calls a function; 0 if it answers, 50 if the bookings are not met. The grid that is judged is the
 * largest typing, as the call before left it: 63 if it does not hold the bookings.
 */
static int call_function(int function)
{
    const uint16_t *t = deep_template, *s = full_script, *b = full_bookings;
    size_t t_length = deep_length, s_length = LENGTH(full_script), b_length = LENGTH(full_bookings);
    uint16_t desk = PREP_DESK_TELEVISION;
    switch (function) {
    case 0:
        return prep_read_template(t, t_length).number;
    case 1:
        return prep_fit_counts(t, t_length, 0, LENT(zero_counts)).number;
    case 2:
        return prep_read_script(t, t_length, s, s_length).number;
    case 3:
        return prep_links_of_card(t, t_length, s, s_length, 0, LENT(some_links)) != 24;
    case 4:
        return prep_largest(t, t_length, s, s_length, LENT(largest_grid)).number;
    case 5:
        return prep_smallest(t, t_length, s, s_length, b, b_length, desk, LENT(smallest_grid)).number;
    case 6:
        return prep_both_typings(t, t_length, s, s_length, b, b_length, desk, LENT(smallest_grid), LENT(largest_grid))
            .number;
    case 7:
        return prep_judge(t, t_length, s, s_length, b, b_length, desk, LENT(largest_grid)).number;
    default:
        return prep_tidy_bookings(t, t_length, s, s_length, LENT(full_stored), LENT(tidied_bookings)).number;
    }
}

static void *run_call(void *argument)
{
    struct call *call = (struct call *)argument;
    volatile uint8_t here = 0;
    call->frame = (const uint8_t *)&here;
    call->refused = call_function(call->function);
    return NULL;
}

/* Runs a call in a thread whose stack is the end of the block. */
static void run_on(uint8_t *block, struct call *call)
{
    uint8_t *stack = block + PAINTED_BYTES - PREP_STACK_BYTES;
    pthread_attr_t attributes;
    pthread_t thread;
    if (pthread_attr_init(&attributes) != 0 || pthread_attr_setstack(&attributes, stack, PREP_STACK_BYTES) != 0 ||
        pthread_create(&thread, &attributes, run_call, call) != 0 || pthread_join(thread, NULL) != 0) {
        abort();
    }
    pthread_attr_destroy(&attributes);
}

/*
 * Whether a call did all of its work. 50 and 63 are the last tests of their calls; 63 comes after
 * every pair. What is refused in the template is refused by every call.
 */
static int did_its_work(int input, int refused)
{
    if (input == DEEP_FAULT) {
        return refused != 0;
    }
    return refused == 0 || refused == PREP_NOT_MET || refused == PREP_GRID_NOT_HELD;
}

/* How far below the caller's frame, and below the stack's upper end, a call writes. */
static struct taken stack_of(int function, int input)
{
    struct call call = {0, NULL, 0};
    struct taken taken;
    size_t low = 0;
    void *block = NULL;
    call.function = function;
    if (posix_memalign(&block, 4096, PAINTED_BYTES) != 0) {
        abort();
    }
    memset(block, PAINT, PAINTED_BYTES);
    run_on((uint8_t *)block, &call);
    while (low < PAINTED_BYTES && ((uint8_t *)block)[low] == PAINT) {
        low++;
    }
    taken.call = (size_t)(call.frame - ((uint8_t *)block + low));
    taken.thread = PAINTED_BYTES - low;
    free(block);
    if (!did_its_work(input, call.refused)) {
        printf("%s did not do its work on input %d: %d\n", functions[function], input, call.refused);
        exit(1);
    }
    return taken;
}

int main(void)
{
    size_t function;
    int failures = 0;
    fill_script();
    fill_bookings();
    for (function = 0; function < LENGTH(functions); function++) {
        struct taken most = {0, 0};
        int input;
        for (input = 0; input < INPUTS; input++) {
            struct taken taken;
            fill_template(input);
            taken = stack_of((int)function, input);
            most = taken.call > most.call ? taken : most;
        }
        printf("%s: %zu bytes of stack, %zu with the thread's own\n", functions[function], most.call, most.thread);
        failures += most.thread > PREP_STACK_BYTES;
    }
    return failures != 0;
}
