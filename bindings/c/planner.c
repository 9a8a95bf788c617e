/* The planner as a C program links it, on sheet N of document 01 with two crews. */
#include "planner.h"

#include <assert.h>
#include <string.h>

/* Line 0 joins 0-2 weight 3, line 1 joins 2-3 weight 3, line 2 joins 1-3 weight 5. */
static const uint8_t sheet[] = {4, 0, 3, 0, 0, 0, 2, 0, 2, 0, 3, 0, 1, 0,
                                3, 0, 3, 0, 0, 0, 3, 0, 0, 0, 5, 0, 0, 0};

/* Tree 0 from stop 0 with lines 0 and 1, tree 1 from stop 1 with none. */
static const uint8_t cover[] = {2, 0, 2, 0, 0, 0, 1, 0, 0, 0, 0, 0, 0, 0, 1, 0};

static uint8_t buffer[PLANNER_BUFFER];
static uint64_t values[3];
static uint8_t stops[PLANNER_WALK_BUFFER];
static uint64_t walked[2];
static uint64_t six[6];

static uint32_t trial(uint32_t kind, uint64_t limit) {
    return planner_trial(kind, 2, limit, sheet, sizeof sheet, values, buffer, sizeof buffer);
}

static uint32_t best(size_t room) {
    return planner_best(PLANNER_ROOTED, 2, sheet, sizeof sheet, values, buffer, room);
}

static uint32_t walk(size_t tree, size_t room) {
    memset(stops, 7, sizeof stops);
    return planner_walk(PLANNER_ROOTED, 2, sheet, sizeof sheet, cover, sizeof cover, tree, walked, stops, room);
}

/* No list is brought, so none is read; the pointers are not null even so. */
static uint32_t within(size_t trials, size_t room) {
    return planner_within(trials, PLANNER_ROOTED, 2, sheet, sizeof sheet, 0, sheet, 0, sheet, 0, six, buffer, room);
}

/* Every byte of the buffer of a walk from a place on is as it was. */
static int untouched_from(size_t place) {
    while (place < sizeof stops && stops[place] == 7) place++;
    return place == sizeof stops;
}

/* Sheet N with a list: trial, best, check and walk by the weights used. */
static void surfaces(void) {
    /* 120 percent of 3, 150 of 3, 200 of 5: 3.6, 4.5 and 10, so 4, 5 and 10. The cover's tree 0 weighs 4 + 5. */
    static const uint8_t classes[] = {10, 20, 40};
    planner_question q = {0};
    q.k = 2;
    q.graph = sheet;
    q.graph_length = sizeof sheet;
    q.classes = planner_list_of(classes, sizeof classes);

    /* At 4 no line that remains comes to stop 3. At 5 line 1 is a part, and yard 0 is 4 from it. */
    assert(planner_trial_of(&q, 4, values, buffer, sizeof buffer) == PLANNER_TOO_LOW_STOP && values[0] == 3);
    assert(planner_trial_of(&q, 5, values, buffer, sizeof buffer) == PLANNER_COVER);
    assert(memcmp(values, (uint64_t[]){5, 9, 2}, sizeof values) == 0);
    assert(planner_best_of(&q, values, buffer, sizeof buffer) == PLANNER_COVER);
    assert(memcmp(values, (uint64_t[]){5, 9, 2}, sizeof values) == 0);
    assert(memcmp(buffer, cover, sizeof cover) == 0);
    assert(planner_check_of(&q, cover, sizeof cover, values) == 0 && values[0] == 9);
    assert(planner_walk_of(&q, cover, sizeof cover, 0, walked, stops, sizeof stops) == 0);
    assert(memcmp(walked, (uint64_t[]){5, 18}, sizeof walked) == 0);

    /* Null pointers are to no bytes: of a cover, a buffer, and a list that is brought; 53 comes before 31. */
    assert(planner_check_of(&q, NULL, 0, values) == 31 && planner_best_of(&q, values, NULL, 0) == 23);
    q.classes = planner_list_of(NULL, 3);
    assert(planner_check_of(&q, NULL, 0, values) == 53 && planner_best_of(&q, values, NULL, 0) == 53);

    /* No list: as without. */
    q.classes = (planner_list){0};
    assert(planner_best_of(&q, values, buffer, sizeof buffer) == PLANNER_COVER);
    assert(memcmp(values, (uint64_t[]){4, 6, 2}, sizeof values) == 0);
}

/* One line: 120 percent of 833,333 are 999,999.6, so 1,000,000, which passes; of 833,334 they are above 1,000,000. */
static void heaviest_line(void) {
    static const uint8_t classes[] = {10};
    uint8_t line[] = {2, 0, 1, 0, 0, 0, 1, 0, 0x35, 0xb7, 0x0c, 0};
    planner_question q = {0};
    q.kind = PLANNER_UNROOTED;
    q.k = 1;
    q.graph = line;
    q.graph_length = sizeof line;
    q.classes = planner_list_of(classes, sizeof classes);
    assert(planner_best_of(&q, values, buffer, sizeof buffer) == PLANNER_COVER && values[1] == 1000000);
    line[8]++;
    assert(planner_best_of(&q, values, buffer, sizeof buffer) == 54);
    q.classes.brought = 0;
    assert(planner_best_of(&q, values, buffer, sizeof buffer) == PLANNER_COVER && values[1] == 833334);
}

/* A footbridge 0-1 of weight 0, a line 1-2 of weight 5, and stop 3 alone: three components of weightless lines. */
static void footbridge(void) {
    static const uint8_t gated[] = {4, 0, 2, 0, 1, 0, 2, 0, 0, 0, 1, 0, 5, 0, 0, 0, 0, 0, 0, 0};
    static const uint8_t three[] = {3, 0, 1, 0, 0, 0, 2, 0, 3, 0, 0, 0, 1, 0};
    planner_question q = {0};
    q.kind = PLANNER_UNROOTED;
    q.k = 3;
    q.graph = gated;
    q.graph_length = sizeof gated;
    assert(planner_trial_of(&q, 0, values, buffer, sizeof buffer) == PLANNER_COVER);
    assert(memcmp(values, (uint64_t[]){0, 0, 3}, sizeof values) == 0 && memcmp(buffer, three, sizeof three) == 0);
    assert(planner_best_of(&q, values, buffer, sizeof buffer) == PLANNER_COVER && values[0] == 0);
    assert(planner_check_of(&q, three, sizeof three, values) == 0 && values[0] == 0);
    q.k = 2;
    assert(planner_trial_of(&q, 0, values, buffer, sizeof buffer) == PLANNER_TOO_LOW_NEEDS && values[0] == 3);
    assert(planner_best_of(&q, values, buffer, sizeof buffer) == PLANNER_COVER && values[0] == 5);
    q.kind = PLANNER_ROOTED;
    assert(planner_trial_of(&q, 0, values, buffer, sizeof buffer) == PLANNER_TOO_LOW_STOP && values[0] == 2);
}

/* Two vans at stop 0 of a line 0-1 of weight 1. */
static void two_vans(void) {
    static const uint8_t line[] = {2, 0, 1, 0, 0, 0, 1, 0, 1, 0, 0, 0};
    static const uint8_t vans[] = {0, 0, 0, 0};
    /* What is left at stop 0 goes to the first van: tree 0 has line 0, tree 1 has none. */
    static const uint8_t first[] = {2, 0, 1, 0, 0, 0, 0, 0, 0, 0, 0, 0};
    /* The line in the other tree is a cover too; trees from stops 0 and 1 are one without a list. */
    static const uint8_t second[] = {2, 0, 1, 0, 0, 0, 0, 0, 1, 0, 0, 0};
    static const uint8_t apart[] = {2, 0, 0, 0, 0, 0, 1, 0};
    planner_question q = {0};
    q.k = 2;
    q.graph = line;
    q.graph_length = sizeof line;
    assert(planner_check_of(&q, apart, sizeof apart, values) == 0);
    assert(planner_check_of(&q, first, sizeof first, values) == 32);
    q.vans = planner_list_of(vans, sizeof vans);
    assert(planner_trial_of(&q, 5, values, buffer, sizeof buffer) == PLANNER_COVER);
    assert(memcmp(values, (uint64_t[]){5, 1, 2}, sizeof values) == 0 && memcmp(buffer, first, sizeof first) == 0);
    assert(planner_trial_of(&q, 0, values, buffer, sizeof buffer) == PLANNER_TOO_LOW_STOP && values[0] == 1);
    assert(planner_best_of(&q, values, buffer, sizeof buffer) == PLANNER_COVER);
    assert(memcmp(values, (uint64_t[]){1, 1, 2}, sizeof values) == 0);
    assert(planner_check_of(&q, first, sizeof first, values) == 0 && values[0] == 1);
    assert(planner_check_of(&q, second, sizeof second, values) == 0 && values[0] == 1);
    assert(planner_check_of(&q, apart, sizeof apart, values) == 32);
    assert(planner_walk_of(&q, second, sizeof second, 1, walked, stops, sizeof stops) == 0);
    assert(memcmp(walked, (uint64_t[]){3, 2}, sizeof walked) == 0);
    assert(memcmp(stops, (uint8_t[]){0, 0, 1, 0, 0, 0}, 6) == 0);
    /* Both lists at once: class 40 doubles the line. */
    q.classes = planner_list_of((const uint8_t[]){40}, 1);
    assert(planner_brought(&q) == (PLANNER_CLASSES | PLANNER_VANS));
    assert(planner_best_of(&q, values, buffer, sizeof buffer) == PLANNER_COVER && values[1] == 2);
    assert(planner_check_of(&q, first, sizeof first, values) == 0 && values[0] == 2);
}

/* Vans that are no list for the question, and a question that has no use for one. */
static void wrong_vans(void) {
    static const uint8_t line[] = {2, 0, 1, 0, 0, 0, 1, 0, 1, 0, 0, 0};
    static const uint8_t vans[] = {1, 0, 0, 0, 1, 0};
    planner_question q = {0};
    q.graph = line;
    q.graph_length = sizeof line;

    /* Three vans on two stops are for a list alone; one that is brought and null is no three vans. */
    q.k = 3;
    assert(planner_best_of(&q, values, buffer, sizeof buffer) == 21);
    q.vans = planner_list_of(vans, sizeof vans);
    assert(planner_best_of(&q, values, buffer, sizeof buffer) == PLANNER_COVER && values[2] == 3);
    q.vans = planner_list_of(NULL, sizeof vans);
    assert(planner_trial_of(&q, 5, values, buffer, sizeof buffer) == 55);
    assert(planner_best_of(&q, values, NULL, 0) == 55);
    assert(planner_check_of(&q, NULL, 0, values) == 55);
    assert(planner_walk_of(&q, NULL, 0, 0, walked, NULL, 0) == 55);
    q.vans = planner_list_of((const uint8_t[]){0, 0, 0, 0, 2, 0}, 6);
    assert(planner_best_of(&q, values, buffer, sizeof buffer) == 55);
    /* 53 and 21 come before 55. */
    q.classes = planner_list_of(NULL, 1);
    assert(planner_best_of(&q, values, buffer, sizeof buffer) == 53);
    q.classes = (planner_list){0};
    q.k = 33;
    assert(planner_best_of(&q, values, buffer, sizeof buffer) == 21);

    /* Unrooted: any list is left unread, as one is whose `brought` is 0. */
    q.k = 1;
    q.kind = PLANNER_UNROOTED;
    assert(planner_best_of(&q, values, buffer, sizeof buffer) == PLANNER_COVER && values[2] == 1);
    q.kind = PLANNER_ROOTED;
    q.vans.brought = 0;
    assert(planner_best_of(&q, values, buffer, sizeof buffer) == PLANNER_COVER && values[2] == 1);
}

/* Sheet N with a number of trials. Those of the whole search are at 0, at 11, and then at 5, 2, 3 and 4. */
static void few_trials(void) {
    planner_question q = {0};
    q.k = 2;
    q.graph = sheet;
    q.graph_length = sizeof sheet;

    /* Two are spent: the limits 1 to 10 are left. Six come to the end, and no more are made. */
    assert(planner_within_of(&q, 2, six, buffer, sizeof buffer) == PLANNER_SPENT);
    assert(memcmp(six, (uint64_t[]){11, 6, 2, 2, 1, 1}, sizeof six) == 0);
    assert(memcmp(buffer, cover, sizeof cover) == 0);
    assert(planner_within_of(&q, 5, six, buffer, sizeof buffer) == PLANNER_SPENT);
    assert(six[0] == 5 && six[3] == 5 && six[4] == 4 && six[5] == 1);
    assert(planner_within_of(&q, 6, six, buffer, sizeof buffer) == PLANNER_COVER);
    assert(memcmp(six, (uint64_t[]){4, 6, 2, 6, 4, 0}, sizeof six) == 0);
    assert(memcmp(buffer, cover, sizeof cover) == 0);
    assert(planner_within_of(&q, PLANNER_MOST_TRIALS, six, buffer, sizeof buffer) == PLANNER_COVER && six[3] == 6);

    /* The same without a planner_question. */
    assert(within(2, sizeof buffer) == PLANNER_SPENT);
    assert(memcmp(six, (uint64_t[]){11, 6, 2, 2, 1, 1}, sizeof six) == 0);
    assert(within(33, sizeof buffer) == PLANNER_COVER);
    assert(memcmp(six, (uint64_t[]){4, 6, 2, 6, 4, 0}, sizeof six) == 0);

    /* 56 comes behind 23, and leaves the values and the buffer. */
    memset(buffer, 7, sizeof buffer);
    assert(within(1, sizeof buffer) == 56 && within(34, sizeof buffer) == 56 && within(34, 32707) == 23);
    assert(planner_within_of(&q, 1, six, buffer, sizeof buffer) == 56);
    assert(planner_within_of(&q, SIZE_MAX, six, buffer, sizeof buffer) == 56);
    assert(planner_within_of(&q, 1, six, NULL, 0) == 23);
    assert(memcmp(six, (uint64_t[]){4, 6, 2, 6, 4, 0}, sizeof six) == 0 && buffer[0] == 7 && buffer[32707] == 7);
}

/* A number of trials beside lists, where limit 0 is accepted, and where there is no cover. */
static void few_trials_with_lists(void) {
    static const uint8_t classes[] = {10, 20, 40};
    static const uint8_t vans[] = {3, 0, 3, 0};
    planner_question q = {0};
    q.k = 2;
    q.graph = sheet;
    q.graph_length = sizeof sheet;

    /* The weights used are 4, 5 and 10, so the sum is 19, and below 10 stop 1 is joined to no van. */
    q.classes = planner_list_of(classes, sizeof classes);
    assert(planner_within_of(&q, 2, six, buffer, sizeof buffer) == PLANNER_SPENT);
    assert(memcmp(six, (uint64_t[]){19, 9, 2, 2, 1, 1}, sizeof six) == 0);
    q.vans = planner_list_of(vans, sizeof vans);
    assert(planner_within_of(&q, 2, six, buffer, sizeof buffer) == PLANNER_SPENT && six[0] == 19 && six[1] == 19);
    assert(planner_within_of(&q, 33, six, buffer, sizeof buffer) == PLANNER_COVER && six[0] == 10 && six[4] == 10);
    assert(planner_best_of(&q, values, buffer, sizeof buffer) == PLANNER_COVER);
    assert(memcmp(values, six, sizeof values) == 0);
    /* 53 and 55 come before 56. */
    q.vans = planner_list_of(NULL, sizeof vans);
    assert(planner_within_of(&q, 0, six, buffer, sizeof buffer) == 55);
    q.classes = planner_list_of(NULL, sizeof classes);
    assert(planner_within_of(&q, 0, six, NULL, 0) == 53);

    /* Four roving crews stay where they are: one trial, at 0. One crew does not come to two stops without a line. */
    q.kind = PLANNER_UNROOTED;
    q.k = 4;
    q.classes = (planner_list){0};
    assert(planner_within_of(&q, 2, six, buffer, sizeof buffer) == PLANNER_COVER);
    assert(memcmp(six, (uint64_t[]){0, 0, 4, 1, 0, 0}, sizeof six) == 0);
    q.k = 1;
    q.graph = (const uint8_t[]){2, 0, 0, 0};
    q.graph_length = 4;
    assert(planner_within_of(&q, 2, six, buffer, sizeof buffer) == PLANNER_NO_COVER);
    assert(planner_within_of(&q, 34, six, buffer, sizeof buffer) == 56 && six[2] == 4);
}

int main(void) {
    /* Yards: "B 4, heaviest 6". */
    assert(trial(PLANNER_ROOTED, 4) == PLANNER_COVER);
    assert(memcmp(values, (uint64_t[]){4, 6, 2}, sizeof values) == 0);
    assert(memcmp(buffer, cover, sizeof cover) == 0);

    /* Roving: "k 2, B 3, needs 3". */
    assert(trial(PLANNER_UNROOTED, 3) == PLANNER_TOO_LOW_NEEDS);
    assert(values[0] == 3);

    /* Yards: "Best: limit 4, heaviest 6"; "Buffer 32,708 passes, 32,707 is 23". */
    assert(best(32708) == PLANNER_COVER);
    assert(memcmp(values, (uint64_t[]){4, 6, 2}, sizeof values) == 0);
    assert(best(32707) == 23);

    /* Check: "(0,0)(0,1) yes, 6". */
    assert(planner_check(PLANNER_ROOTED, 2, sheet, sizeof sheet, cover, sizeof cover, values) == 0);
    assert(values[0] == 6);

    /* Walks: lines 0 and 1 there and back; tree 1 has no line; 51 before 52, which is at 1,021 bytes. */
    assert(walk(0, 1022) == 0);
    assert(memcmp(walked, (uint64_t[]){5, 12}, sizeof walked) == 0);
    assert(memcmp(stops, (uint8_t[]){0, 0, 2, 0, 3, 0, 2, 0, 0, 0}, 10) == 0 && untouched_from(10));
    assert(walk(1, 1022) == 0);
    assert(memcmp(walked, (uint64_t[]){1, 0}, sizeof walked) == 0);
    assert(memcmp(stops, (uint8_t[]){1, 0}, 2) == 0 && untouched_from(2));
    assert(walk(2, 1022) == 51 && walk(2, 1021) == 51 && walk(0, 1021) == 52);
    assert(memcmp(walked, (uint64_t[]){1, 0}, sizeof walked) == 0 && untouched_from(0));

    surfaces();
    heaviest_line();
    footbridge();
    two_vans();
    wrong_vans();
    few_trials();
    few_trials_with_lists();
    return 0;
}
