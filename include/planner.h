/* Min-max tree covers of a graph: link libplanner_c.a, which `tools/build planner_c` makes. */
#ifndef PLANNER_H
#define PLANNER_H

#include <stddef.h>
#include <stdint.h>

#ifdef __cplusplus
extern "C" {
#endif

/* The kind of a question: 0 is rooted ("yard"), every other number unrooted ("roving"). */
#define PLANNER_ROOTED 0u
#define PLANNER_UNROOTED 1u

/* What planner_ask is asked: 0 is a trial at the limit, every other number the best limit. */
#define PLANNER_TRIAL 0u
#define PLANNER_BEST 1u

/* The lists that a question may bring beside its graph, a bit for each; bits without a list are not read. */
#define PLANNER_CLASSES 1u
#define PLANNER_VANS 2u

/* The least length of a buffer, in bytes: room for any cover. */
#define PLANNER_BUFFER 32708u

/* The least length of a walk's buffer, in bytes: room for any walk. */
#define PLANNER_WALK_BUFFER 1022u

/* The most trials that planner_within is asked for: so many are never spent. */
#define PLANNER_MOST_TRIALS 33u

/*
 * What planner_trial, planner_best, planner_ask and planner_within answer, with the values; every other number is that of a
 * refusal.
 */
#define PLANNER_COVER 0u         /* values: the limit, the heaviest weight, the number of trees. A cover is written. */
#define PLANNER_TOO_LOW_STOP 1u  /* values: the lowest vertex joined to no root. */
#define PLANNER_TOO_LOW_PARTS 2u /* values: T parts, D roots near any of them, D < T. The parts are written. */
#define PLANNER_TOO_LOW_NEEDS 3u /* values: the number of trees needed, which is above k. */
#define PLANNER_NO_COVER 4u      /* no values: no cover of the kind exists at any limit. */
#define PLANNER_SPENT 5u         /* planner_within alone: a cover, but limits are left to try. A cover is written. */

/*
 * The bytes. All fields are unsigned, lowest byte first; vertices, edges and trees are numbered from 0.
 *
 * A graph: n, the number of vertices (2 bytes, 1 to 256); m, the number of edges (2 bytes, 0 to 2,048); m pairs of ends
 * (2 bytes each end); m weights (4 bytes each, 0 to 1,000,000). 4 + 8m bytes.
 * A cover: t, the number of trees (2 bytes); q, the number of entries (2 bytes); t starts (2 bytes each); q tree numbers,
 * then q edge numbers (2 bytes each), rising strictly by tree, then by edge. 4 + 2t + 4q bytes.
 *
 * k is the number of crews, 1 to 32: a rooted cover has k trees, tree j starting at the j-th root; an unrooted one 1 to k.
 * The roots of a rooted question are vertices 0 to k - 1, so k is at most n, unless a list of vans is brought.
 *
 * Classes, a list that a question may bring beside its graph: the class of each edge in a byte, m bytes. Classes 0 to 9
 * count 100 percent of the edge's weight, 10 to 19 count 120, 20 to 39 count 150, 40 to 59 count 200, and all others 100.
 * The weight used is weight times percent over 100, rounded up, so that of weight 0 it is 0, and whatever is said of weights
 * below is said of the weights used. Where no list is brought every edge is of class 60.
 *
 * Vans, a list that a rooted question may bring beside its graph: the root of each tree in 2 bytes, 2k bytes. A vertex may
 * stand there several times, and k may be above n. What is left at a vertex goes to its lowest-numbered van: of several trees
 * from one vertex the first has what is left there, and each of the others is a part and a path to it, or has no edges. An
 * unrooted question carries no such list: one that is brought beside it is not read, whatever its length.
 *
 * For the eight functions of the library: any input is answered. Each pointer is to as many bytes as its length says,
 * `values` to exactly three numbers, those of planner_walk and planner_route to exactly two, those of planner_within to
 * exactly six; no pointer is null even where a length is 0, and what is written overlaps nothing else: nothing tests this.
 * Only the values of the answer's case are written, from the first on; of the buffer only the front that a walk fills, or
 * that the cover or the parts fill, as cover bytes, whose length is 4 + 2t + 4q by the t and q that they begin with. All
 * else, and all of both at a refusal, is left as it came.
 *
 * Stack: planner_trial, planner_best, planner_ask and planner_within take up to 320 KiB, planner_walk and planner_route,
 * refused or not, up to 12 KiB; planner_check, planner_verify, and a refusal by the first four, up to 4 KiB. Measured, with
 * some room to spare, and not proved: a stack that is too small ends the program. No memory is allocated.
 */

/* Questions without lists: four functions. */

/*
 * A trial at a limit (0 to 2,048,000,000). Accepted: a cover whose heaviest tree weighs at most four times the limit.
 * Too low: every cover of the kind for k has a tree heavier than the limit.
 *
 * "A limit of 0 accepts exactly when weightless lines join every stop to a yard, or into at most k components": walks along
 * edges of weight 0 lead to every vertex from a root, or, unrooted, from some at most k vertices, one for each component; a
 * vertex without such an edge is a component by itself. The heaviest weight is then 0.
 *
 * Refused, tried in this order: 11 graph_length is below 4 or not 4 + 8m. 12 n is 0 or above 256. 13 m is above 2,048. Then
 * edge by edge 14 an end is not below n, 15 the ends are equal, 16 the weight is above 1,000,000. 21 k is outside 1 to 32, or
 * above n in a rooted question. 22 the limit is above 2,048,000,000. 23 buffer_length is below PLANNER_BUFFER.
 */
uint32_t planner_trial(uint32_t kind, size_t k, uint64_t limit, const uint8_t *graph, size_t graph_length,
                       uint64_t *values, uint8_t *buffer, size_t buffer_length);

/*
 * The best limit: PLANNER_COVER, whose heaviest tree weighs at most four times that of any cover of the kind for k;
 * PLANNER_NO_COVER, exactly where none exists; or a refusal as of a trial, without 22. The limit is 0 exactly where a trial
 * accepts 0. No cover of the kind for k has a heaviest tree lighter than the limit.
 *
 * The longest walk (planner_walk) of its trees is at most eight times as long as the longest of any closed walks that
 * together come to every vertex: rooted, one from each root; unrooted, at most k, from anywhere. These may cross any edge
 * any number of times, or none.
 */
uint32_t planner_best(uint32_t kind, size_t k, const uint8_t *graph, size_t graph_length, uint64_t *values,
                      uint8_t *buffer, size_t buffer_length);

/*
 * The check of a filed cover: 0 exactly where its bytes are a cover of the kind for k, with the heaviest weight as the first
 * value, the other two left as they came. Otherwise 11 to 16 and 21 as of a trial, or 31 cover_length is below 4 or not
 * 4 + 2t + 4q. 32 t or a start breaks the rule of the kind (rooted: k trees, tree j starts at vertex j; unrooted: 1 to k
 * trees, starts below n). 33 an entry's tree is not below t, its edge not below m, or the order is wrong. 34 a tree has a
 * loop or an edge not joined to its start. 35 a vertex is uncovered.
 */
uint32_t planner_check(uint32_t kind, size_t k, const uint8_t *graph, size_t graph_length, const uint8_t *cover,
                       size_t cover_length, uint64_t *values);

/*
 * The closed walk of one tree of a filed cover: it begins and ends at the tree's start, crosses each of the tree's q edges
 * exactly twice and no other edge. At every vertex the lowest edge of the tree not yet walked goes first; where none is
 * left, the edge by which the vertex was first reached is walked back. It is the only such walk.
 *
 * Answered with 0: its stops are written to the buffer's front, the vertex of each in 2 bytes, lowest byte first; a vertex
 * is a stop each time that the walk comes to it. Values: the number of stops, 2q + 1, at most 511; the length, twice the
 * tree's weight. Bytes past the stops are left as they came.
 *
 * Otherwise the number that planner_check has for the cover, then 51 tree is not below t, then 52 buffer_length is below
 * PLANNER_WALK_BUFFER, however short the walk is.
 */
uint32_t planner_walk(uint32_t kind, size_t k, const uint8_t *graph, size_t graph_length, const uint8_t *cover,
                      size_t cover_length, size_t tree, uint64_t *values, uint8_t *buffer, size_t buffer_length);

/*
 * Any question: four functions, with the lists that it brings. A program in C or C++ has planner_question for this, further
 * below; these are for callers without a C compiler. A version with a list more has two parameters more here: compile what
 * calls these four, by planner_question too, with the header of the archive that is linked.
 *
 * `brought` has a bit for each list. A list whose bit is 0 is not read; its pointer is not null even so. A list whose bit is
 * 1 is brought, of no bytes too, but for vans beside an unrooted question, which are not read. Whatever is refused before a
 * list's turn leaves it unread.
 * Refused, after 16, which is of the weights as given, and before 21: 53 classes_length is not m. 54 a weight used is above
 * 1,000,000.
 * With vans 21 is for k outside 1 to 32 alone. Refused straight after 21: 55 vans_length is not 2k, or a van's vertex is not
 * below n. 32 holds starts against the vans, D counts vans, and every other cover and other walks that ours is held against
 * are by the same vans. The list of 0 to k - 1, with k at most n, gives the same answers as no list.
 */

/*
 * A trial at the limit or the best limit, by `asked`; answers, values and buffer are as of planner_trial and planner_best.
 * For the best limit `limit` is not read.
 */
uint32_t planner_ask(uint32_t asked, uint64_t limit, uint32_t kind, size_t k, const uint8_t *graph, size_t graph_length,
                     uint32_t brought, const uint8_t *classes, size_t classes_length, const uint8_t *vans,
                     size_t vans_length, uint64_t *values, uint8_t *buffer, size_t buffer_length);

/*
 * The best limit's question with a number of trials, 2 to PLANNER_MOST_TRIALS: a limit and its cover before the search ends.
 * The search tries 0, then the sum of all weights, then halves what lies between the last limit that was too low and the
 * last that was accepted, and stops after so many trials.
 *
 * PLANNER_COVER or PLANNER_SPENT, with six values: the limit, which is the least that was accepted; the heaviest weight, at
 * most four times the limit; the number of trees; the trials made; the floor; 1 if the trials are spent, 0 if not. No cover
 * of the kind for k has a heaviest tree lighter than the floor. It is one more than the largest limit tried that was too
 * low, or 0, as the limit is, where 0 was accepted, by one trial.
 *
 * PLANNER_COVER, not spent: limit, cover and heaviest weight are those of the best limit, with all that is said of them, and
 * the floor is the limit. PLANNER_SPENT: limits between the floor and the limit are left to try; what is promised of
 * planner_best against other covers and walks is not promised of it, but for the floor. PLANNER_MOST_TRIALS trials are never
 * spent. With more trials the floor never falls and the limit never rises; the heaviest weight may do either.
 *
 * PLANNER_NO_COVER, exactly where none exists, is found before any trial. Refused as the best limit is, and last of these
 * numbers: 56 trials is below 2 or above PLANNER_MOST_TRIALS.
 */
uint32_t planner_within(size_t trials, uint32_t kind, size_t k, const uint8_t *graph, size_t graph_length,
                        uint32_t brought, const uint8_t *classes, size_t classes_length, const uint8_t *vans,
                        size_t vans_length, uint64_t *values, uint8_t *buffer, size_t buffer_length);

/* The check of a filed cover; answers and values are as of planner_check. */
uint32_t planner_verify(uint32_t kind, size_t k, const uint8_t *graph, size_t graph_length, uint32_t brought,
                        const uint8_t *classes, size_t classes_length, const uint8_t *vans, size_t vans_length,
                        const uint8_t *cover, size_t cover_length, uint64_t *values);

/* The closed walk of one tree of a filed cover; answers, values and buffer are as of planner_walk. */
uint32_t planner_route(uint32_t kind, size_t k, const uint8_t *graph, size_t graph_length, uint32_t brought,
                       const uint8_t *classes, size_t classes_length, const uint8_t *vans, size_t vans_length,
                       const uint8_t *cover, size_t cover_length, size_t tree, uint64_t *values, uint8_t *buffer,
                       size_t buffer_length);

/*
 * A list. {0}, in C++ {}, is none; planner_list_of makes one. Whether there is one is said by `brought` alone (0 if not),
 * and not by a null pointer: that of an empty vector is null too, and a list that could not be loaded must get 53 or 55.
 */
typedef struct planner_list {
    const uint8_t *bytes;
    size_t length;
    uint32_t brought;
} planner_list;

/*
 * A question. Begin with {0}, in C++ {}, and fill its fields by name: later versions add fields at the end, and 0 in each of
 * them asks what is asked without it.
 */
typedef struct planner_question {
    uint32_t kind;
    size_t k;
    const uint8_t *graph;
    size_t graph_length;
    planner_list classes;
    planner_list vans; /* beside an unrooted question it is not read */
} planner_question;

/* These bytes as a list that is brought. A null pointer is to no bytes, whatever the length. */
static inline planner_list planner_list_of(const uint8_t *bytes, size_t length) {
    static const uint8_t none = 0;
    planner_list list;
    list.bytes = bytes != NULL ? bytes : &none;
    list.length = bytes != NULL ? length : 0;
    list.brought = 1u;
    return list;
}

/* The bits of the lists that a question brings. */
static inline uint32_t planner_brought(const planner_question *q) {
    return (q->classes.brought != 0 ? PLANNER_CLASSES : 0u) | (q->vans.brought != 0 ? PLANNER_VANS : 0u);
}

/*
 * The functions above with a question and its lists, under their names with `_of`. A null pointer to a graph, a list, a
 * cover or a buffer is to no bytes, whatever the length; `values` is not null.
 */
static inline uint32_t planner_ask_of(const planner_question *q, uint32_t asked, uint64_t limit, uint64_t *values,
                                      uint8_t *buffer, size_t buffer_length) {
    static uint8_t none = 0;
    const planner_list graph = planner_list_of(q->graph, q->graph_length);
    const planner_list classes = planner_list_of(q->classes.bytes, q->classes.length);
    const planner_list vans = planner_list_of(q->vans.bytes, q->vans.length);
    return planner_ask(asked, limit, q->kind, q->k, graph.bytes, graph.length, planner_brought(q), classes.bytes,
                       classes.length, vans.bytes, vans.length, values, buffer != NULL ? buffer : &none,
                       buffer != NULL ? buffer_length : 0);
}

static inline uint32_t planner_trial_of(const planner_question *q, uint64_t limit, uint64_t *values, uint8_t *buffer,
                                        size_t buffer_length) {
    return planner_ask_of(q, PLANNER_TRIAL, limit, values, buffer, buffer_length);
}

static inline uint32_t planner_best_of(const planner_question *q, uint64_t *values, uint8_t *buffer,
                                       size_t buffer_length) {
    return planner_ask_of(q, PLANNER_BEST, 0, values, buffer, buffer_length);
}

static inline uint32_t planner_within_of(const planner_question *q, size_t trials, uint64_t *values, uint8_t *buffer,
                                         size_t buffer_length) {
    static uint8_t none = 0;
    const planner_list graph = planner_list_of(q->graph, q->graph_length);
    const planner_list classes = planner_list_of(q->classes.bytes, q->classes.length);
    const planner_list vans = planner_list_of(q->vans.bytes, q->vans.length);
    return planner_within(trials, q->kind, q->k, graph.bytes, graph.length, planner_brought(q), classes.bytes,
                          classes.length, vans.bytes, vans.length, values, buffer != NULL ? buffer : &none,
                          buffer != NULL ? buffer_length : 0);
}

static inline uint32_t planner_check_of(const planner_question *q, const uint8_t *cover, size_t cover_length,
                                        uint64_t *values) {
    const planner_list graph = planner_list_of(q->graph, q->graph_length);
    const planner_list classes = planner_list_of(q->classes.bytes, q->classes.length);
    const planner_list vans = planner_list_of(q->vans.bytes, q->vans.length);
    const planner_list filed = planner_list_of(cover, cover_length);
    return planner_verify(q->kind, q->k, graph.bytes, graph.length, planner_brought(q), classes.bytes, classes.length,
                          vans.bytes, vans.length, filed.bytes, filed.length, values);
}

static inline uint32_t planner_walk_of(const planner_question *q, const uint8_t *cover, size_t cover_length, size_t tree,
                                       uint64_t *values, uint8_t *buffer, size_t buffer_length) {
    static uint8_t none = 0;
    const planner_list graph = planner_list_of(q->graph, q->graph_length);
    const planner_list classes = planner_list_of(q->classes.bytes, q->classes.length);
    const planner_list vans = planner_list_of(q->vans.bytes, q->vans.length);
    const planner_list filed = planner_list_of(cover, cover_length);
    return planner_route(q->kind, q->k, graph.bytes, graph.length, planner_brought(q), classes.bytes, classes.length,
                         vans.bytes, vans.length, filed.bytes, filed.length, tree, values,
                         buffer != NULL ? buffer : &none, buffer != NULL ? buffer_length : 0);
}

#ifdef __cplusplus
}
#endif

#endif
