/* The header against the static library: one accepted and one refused file of each kind; judging, comparing, modelling, joining, showing, watching, the composed
   verdicts, and assembling and judging deliveries, with the buffers they are lent. Exits with the number of answers that are wrong. */
#include "../include/tintboulder.h"

#include <string.h>

typedef struct tintboulder_answer check(const uint8_t *, size_t);

static int accepts(check *checks, const uint8_t *file, size_t length, uint64_t nodes)
{
    struct tintboulder_answer a = checks(file, length);
    return a.verdict == 1 && a.number == 0 && a.first == nodes && a.second == length / 6 && a.third == 0 && a.fourth == 0;
}

static int refuses(check *checks, const uint8_t *file, size_t length, uint32_t number, uint64_t record)
{
    struct tintboulder_answer a = checks(file, length);
    return a.verdict == 0 && a.number == number && a.first == 1 && a.second == record && a.third == 0 && a.fourth == 0;
}

typedef struct tintboulder_answer on_two_files(const uint8_t *, size_t, const uint8_t *, size_t, uint8_t *, size_t, uint8_t *, size_t);

/* A call on two files that writes bytes: its verdict, its values and the bytes. */
struct example {
    on_two_files *call;
    const uint8_t *first, *second, *result;
    size_t first_length, second_length, result_length;
    uint32_t verdict;
    uint64_t values[2];
};

enum { MOST_OUT = 128, MOST_WORK = 196608 };

static int filled(const uint8_t *bytes, size_t length, uint8_t with)
{
    size_t i = 0;
    while (i < length && bytes[i] == with)
        i++;
    return i == length;
}

/* What was lent of a work buffer that held nothing but 7 is zero, or as it was after 13; what was not lent is as it was. */
static int cleared(const uint8_t *work, size_t length, uint32_t number)
{
    return filled(work, length, number == 13 ? 7 : 0) && filled(work + length, MOST_WORK - length, 7);
}

/* The example with this much output and work: the answer's numbers, the result or no change in out, and zeros or no change in what was lent of work. */
static int answers(const struct example *e, size_t out_length, size_t work_length, uint32_t verdict, uint32_t number)
{
    static uint8_t out[MOST_OUT], work[MOST_WORK];
    int said = verdict != 0;
    size_t written = said ? e->result_length : 0;
    struct tintboulder_answer a;
    memset(out, 7, MOST_OUT);
    memset(work, 7, MOST_WORK);
    a = e->call(e->first, e->first_length, e->second, e->second_length, out, out_length, work, work_length);
    return a.verdict == verdict && a.number == number && a.first == (said ? e->values[0] : 0) && a.second == (said ? e->values[1] : 0) && a.third == 0 && a.fourth == 0
        && memcmp(out, e->result, written) == 0 && filled(out + written, MOST_OUT - written, 7) && cleared(work, work_length, number);
}

/* Its verdict, and the refusals 12 and 13. */
static int wrong_answers(const struct example *e, size_t work_length)
{
    return !answers(e, e->result_length + 2, work_length, e->verdict, 0) + !answers(e, e->result_length - 1, work_length, 0, 12)
        + !answers(e, e->result_length, work_length - 1, 0, 13);
}

/* Example P6, and the same with the box over every label. */
static int wrong_judging(void)
{
    static const uint8_t graph[] = {1, 1, 0, 1, 0, 0, 1, 1, 1, 0, 0, 0, 2, 0, 1, 1, 0, 0};
    static const uint8_t property[] = {3, 9, 1, 1, 0, 0, 3, 6, 0, 0, 0, 0};
    static const uint8_t any_label[] = {3, 10, 1, 0, 0, 0, 3, 6, 0, 0, 0, 0};
    static const uint8_t sheet[] = {0, 0, 1, 1, 0, 255, 1, 1, 0, 255, 0, 255};
    static const struct example p6 = {tintboulder_judge, graph, property, sheet, sizeof graph, sizeof property, sizeof sheet, 2, {2, 0}};
    static const struct example any = {tintboulder_judge, graph, any_label, sheet, sizeof graph, sizeof any_label, sizeof sheet, 2, {2, 0}};
    return wrong_answers(&p6, 41664) + wrong_answers(&any, 41664) + (tintboulder_work(1) != 41664);
}

/* Example P9 behind a node that has nothing to match: the entry is node 1. */
static int wrong_comparing(void)
{
    static const uint8_t first[] = {1, 1, 0, 0, 0, 0, 1, 1, 0, 1, 0, 0, 2, 1, 0, 1, 0, 0};
    static const uint8_t second[] = {1, 1, 0, 1, 0, 0};
    static const uint8_t relation[64] = {1};
    static const struct example p9 = {tintboulder_compare, first, second, relation, sizeof first, sizeof second, sizeof relation, 2, {1, 0}};
    return wrong_answers(&p9, 165152) + (tintboulder_work(2) != 165152);
}

/* Example P1. */
static int wrong_modelling(void)
{
    static const uint8_t interface[] = {5, 1, 1, 0, 0, 0};
    static const uint8_t property[] = {3, 7, 1, 3, 0, 0, 3, 9, 1, 2, 0, 0, 3, 2, 0, 0, 0, 0, 3, 5, 0, 0, 0, 0};
    static const uint8_t model[] = {1, 1, 0, 0, 0, 0, 1, 1, 1, 0, 0, 0, 1, 1, 1, 1, 0, 0, 2, 0, 0, 0, 0, 0, 2, 0, 0, 1, 0, 0, 2, 0, 1, 0, 0, 0, 2, 0, 1,
                                    1, 0, 0, 2, 1, 0, 0, 0, 0, 2, 1, 0, 1, 0, 0, 2, 1, 1, 0, 0, 0, 2, 1, 1, 1, 0, 0, 2, 2, 0, 0, 0, 0, 2, 2, 0, 1, 0, 0};
    static const struct example p1 = {tintboulder_model, interface, property, model, sizeof interface, sizeof property, sizeof model, 1, {3, 10}};
    return wrong_answers(&p1, 103456) + (tintboulder_work(3) != 103456);
}

/* The answer's numbers, and the result at the start of out, all of which was 7 before. */
static int gives(struct tintboulder_answer a, uint32_t verdict, uint32_t number, const uint64_t values[4], const uint8_t *out, const uint8_t *result, size_t length)
{
    return a.verdict == verdict && a.number == number && a.first == values[0] && a.second == values[1] && a.third == values[2] && a.fourth == values[3]
        && memcmp(out, result, length) == 0 && filled(out + length, MOST_OUT - length, 7);
}

/* Method 1, whose entry calls 2; and method 2, whose return node calls 1. */
static const uint8_t interface1[] = {5, 1, 2, 0, 0, 0};
static const uint8_t graph1[] = {1, 1, 0, 1, 0, 0, 1, 1, 1, 0, 0, 0, 2, 0, 2, 1, 0, 0};
static const uint8_t interface2[] = {5, 2, 1, 0, 0, 0};
static const uint8_t graph2[] = {1, 2, 1, 1, 0, 0, 2, 0, 1, 0, 0, 0};
static const uint64_t no_values[4] = {0, 0, 0, 0};

/* An output that is a byte too short for their join; the second graph beside an interface that does not provide its method; and the join. */
static int wrong_joining(void)
{
    static const uint8_t joined[] = {1, 1, 0, 1, 0, 0, 1, 1, 1, 0, 0, 0, 1, 2, 1, 1, 0, 0, 2, 0, 2, 1, 0, 0, 2, 2, 1, 2, 0, 0};
    static const uint64_t counts_and_sets[4] = {3, 2, 3, 3}, foreign[4] = {4, 0, 0, 0};
    uint8_t out[MOST_OUT];
    struct tintboulder_answer a;
    int wrong = 0;
    memset(out, 7, MOST_OUT);
    a = tintboulder_join(interface1, sizeof interface1, graph1, sizeof graph1, interface2, sizeof interface2, graph2, sizeof graph2, out, sizeof joined - 1);
    wrong += !gives(a, 0, 12, no_values, out, joined, 0);
    a = tintboulder_join(interface1, sizeof interface1, graph1, sizeof graph1, interface1, sizeof interface1, graph2, sizeof graph2, out, MOST_OUT);
    wrong += !gives(a, 0, 9, foreign, out, joined, 0);
    a = tintboulder_join(interface1, sizeof interface1, graph1, sizeof graph1, interface2, sizeof interface2, graph2, sizeof graph2, out, sizeof joined + 2);
    wrong += !gives(a, 1, 0, counts_and_sets, out, joined, sizeof joined);
    return wrong;
}

/* The last node of their join is the first of the second graph; there is none after it, which is said before the output is looked at. */
static int wrong_showing(void)
{
    uint8_t out[MOST_OUT];
    int wrong = 0;
    memset(out, 7, MOST_OUT);
    wrong += !gives(tintboulder_show(graph1, sizeof graph1, graph2, sizeof graph2, 3, out, 5), 0, 7, no_values, out, graph2, 0);
    wrong += !gives(tintboulder_show(graph1, sizeof graph1, graph2, sizeof graph2, 2, out, 5), 0, 12, no_values, out, graph2, 0);
    wrong += !gives(tintboulder_show(graph1, sizeof graph1, graph2, sizeof graph2, 2, out, 6), 1, 0, no_values, out, graph2, 6);
    return wrong;
}

/* Watching with so much output and work of the example P11, from this start method: the answer's numbers, the trail or no change in out, and zeros or no change in
   work. */
static int watches(uint8_t start, size_t out_length, size_t work_length, uint32_t verdict, uint32_t number)
{
    static const uint8_t interface[] = {5, 1, 1, 0, 0, 0};
    static const uint8_t graph[] = {1, 1, 0, 1, 0, 0, 1, 1, 1, 0, 0, 0, 1, 1, 1, 1, 0, 0, 2, 0, 1, 1, 0, 0};
    static const uint8_t rules[] = {4, 0, 2, 1, 1, 7};
    static const uint8_t trail[] = {0, 0, 0, 0, 0, 0, 0, 0, 3, 1, 1, 7};
    static const uint64_t records[4] = {sizeof trail / 6, 0, 0, 0};
    static uint8_t out[MOST_OUT], work[MOST_WORK];
    struct tintboulder_answer a;
    memset(out, 7, MOST_OUT);
    memset(work, 7, MOST_WORK);
    a = tintboulder_watch(interface, sizeof interface, graph, sizeof graph, rules, sizeof rules, start, out, out_length, work, work_length);
    return gives(a, verdict, number, verdict == 0 ? no_values : records, out, trail, verdict == 0 ? 0 : sizeof trail)
        && cleared(work, work_length, number);
}

/* Bad with its two records, and the refusals by 3 and 10, for the start method, and by 12 and 13. */
static int wrong_watching(void)
{
    size_t room = 46949;
    return !watches(1, 14, room, 2, 0) + !watches(9, 14, room, 0, 3) + !watches(2, 14, room, 0, 10) + !watches(1, 11, room, 0, 12)
        + !watches(1, 12, room - 1, 0, 13) + (tintboulder_work(6) != room);
}

/* Bytes lent to a call that takes an output, a store and a work buffer, and what they are lent of. */
struct lent {
    size_t out, store, work;
};
static uint8_t whole_out[MOST_OUT], whole_store[MOST_WORK], whole_work[MOST_WORK];

static void fill_all(void)
{
    memset(whole_out, 7, MOST_OUT);
    memset(whole_store, 7, MOST_WORK);
    memset(whole_work, 7, MOST_WORK);
}

/* After such a call: the answer's numbers, the records that verdict 2 writes or no change in the output, and zeros or no change in store and work. */
static int leaves(struct tintboulder_answer a, struct lent lent, uint32_t verdict, uint32_t number, const uint8_t *records, size_t length)
{
    const uint64_t count[4] = {length / 6, 0, 0, 0};
    int writes = verdict == 2;
    return gives(a, verdict, number, writes ? count : no_values, whole_out, records, writes ? length : 0) && cleared(whole_store, lent.store, number)
        && cleared(whole_work, lent.work, number);
}

/* No call of method 1, now or after internal steps; no demand at all; and one that nothing meets. */
static const uint8_t no_call[] = {3, 7, 1, 2, 0, 0, 3, 9, 1, 3, 0, 0, 3, 9, 0, 0, 0, 0, 3, 2, 0, 0, 0, 0};
static const uint8_t anything[] = {3, 1, 0, 0, 0, 0};
static const uint8_t nothing[] = {3, 2, 0, 0, 0, 0};

/* The composed verdict of method 1, which calls method 2 again and again, where method 2 is not written and its call of 1 is bad. */
static int composes(const uint8_t *property, size_t length, uint8_t start, struct lent lent, uint32_t verdict, uint32_t number)
{
    static const uint8_t known[] = {5, 1, 2, 0, 0, 0}, other[] = {5, 2, 1, 0, 0, 0};
    static const uint8_t graph[] = {1, 1, 0, 1, 0, 0, 2, 0, 2, 0, 0, 0};
    static const uint8_t rules[] = {4, 0, 1, 2, 1, 7};
    static const uint8_t trail[] = {0, 0, 0, 0, 0, 0, 0, 0, 2, 2, 2, 0, 2, 0, 2, 1, 0, 7};
    struct tintboulder_answer a;
    fill_all();
    a = tintboulder_compose(known, sizeof known, graph, sizeof graph, other, sizeof other, property, length, rules, sizeof rules, start, whole_out, lent.out,
                            whole_store, lent.store, whole_work, lent.work);
    return leaves(a, lent, verdict, number, trail, sizeof trail);
}

/* Clean by the property, and without it bad with three records; then the refusals by 3 and 10, for the start method, by 12, and by 13 for each of both buffers. */
static int wrong_composing(void)
{
    static const struct lent whole = {20, 46949, 103456}, short_out = {17, 46949, 103456}, short_store = {18, 46948, 103456}, short_work = {18, 46949, 103455};
    const size_t n = sizeof anything;
    return !composes(no_call, sizeof no_call, 1, whole, 1, 0) + !composes(anything, n, 1, whole, 2, 0) + !composes(anything, n, 9, whole, 0, 3)
        + !composes(anything, n, 3, whole, 0, 10) + !composes(anything, n, 1, short_out, 0, 12) + !composes(anything, n, 1, short_store, 0, 13)
        + !composes(anything, n, 1, short_work, 0, 13) + (tintboulder_work(7) != whole.work) + (tintboulder_work(8) != whole.store);
}

/* The composed verdict of method 1, which calls 2 and returns, with this known interface; method 2 is not written, its call is bad, and nothing meets its property. */
static int composes_nothing(const uint8_t *known, struct lent lent, uint32_t verdict, uint32_t number)
{
    static const uint8_t other[] = {5, 2, 0, 0, 0, 0};
    static const uint8_t rules[] = {4, 0, 1, 1, 2, 7};
    struct tintboulder_answer a;
    fill_all();
    a = tintboulder_compose(known, 6, graph1, sizeof graph1, other, sizeof other, nothing, sizeof nothing, rules, sizeof rules, 1, whole_out, lent.out, whole_store,
                            lent.store, whole_work, lent.work);
    return leaves(a, lent, verdict, number, nothing, 0);
}

/* Impossible, also without any output; 16 where the known interface also provides method 3, before 10, for a method that nobody provides; and 13 before both. */
static int wrong_entries(void)
{
    static const uint8_t known[] = {5, 1, 2, 0, 0, 0}, lacking[] = {5, 5, 2, 0, 0, 0}, lacking_open[] = {5, 5, 130, 0, 0, 0}, open[] = {5, 1, 130, 0, 0, 0};
    static const struct lent whole = {20, 46949, 103456}, no_out = {0, 46949, 103456}, short_store = {20, 46948, 103456}, short_work = {20, 46949, 103455};
    return !composes_nothing(known, whole, 3, 0) + !composes_nothing(known, no_out, 3, 0) + !composes_nothing(lacking, whole, 0, 16)
        + !composes_nothing(lacking, no_out, 0, 16) + !composes_nothing(lacking_open, whole, 0, 16) + !composes_nothing(open, whole, 0, 10)
        + !composes_nothing(known, short_store, 0, 13) + !composes_nothing(lacking, short_work, 0, 13);
}

/* The composed verdict of method 1, which may call 2, and of method 2, which may call 1, where neither is written and a call of 1 by 2 is bad. */
static int composes_both(const uint8_t *property2, size_t length, uint8_t start, struct lent lent, uint32_t verdict, uint32_t number)
{
    static const uint8_t rules[] = {4, 0, 1, 2, 1, 7};
    static const uint8_t trail[] = {5, 0, 0, 0, 5, 0, 5, 0, 2, 1, 1, 7};
    struct tintboulder_answer a;
    fill_all();
    a = tintboulder_compose_both(interface1, sizeof interface1, anything, sizeof anything, interface2, sizeof interface2, property2, length, rules, sizeof rules,
                                 start, whole_out, lent.out, whole_store, lent.store, whole_work, lent.work);
    return leaves(a, lent, verdict, number, trail, sizeof trail);
}

/* Clean by the second property, also without any output, and without it bad with two records; then the refusals by 3 and 10, for the start method, by 12, and by 13 for
   each of both buffers, also before a property that is refused by 6. */
static int wrong_composing_both(void)
{
    static const struct lent whole = {14, 52224, 103456}, no_out = {0, 52224, 103456}, short_out = {11, 52224, 103456}, short_store = {12, 52223, 103456},
                             short_work = {12, 52224, 103455};
    const size_t n = sizeof anything;
    return !composes_both(no_call, sizeof no_call, 2, whole, 1, 0) + !composes_both(no_call, sizeof no_call, 2, no_out, 1, 0)
        + !composes_both(anything, n, 2, whole, 2, 0) + !composes_both(anything, n, 9, whole, 0, 3) + !composes_both(anything, n, 3, whole, 0, 10)
        + !composes_both(anything, n, 2, short_out, 0, 12) + !composes_both(anything, n, 2, short_store, 0, 13) + !composes_both(anything, n, 2, short_work, 0, 13)
        + !composes_both(anything, 0, 2, short_work, 0, 13) + (tintboulder_work(11) != whole.work) + (tintboulder_work(12) != whole.store);
}

/* Impossible by the first property, by the second and by both, from either method. */
static int wrong_entries_of_both(void)
{
    static const struct lent lent = {0, 52224, 103456};
    static const uint8_t *const first[] = {nothing, anything, nothing}, *const second[] = {anything, nothing, nothing};
    int wrong = 0, i;
    for (i = 0; i < 6; i++) {
        struct tintboulder_answer a;
        fill_all();
        a = tintboulder_compose_both(interface1, 6, first[i / 2], 6, interface2, 6, second[i / 2], 6, NULL, 0, (uint8_t)(1 + i % 2), whole_out, lent.out, whole_store,
                                     lent.store, whole_work, lent.work);
        wrong += !leaves(a, lent, 3, 0, nothing, 0);
    }
    return wrong;
}

/* Shared methods, and the files of a second side that are refused: the answer has the file's position. */
static int wrong_sides(void)
{
    static const struct lent lent = {12, 52224, 103456};
    static const uint64_t file_3[4] = {3, 0, 0, 0}, file_4[4] = {4, 0, 0, 0};
    const size_t n = sizeof anything;
    struct tintboulder_answer a, b, c;
    fill_all();
    a = tintboulder_compose_both(interface1, 6, anything, n, interface1, 6, anything, n, NULL, 0, 1, whole_out, lent.out, whole_store, lent.store, whole_work, lent.work);
    b = tintboulder_compose_both(interface1, 6, anything, n, anything, n, anything, n, NULL, 0, 1, whole_out, lent.out, whole_store, lent.store, whole_work, lent.work);
    c = tintboulder_compose_both(interface1, 6, anything, n, interface2, 6, NULL, 0, NULL, 0, 1, whole_out, lent.out, whole_store, lent.store, whole_work, lent.work);
    return !gives(a, 0, 9, no_values, whole_out, anything, 0) + !gives(b, 0, 2, file_3, whole_out, anything, 0) + !gives(c, 0, 6, file_4, whole_out, anything, 0);
}

/* Method 2, then two revisions of method 1, the higher one first; and one delivery twice. */
static const uint8_t deliveries[] = {6, 2, 3, 0, 0, 0, 1, 2, 0, 1, 0, 0, 2, 0, 0, 0, 0, 0, 6, 1, 9, 0, 0, 0, 1, 1, 0, 1, 0, 0, 6, 1, 8, 0, 0, 0, 1, 1, 1, 1, 0, 0};
static const uint8_t repeated[] = {6, 1, 1, 0, 0, 0, 6, 1, 1, 0, 0, 0};

/* The standing graph, and of no byte an empty one; then an equal revision, a foreign node beside it, and an output that is a byte too short. */
static int wrong_assembling(void)
{
    static const uint8_t standing[] = {1, 1, 0, 1, 0, 0, 1, 2, 0, 1, 0, 0, 2, 1, 0, 1, 0, 0};
    static const uint8_t foreign[] = {6, 1, 1, 0, 0, 0, 6, 1, 1, 0, 0, 0, 1, 2, 0, 0, 0, 0};
    static const uint64_t counts[4] = {2, 1, 0, 0}, at_node[4] = {1, 2, 0, 0};
    uint8_t out[MOST_OUT];
    int wrong = 0;
    memset(out, 7, MOST_OUT);
    wrong += !gives(tintboulder_assemble(NULL, 0, NULL, 0), 1, 0, no_values, out, standing, 0);
    wrong += !gives(tintboulder_assemble(repeated, sizeof repeated, out, MOST_OUT), 0, 14, no_values, out, standing, 0);
    wrong += !gives(tintboulder_assemble(foreign, sizeof foreign, out, MOST_OUT), 0, 8, at_node, out, standing, 0);
    wrong += !gives(tintboulder_assemble(deliveries, sizeof deliveries, out, sizeof standing - 1), 0, 12, no_values, out, standing, 0);
    wrong += !gives(tintboulder_assemble(deliveries, sizeof deliveries, out, sizeof standing + 2), 1, 0, counts, out, standing, sizeof standing);
    return wrong;
}

/* Judging these deliveries by "in method 1". */
static int judges(const uint8_t *file, size_t length, struct lent lent, uint32_t verdict, uint32_t number)
{
    static const uint8_t in_one[] = {3, 3, 1, 0, 0, 0};
    static const uint8_t sheet[] = {1, 0, 0, 255, 0, 255};
    struct tintboulder_answer a;
    fill_all();
    a = tintboulder_judge_deliveries(file, length, in_one, sizeof in_one, whole_out, lent.out, whole_store, lent.store, whole_work, lent.work);
    return leaves(a, lent, verdict, number, sheet, sizeof sheet);
}

/* Fails at method 2's node, and holds where only method 1 is delivered; then the refusals by 14, by 12, and by 13 for each of both buffers. */
static int wrong_judging_deliveries(void)
{
    static const struct lent whole = {8, 26112, 41664}, short_out = {5, 26112, 41664}, short_store = {6, 26111, 41664}, short_work = {6, 26112, 41663};
    const size_t n = sizeof deliveries;
    return !judges(deliveries, n, whole, 2, 0) + !judges(deliveries + 18, n - 18, whole, 1, 0) + !judges(repeated, sizeof repeated, whole, 0, 14)
        + !judges(deliveries, n, short_out, 0, 12) + !judges(deliveries, n, short_store, 0, 13) + !judges(deliveries, n, short_work, 0, 13)
        + (tintboulder_work(9) != whole.work) + (tintboulder_work(10) != whole.store);
}

/* A null pointer with length 0 is an empty slice: an empty graph is accepted, an empty property refused by 6; no room for a sheet is 12, no work buffer 13. */
static int wrong_nothing(void)
{
    static const uint8_t graph[] = {1, 1, 0, 1, 0, 0};
    static const uint8_t never[] = {3, 2, 0, 0, 0, 0};
    static uint8_t work[41664];
    struct tintboulder_answer a = tintboulder_judge(graph, sizeof graph, never, sizeof never, NULL, 0, work, sizeof work);
    struct tintboulder_answer b = tintboulder_judge(graph, sizeof graph, never, sizeof never, NULL, 0, NULL, 0);
    struct tintboulder_answer c = tintboulder_judge(NULL, 0, never, sizeof never, NULL, 0, work, sizeof work);
    return !accepts(tintboulder_check_graph, NULL, 0, 0) + (tintboulder_check_property(NULL, 0).number != 6) + (a.number != 12) + (b.number != 13)
        + (c.verdict != 1);
}

int main(void)
{
    static const uint8_t graph[] = {1, 1, 0, 1, 0, 0, 2, 0, 0, 0, 0, 0};
    static const uint8_t property[] = {3, 6, 0, 0, 0, 0};
    static const uint8_t rules[] = {4, 0, 1, 1, 2, 7, 4, 0, 1, 1, 2, 6};
    static const uint8_t interface[] = {5, 1, 0, 0, 0, 0, 5, 1, 0, 0, 0, 0};
    int wrong = 0;
    wrong += !accepts(tintboulder_check_graph, graph, 12, 1);
    wrong += !refuses(tintboulder_check_graph, graph + 6, 6, 7, 0);
    wrong += !accepts(tintboulder_check_property, property, 6, 0);
    wrong += !refuses(tintboulder_check_property, property, 0, 6, 0);
    wrong += !accepts(tintboulder_check_rules, rules, 6, 0);
    wrong += !refuses(tintboulder_check_rules, rules, 12, 4, 1);
    wrong += !accepts(tintboulder_check_interface, interface, 6, 0);
    wrong += !refuses(tintboulder_check_interface, interface, 12, 2, 1);
    wrong += wrong_judging();
    wrong += wrong_nothing();
    wrong += wrong_comparing();
    wrong += wrong_modelling();
    wrong += wrong_joining();
    wrong += wrong_showing();
    wrong += wrong_watching();
    wrong += wrong_composing();
    wrong += wrong_entries();
    wrong += wrong_composing_both();
    wrong += wrong_entries_of_both();
    wrong += wrong_sides();
    wrong += wrong_assembling();
    wrong += wrong_judging_deliveries();
    wrong += (tintboulder_work(0) != 0) + (tintboulder_work(13) != 0);
    return wrong;
}
