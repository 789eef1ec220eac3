/* The C boundary of the flow-graph checker. A slice is a pointer, then its length in bytes. The slices of one call must not overlap where one of them is written (out, store, work):
   what is proved holds of slices that are apart. With a length of 0 nothing is read or written through the pointer, which may be null: such a file is empty, such an output or buffer
   has no room. */
#ifndef TINTBOULDER_H
#define TINTBOULDER_H

#include <stddef.h>
#include <stdint.h>

#ifdef __cplusplus
extern "C" {
#endif

/* verdict 0: refused, with the number of the published table; first is the file's position from 1, second the first offending record from 0.
   Other verdicts have number 0 and carry their values from first on; values that a call does not name are 0. */
struct tintboulder_answer {
    uint32_t verdict;
    uint32_t number;
    uint64_t first;
    uint64_t second;
    uint64_t third;
    uint64_t fourth;
};

/* Check one file as the file of position 1. Verdict 1: accepted; first is the number of its node records, second the number of its records. */
struct tintboulder_answer tintboulder_check_graph(const uint8_t *file, size_t file_length);
struct tintboulder_answer tintboulder_check_property(const uint8_t *file, size_t file_length);
struct tintboulder_answer tintboulder_check_rules(const uint8_t *file, size_t file_length);
struct tintboulder_answer tintboulder_check_interface(const uint8_t *file, size_t file_length);

/* Does the graph satisfy the property? Verdict 1: it holds. Verdict 2: it fails; first is the number of records of the fault sheet, which is written to out.
   work is scratch of at least tintboulder_work(1) bytes, else refusal 13; its content does not matter, and it is all zero afterwards, except after 13. */
struct tintboulder_answer tintboulder_judge(const uint8_t *graph, size_t graph_length, const uint8_t *property, size_t property_length, uint8_t *out,
                                            size_t out_length, uint8_t *work, size_t work_length);

/* Does the second graph simulate the first? Verdict 1: yes. Verdict 2: no; first is the lowest uncovered entry. The largest relation is written to out either way,
   32 bytes for each node of the first graph. work is as above, of at least tintboulder_work(2) bytes. */
struct tintboulder_answer tintboulder_compare(const uint8_t *first, size_t first_length, const uint8_t *second, size_t second_length, uint8_t *out,
                                              size_t out_length, uint8_t *work, size_t work_length);

/* The maximal model of the interface and the property: it simulates a flow graph of the interface, however large, exactly when that graph satisfies the property.
   Verdict 1: written; first is the number of its nodes, second that of its edges, and its graph file, 6 bytes for each of both, is written to out.
   work is as above, of at least tintboulder_work(3) bytes. */
struct tintboulder_answer tintboulder_model(const uint8_t *interface, size_t interface_length, const uint8_t *property, size_t property_length, uint8_t *out,
                                            size_t out_length, uint8_t *work, size_t work_length);

/* Two sides joined: the nodes of graph2 come after those of graph1, and the interfaces are united. Verdict 1: written; first is the number of the joined graph's
   nodes, second that of its edges, third and fourth are the united interface's provided and required bytes; the graph file, 6 bytes for each node and edge, is
   written to out. No work buffer is lent. */
struct tintboulder_answer tintboulder_join(const uint8_t *interface1, size_t interface1_length, const uint8_t *graph1, size_t graph1_length,
                                           const uint8_t *interface2, size_t interface2_length, const uint8_t *graph2, size_t graph2_length, uint8_t *out,
                                           size_t out_length);

/* The record of a joined node, by its number in the joined graph, in the file it came from. Verdict 1: shown; its six bytes are written to out. A number that is not
   below both node counts together is refused by 7 with file 0 and record 0, and then an output of less than six bytes by 12. No work buffer is lent. */
struct tintboulder_answer tintboulder_show(const uint8_t *graph1, size_t graph1_length, const uint8_t *graph2, size_t graph2_length, uint64_t number,
                                           uint8_t *out, size_t out_length);

/* Does some run from the start method, over calls stacked to any depth, take the monitor of the rules from state 0 to state 7? Verdict 1: clean. Verdict 2: bad; first
   is the number of records of the trail, which is written to out, 6 bytes each. A start that is not 1 to 8 is refused by 3 with file 0 and record 0.
   work is as above, of at least tintboulder_work(6) bytes. */
struct tintboulder_answer tintboulder_watch(const uint8_t *interface, size_t interface_length, const uint8_t *graph, size_t graph_length, const uint8_t *rules,
                                            size_t rules_length, uint8_t start, uint8_t *out, size_t out_length, uint8_t *work, size_t work_length);

/* The composed verdict, for a side that is not written yet: is every run clean, from the start method, of the known graph joined with a flow graph of the other
   interface that satisfies the property and has an entry for each provided method, whichever and however large it is? Verdict 1: clean. Verdict 2: bad; first is the
   number of records of the trail, which is written to out, 6 bytes each: a run of the known graph joined with the maximal model, the known graph's nodes first.
   Verdict 3: impossible: no flow graph of the other interface with an entry for each provided method satisfies the property; nothing is written. Interfaces, graph,
   property and rules are refused as files 1 to 5, a start that is not 1 to 8 by 3, and a known graph that lacks an entry for a method that its interface provides by
   16, between 9 and 10, both with file 0 and record 0. store and work are both scratch as work above, of at least tintboulder_work(8) and tintboulder_work(7) bytes. */
struct tintboulder_answer tintboulder_compose(const uint8_t *known_interface, size_t known_interface_length, const uint8_t *known_graph, size_t known_graph_length,
                                              const uint8_t *other_interface, size_t other_interface_length, const uint8_t *property, size_t property_length,
                                              const uint8_t *rules, size_t rules_length, uint8_t start, uint8_t *out, size_t out_length, uint8_t *store,
                                              size_t store_length, uint8_t *work, size_t work_length);

/* The composed verdict for two sides that are not written yet: is every run clean, from the start method, of two flow graphs joined, of which each is of its side's
   interface, satisfies its property and has an entry for each provided method, whichever and however large they are? Verdict 1: clean. Verdict 2: bad; first is the
   number of records of the trail, which is written to out, 6 bytes each: a run of the two maximal models joined, the first side's nodes first. Verdict 3: impossible: of
   one of the sides, no flow graph of its interface with an entry for each provided method satisfies its property; nothing is written. Interfaces, properties and rules
   are refused as files 1 to 5, and a start that is not 1 to 8 by 3 with file 0 and record 0. store and work are both scratch as work above, of at least
   tintboulder_work(12) and tintboulder_work(11) bytes. */
struct tintboulder_answer tintboulder_compose_both(const uint8_t *interface1, size_t interface1_length, const uint8_t *property1, size_t property1_length,
                                                   const uint8_t *interface2, size_t interface2_length, const uint8_t *property2, size_t property2_length,
                                                   const uint8_t *rules, size_t rules_length, uint8_t start, uint8_t *out, size_t out_length,
                                                   uint8_t *store, size_t store_length, uint8_t *work, size_t work_length);

/* The graph of a file of deliveries: each opens with a record of kind 6 and has the nodes and edges of one method, numbered from 0 within it; of each method the
   highest revision stands, and the methods ascend. Verdict 1: written; first is the number of the standing graph's nodes, second that of its edges, and its graph file,
   6 bytes for each of both, is written to out. Two deliveries of one method with equal revisions are refused by 14, a standing graph past the limits by 11, both with
   file 0 and record 0. No work buffer is lent. */
struct tintboulder_answer tintboulder_assemble(const uint8_t *deliveries, size_t deliveries_length, uint8_t *out, size_t out_length);

/* Does the standing graph of the deliveries satisfy the property? Verdict 1: it holds. Verdict 2: it fails; first is the number of records of the fault sheet, which is
   written to out, in the standing graph's numbers. Deliveries and property are refused as files 1 and 2, then the deliveries by 14 and 11 as above. store and work are
   both scratch as work above, of at least tintboulder_work(10) and tintboulder_work(9) bytes. */
struct tintboulder_answer tintboulder_judge_deliveries(const uint8_t *deliveries, size_t deliveries_length, const uint8_t *property, size_t property_length,
                                                       uint8_t *out, size_t out_length, uint8_t *store, size_t store_length, uint8_t *work,
                                                       size_t work_length);

/* The least length of the work buffer of a call: 1 judge, 2 compare, 3 model, 6 watch, 7 compose, 9 judge_deliveries, 11 compose_both; 8 is that of compose's store,
   10 that of judge_deliveries' store, 12 that of compose_both's store; 0 for other numbers. */
uint64_t tintboulder_work(uint64_t call);

#ifdef __cplusplus
}
#endif

#endif
