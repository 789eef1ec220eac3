/* The composed verdict from C: is every run clean, whatever module is written against the property? Four calls: a property that allows everything, one that forbids
   the call that is bad, one that no module meets, and one that is refused because it names a row that it does not have.

       cc -std=c99 -o compose examples/c/compose.c target/staticlib/libexports.a
 */
#include "../../include/tintboulder.h"

#include <inttypes.h>
#include <stdio.h>
#include <stdlib.h>

/* A file: its bytes and how many there are. */
struct file {
    const uint8_t *bytes;
    size_t length;
};

#define FILE_OF(array) {array, sizeof array}

/* Scratch and output, allocated once and lent to one call after the other. */
struct buffers {
    uint8_t *out, *store, *work;
    size_t out_length, store_length, work_length;
};

/* A trail has the fewest records, so it reaches none of 256 nodes twice in one of 8 states: with so many bytes no call is refused by 12. */
enum { RECORD = 6, LONGEST_TRAIL = 256 * 8 * RECORD };

/* The known side: method 1 calls method 2 again and again. */
static const uint8_t known_interface[] = {5, 1, 2, 0, 0, 0};
static const uint8_t known_graph[] = {
    1, 1, 0, 1, 0, 0, /* node 0: method 1, no return, an entry */
    2, 0, 2, 0, 0, 0, /* from node 0 a call of method 2; behind it node 0 */
};

/* The other side, which is not written: it provides method 2 and may call method 1. */
static const uint8_t other_interface[] = {5, 2, 1, 0, 0, 0};

/* A call of method 1 by method 2 is bad. */
static const uint8_t rule_bytes[] = {4, 0, 1, 2, 1, 7};

static const uint8_t anything[] = {3, 1, 0, 0, 0, 0};
static const uint8_t nothing[] = {3, 2, 0, 0, 0, 0};
static const uint8_t no_call[] = {
    3, 7, 1, 2, 0, 0, /* row 0, the root: rows 1 and 2 */
    3, 9, 1, 3, 0, 0, /* row 1: after every call of method 1, row 3 */
    3, 9, 0, 0, 0, 0, /* row 2: after every internal step, row 0 again */
    3, 2, 0, 0, 0, 0, /* row 3: false */
};
static const uint8_t missing_row[] = {
    3, 7, 1, 1, 0, 0, /* row 0: row 1 */
    3, 9, 1, 2, 0, 0, /* row 1: after every call of method 1, row 2, which is not there */
};

static struct tintboulder_answer compose(struct file property, struct file rules, uint8_t start, const struct buffers *lent)
{
    return tintboulder_compose(known_interface, sizeof known_interface, known_graph, sizeof known_graph, other_interface, sizeof other_interface, property.bytes,
                               property.length, rules.bytes, rules.length, start, lent->out, lent->out_length, lent->store, lent->store_length, lent->work,
                               lent->work_length);
}

static void print_trail(const uint8_t *trail, uint64_t records)
{
    uint64_t i;
    for (i = 0; i < records; i++, trail += RECORD)
        printf("    %d %d %d %d %d %d\n", trail[0], trail[1], trail[2], trail[3], trail[4], trail[5]);
}

static void print_answer(const char *property, struct tintboulder_answer answer, const uint8_t *out)
{
    printf("%s: ", property);
    switch (answer.verdict) {
    case 0:
        printf("refused by %" PRIu32 ", file %" PRIu64 ", record %" PRIu64 "\n", answer.number, answer.first, answer.second);
        break;
    case 1:
        printf("clean with every module that conforms\n");
        break;
    case 2:
        printf("bad with a module that conforms, by a trail of %" PRIu64 " records\n", answer.first);
        print_trail(out, answer.first);
        break;
    case 3:
        printf("impossible: no module conforms\n");
        break;
    default:
        printf("no verdict of this call\n");
    }
}

int main(void)
{
    static const struct {
        const char *name;
        struct file file;
    } properties[] = {{"anything", FILE_OF(anything)},
                      {"no call of method 1", FILE_OF(no_call)},
                      {"nothing", FILE_OF(nothing)},
                      {"a row that is not there", FILE_OF(missing_row)}};
    static const struct file rules = FILE_OF(rule_bytes);
    const uint8_t start = 1;
    struct buffers lent;
    size_t i;
    int status = EXIT_FAILURE;

    lent.out_length = LONGEST_TRAIL;
    lent.store_length = (size_t)tintboulder_work(8);
    lent.work_length = (size_t)tintboulder_work(7);
    lent.out = malloc(lent.out_length);
    lent.store = malloc(lent.store_length);
    lent.work = malloc(lent.work_length);
    if (lent.out != NULL && lent.store != NULL && lent.work != NULL) {
        for (i = 0; i < sizeof properties / sizeof *properties; i++)
            print_answer(properties[i].name, compose(properties[i].file, rules, start, &lent), lent.out);
        status = EXIT_SUCCESS;
    }
    free(lent.out);
    free(lent.store);
    free(lent.work);
    return status;
}
