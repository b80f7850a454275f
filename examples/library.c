/* The library from C: the worked example of README. A formula line is read and
 * translated, the LTL table is printed, and two recordings are judged. Then what
 * is refused, and where. */
#include <stdio.h>
#include <string.h>

#include "brancadol.h"

static uint16_t psl[3 * BRANCADOL_MOST_PSL_NODES];
static uint16_t ltl[3 * BRANCADOL_MOST_EMITTED_NODES];

static void print_table(size_t nodes) {
    for (size_t i = 0; i < nodes; i++) {
        uint8_t line[BRANCADOL_MOST_NODE_BYTES];
        uint64_t answer = brancadol_write_node((uint16_t)i, ltl[3 * i], ltl[3 * i + 1],
                                               ltl[3 * i + 2], line, sizeof line);
        fwrite(line, 1, (size_t)brancadol_value(answer), stdout);
    }
}

/* A refusal's number and, where it carries one, its place. */
static void print_refusal(const char *what, uint64_t answer) {
    printf("%s is refused by %u", what, brancadol_refusal(answer));
    if (brancadol_has_place(answer))
        printf(" at %zu", brancadol_place(answer));
    printf("\n");
}

static const char *verdict(uint64_t answer) {
    if (brancadol_refusal(answer) != 0)
        return "none";
    return brancadol_value(answer) == 1 ? "yes" : "no";
}

static void judge(size_t psl_nodes, size_t ltl_nodes, const char *line) {
    brancadol_letter lead[BRANCADOL_MOST_LETTERS], loop[BRANCADOL_MOST_LETTERS];
    uint64_t answer = brancadol_read_trace((const uint8_t *)line, strlen(line), lead,
                                           BRANCADOL_MOST_LETTERS, loop, BRANCADOL_MOST_LETTERS);
    if (brancadol_refusal(answer) != 0) {
        print_refusal(line, answer);
        return;
    }
    size_t lead_length = brancadol_lead_length(answer), loop_length = brancadol_loop_length(answer);
    uint64_t by_psl = brancadol_psl_verdict(psl, 3 * psl_nodes, lead, lead_length, loop, loop_length);
    uint64_t by_ltl = brancadol_ltl_verdict(ltl, 3 * ltl_nodes, lead, lead_length, loop, loop_length);
    printf("%s: psl %s, ltl %s\n", line, verdict(by_psl), verdict(by_ltl));

    brancadol_letter letter;
    answer = brancadol_letter_at(lead, lead_length, loop, loop_length, 100, &letter);
    if (brancadol_refusal(answer) == 0)
        printf("  letter 100 is %llu\n", (unsigned long long)letter);
    else
        print_refusal("  letter 100", answer);
}

int main(void) {
    const char *line = "(psl (abort (until (strong (var 1)) (strong (var 2))) (var 0)))";
    uint64_t answer = brancadol_read_formula((const uint8_t *)line, strlen(line), psl,
                                             sizeof psl / sizeof psl[0]);
    if (brancadol_refusal(answer) != 0)
        return 1;
    size_t psl_nodes = (size_t)brancadol_value(answer);
    answer = brancadol_translate(psl, 3 * psl_nodes, ltl, sizeof ltl / sizeof ltl[0]);
    if (brancadol_refusal(answer) != 0)
        return 1;
    size_t ltl_nodes = (size_t)brancadol_value(answer);
    printf("%zu PSL nodes, %zu LTL nodes\n", psl_nodes, ltl_nodes);
    print_table(ltl_nodes);
    judge(psl_nodes, ltl_nodes, "(finite 2 2 6)");
    judge(psl_nodes, ltl_nodes, "(lasso (2) (2))");
    judge(psl_nodes, ltl_nodes, "(finite 2 2 6");

    /* Node 0 is true, node 1 its not: a Boolean where a formula is due. */
    const uint16_t wrong[] = {0, 0, 0, BRANCADOL_PSL_NOT, 0, 0};
    print_refusal("a table", brancadol_check_psl(wrong, sizeof wrong / sizeof wrong[0]));
    return 0;
}
