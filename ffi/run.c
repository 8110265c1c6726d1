/* Runs the kerning search of examples/search.txt on paper: a pair that does not match, one that does, and one more that would. Then the same with the
 * break tied to the inner statement, the IF: it leaves the IF alone, and the search goes on past its match. */
#include "reactive.h"

#include <inttypes.h>
#include <stdio.h>

enum { ROW_WORDS = 6, ROWS = 19, BREAK = 9, LENT = 32 };

static uint32_t tree[ROWS][ROW_WORDS] = {
    {1, 0}, {4, 1, 0, 0, 10},   /* let found */
    {1, 1},                     /* another(pairs) */
    {1, 2}, {4, 5, 2, 38, 63},  /* const pair = next(pairs) */
    {1, 3}, {4, 6, 3, 70, 90},  /* matches(pair, glyph) */
    {1, 4}, {4, 8, 0, 98, 110}, /* found = pair */
    {24, 5, 9, 2},              /* BREAK Unlabeled: out of the WHILE */
    {9, 2}, {10, 3, 0, 7, 4},   /* IF, label 4 */
    {25, 5, 10}, {9, 4},
    {14, 2, 5},                 /* WHILE, label 5 */
    {1, 5}, {4, 11, 4, 136, 141}, {22, 4, 12}, /* return found */
    {9, 4},
};

static void show(const char *name) {
    /* another: yes, matches: no; another: yes, matches: yes; another: yes, matches: yes; another: no */
    static const uint32_t answers[] = {1, 0, 1, 1, 1, 1, 0};
    uint32_t performed[LENT], at, reason;
    size_t number;
    size_t answer_count = sizeof answers / sizeof *answers;
    uint32_t code = reactive_tree_run(tree[0], ROWS * ROW_WORDS, answers, answer_count, performed, LENT, &at, &number, &reason);
    printf("%s: code %" PRIu32 " at %" PRIu32 " number %zu reason %" PRIu32 "\n", name, code, at, number, reason);
    for (size_t i = 0; i < number; i++) printf(i ? " %" PRIu32 : "%" PRIu32, performed[i]);
    printf("\n");
}

int main(void) {
    show("search");
    tree[BREAK][1] = 4; /* Labeled 4: out of the IF */
    tree[BREAK][3] = 1;
    show("break tied to the IF");
    return 0;
}
