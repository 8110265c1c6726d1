/* A break out of a loop, in a switch (examples/switch.txt): the build that equals the Rust prints it without a label, and so it would leave
 * the switch; the build by the language's rule (M-102) labels it. */
#include "reactive.h"

#include <inttypes.h>
#include <stdio.h>

static const uint32_t table[] = {
    0, 6, 0, 1, 1, 1,                /* entry 0; 6 blocks, no instruction, 1 case, 1 place, 1 identifier */
    0, 0, 9, 1, 2, 3, 0, 0, 1, 0, 0, /* 0 While: test 1, loop 2, fallthrough 3 */
    0, 0, 6, 0, 2, 3, 0, 0, 2, 0, 0, /* 1 Branch on place 0: to 2 or 3 */
    0, 0, 7, 0, 0, 1, 5, 0, 3, 0, 0, /* 2 Switch on place 0: case 0, fallthrough 5 */
    0, 0, 3, 0, 0, 0, 0, 0, 4, 0, 0, /* 3 Return of place 0 */
    0, 0, 4, 3, 0, 0, 0, 0, 5, 0, 0, /* 4 Goto 3, Break: out of the loop */
    0, 0, 4, 1, 1, 0, 0, 0, 6, 0, 0, /* 5 Goto 1, Continue */
    0, 4,                            /* case 0: test place 0, block 4 */
    0,                               /* place 0 is identifier 0 */
    1,                               /* identifier 0 has a name */
};

enum { BREAK = 24 };

static const char *const kinds[] = {"Implicit", "Labeled", "Unlabeled"};

static uint32_t tree[16 * REACTIVE_BUILD_ROW_WORDS];
static uint32_t labels[4 * REACTIVE_BUILD_LINE_WORDS];

static void print(const char *entry, uint32_t code, uint32_t rows, uint32_t lines) {
    printf("%s: code %" PRIu32 " rows %" PRIu32 " lines %" PRIu32 "\n", entry, code, rows, lines);
    for (uint32_t row = 0; row < rows; row++) {
        const uint32_t *words = tree + row * REACTIVE_BUILD_ROW_WORDS;
        if (words[0] == BREAK) printf("  row %" PRIu32 ": break to %" PRIu32 ", %s\n", row, words[1], kinds[words[3]]);
    }
}

int main(void) {
    size_t table_words = sizeof table / sizeof *table, tree_words = sizeof tree / sizeof *tree, label_words = sizeof labels / sizeof *labels;
    uint32_t at, rows, visits, lines;
    uint32_t code = reactive_build(table, table_words, tree, tree_words, labels, label_words, &at, &rows, &visits, &lines);
    print("first entry", code, rows, lines);
    code = reactive_build_language(table, table_words, tree, tree_words, labels, label_words, &at, &rows, &visits, &lines);
    print("language entry", code, rows, lines);
    return 0;
}
