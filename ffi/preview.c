/* Asks what the build of W of paper 01 needs, takes just that much memory and builds; then asks of W with a loop that is refused. */
#include "reactive.h"
#include "while_table.h"

#include <inttypes.h>
#include <stdio.h>
#include <stdlib.h>
#include <string.h>

enum { FALLTHROUGH = 6 + 5 }; /* of block 0, in the table */

static void print(const char *call, uint32_t code, uint32_t at, uint32_t rows, uint32_t visits, uint32_t lines) {
    printf("%s: code %" PRIu32 " at %" PRIu32 " rows %" PRIu32 " visits %" PRIu32 " lines %" PRIu32 "\n", call, code, at, rows, visits, lines);
}

int main(void) {
    uint32_t at, rows, visits, lines;
    uint32_t code = reactive_preview(table, TABLE_WORDS, &at, &rows, &visits, &lines);
    print("preview", code, at, rows, visits, lines);

    size_t tree_words = (size_t)rows * REACTIVE_BUILD_ROW_WORDS, index_words = (size_t)lines * REACTIVE_BUILD_LINE_WORDS;
    uint32_t *tree = malloc(tree_words * sizeof *tree), *labels = malloc(index_words * sizeof *labels);
    if (tree == NULL || labels == NULL) return 1;
    code = reactive_build(table, TABLE_WORDS, tree, tree_words, labels, index_words, &at, &rows, &visits, &lines);
    print("build", code, at, rows, visits, lines);
    free(tree);
    free(labels);

    uint32_t refused[TABLE_WORDS];
    memcpy(refused, table, sizeof table);
    refused[FALLTHROUGH] = 1; /* the While's fallthrough is its test */
    code = reactive_preview(refused, TABLE_WORDS, &at, &rows, &visits, &lines);
    print("preview", code, at, rows, visits, lines);
    return 0;
}
