/* Puts the blocks of a while loop in walking order, prints the table and the list, restores the first table, and tries a list that is
 * no permutation. */
#include "reactive.h"

#include <inttypes.h>
#include <stdio.h>
#include <string.h>

enum { BLOCKS = 4, BLOCK_WORDS = 11 };

struct table {
    uint32_t head[6];
    uint32_t blocks[BLOCKS][BLOCK_WORDS];
    uint32_t place, identifier;
};

enum { WORDS = sizeof(struct table) / sizeof(uint32_t) };

static const struct table table = {
    {3, BLOCKS, 0, 0, 1, 1}, /* entry 3; 4 blocks, no instruction, no case, 1 place, 1 identifier */
    {
        {0, 0, 3, 0, 0, 0, 0, 0, 4}, /* 0 Return of place 0 */
        {0, 0, 4, 2, 1, 0, 0, 0, 3}, /* 1 Goto 2, Continue */
        {0, 0, 6, 0, 1, 0, 0, 0, 2}, /* 2 Branch on place 0: to 1 or 0 */
        {0, 0, 9, 2, 1, 0, 0, 0, 1}, /* 3 While: test 2, loop 1, fallthrough 0 */
    },
    0, /* place 0 is identifier 0 */
    1, /* identifier 0 has a name */
};

int main(void) {
    struct table walked, first;
    uint32_t old_numbers[BLOCKS], at;
    uint32_t code = reactive_blocks_rearrange(table.head, WORDS, walked.head, WORDS, old_numbers, BLOCKS, &at);
    printf("code %" PRIu32 " at %" PRIu32 " entry %" PRIu32 "\n", code, at, walked.head[0]);
    for (size_t block = 0; block < BLOCKS; block++) {
        const uint32_t *row = walked.blocks[block];
        printf("%zu was %" PRIu32 ": %" PRIu32 " %" PRIu32 " %" PRIu32 " %" PRIu32 "\n", block, old_numbers[block], row[2], row[3], row[4], row[5]);
    }
    code = reactive_blocks_restore(walked.head, WORDS, old_numbers, BLOCKS, first.head, WORDS, &at);
    printf("code %" PRIu32 " at %" PRIu32 " %s\n", code, at, memcmp(&first, &table, sizeof table) == 0 ? "restored" : "not restored");
    old_numbers[0] = old_numbers[1];
    code = reactive_blocks_restore(walked.head, WORDS, old_numbers, BLOCKS, first.head, WORDS, &at);
    printf("code %" PRIu32 " at %" PRIu32 "\n", code, at);
    return 0;
}
