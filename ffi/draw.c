/* Draws W of paper 01, a while loop, and prints the text; then with a buffer that is too short by a byte. */
#include "reactive.h"

#include <inttypes.h>
#include <stdio.h>

enum { BLOCK_WORDS = 11 };

static const struct {
    uint32_t head[6];
    uint32_t blocks[4][BLOCK_WORDS];
    uint32_t place, identifier;
} table = {
    {0, 4, 0, 0, 1, 1}, /* entry 0; 4 blocks, no instruction, no case, 1 place, 1 identifier */
    {
        {0, 0, 9, 1, 2, 3, 0, 0, 1}, /* 0 While: test 1, loop 2, fallthrough 3 */
        {0, 0, 6, 0, 2, 3, 0, 0, 2}, /* 1 Branch on place 0: to 2 or 3 */
        {0, 0, 4, 1, 1, 0, 0, 0, 3}, /* 2 Goto 1, Continue */
        {0, 0, 3, 0, 0, 0, 0, 0, 4}, /* 3 Return of place 0 */
    },
    0, /* place 0 is identifier 0 */
    1, /* identifier 0 has a name */
};

static uint8_t text[256];

static size_t draw(size_t bytes_lent) {
    uint32_t at;
    size_t length;
    uint32_t code = reactive_blocks_to_dot(table.head, sizeof table / sizeof(uint32_t), text, bytes_lent, &at, &length);
    printf("code %" PRIu32 " at %" PRIu32 " length %zu\n", code, at, length);
    fwrite(text, 1, length, stdout);
    return length;
}

int main(void) {
    size_t length = draw(sizeof text);
    draw(length - 1);
    return 0;
}
