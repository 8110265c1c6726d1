/* W of paper 01, a while loop, with an instruction before its return: the table of two examples. */
#ifndef WHILE_TABLE_H
#define WHILE_TABLE_H

#include <stdint.h>

static const uint32_t table[] = {
    0, 4, 1, 0, 1, 1,                /* entry 0; 4 blocks, 1 instruction, no case, 1 place, 1 identifier */
    0, 0, 9, 1, 2, 3, 0, 0, 1, 0, 0, /* 0 While: test 1, loop 2, fallthrough 3 */
    0, 0, 6, 0, 2, 3, 0, 0, 2, 0, 0, /* 1 Branch on place 0: to 2 or 3 */
    0, 0, 4, 1, 1, 0, 0, 0, 3, 0, 0, /* 2 Goto 1, Continue */
    0, 1, 3, 0, 0, 0, 0, 0, 4, 0, 0, /* 3 instruction 0, then Return of place 0 */
    5, 0, 0, 0, 0, 30, 42,           /* instruction 0, id 5, to place 0: characters 30 to 42 of the source */
    0,                               /* place 0 is identifier 0 */
    1,                               /* identifier 0 has a name */
};

enum { TABLE_WORDS = sizeof table / sizeof *table };

#endif
