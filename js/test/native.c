/* Reads a corpus (corpus.mjs) from standard input, makes every call of reactive.h on each table, with lent buffers of several lengths, and
 * writes all that came back as 32-bit numbers: a number as it is, a buffer as its length and two sums. compare.mjs makes the same calls of
 * the module. With an argument N it prints times instead: of each table the least microseconds of N calls. */
#define _POSIX_C_SOURCE 199309L /* clock_gettime */
#include <stdio.h>
#include <stdlib.h>
#include <string.h>
#include <time.h>
#include "reactive.h"

#define MOST 400000
static uint32_t input[64 << 20], tree[MOST], line[MOST], answers[40], performed[MOST], moved[MOST], olds[MOST], back[MOST];
static uint8_t text[MOST], old_text[MOST], new_text[MOST];

static void say(uint32_t number) { fwrite(&number, 4, 1, stdout); }

#define SUM(name, type)                                                                                                                    \
    static void name(const type *items, size_t count) {                                                                                    \
        uint32_t h = 2166136261u, g = 7;                                                                                                   \
        for (size_t i = 0; i < count; i++) {                                                                                               \
            h = (h ^ items[i]) * 16777619u;                                                                                                \
            g = (g + items[i]) * 2654435761u;                                                                                              \
            g ^= g >> 15;                                                                                                                  \
        }                                                                                                                                  \
        say((uint32_t)count);                                                                                                              \
        say(h);                                                                                                                            \
        say(g);                                                                                                                            \
    }
SUM(say_words, uint32_t)
SUM(say_bytes, uint8_t)

static uint32_t state = 88172645u;
static uint32_t below(uint32_t limit) {
    state ^= state << 13;
    state ^= state >> 17;
    state ^= state << 5;
    return state % limit;
}

static void sevens(uint32_t *words, size_t count) {
    for (size_t i = 0; i < count; i++) words[i] = 7;
}

/* Both entries, what is found and run in their trees, and the same of rows that are spoilt. */
static void trees(const uint32_t *words, size_t count, uint32_t turn) {
    static const int more_rows[] = {0, 13, -1, 0}, more_lines[] = {0, 5, -1, -3, 0};
    for (int language = 0; language < 2; language++) {
        uint32_t at = 9, rows = 9, visits = 9, lines = 9, code;
        code = (language ? reactive_preview_language : reactive_preview)(words, count, &at, &rows, &visits, &lines);
        say(code), say(at), say(rows), say(visits), say(lines);
        long lent = 6 * (long)rows + more_rows[turn % 4], lent_lines = 3 * (long)lines + more_lines[turn % 5];
        if (lent < 0) lent = 0;
        if (lent_lines < 0) lent_lines = 0;
        sevens(tree, lent), sevens(line, lent_lines);
        code = (language ? reactive_build_language : reactive_build)(words, count, tree, lent, line, lent_lines, &at, &rows, &visits,
                                                                     &lines);
        say(code), say(at), say(rows), say(visits), say(lines), say_words(tree, lent), say_words(line, lent_lines);
        size_t length = code ? (size_t)lent : 6 * (size_t)rows;
        for (uint32_t k = 0; k <= lines; k++) {
            uint32_t label = k < lines ? line[3 * k] : below(40);
            size_t begin = 9, end = 9;
            say(reactive_tree_lookup(line, lent_lines, lines, label, tree, length, &at, &begin, &end));
            say(at), say((uint32_t)begin), say((uint32_t)end);
        }
        for (int round = 0; round < 3; round++) {
            say(reactive_tree_check(tree, length, &at)), say(at);
            for (int k = 0; k < 40; k++) answers[k] = below(3);
            size_t room = round == 1 ? below(6) : 300, number = 9;
            uint32_t reason = 9;
            sevens(performed, room);
            say(reactive_tree_run(tree, length, answers, 40, performed, room, &at, &number, &reason));
            say(at), say((uint32_t)number), say(reason), say_words(performed, room);
            if (length) {
                uint32_t place = below((uint32_t)length);
                tree[place] = below(2) ? below(26) : below(70000);
            }
        }
    }
}

/* The table itself: check, law, drawing, texts, walking order. */
static void tables(const uint32_t *words, size_t count, uint32_t turn) {
    uint32_t at = 9, law = 9;
    size_t size = 9, number = 9;
    say(reactive_table_check(words, count, &at)), say(at);
    say(reactive_table_plain(words, count, &at, &law)), say(at), say(law);
    size_t room = turn % 3 ? 20000 : below(60);
    memset(text, 7, room);
    say(reactive_blocks_to_dot(words, count, text, room, &at, &size)), say(at), say((uint32_t)size), say_bytes(text, room);
    room = turn % 5 ? 11 * count + 256 : below(300);
    memset(text, 7, room);
    say(reactive_table_write(words, count, text, room, &at, &size)), say(at), say((uint32_t)size), say_bytes(text, room);
    for (int round = 0; round < 2; round++) {
        size_t places = turn % 4 ? count + 3 : count - (count > 0);
        sevens(moved, places);
        say(reactive_table_read(text, size, moved, places, &at, &number)), say(at), say((uint32_t)number), say_words(moved, places);
        size_t old_size = 9, new_size = 9;
        memset(old_text, 7, TABLE_TEXT_OLD_LARGEST);
        say(reactive_table_new_to_old(text, size, old_text, TABLE_TEXT_OLD_LARGEST, &at, &old_size)), say(at), say((uint32_t)old_size);
        say_bytes(old_text, TABLE_TEXT_OLD_LARGEST);
        memset(new_text, 7, TABLE_TEXT_NEW_LARGEST);
        say(reactive_table_old_to_new(old_text, old_size, new_text, TABLE_TEXT_NEW_LARGEST, &at, &new_size));
        say(at), say((uint32_t)new_size);
        say_bytes(new_text, TABLE_TEXT_NEW_LARGEST);
        if (size) {
            uint32_t place = below((uint32_t)size);
            text[place] = (uint8_t)"0 1\n9x"[below(6)];
        }
    }
    size_t blocks = count > 1 && words[1] <= 1024 ? words[1] : 0, wrong = turn % 7 == 0;
    sevens(moved, count + wrong), sevens(olds, blocks);
    say(reactive_blocks_rearrange(words, count, moved, count + wrong, olds, blocks, &at)), say(at);
    say_words(moved, count + wrong), say_words(olds, blocks);
    sevens(back, count);
    say(reactive_blocks_restore(moved, count, olds, blocks, back, count, &at)), say(at), say_words(back, count);
}

static double now(void) {
    struct timespec t;
    clock_gettime(CLOCK_MONOTONIC, &t);
    return t.tv_sec * 1e6 + t.tv_nsec / 1e3;
}

static void times(const uint32_t *words, size_t count, int rounds) {
    uint32_t at, rows, visits, lines, law, code = reactive_preview(words, count, &at, &rows, &visits, &lines);
    double build = 1e12, preview = 1e12, plain = 1e12;
    for (int k = 0; k < rounds; k++) {
        double t0 = now();
        reactive_build(words, count, tree, 6 * rows, line, 3 * lines, &at, &rows, &visits, &lines);
        double t1 = now();
        reactive_preview(words, count, &at, &rows, &visits, &lines);
        double t2 = now();
        reactive_table_plain(words, count, &at, &law);
        double t3 = now();
        if (t1 - t0 < build) build = t1 - t0;
        if (t2 - t1 < preview) preview = t2 - t1;
        if (t3 - t2 < plain) plain = t3 - t2;
    }
    printf("%u %u %.2f %.2f %.2f\n", code, count > 1 ? words[1] : 0, build, preview, plain);
}

int main(int argc, char **argv) {
    size_t got = fread(input, 4, sizeof input / 4, stdin), place = 1;
    if (got == 0 || got == sizeof input / 4) return 1;
    for (uint32_t turn = 0; turn < input[0]; turn++) {
        size_t count = input[place++];
        if (argc > 1) {
            times(input + place, count, atoi(argv[1]));
        } else {
            trees(input + place, count, turn);
            tables(input + place, count, turn);
        }
        place += count;
    }
    return fflush(stdout) != 0;
}
