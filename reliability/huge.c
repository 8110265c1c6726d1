/* Lengths over 2^32: a length that is cut to 32 bits would change an answer. What is lent is 16 GB of addresses over 4 MB of memory: the
 * first 2 MB are its own, behind them the same 2 MB stand again and again (only zeros are written there). */
#define _GNU_SOURCE
#include "reactive.h"
#include <stdio.h>
#include <stdlib.h>
#include <string.h>
#include <sys/mman.h>
#include <unistd.h>
#define SEG (2u << 20)
#define BIG (1ull << 32)
static int failed, n;
static void is(const char *what, int ok) {
    n++;
    if (ok) return;
    failed++;
    printf("huge: FAILED: %s\n", what);
}

/* The addresses; all of their bytes are 7. */
static void *alias(size_t bytes) {
    int again = memfd_create("again", 0);
    if (ftruncate(again, SEG)) abort();
    size_t all = (bytes + SEG - 1) / SEG * SEG;
    char *p = mmap(NULL, all, PROT_NONE, MAP_PRIVATE | MAP_ANONYMOUS | MAP_NORESERVE, -1, 0);
    if (p == MAP_FAILED) abort();
    if (mmap(p, SEG, PROT_READ | PROT_WRITE, MAP_PRIVATE | MAP_ANONYMOUS | MAP_FIXED, -1, 0) == MAP_FAILED) abort();
    for (size_t at = SEG; at < all; at += SEG)
        if (mmap(p + at, SEG, PROT_READ | PROT_WRITE, MAP_SHARED | MAP_FIXED, again, 0) == MAP_FAILED) abort();
    memset(p, 7, 2 * SEG);
    close(again);
    return p;
}

int main(void) {
    static const uint32_t t[] = {0, 1, 0, 0, 1, 1, 0, 0, 3, 0, 0, 0, 0, 0, 7, 0, 0, 0, 1};
    size_t tn = sizeof t / 4;
    uint32_t at, rows, visits, lines, idx[3], c;
    size_t len, b, e;
    size_t words = BIG + 19;
    uint32_t *big = alias(words * 4);
    c = reactive_build(t, tn, big, BIG + 6, idx, 0, &at, &rows, &visits, &lines);
    is("reactive_build, tree of 2^32 + 6 words", c == 0 && rows == 2 && big[0] == 22 && big[6] == 9 && big[12] == 0 && big[SEG / 4] == 0);
    c = reactive_build(t, tn, big, BIG + 12, idx, 3, &at, &rows, &visits, &lines);
    is("reactive_build, tree of 2^32 + 12 words", c == 0 && rows == 2);
    uint32_t small[12];
    memset(big, 7, 2 * SEG);
    c = reactive_build(t, tn, small, 12, big, BIG + 1, &at, &rows, &visits, &lines);
    is("reactive_build, index of 2^32 + 1 words", c == 0 && lines == 0 && big[0] == 0 && big[SEG / 4] == 0);
    c = reactive_build(t, tn, small, 11, big, BIG + 1, &at, &rows, &visits, &lines);
    is("reactive_build, tree a word short, index of 2^32 + 1", c == 40 && rows == 2);
    memset(big, 7, 2 * SEG);
    c = reactive_build_language(t, tn, big, BIG + 6, idx, 0, &at, &rows, &visits, &lines);
    is("reactive_build_language, 2^32 + 6", c == 0 && rows == 2);
    /* words: a good table, and 2^32 more words */
    memset(big, 0, 2 * SEG);
    memcpy(big, t, sizeof t);
    c = reactive_build(big, BIG + tn, small, 12, idx, 3, &at, &rows, &visits, &lines);
    is("reactive_build, a table and 2^32 words", c == 1 && at == 0);
    c = reactive_preview(big, BIG + tn, &at, &rows, &visits, &lines);
    is("reactive_preview, the same", c == 1);
    c = reactive_preview_language(big, BIG + tn, &at, &rows, &visits, &lines);
    is("reactive_preview_language, the same", c == 1);
    c = table_check(big, BIG + tn, &at);
    is("table_check, the same", c == 1);
    uint32_t law;
    c = table_plain(big, BIG + tn, &at, &law);
    is("table_plain, the same", c == 1 && law == 0);
    uint8_t text[400];
    c = blocks_to_dot(big, BIG + tn, text, 400, &at, &len);
    is("blocks_to_dot, the same", c == 1 && len == 0);
    c = table_write(big, BIG + tn, text, 400, &at, &len);
    is("table_write, the same", c == 1 && len == 0);
    uint32_t nw[19], old[1];
    c = blocks_rearrange(big, BIG + tn, nw, 19, old, 1, &at);
    is("blocks_rearrange, the same", c == 1);
    c = blocks_rearrange(t, tn, big, BIG + 19, old, 1, &at);
    is("blocks_rearrange, 2^32 + 19 words lent", c == 45);
    c = blocks_rearrange(t, tn, nw, 19, big, BIG + 1, &at);
    is("blocks_rearrange, 2^32 + 1 old numbers", c == 45);
    old[0] = 0;
    memset(big, 0, 2 * SEG);
    c = blocks_restore(t, tn, big, BIG + 1, nw, 19, &at);
    is("blocks_restore, a list of 2^32 + 1", c == 45 || c == 46);
    c = blocks_restore(t, tn, old, 1, big, BIG + 19, &at);
    is("blocks_restore, 2^32 + 19 words lent", c == 45);
    /* rows */
    static const uint32_t tree[] = {22, 0, 7, 0, 0, 0, 9, 1, 0, 0, 0, 0};
    memset(big, 0, 2 * SEG);
    memcpy(big, tree, sizeof tree);
    c = tree_check(big, BIG + 12 - 4, &at);
    is("tree_check, 2^32 + 8 words", c == 62 && at == 0); /* 2^32 + 8 is a multiple of six */
    size_t six = (BIG / 6 + 2) * 6;
    c = tree_check(big, six, &at);
    is("tree_check, rows beyond 2^32 words", c == 62 && at == 0);
    uint32_t answers[1] = {1};
    size_t number;
    uint32_t reason;
    c = tree_run(big, six, answers, 1, small, 12, &at, &number, &reason);
    is("tree_run, the same rows", c == 62);
    c = tree_run(tree, 12, big, BIG, small, 12, &at, &number, &reason);
    is("tree_run, 2^32 answers", c == 0 && reason == 1);
    memset(big, 7, 2 * SEG);
    c = tree_run(tree, 12, answers, 1, big, BIG + 1, &at, &number, &reason);
    is("tree_run, 2^32 + 1 words lent", c == 0 && number == 0 && big[0] == 0 && big[SEG / 4] == 0);
    memset(big, 0, 2 * SEG);
    big[0] = 5;
    big[1] = 0;
    big[2] = 1;
    c = tree_lookup(big, BIG + 3, 0xffffffffu, 5, tree, 12, &at, &b, &e);
    is("tree_lookup, an index of 2^32 + 3, lines 2^32 - 1", c == 0 && b == 0 && e == 12);
    c = tree_lookup(big, BIG + 3, 0xffffffffu, 6, tree, 12, &at, &b, &e);
    is("tree_lookup, label that is not there, 1.4 G lines read", c == 42);
    uint32_t line[3] = {5, 0, BIG / 6};
    c = tree_lookup(line, 3, 1, 5, big, six, &at, &b, &e);
    is("tree_lookup, a closing row beyond 2^32 words", c == 0 && b == 0 && e == (BIG / 6 + 1) * 6);
    line[2] = 0xffffffffu;
    c = tree_lookup(line, 3, 1, 5, big, six, &at, &b, &e);
    is("tree_lookup, closing row 2^32 - 1 (6 times it wraps in 32 bits)", c == 43);
    line[2] = 0x2aaaaaabu;
    c = tree_lookup(line, 3, 1, 5, tree, 12, &at, &b, &e);
    is("tree_lookup, closing row 0x2aaaaaab (6 times it is 2 mod 2^32)", c == 43);
    /* files and texts */
    uint8_t *bytes = (uint8_t *)big;
    memset(bytes, 7, 2 * SEG);
    c = blocks_to_dot(t, tn, bytes, BIG + 14, &at, &len);
    is("blocks_to_dot, 2^32 + 14 bytes lent", c == 0 && len == 14 && bytes[14] == 0 && bytes[SEG] == 0);
    memset(bytes, 7, 2 * SEG);
    c = table_write(t, tn, bytes, BIG + 14, &at, &len);
    is("table_write, 2^32 + 14 bytes lent", c == 0 && len > 14 && bytes[len] == 0 && bytes[SEG] == 0);
    static uint8_t file[400];
    size_t fl = len;
    memcpy(file, bytes, fl);
    c = table_read(bytes, BIG + fl, nw, 19, &at, &len);
    is("table_read, a file of 2^32 more bytes", c == 51 && len == 0);
    memset(big, 7, 2 * SEG);
    c = table_read(file, fl, big, BIG + 1, &at, &len);
    is("table_read, 2^32 + 1 words lent", c == 0 && len == 19 && big[19] == 0 && big[SEG / 4] == 0);
    memset(bytes, 7, 2 * SEG);
    c = table_new_to_old(file, fl, bytes, BIG + 3, &at, &len);
    is("table_new_to_old, 2^32 + 3 bytes lent", c == 0 && len > 3 && bytes[len] == 0 && bytes[SEG] == 0);
    uint8_t was[400];
    size_t ol = len;
    memcpy(was, bytes, ol);
    memset(bytes, 7, 2 * SEG);
    c = table_old_to_new(was, ol, bytes, BIG + 3, &at, &len);
    is("table_old_to_new, 2^32 + 3 bytes lent", c == 0 && len == fl && !memcmp(bytes, file, fl) && bytes[SEG] == 0);
    c = table_old_to_new(bytes, BIG + ol, text, 400, &at, &len);
    is("table_old_to_new, a file of 2^32 more bytes", c == 51);
    printf("huge: %d checks, %d failed\n", n, failed);
    return failed != 0;
}
