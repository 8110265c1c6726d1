/* Which edges of the library's code, and of nothing else, the inputs reach: linked with contract.c (-DREPLAY) and with the module of the
 * library that was compiled with -fsanitize=fuzzer-no-link, whose counters and places it is handed. With MISSED=FILE it writes the places
 * of the others there. */
#include <stdint.h>
#include <stdio.h>
#include <stdlib.h>

static uint8_t *from, *to;
static const uintptr_t *places;

static void tell(void) {
    size_t edges = to - from, reached = 0;
    const char *name = getenv("MISSED");
    FILE *missed = name ? fopen(name, "w") : NULL;
    for (size_t i = 0; i < edges; i++) {
        reached += from[i] != 0;
        if (missed && !from[i]) fprintf(missed, "%#lx\n", (unsigned long)places[2 * i]);
    }
    if (missed) fclose(missed);
    printf("edges of the library: %zu of %zu reached\n", reached, edges);
}
void __sanitizer_cov_8bit_counters_init(uint8_t *first, uint8_t *end) {
    if (from) return;
    from = first;
    to = end;
    atexit(tell);
}
void __sanitizer_cov_pcs_init(const uintptr_t *first, const uintptr_t *end) {
    (void)end;
    places = first;
}

/* what the module calls besides */
#define NOTHING(name)                                                                                                                      \
    void name(void) {}
NOTHING(__sanitizer_cov_trace_cmp1)
NOTHING(__sanitizer_cov_trace_cmp2)
NOTHING(__sanitizer_cov_trace_cmp4)
NOTHING(__sanitizer_cov_trace_cmp8)
NOTHING(__sanitizer_cov_trace_const_cmp1)
NOTHING(__sanitizer_cov_trace_const_cmp2)
NOTHING(__sanitizer_cov_trace_const_cmp4)
NOTHING(__sanitizer_cov_trace_const_cmp8)
NOTHING(__sanitizer_cov_trace_switch)
NOTHING(__sanitizer_cov_trace_div4)
NOTHING(__sanitizer_cov_trace_div8)
NOTHING(__sanitizer_cov_trace_gep)
__thread uintptr_t __sancov_lowest_stack;
