/* Lists a text's lexemes: gcc -I include bindings/c/first.c target/staticlib/librcl.a && ./a.out */
#include <inttypes.h>
#include <stdio.h>
#include <string.h>

#include "rcl.h"

int main(int argc, char **argv) {
    const char *text = argc > 1 ? argv[1] : "{ x = 12.5, note = \"組織\" }";
    uint8_t kinds[64], stack_kinds[8];    /* 64 lexemes, 8 openers open at once */
    uint64_t words[128], stack_words[16]; /* two for the span of each */
    rcl_lexed lexed = rcl_lex(1, (const uint8_t *)text, strlen(text), kinds, 64, words, 128,
                              stack_kinds, 8, stack_words, 16);
    rcl_refusal refusal = lexed.refusal;
    if (refusal.refused) {
        printf("refused %" PRIu64 " %" PRIu64 "-%" PRIu64 "\n", refusal.number,
               RCL_SPAN_START(refusal.low), RCL_SPAN_END(refusal.low, refusal.high));
        return 1;
    }
    for (uint64_t place = 0; place < lexed.lexemes; place++) {
        uint64_t low = words[2 * place], high = words[2 * place + 1];
        uint64_t start = RCL_SPAN_START(low), end = RCL_SPAN_END(low, high);
        printf("%d %.*s\n", kinds[place], (int)(end - start), text + start);
    }
    return 0;
}
