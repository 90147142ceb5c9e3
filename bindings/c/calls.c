/* An example of each call of include/rcl.h, in its order: what a call answers is asserted.
   gcc -I include bindings/c/calls.c target/staticlib/librcl.a && ./a.out */
#undef NDEBUG /* with it, assert would check nothing */
#include <assert.h>
#include <string.h>

#include "rcl.h"

static void example_rcl_utf8(void) {
    const char *good = "note = \"組織\"", *bad = "note = \"\xE7\xB5\"";
    assert(rcl_utf8((const uint8_t *)good, strlen(good)) == UINT64_MAX);
    /* At offset 8 a sequence of three bytes begins, and there are two. */
    assert(rcl_utf8((const uint8_t *)bad, strlen(bad)) == 8);
}

static void example_rcl_lex(void) {
    const char *text = "x = [1]", *wrong = "(]";
    uint8_t kinds[16], stack_kinds[4];
    uint64_t words[32], stack_words[8];
    rcl_lexed lexed = rcl_lex(7, (const uint8_t *)text, strlen(text), kinds, 16, words, 32,
                              stack_kinds, 4, stack_words, 8);
    assert(!lexed.refusal.refused && lexed.lexemes == 5 && lexed.deepest == 1);
    /* The lexeme at place 2 has the words 4 and 5. */
    assert(kinds[2] == RCL_LBRACKET && RCL_SPAN_DOC(words[5]) == 7);
    assert(RCL_SPAN_START(words[4]) == 4 && RCL_SPAN_END(words[4], words[5]) == 5);

    lexed = rcl_lex(7, (const uint8_t *)wrong, strlen(wrong), kinds, 16, words, 32,
                    stack_kinds, 4, stack_words, 8);
    assert(lexed.refusal.refused && lexed.refusal.number == 24 && lexed.note.noted);
    /* The closer at 1 is not the one that is due; the note is the opener at 0. */
    assert(RCL_SPAN_START(lexed.refusal.low) == 1 && RCL_SPAN_START(lexed.note.low) == 0);
    assert(lexed.lexemes == 1 && kinds[0] == RCL_LPAREN); /* found before the refusal */
}

static void example_rcl_is_identifier(void) {
    const char *name = "stage-2", *ending = "stage-", *keyword = "let";
    assert(rcl_is_identifier((const uint8_t *)name, strlen(name)));
    assert(!rcl_is_identifier((const uint8_t *)ending, strlen(ending)));   /* `-` at the end */
    assert(!rcl_is_identifier((const uint8_t *)keyword, strlen(keyword))); /* a keyword */
}

static void example_rcl_is_keyword(void) {
    const char *text = "letter";
    assert(!rcl_is_keyword((const uint8_t *)text, strlen(text)));
    /* The length says where the bytes end: no zero byte is needed after them. */
    assert(rcl_is_keyword((const uint8_t *)text, 3));
}

static void example_rcl_scalar_value(void) {
    const char *text = "\"\\u00e9\\N\""; /* "\u00e9\N" */
    uint8_t kinds[16], stack_kinds[4];
    uint64_t words[32], stack_words[8];
    rcl_lexed lexed = rcl_lex(1, (const uint8_t *)text, strlen(text), kinds, 16, words, 32,
                              stack_kinds, 4, stack_words, 8);
    assert(!lexed.refusal.refused && kinds[1] == RCL_ESCAPE_UNICODE4);
    rcl_answer answer = rcl_scalar_value((const uint8_t *)text, strlen(text),
                                         words[2], words[3], kinds[1]);
    assert(!answer.refusal.refused && answer.count == 0xE9);

    /* Lexing accepts `\N`. Here it is refused: no capital after `\` stands for a character. */
    answer = rcl_scalar_value((const uint8_t *)text, strlen(text), words[4], words[5], kinds[2]);
    assert(answer.refusal.refused && answer.refusal.number == 42);
}

static void example_rcl_unescape_into(void) {
    const char *text = "\\u00e9";
    uint64_t low = (uint64_t)6 << 48, high = 0; /* the span 0-6 of document 0 */
    uint8_t output[4] = {'.', '.', '.', '.'};
    rcl_answer answer = rcl_unescape_into((const uint8_t *)text, strlen(text), low, high,
                                          RCL_ESCAPE_UNICODE4, output, 4, 1);
    assert(!answer.refusal.refused && answer.count == 2);
    assert(memcmp(output, ".é.", 4) == 0);

    /* At position 3 one byte is left: the two are refused, and none is written. */
    answer = rcl_unescape_into((const uint8_t *)text, strlen(text), low, high,
                               RCL_ESCAPE_UNICODE4, output, 4, 3);
    assert(answer.refusal.refused && answer.refusal.number == 46);
    assert(memcmp(output, ".é.", 4) == 0);
}

static void example_rcl_count_common_leading_spaces(void) {
    const char *text = "\"\"\"\n    Focus,\n\n      then scan.\n    \"\"\"";
    uint8_t kinds[16], stack_kinds[4], part_kinds[16];
    uint64_t words[32], stack_words[8], part_words[32];
    rcl_lexed lexed = rcl_lex(1, (const uint8_t *)text, strlen(text), kinds, 16, words, 32,
                              stack_kinds, 4, stack_words, 8);
    rcl_parted parted = rcl_parts(kinds, 16, words, 32, lexed.lexemes, 0,
                                  part_kinds, 16, part_words, 32);
    assert(!lexed.refusal.refused && !parted.refusal.refused && parted.parts == 4);
    rcl_answer answer = rcl_count_common_leading_spaces((const uint8_t *)text, strlen(text),
                                                        part_kinds, 16, part_words, 32, 4);
    assert(!answer.refusal.refused && answer.count == 4); /* the empty line is passed over */
    /* With another text, of 3 bytes, the parts are outside of it. */
    answer = rcl_count_common_leading_spaces((const uint8_t *)"x=1", 3,
                                             part_kinds, 16, part_words, 32, 4);
    assert(answer.refusal.refused && answer.refusal.number == 40);
}

static void example_rcl_parts(void) {
    const char *text = "f\"row {n + 1}\\n\""; /* f"row {n + 1}\n" */
    uint8_t kinds[16], stack_kinds[4], part_kinds[8];
    uint64_t words[32], stack_words[8], part_words[16];
    rcl_lexed lexed = rcl_lex(1, (const uint8_t *)text, strlen(text), kinds, 16, words, 32,
                              stack_kinds, 4, stack_words, 8);
    rcl_parted parted = rcl_parts(kinds, 16, words, 32, lexed.lexemes, 0,
                                  part_kinds, 8, part_words, 16);
    assert(!lexed.refusal.refused && !parted.refusal.refused);
    assert(parted.parts == 3 && kinds[parted.closer] == RCL_QUOTE_CLOSE);
    assert(part_kinds[0] == RCL_STRING_INNER && part_kinds[2] == RCL_ESCAPE_SINGLE);
    /* A hole is one part, from its `{` to its `}`. */
    assert(part_kinds[1] == RCL_HOLE_OPEN && RCL_SPAN_START(part_words[2]) == 6);
    assert(RCL_SPAN_END(part_words[2], part_words[3]) == 13);
    /* At place 1 no string begins. */
    parted = rcl_parts(kinds, 16, words, 32, lexed.lexemes, 1, part_kinds, 8, part_words, 16);
    assert(parted.refusal.refused && parted.refusal.number == 50);
}

static void example_rcl_value(void) {
    const char *text = "[\"A1\", \"caf\\u00e9\"]"; /* strings begin at places 1 and 5 of the list */
    uint8_t kinds[16], stack_kinds[4], part_kinds[8], output[32];
    uint64_t words[32], stack_words[8], part_words[16];
    rcl_lexed lexed = rcl_lex(1, (const uint8_t *)text, strlen(text), kinds, 16, words, 32,
                              stack_kinds, 4, stack_words, 8);
    rcl_valued valued = rcl_value((const uint8_t *)text, strlen(text), kinds, 16, words, 32,
                                  lexed.lexemes, 1, part_kinds, 8, part_words, 16, output, 32, 0);
    /* The first is unbroken: its value is a part of the text. */
    assert(!lexed.refusal.refused && !valued.refusal.refused && !valued.in_output);
    assert(valued.start == 2 && valued.end == 4 && memcmp(text + 2, "A1", 2) == 0);
    valued = rcl_value((const uint8_t *)text, strlen(text), kinds, 16, words, 32,
                       lexed.lexemes, 5, part_kinds, 8, part_words, 16, output, 32, 0);
    /* The other one has an escape: its value was written to the output. */
    assert(!valued.refusal.refused && valued.in_output);
    assert(valued.start == 0 && valued.end == 5 && memcmp(output, "café", 5) == 0);
}

static void example_rcl_hand_check(void) {
    const char *text = "\"A1\"";
    uint8_t output[3] = {'c', 'a', 'f'};
    /* 0, 1, 3: the part 1-3 of the text. */
    rcl_answer answer = rcl_hand_check((const uint8_t *)text, strlen(text), output, 3, 0, 1, 3);
    assert(!answer.refusal.refused);
    /* 1, 0, 5: the part 0-5 of the output, which has 3 bytes. */
    answer = rcl_hand_check((const uint8_t *)text, strlen(text), output, 3, 1, 0, 5);
    assert(answer.refusal.refused && answer.refusal.number == 40);
}

static void example_rcl_tidy(void) {
    const char *text = "{x=12.5,note=\"組織\"}", *tidy = "{ x = 12.5 , note = \"組織\" }";
    uint8_t kinds[16], stack_kinds[4], output[64];
    uint64_t words[32], stack_words[8];
    rcl_tidied tidied = rcl_tidy(1, (const uint8_t *)text, strlen(text), kinds, 16, words, 32,
                                 stack_kinds, 4, stack_words, 8, output, 64);
    assert(!tidied.lexed.refusal.refused && tidied.written == strlen(tidy));
    assert(memcmp(output, tidy, strlen(tidy)) == 0); /* no zero byte is written after it */

    /* Of an output of 4 bytes `{` and ` x` take 3, and ` =` does not fit. */
    tidied = rcl_tidy(1, (const uint8_t *)text, strlen(text), kinds, 16, words, 32,
                      stack_kinds, 4, stack_words, 8, output, 4);
    assert(tidied.lexed.refusal.refused && tidied.lexed.refusal.number == 46);
    assert(tidied.written == 3);
}

static void example_rcl_walker_open(void) {
    const char *text = "x = \"\xFF\"";
    rcl_refusal kept = rcl_walker_open(1, (const uint8_t *)text, strlen(text));
    /* Not UTF-8: the empty span where the bad sequence begins. */
    assert(kept.refused && kept.number == 1);
    assert(RCL_SPAN_START(kept.low) == 5 && RCL_SPAN_END(kept.low, kept.high) == 5);
    /* The caller keeps it and hands it to every step, which gives it again. */
    rcl_stepped step = rcl_walker_step(1, (const uint8_t *)text, strlen(text), 0, 0, kept.refused,
                                       (uint8_t)kept.number, kept.low, kept.high,
                                       NULL, 0, NULL, 0);
    assert(step.answer == 2 && step.number == 1 && step.position == 0);
}

static void example_rcl_walker_step(void) {
    const char *text = "(a )";
    uint8_t stack_kinds[4], found[4];
    uint64_t stack_words[8], lexemes = 0;
    rcl_refusal kept = rcl_walker_open(1, (const uint8_t *)text, strlen(text));
    rcl_stepped step = {0}; /* a walker begins at position 0 with depth 0 */
    for (;;) {
        step = rcl_walker_step(1, (const uint8_t *)text, strlen(text), step.position, step.depth,
                               kept.refused, (uint8_t)kept.number, kept.low, kept.high,
                               stack_kinds, 4, stack_words, 8);
        if (step.answer != 0) {
            break;
        }
        found[lexemes++] = (uint8_t)step.number;
    }
    assert(step.answer == 1 && step.position == 4); /* 1: ended; 2 would be a refusal */
    assert(lexemes == 4 && found[2] == RCL_SPACE);  /* a Space is a lexeme here */
}

static void example_rcl_lex_tallied(void) {
    const char *texts[] = {"a b", "a $"}; /* nothing is opened: they need no stack */
    uint8_t kinds[8];
    uint64_t words[16];
    rcl_counted counted = {0}; /* the tally begins with 0, 0, 0 */
    for (int i = 0; i < 2; i++) {
        counted = rcl_lex_tallied(counted.accepted, counted.refused, counted.steps, 1,
                                  (const uint8_t *)texts[i], strlen(texts[i]),
                                  kinds, 8, words, 16, NULL, 0, NULL, 0);
    }
    assert(counted.lexed.refusal.refused && counted.lexed.refusal.number == 12); /* `$` */
    assert(counted.accepted == 1 && counted.refused == 1);
    /* `a`, Space and `b`, then `a` and Space: the refused call's steps count too. */
    assert(counted.steps == 3 + 2);
}

int main(void) {
    example_rcl_utf8();
    example_rcl_lex();
    example_rcl_is_identifier();
    example_rcl_is_keyword();
    example_rcl_scalar_value();
    example_rcl_unescape_into();
    example_rcl_count_common_leading_spaces();
    example_rcl_parts();
    example_rcl_value();
    example_rcl_hand_check();
    example_rcl_tidy();
    example_rcl_walker_open();
    example_rcl_walker_step();
    example_rcl_lex_tallied();
    return 0;
}
