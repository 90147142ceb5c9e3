/* RCL text: the exported calls of crates/rcl, each proved to answer as its contract says. No call allocates, keeps a
   pointer or reads beyond the lengths that it is given. Each length is the array's true length, in elements; a pointer
   may be NULL where its length is 0; an array that a call writes must overlap no other array of that call. In every
   result a flag is 0 or 1, and a word that says nothing is 0.
   How much memory is always enough, what each refusal means, and an example of each call: docs/CALLS.md.
   `enum rcl_kind` names the kind codes, and RCL_SPAN_START, RCL_SPAN_END and RCL_SPAN_DOC read a span's two words. */
#ifndef RCL_H
#define RCL_H

#include <stdbool.h>
#include <stdint.h>

#ifdef __cplusplus
extern "C" {
#endif

/* The UTF-8 check of RFC 3629. Reads `len` bytes at `text`, which are lent for the call and only read.
   Returns UINT64_MAX where they are UTF-8, else the offset at which the first bad sequence begins (document 01's
   refusal 1). */
uint64_t rcl_utf8(const uint8_t *text, uintptr_t len);

/* The kinds of lexemes and of a string's parts; an array of kinds holds one code in each byte. The openers are 5 to 8,
   RCL_HOLE_OPEN, RCL_LPAREN, RCL_LBRACKET and RCL_LBRACE. */
enum rcl_kind {
    RCL_SPACE = 0,                    /* whitespace with fewer than two line feeds; only rcl_walker_step gives it */
    RCL_BLANK = 1,                    /* whitespace with two line feeds or more */
    RCL_SHEBANG = 2,                  /* `#!` to before the line feed */
    RCL_LINE_COMMENT = 3,             /* `//` to before the line feed */
    RCL_IDENT = 4,                    /* a name that is no keyword */
    RCL_QUOTE_OPEN_PLAIN_DOUBLE = 5,  /* `"` */
    RCL_QUOTE_OPEN_PLAIN_TRIPLE = 6,  /* `"""` */
    RCL_QUOTE_OPEN_FORMAT_DOUBLE = 7, /* `f"` */
    RCL_QUOTE_OPEN_FORMAT_TRIPLE = 8, /* `f"""` */
    RCL_QUOTE_CLOSE = 9,              /* `"` or `"""` at the end of a string */
    RCL_STRING_INNER = 10,            /* bytes of a string that are no escape sequence; a line feed only at its start */
    RCL_ESCAPE_SINGLE = 11,           /* `\` and one byte */
    RCL_ESCAPE_UNICODE4 = 12,         /* `\u` and four hexadecimal digits */
    RCL_ESCAPE_UNICODE_DELIM = 13,    /* `\u{`, hexadecimal digits and `}` */
    RCL_HOLE_OPEN = 14,               /* `{` of a hole; in a parts list the whole hole */
    RCL_HOLE_CLOSE = 15,              /* `}` of a hole */
    RCL_NUM_HEXADECIMAL = 16,         /* begins with `0x` */
    RCL_NUM_BINARY = 17,              /* begins with `0b` */
    RCL_NUM_DECIMAL = 18,
    RCL_KW_AND = 19,
    RCL_KW_ASSERT = 20,
    RCL_KW_FALSE = 21,
    RCL_KW_FOR = 22,
    RCL_KW_ELSE = 23,
    RCL_KW_IF = 24,
    RCL_KW_IMPORT = 25,
    RCL_KW_IN = 26,
    RCL_KW_LET = 27,
    RCL_KW_NOT = 28,
    RCL_KW_NULL = 29,
    RCL_KW_OR = 30,
    RCL_KW_TRACE = 31,
    RCL_KW_TRUE = 32,
    RCL_LPAREN = 33,                  /* `(` */
    RCL_RPAREN = 34,                  /* `)` */
    RCL_LBRACKET = 35,                /* `[` */
    RCL_RBRACKET = 36,                /* `]` */
    RCL_LBRACE = 37,                  /* `{` */
    RCL_RBRACE = 38,                  /* `}` */
    RCL_LT = 39,                      /* `<` */
    RCL_GT = 40,                      /* `>` */
    RCL_LT_EQ = 41,                   /* `<=` */
    RCL_GT_EQ = 42,                   /* `>=` */
    RCL_EQ2 = 43,                     /* `==` */
    RCL_NEQ = 44,                     /* `!=` */
    RCL_THIN_ARROW = 45,              /* `->` */
    RCL_FAT_ARROW = 46,               /* `=>` */
    RCL_EQ1 = 47,                     /* `=` */
    RCL_BANG = 48,                    /* `!` */
    RCL_STAR = 49,                    /* `*` */
    RCL_PLUS = 50,                    /* `+` */
    RCL_COMMA = 51,                   /* `,` */
    RCL_MINUS = 52,                   /* `-` */
    RCL_DOT = 53,                     /* `.` */
    RCL_DOT_DOT = 54,                 /* `..` */
    RCL_DOT_DOT_DOT = 55,             /* `...` */
    RCL_SLASH = 56,                   /* `/` */
    RCL_COLON = 57,                   /* `:` */
    RCL_SEMICOLON = 58,               /* `;` */
    RCL_PIPE = 59                     /* `|` */
};

/* A span's two words are low = start + (end mod 2^16) * 2^48 and high = end div 2^16 + doc * 2^32. Each of these
   answers a uint64_t. */
#define RCL_SPAN_START(low) ((uint64_t)(low) & (((uint64_t)1 << 48) - 1))
#define RCL_SPAN_END(low, high) (((uint64_t)(low) >> 48) | (((uint64_t)(high) & (((uint64_t)1 << 32) - 1)) << 16))
#define RCL_SPAN_DOC(high) ((uint64_t)(high) >> 32)

/* A refusal, or none. */
typedef struct rcl_refusal {
    uint64_t refused;            /* 0: nothing is refused; 1: this is */
    uint64_t number;             /* the refusal's number: docs/CALLS.md has a table */
    uint64_t low, high;          /* its span */
} rcl_refusal;

/* A refusal's note, or none. */
typedef struct rcl_note {
    uint64_t noted;              /* 1 where there is a note (refusals 24 to 28) */
    uint64_t low, high;          /* its span: the opener */
} rcl_note;

/* What lexing answers. */
typedef struct rcl_lexed {
    rcl_refusal refusal;         /* none: the text is accepted */
    rcl_note note;
    uint64_t lexemes;            /* steps not refused that are no Space (RCL_SPACE) */
    uint64_t steps;              /* all steps not refused */
    uint64_t kept, dropped;      /* the bytes of lexemes and of Spaces */
    uint64_t deepest;            /* the most openers open at once */
} rcl_lexed;

/* Lexes `len` bytes at `text` (only read) as document `doc`.
   The list: kind codes go to `kinds` (`kinds_len` bytes), the two words of each span to `words` (`words_len` words);
   its places are the smaller of kinds_len and words_len / 2. The stack of openers: `stack_kinds` and `stack_words`,
   counted in the same way.
   Refusals: 2 over 2^48 - 1 bytes, then 1 not UTF-8; then, step by step, 10 to 28 of the text, 30 the stack is full,
   31 the list is full.
   Accepted or refused, the list holds the `lexemes` lexemes found, and every place after them is untouched; so is
   every place of the stack from `deepest` upward. Lower places of the stack may hold anything. */
rcl_lexed rcl_lex(uint32_t doc, const uint8_t *text, uintptr_t len,
                  uint8_t *kinds, uintptr_t kinds_len, uint64_t *words, uintptr_t words_len,
                  uint8_t *stack_kinds, uintptr_t stack_kinds_len, uint64_t *stack_words, uintptr_t stack_words_len);

/* Whether `len` bytes are an identifier: a letter or `_`, then letters, digits, `_` and `-`, no `-` at the end, and no
   keyword. It refuses nothing. */
bool rcl_is_identifier(const uint8_t *bytes, uintptr_t len);

/* Whether `len` bytes are a keyword, RCL_KW_AND to RCL_KW_TRUE. It refuses nothing. */
bool rcl_is_keyword(const uint8_t *bytes, uintptr_t len);

/* A number, or a refusal, which has no note. */
typedef struct rcl_answer {
    rcl_refusal refusal;
    uint64_t count;              /* the answer where there is no refusal */
} rcl_answer;

/* The scalar value of the escape sequence of kind `kind` (11 to 13, RCL_ESCAPE_SINGLE to RCL_ESCAPE_UNICODE_DELIM) at
   the span `low`, `high` of the text.
   Refusals, in this order: 3 start after end, 40 wrong kind or form or outside the text, 43 no digit, 44 over 6 digits,
   45 surrogate or over 0x10FFFF, 41 unknown, 42 a capital. */
rcl_answer rcl_scalar_value(const uint8_t *text, uintptr_t len, uint64_t low, uint64_t high, uint8_t kind);

/* Decodes the escape sequence that rcl_scalar_value decodes, and writes its UTF-8 to `output` (`output_len` bytes, of
   which at most 2^48 - 1 count) at `position`, whole or not at all; `count` is the bytes written.
   Refusals: those of rcl_scalar_value, then 46 where it does not fit. Every other place of the output is untouched. */
rcl_answer rcl_unescape_into(const uint8_t *text, uintptr_t len, uint64_t low, uint64_t high, uint8_t kind,
                             uint8_t *output, uintptr_t output_len, uintptr_t position);

/* The indent of a parts list with `parts` parts (or as many as it has places): over String parts (RCL_STRING_INNER)
   that begin with LF, the fewest spaces after it; a part of LF and spaces alone is passed over if the next part is a
   String; 0 where there is no such part.
   Refusals, part by part: 3, then 40 for a kind outside 10 to 14 (RCL_STRING_INNER to RCL_HOLE_OPEN) or a span outside
   the text. */
rcl_answer rcl_count_common_leading_spaces(const uint8_t *text, uintptr_t len,
                                           const uint8_t *kinds, uintptr_t kinds_len,
                                           const uint64_t *words, uintptr_t words_len, uintptr_t parts);

/* The parts of a string, or a refusal, which has no note. */
typedef struct rcl_parted {
    rcl_refusal refusal;
    uint64_t closer;             /* the closing quote's place in the list */
    uint64_t parts;              /* how many parts were put, also where refused */
} rcl_parted;

/* Lists the parts of the string whose QuoteOpen (5 to 8, RCL_QUOTE_OPEN_PLAIN_DOUBLE to RCL_QUOTE_OPEN_FORMAT_TRIPLE)
   stands at `place` of a list of `lexemes` lexemes (or as many as it has places): kinds 10 to 14 (RCL_STRING_INNER to
   RCL_HOLE_OPEN) and spans, a hole as one part of kind RCL_HOLE_OPEN. The list is that which rcl_lex filled, `kinds`
   and `words`; the parts go to `part_kinds` and `part_words`, arrays of the same form.
   Refusals, lexeme by lexeme: 3, 50 no string, 31 the parts list is full. The parts list holds the `parts` parts
   found, and every place after them is untouched. */
rcl_parted rcl_parts(const uint8_t *kinds, uintptr_t kinds_len, const uint64_t *words, uintptr_t words_len,
                     uintptr_t lexemes, uintptr_t place,
                     uint8_t *part_kinds, uintptr_t part_kinds_len, uint64_t *part_words, uintptr_t part_words_len);

/* The value of a string, or a refusal, which has no note. */
typedef struct rcl_valued {
    rcl_refusal refusal;
    uint64_t in_output;          /* 0: the value is the text's bytes from `start` to `end`; 1: the output's */
    uint64_t start, end;
    uint64_t parts;              /* how many parts were put into the parts list, also where refused */
} rcl_valued;

/* The value of the string at `place` of the list of a text: its parts are listed as by rcl_parts, whose arguments
   these are, then String and Escape parts are written to `output` from `position` on, each whole or not at all; in
   triple quotes the indent is taken off; holes give no byte. A string that is one unbroken String part (no second
   part, a hole included, and no indent taken off) is answered as that part of the text, and the output is neither read
   nor written; any other, "" too, as a part of the output.
   Refusals: those of rcl_parts, of the indent, of escapes, each over the whole string before a byte is written, then,
   only where the value goes to the output, 46 where a piece does not fit or `position` is past its end. After a
   refusal the output holds the pieces before it. */
rcl_valued rcl_value(const uint8_t *text, uintptr_t len,
                     const uint8_t *kinds, uintptr_t kinds_len, const uint64_t *words, uintptr_t words_len,
                     uintptr_t lexemes, uintptr_t place,
                     uint8_t *part_kinds, uintptr_t part_kinds_len, uint64_t *part_words, uintptr_t part_words_len,
                     uint8_t *output, uintptr_t output_len, uintptr_t position);

/* Handing a value back: the check of a part, `which` (0: of the text; any other: of the output), `start` and `end` as
   rcl_value answered them. Both arrays are only read.
   Refusals: 3 where the start is after the end or the end over 2^48 - 1, then 40 for a part outside its array; `count`
   is 0. */
rcl_answer rcl_hand_check(const uint8_t *text, uintptr_t len, const uint8_t *output, uintptr_t output_len,
                          uint64_t which, uintptr_t start, uintptr_t end);

/* What the tidy writer answers: as rcl_lex, with 46 where the output is full, and the bytes written. */
typedef struct rcl_tidied {
    rcl_lexed lexed;
    uint64_t written;
} rcl_tidied;

/* Lexes a text as rcl_lex does, into a lent list with a lent stack, then writes its lexemes to `output`, from its
   start, with a gap between each two: none if either is a Blank or the first is a QuoteOpen, a StringInner, an Escape
   or a HoleClose; one line feed after a LineComment or a Shebang; else one space. Of the text's own whitespace outside
   strings only Blanks are kept. A gap and the lexeme after it are written whole or not.
   Refusals: those of rcl_lex first (nothing is then written), then 46. */
rcl_tidied rcl_tidy(uint32_t doc, const uint8_t *text, uintptr_t len,
                    uint8_t *kinds, uintptr_t kinds_len, uint64_t *words, uintptr_t words_len,
                    uint8_t *stack_kinds, uintptr_t stack_kinds_len, uint64_t *stack_words, uintptr_t stack_words_len,
                    uint8_t *output, uintptr_t output_len);

/* Opens a walker with a text: answers what the caller keeps and passes to every step, which gives it again. That is a
   refusal 2 (at 0-0) or 1 (with the empty span where the bad sequence begins), or all 0: nothing is refused. */
rcl_refusal rcl_walker_open(uint32_t doc, const uint8_t *text, uintptr_t len);

/* A walker's step. */
typedef struct rcl_stepped {
    uint64_t answer;             /* 0: a lexeme; 1: ended; 2: refused */
    uint64_t number;             /* the lexeme's kind code, or the refusal's number */
    uint64_t low, high;          /* its span */
    rcl_note note;
    uint64_t position, depth;    /* where the walker stands after it: as before where it ended or was refused */
} rcl_stepped;

/* One step of a walker that stands at `position` with `depth` openers on its stack: 0 and 0 at the first step, then
   what the step before it answered. `kept` to `kept_high` are what rcl_walker_open answered for this document (all 0:
   nothing kept). The stack has the form of rcl_lex's, and what it holds below `depth` is part of the walker: it is
   kept from step to step, for this walker alone.
   A Space (RCL_SPACE) is a lexeme here. Only an opener is written to the stack, at the place numbered by the depth
   before it; a refused step changes nothing.
   Refusals, in this order: the kept one; 2; 40 at 0-0 where `kept` to `kept_high` are words that rcl_walker_open never
   answers with this id, the position is past the end, the depth above the stack's places or the innermost code no
   opener's; 25 to 28 at the end; 10 to 24 of the text; 30. */
rcl_stepped rcl_walker_step(uint32_t doc, const uint8_t *text, uintptr_t len, uintptr_t position, uintptr_t depth,
                            uint64_t kept, uint8_t kept_number, uint64_t kept_low, uint64_t kept_high,
                            uint8_t *stack_kinds, uintptr_t stack_kinds_len,
                            uint64_t *stack_words, uintptr_t stack_words_len);

/* What lexing with a tally answers: as rcl_lex, and the tally after it. */
typedef struct rcl_counted {
    rcl_lexed lexed;
    uint64_t accepted, refused, steps;
} rcl_counted;

/* Lexes as rcl_lex does, and adds the call to three counts: calls accepted, calls refused, and steps, those of refused
   calls too. Each stops at 2^64 - 1. Begin with 0, 0, 0, and pass on what the call before answered.
   Refusals: those of rcl_lex. */
rcl_counted rcl_lex_tallied(uint64_t accepted, uint64_t refused, uint64_t steps,
                            uint32_t doc, const uint8_t *text, uintptr_t len,
                            uint8_t *kinds, uintptr_t kinds_len, uint64_t *words, uintptr_t words_len,
                            uint8_t *stack_kinds, uintptr_t stack_kinds_len,
                            uint64_t *stack_words, uintptr_t stack_words_len);

#ifdef __cplusplus
}
#endif

#endif
