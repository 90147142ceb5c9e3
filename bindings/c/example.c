/* Lexes a text, tidies it and reads the value of each string in it. All memory is this program's own arrays: nothing is allocated.
     example [FILE]     a file of at most 4096 bytes; without one, the small scan protocol below
   Exit status 1: the text was refused; 2: it could not be read. */
#include <inttypes.h>
#include <stdio.h>

#include "rcl.h"

enum {
    DOC = 1,            /* the id that spans of this text carry */
    TEXT_MAX = 4096,
    PLACES = 1024,      /* of the list: refusal 31 where a text has more lexemes */
    STACK_PLACES = 64,  /* refusal 30 where it nests deeper */
    PART_PLACES = 256,  /* refusal 31 where a string has more parts */
    OUTPUT_MAX = 8192   /* refusal 46 where it does not suffice; a tidied text is at most twice as long */
};

static const char protocol[] =
    "// Slide 7, two fields. Η λάμπα θερμαίνεται πρώτα.\n"
    "let step = 0x40;\n"
    "\n"
    "[\n"
    "  {to=\"A1\", x = 12.5, y = -3e2, note = f\"row {row}, {f\"column {col-1}\"}\"},\n"
    "  {to=\"B1\", wait = 1_500, note = \"caf\\u00e9 \\\"2\\\" \\u{1F52C}\"},\n"
    "  {to=\"\", note = \"\\u{}\"},\n"
    "  {note = \"\"\"\n"
    "    Focus first,\n"
    "      then scan.\n"
    "    \"\"\"},\n"
    "]\n";

/* By kind. */
static const char *const names[] = {
    [RCL_SPACE] = "Space", [RCL_BLANK] = "Blank", [RCL_SHEBANG] = "Shebang", [RCL_LINE_COMMENT] = "LineComment",
    [RCL_IDENT] = "Ident",
    [RCL_QUOTE_OPEN_PLAIN_DOUBLE] = "QuoteOpen, plain double",
    [RCL_QUOTE_OPEN_PLAIN_TRIPLE] = "QuoteOpen, plain triple",
    [RCL_QUOTE_OPEN_FORMAT_DOUBLE] = "QuoteOpen, format double",
    [RCL_QUOTE_OPEN_FORMAT_TRIPLE] = "QuoteOpen, format triple",
    [RCL_QUOTE_CLOSE] = "QuoteClose", [RCL_STRING_INNER] = "StringInner", [RCL_ESCAPE_SINGLE] = "Escape, Single",
    [RCL_ESCAPE_UNICODE4] = "Escape, Unicode4", [RCL_ESCAPE_UNICODE_DELIM] = "Escape, UnicodeDelim",
    [RCL_HOLE_OPEN] = "HoleOpen", [RCL_HOLE_CLOSE] = "HoleClose", [RCL_NUM_HEXADECIMAL] = "NumHexadecimal",
    [RCL_NUM_BINARY] = "NumBinary", [RCL_NUM_DECIMAL] = "NumDecimal",
    [RCL_KW_AND] = "KwAnd", [RCL_KW_ASSERT] = "KwAssert", [RCL_KW_FALSE] = "KwFalse", [RCL_KW_FOR] = "KwFor",
    [RCL_KW_ELSE] = "KwElse", [RCL_KW_IF] = "KwIf", [RCL_KW_IMPORT] = "KwImport", [RCL_KW_IN] = "KwIn",
    [RCL_KW_LET] = "KwLet", [RCL_KW_NOT] = "KwNot", [RCL_KW_NULL] = "KwNull", [RCL_KW_OR] = "KwOr",
    [RCL_KW_TRACE] = "KwTrace", [RCL_KW_TRUE] = "KwTrue",
    [RCL_LPAREN] = "LParen", [RCL_RPAREN] = "RParen", [RCL_LBRACKET] = "LBracket", [RCL_RBRACKET] = "RBracket",
    [RCL_LBRACE] = "LBrace", [RCL_RBRACE] = "RBrace",
    [RCL_LT] = "Lt", [RCL_GT] = "Gt", [RCL_LT_EQ] = "LtEq", [RCL_GT_EQ] = "GtEq", [RCL_EQ2] = "Eq2", [RCL_NEQ] = "Neq",
    [RCL_THIN_ARROW] = "ThinArrow", [RCL_FAT_ARROW] = "FatArrow", [RCL_EQ1] = "Eq1", [RCL_BANG] = "Bang",
    [RCL_STAR] = "Star", [RCL_PLUS] = "Plus", [RCL_COMMA] = "Comma", [RCL_MINUS] = "Minus",
    [RCL_DOT] = "Dot", [RCL_DOT_DOT] = "DotDot", [RCL_DOT_DOT_DOT] = "DotDotDot", [RCL_SLASH] = "Slash",
    [RCL_COLON] = "Colon", [RCL_SEMICOLON] = "Semicolon", [RCL_PIPE] = "Pipe"
};

/* What is lent to the calls. */
static uint8_t text[TEXT_MAX + 1];
static uint8_t kinds[PLACES];
static uint64_t words[2 * PLACES];
static uint8_t stack_kinds[STACK_PLACES];
static uint64_t stack_words[2 * STACK_PLACES];
static uint8_t part_kinds[PART_PLACES];
static uint64_t part_words[2 * PART_PLACES];
static uint8_t output[OUTPUT_MAX];

static void print_span(uint64_t low, uint64_t high) {
    printf(" %" PRIu64 "-%" PRIu64, RCL_SPAN_START(low), RCL_SPAN_END(low, high));
}

static void print_refusal(const rcl_refusal *refusal) {
    printf("refused %" PRIu64, refusal->number);
    print_span(refusal->low, refusal->high);
}

/* Accepted, or the refusal with its note if it has one: the opener, where a closer is wrong or missing. */
static void print_verdict(const rcl_lexed *lexed) {
    if (lexed->refusal.refused) {
        print_refusal(&lexed->refusal);
        if (lexed->note.noted) {
            printf(" note");
            print_span(lexed->note.low, lexed->note.high);
        }
    } else {
        printf("accepted");
    }
    printf("\n");
}

/* Bytes on one line. */
static void print_bytes(const uint8_t *bytes, uint64_t len) {
    uint64_t i;
    for (i = 0; i < len; i++) {
        if (bytes[i] == '\n') {
            fputs("\\n", stdout);
        } else {
            putchar(bytes[i]);
        }
    }
    printf("\n");
}

/* The list holds what was found also where the text is refused. */
static rcl_lexed list_lexemes(uintptr_t len) {
    rcl_lexed lexed = rcl_lex(DOC, text, len, kinds, PLACES, words, 2 * PLACES,
                              stack_kinds, STACK_PLACES, stack_words, 2 * STACK_PLACES);
    uint64_t place;
    printf("%" PRIuPTR " bytes, %" PRIu64 " lexemes, %" PRIu64 " deepest, %" PRIu64 " steps, %" PRIu64 " bytes dropped\n",
           len, lexed.lexemes, lexed.deepest, lexed.steps, lexed.dropped);
    for (place = 0; place < lexed.lexemes; place++) {
        printf("%2u %s", kinds[place], names[kinds[place]]);
        print_span(words[2 * place], words[2 * place + 1]);
        printf("\n");
    }
    print_verdict(&lexed);
    return lexed;
}

/* The tidy writer lexes by itself, into the same list: it holds the same lexemes afterwards. */
static void print_tidied(uintptr_t len) {
    rcl_tidied tidied = rcl_tidy(DOC, text, len, kinds, PLACES, words, 2 * PLACES,
                                 stack_kinds, STACK_PLACES, stack_words, 2 * STACK_PLACES, output, OUTPUT_MAX);
    printf("\ntidied, %" PRIu64 " bytes: ", tidied.written);
    print_verdict(&tidied.lexed);
    fwrite(output, 1, tidied.written, stdout);
    printf("\n");
}

/* The value of the string that opens at `place`, written from `position` on if it has to be written. Answers where the next one may be written. */
static uint64_t print_value(uintptr_t len, uint64_t lexemes, uint64_t place, uint64_t position) {
    rcl_valued valued = rcl_value(text, len, kinds, PLACES, words, 2 * PLACES, lexemes, place,
                                  part_kinds, PART_PLACES, part_words, 2 * PART_PLACES, output, OUTPUT_MAX, position);
    rcl_answer checked;
    if (valued.refusal.refused) {
        print_refusal(&valued.refusal);
        printf("\n");
        return position;
    }
    /* Before bytes are handed on: they stand inside the array that is said to hold them. */
    checked = rcl_hand_check(text, len, output, OUTPUT_MAX, valued.in_output, valued.start, valued.end);
    if (checked.refusal.refused) {
        print_refusal(&checked.refusal);
        printf("\n");
        return position;
    }
    printf("%s %" PRIu64 "-%" PRIu64 ": ", valued.in_output ? "output" : "text", valued.start, valued.end);
    print_bytes((valued.in_output ? output : text) + valued.start, valued.end - valued.start);
    return valued.in_output ? valued.end : position;
}

/* Every string of the list, one in a hole of another too. */
static void print_values(uintptr_t len, uint64_t lexemes) {
    uint64_t place, position = 0;
    printf("\nstrings:\n");
    for (place = 0; place < lexemes; place++) {
        if (kinds[place] >= RCL_QUOTE_OPEN_PLAIN_DOUBLE && kinds[place] <= RCL_QUOTE_OPEN_FORMAT_TRIPLE) {
            printf("%" PRIu64 " ", RCL_SPAN_START(words[2 * place]));
            position = print_value(len, lexemes, place, position);
        }
    }
}

/* Answers the length, or more than TEXT_MAX where the text could not be read whole. */
static size_t read_text(const char *name) {
    FILE *file = fopen(name, "rb");
    size_t len;
    if (!file) {
        return TEXT_MAX + 1;
    }
    len = fread(text, 1, TEXT_MAX + 1, file);
    if (ferror(file)) {
        len = TEXT_MAX + 1;
    }
    fclose(file);
    return len;
}

static size_t copy_protocol(void) {
    size_t i;
    for (i = 0; i < sizeof protocol - 1; i++) {
        text[i] = (uint8_t)protocol[i];
    }
    return i;
}

int main(int argc, char **argv) {
    size_t len = argc > 1 ? read_text(argv[1]) : copy_protocol();
    rcl_lexed lexed;
    if (len > TEXT_MAX) {
        fprintf(stderr, "%s: no file, or more than %d bytes\n", argv[1], TEXT_MAX);
        return 2;
    }
    lexed = list_lexemes(len);
    if (lexed.refusal.refused) {
        return 1;
    }
    print_tidied(len);
    print_values(len, lexed.lexemes);
    return 0;
}
