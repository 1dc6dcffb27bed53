/* Lints texts: the errors and warnings of docs/LINT.md and docs/LANGUAGE.md at their places, their order and number, and buffers of each size.
 * usage: lint [quick]: leaves out what takes long under valgrind */
#include "common.h"

static resb_finding found[110];
static size_t count;
static uint64_t more;

static uint32_t lint(const char *text, const char *name, size_t capacity) {
    memset(found, 'x', sizeof found);
    count = 77;
    more = 88;
    return resb_lint(S(text), S(name), found, capacity, &count, &more);
}

/* Expects a finding, whose message has some words. */
static void has(size_t i, uint64_t line, uint64_t column, uint32_t error, const char *rule, const char *words) {
    EXPECT(i < count && found[i].line == line && found[i].column == column && found[i].error == error);
    EXPECT(strcmp(found[i].rule, rule) == 0 && memchr(found[i].message, 0, sizeof found[i].message) && strstr(found[i].message, words));
}

/* Expects as many findings, and that nothing is written after them. */
static void ends(size_t findings, uint64_t left_out) {
    const unsigned char *after = (const unsigned char *)(found + findings);
    EXPECT(count == findings && more == left_out);
    for (size_t i = 0; i < sizeof found - findings * sizeof *found; i++)
        EXPECT(after[i] == 'x');
}

static void finds(void) {
    EXPECT(lint("de{a{\"b\"}}", "de", 9) == RESB_OK);
    ends(0, 0);
    EXPECT(lint("de{a{\"b\" \"c\", \"d\"}}", "", 9) == RESB_OK);
    has(0, 1, 9, 0, "joined-strings", "is a comma missing?");
    ends(1, 0);
    EXPECT(lint("de{a{\"b\"}}", "fr", 9) == RESB_OK);
    has(0, 1, 1, 0, "bundle-name", "");
    ends(1, 0);
    EXPECT(lint("de{\na:int{09}\n}", "de", 9) == RESB_OK);
    has(0, 2, 7, RESB_TEXT_BAD_INT, "BadInt", "BadInt: '09'");
    ends(1, 0);
    EXPECT(lint("", "", 9) == RESB_OK);
    has(0, 1, 1, RESB_TEXT_UNEXPECTED, "Unexpected", "");
    ends(1, 0);
    EXPECT(lint("de{a{\"\xff\"}}", "", 9) == RESB_OK);
    has(0, 1, 7, RESB_TEXT_NOT_UTF8, "NotUtf8", "");
    ends(1, 0);
    /* the column counts UTF-16 units, of which the first string has three */
    EXPECT(lint("de{l{\"\xf0\x9f\x98\x80\xc3\xa4\",\"b\" \"c\"}}", "", 9) == RESB_OK);
    has(0, 1, 15, 0, "joined-strings", "");
    ends(1, 0);
    /* the lost brace of line 2, and the error at the end */
    EXPECT(lint("de {\n    menu {\n        a { \"b\" }\n    quit { \"q\" }\n}\n", "de", 9) == RESB_OK);
    has(0, 4, 5, 0, "missing-close-brace", "line 2");
    EXPECT(count == 2 && found[1].error == RESB_TEXT_UNEXPECTED && strcmp(found[1].rule, "Unexpected") == 0);
}

/* Of 150 warnings and an error at the end of a text the first fit, and the error. */
static void limits(void) {
    static char text[1 << 13] = "de{l{\n";
    for (int i = 0; i < 150; i++)
        strcat(text, "\"\\q\",\n");
    EXPECT(lint(text, "", 1) == RESB_OK);
    has(0, 152, 1, RESB_TEXT_UNEXPECTED, "Unexpected", "the text ends");
    ends(1, 150);
    EXPECT(lint(text, "", 101) == RESB_OK);
    for (size_t i = 0; i < 100; i++)
        has(i, i + 2, 2, 0, "unknown-escape", "\\q");
    has(100, 152, 1, RESB_TEXT_UNEXPECTED, "Unexpected", "the text ends");
    ends(101, 50);
    EXPECT(lint(text, "", 0) == RESB_NO_ROOM && count == 1);
    for (size_t i = 0; i < sizeof found; i++)
        EXPECT(((char *)found)[i] == 'x');
}

/* The longest messages: a source of 60 characters of four bytes, and a name of 100 of three. */
static void fits_long_messages(void) {
    char text[2000] = "de{a:";
    for (int i = 0; i < 100; i++)
        strcat(text, "\xf0\x9f\x98\x80");
    EXPECT(lint(strcat(text, "{}}"), "", 9) == RESB_OK);
    has(0, 1, 6, RESB_TEXT_UNKNOWN_TYPE, "UnknownType", "\xf0\x9f\x98\x80..'");
    EXPECT(strlen(found[0].message) > 240);
    strcpy(text, "de{a{\"{n,plural,");
    for (int i = 0; i < 100; i++)
        strcat(text, "\xe2\x82\xac");
    EXPECT(lint(strcat(text, "{a} other{b}}\"}}"), "", 9) == RESB_OK);
    EXPECT(count > 0 && strcmp(found[0].rule, "unknown-selector") == 0 && strlen(found[0].message) > 300);
    EXPECT(found[0].message[strlen(found[0].message) - 1] == 'e');
}

/* Lints damaged texts: the lines ascend, each finding has a name, and a text has an error exactly if it doesn't compile. */
static void reads_damaged(int turns) {
    static const char whole[] = "de:table(nofallback){ // x\n a{\"b\\n{n,plural,other{#}}\"} /* y */ n:int{-0x1f} b:bin{\"0a1b\"} v:intvector{1,2}\n"
                                "l{\"a\" \"b\",{\"c\"},:alias{\"/LOCALE/a\"}} t{u{v{\"w\"}}}\n}";
    static uint8_t file[1 << 12];
    uint64_t random = 3, line;
    size_t len, refused = 0;
    for (int turn = 0; turn < turns; turn++) {
        char text[sizeof whole];
        memcpy(text, whole, sizeof whole);
        size_t n = turn % 3 ? sizeof whole - 1 : next_random(&random) % sizeof whole;
        for (int i = turn % 4; i >= 0 && n; i--)
            text[next_random(&random) % n] = (char)(turn % 5 ? "{}\":,\\/*\n #'"[next_random(&random) % 12] : (int)next_random(&random));
        uint32_t error = resb_compile(text, n, file, sizeof file, &len, &line);
        EXPECT(resb_lint(text, n, S("de"), found, 1 + turn % 109, &count, &more) == RESB_OK);
        size_t errors = 0;
        for (size_t i = 0; i < count; i++) {
            errors += found[i].error != 0;
            EXPECT(found[i].error == 0 || found[i].error == error);
            EXPECT(*found[i].rule && *found[i].message && (i == 0 ? found[i].line > 0 : found[i].line >= found[i - 1].line));
        }
        EXPECT(errors == (error != RESB_OK));
        refused += errors;
    }
    printf("%d damaged texts were linted, %zu of them with errors\n", turns, refused);
}

int main(int argc, char **argv) {
    finds();
    limits();
    fits_long_messages();
    reads_damaged(argc > 1 && strcmp(argv[1], "quick") == 0 ? 300 : 30000);
    return 0;
}
