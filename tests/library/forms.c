/* Writes items, trees and prepared bundles as JSON, texts and files, prepares bundles from JSON, and makes many changes together, with
 * each error for a caller with memory. Expected texts are those of docs/JSON.md and docs/SERVER.md.
 * usage: forms [quick]: leaves out what takes long under valgrind */
#include <sys/resource.h>
#include <time.h>

#include "common.h"

static const char root[] = "root{menu{open{\"Open\"} shut:alias{\"/LOCALE/menu/close\"} close{\"Close\"}} bad:alias{\"/LOCALE/none\"}}";
static const char de[] = "de{menu{close{\"Zu\"} open{\"\\u00d6ffnen\"}} n:int{-1} b:bin{00ff10} v:intvector{1,-2} l{\"a\",{\"b\",\"c\"}}}";
static char out[4096];
static size_t len;
static uint64_t line;

typedef uint32_t json(resb *, const char *, size_t, const char *, size_t, const char *, size_t, uint64_t, char *, size_t, size_t *);

/* Expects a text, its length alone in a buffer that is too short by a byte, and an untouched byte behind it. */
static void gives(json *call, resb *e, const char *locale, const char *path, const char *wanted) {
    size_t whole = strlen(wanted);
    memset(out, 'x', sizeof out);
    EXPECT(call(e, S("shop"), S(locale), S(path), UINT64_MAX, out, whole - 1, &len) == RESB_NO_ROOM && len == whole && out[0] == 'x');
    EXPECT(call(e, S("shop"), S(locale), S(path), UINT64_MAX, out, whole, &len) == RESB_OK && len == whole);
    EXPECT(memcmp(out, wanted, whole) == 0 && out[whole] == 'x');
}

static void refuses(json *call, resb *e) {
    resb closed = RESB_CLOSED;
    len = 9;
    memset(out, 'x', sizeof out);
    EXPECT(call(&closed, S("shop"), S("de"), S("menu"), 9, out, sizeof out, &len) == RESB_NOT_OPEN);
    EXPECT(call(e, S("sh op"), S("-"), S("//"), 0, out, sizeof out, &len) == RESB_BAD_APP);
    EXPECT(call(e, S("ICUDATA"), S("-"), S("//"), 0, out, sizeof out, &len) == RESB_RESERVED);
    EXPECT(call(e, S("shop"), S("-"), S("//"), 0, out, sizeof out, &len) == RESB_BAD_LOCALE);
    EXPECT(call(e, S("shop"), S("de"), S("a//b"), 0, out, sizeof out, &len) == RESB_BAD_PATH);
    EXPECT(call(e, S("shop"), S("de"), S("menu"), 0, out, sizeof out, &len) == RESB_TOO_MANY_STEPS);
    EXPECT(call(e, S("shop"), S("de"), S("menu/none"), UINT64_MAX, out, sizeof out, &len) == RESB_MISSING);
    EXPECT(call(e, S("none"), S("de"), S("menu"), UINT64_MAX, out, sizeof out, &len) == RESB_NO_BUNDLE);
    EXPECT(len == 9 && out[0] == 'x');
}

typedef uint32_t json_within(resb *, const char *, size_t, const char *, size_t, const char *, size_t, uint64_t, uint64_t, char *, size_t,
                             size_t *);

/* Expects what a call without a limit on the bytes gives, and with one that is less by a byte an error, and nothing written. */
static void limits(json_within *call, json *whole, uint32_t error, resb *e, const char *path) {
    static char wanted[sizeof out];
    size_t bytes = 0;
    EXPECT(whole(e, S("shop"), S("de"), S(path), UINT64_MAX, wanted, sizeof wanted, &bytes) == RESB_OK);
    len = 9;
    memset(out, 'x', sizeof out);
    EXPECT(call(e, S("shop"), S("de"), S(path), 99, bytes - 1, out, sizeof out, &len) == error);
    EXPECT(call(e, S("shop"), S("de"), S(path), 99, 0, out, 0, &len) == error && len == 9 && out[0] == 'x');
    EXPECT(call(e, S("shop"), S("de"), S(path), 0, bytes, out, sizeof out, &len) == RESB_TOO_MANY_STEPS);
    EXPECT(call(e, S("shop"), S("de"), S("a//b"), 0, 0, out, sizeof out, &len) == RESB_BAD_PATH && len == 9);
    EXPECT(call(e, S("shop"), S("de"), S(path), 99, bytes, out, bytes - 1, &len) == RESB_NO_ROOM && len == bytes && out[0] == 'x');
    EXPECT(call(e, S("shop"), S("de"), S(path), 99, bytes, out, bytes, &len) == RESB_OK && len == bytes && memcmp(out, wanted, bytes) == 0);
    resb closed = RESB_CLOSED;
    EXPECT(call(&closed, S("shop"), S("de"), S(path), 99, bytes, out, sizeof out, &len) == RESB_NOT_OPEN);
}

/* Writes a word of a file. */
static uint8_t *word(uint8_t *at, uint32_t value) {
    for (int i = 0; i < 4; i++)
        *at++ = (uint8_t)(value >> 8 * i);
    return at;
}

/* Installs a file with a table whose keys are the ends of one key of some bytes (docs/FORMAT.md), so they are far longer than the file. */
static void shares_keys(resb *e, uint32_t count) {
    uint32_t top = 6 + (count + 4) / 4, end = top + 1 + 2 * count;
    static const char head[] = "\x20\0\xda\x27\x14\0\0\0\0\0\2\0ResB\1\1\0\0\0\0\0\0\0\0\0\0\0\0\0";
    uint8_t *file = calloc(1, 32 + 4 * (size_t)end), *at = file + 32;
    EXPECT(file != NULL && sizeof head == 32);
    memcpy(file, head, 32);
    at = word(word(word(word(word(word(at, 4u << 28 | top), 5), top), end), end), count);
    memset(at, 'k', count);
    at = word(file + 32 + 4 * (size_t)top, count);
    for (uint32_t i = count; i-- > 0;)
        at = word(at, 24 + i);
    for (uint32_t i = 0; i < count; i++)
        at = word(at, 7u << 28);
    EXPECT(resb_install(e, S("shared"), S("de"), file, 32 + 4 * (size_t)end, false) == RESB_OK);
    free(file);
}

static long most_memory(void) {
    struct rusage usage;
    EXPECT(getrusage(RUSAGE_SELF, &usage) == 0);
    return usage.ru_maxrss;
}

/* Neither memory nor time grow with an item above a limit. */
static void limits_items(resb *e, bool is_quick) {
    limits(resb_item_json_within, resb_item_json, RESB_REPLY_TOO_LONG, e, "menu");
    limits(resb_item_json_within, resb_item_json, RESB_REPLY_TOO_LONG, e, "menu/open");
    limits(resb_item_json_within, resb_item_json, RESB_REPLY_TOO_LONG, e, "b");
    limits(resb_tree_json_within, resb_tree_json, RESB_TREE_TOO_LARGE, e, "menu");
    limits(resb_tree_json_within, resb_tree_json, RESB_TREE_TOO_LARGE, e, "l");
    const uint32_t count = is_quick ? 500 : 20000;
    shares_keys(e, count);
    long before = most_memory();
    clock_t begin = clock();
    EXPECT(resb_item_json_within(e, S("shared"), S("de"), S(""), 9, 9999, out, sizeof out, &len) == RESB_REPLY_TOO_LONG);
    EXPECT(is_quick || clock() - begin < CLOCKS_PER_SEC / 10);
    EXPECT(resb_item_json(e, S("shared"), S("de"), S(""), 9, out, sizeof out, &len) == RESB_NO_ROOM);
    /* keys of 1 to `count` bytes, each with quotes and a comma but the last */
    EXPECT(len == strlen("{\"actual\":\"de\",\"keys\":[],\"type\":\"table\",\"valid\":\"de\"}") + (size_t)count * (count + 1) / 2 + 3 * (size_t)count - 1);
    EXPECT(is_quick || most_memory() < before + 16384);
    EXPECT(resb_remove(e, S("shared"), S("de")) == RESB_OK);
}

static void writes_items(resb *e) {
    refuses(resb_item_json, e);
    gives(resb_item_json, e, "de_AT", "menu/open", "{\"actual\":\"de\",\"type\":\"string\",\"valid\":\"de\",\"value\":\"\xc3\x96" "ffnen\"}");
    gives(resb_item_json, e, "de", "menu/shut", "{\"actual\":\"de\",\"type\":\"string\",\"valid\":\"de\",\"value\":\"Zu\"}");
    gives(resb_item_json, e, "de", "menu", "{\"actual\":\"de\",\"keys\":[\"close\",\"open\"],\"type\":\"table\",\"valid\":\"de\"}");
    gives(resb_item_json, e, "fr", "menu/open", "{\"actual\":\"root\",\"type\":\"string\",\"valid\":\"root\",\"value\":\"Open\"}");
    gives(resb_item_json, e, "de", "n", "{\"actual\":\"de\",\"signed\":-1,\"type\":\"int\",\"unsigned\":268435455,\"valid\":\"de\"}");
    gives(resb_item_json, e, "de", "b", "{\"actual\":\"de\",\"hex\":\"00ff10\",\"type\":\"bin\",\"valid\":\"de\"}");
    gives(resb_item_json, e, "de", "v", "{\"actual\":\"de\",\"type\":\"intvector\",\"valid\":\"de\",\"values\":[1,-2]}");
    gives(resb_item_json, e, "de", "l", "{\"actual\":\"de\",\"len\":2,\"type\":\"array\",\"valid\":\"de\"}");
}

static void writes_trees(resb *e) {
    refuses(resb_tree_json, e);
    gives(resb_tree_json, e, "de_AT", "menu", "{\"close\":\"Zu\",\"open\":\"\xc3\x96" "ffnen\",\"shut\":\"Zu\"}");
    gives(resb_tree_json, e, "fr", "", "{\"bad\":{\":error\":\"Missing\"},\"menu\":{\"close\":\"Close\",\"open\":\"Open\",\"shut\":\"Close\"}}");
    gives(resb_tree_json, e, "de", "b", "{\":bin\":\"00ff10\"}");
    gives(resb_tree_json, e, "de", "l", "[\"a\",[\"b\",\"c\"]]");
    gives(resb_tree_json, e, "de", "n", "-1");
    /* enough steps for the lookup, but not for the tree */
    uint64_t steps = 0;
    while (resb_item_json(e, S("shop"), S("de"), S(""), steps, out, sizeof out, &len) == RESB_TOO_MANY_STEPS)
        steps++;
    EXPECT(steps < 100 && resb_tree_json(e, S("shop"), S("de"), S(""), steps, out, sizeof out, &len) == RESB_TOO_MANY_STEPS);
    EXPECT(resb_tree_json(e, S("shop"), S("de"), S(""), 1000, out, sizeof out, &len) == RESB_OK);
}

/* Each table has aliases to the next one, so the tree is exponentially larger than the bundle. */
static void limits_trees(resb *e) {
    static char text[4096];
    size_t at = (size_t)sprintf(text, "root{");
    for (int i = 0; i < 30; i++)
        at += (size_t)sprintf(text + at, "t%02d{a:alias{\"/LOCALE/t%02d\"} b:alias{\"/LOCALE/t%02d\"}}", i, i + 1, i + 1);
    sprintf(text + at, "t30{x{\"y\"}}}");
    EXPECT(resb_install(e, S("large"), S("root"), S(text), true) == RESB_OK);
    EXPECT(resb_tree_json(e, S("large"), S("root"), S("t00"), UINT64_MAX, out, sizeof out, &len) == RESB_TREE_TOO_LARGE);
    EXPECT(resb_tree_json(e, S("large"), S("root"), S("t00"), 1000, out, sizeof out, &len) == RESB_TOO_MANY_STEPS);
    EXPECT(resb_tree_json(e, S("large"), S("root"), S("t29"), 1000, out, sizeof out, &len) == RESB_OK);
    EXPECT(len == 29 && memcmp(out, "{\"a\":{\"x\":\"y\"},\"b\":{\"x\":\"y\"}}", len) == 0);
}

/* Expects what a prepared bundle gives, as file, text and JSON. */
static void has_forms(resb_bundle *bundle, const char *locale, const char *text, const char *wanted) {
    static uint8_t file[4096], compiled[4096];
    size_t file_len, compiled_len;
    EXPECT(resb_bundle_file(bundle, file, sizeof file, &file_len) == RESB_OK && resb_check(file, file_len) == RESB_OK);
    EXPECT(resb_bundle_file(bundle, out, file_len - 1, &len) == RESB_NO_ROOM && len == file_len && bundle->is_prepared);
    EXPECT(resb_bundle_text(bundle, S(locale), out, sizeof out, &len) == RESB_OK && len == strlen(text) && memcmp(out, text, len) == 0);
    EXPECT(resb_bundle_text(bundle, S(locale), (char *)compiled, len - 1, &compiled_len) == RESB_NO_ROOM && compiled_len == len);
    EXPECT(resb_compile(out, len, compiled, sizeof compiled, &compiled_len, &line) == RESB_OK);
    EXPECT(compiled_len == file_len && memcmp(compiled, file, file_len) == 0);
    EXPECT(resb_bundle_text(bundle, S("-"), out, sizeof out, &len) == RESB_BAD_LOCALE);
    EXPECT(resb_bundle_json(bundle, out, sizeof out, &len) == RESB_OK && len == strlen(wanted) && memcmp(out, wanted, len) == 0);
    EXPECT(resb_bundle_json(bundle, (char *)compiled, len - 1, &compiled_len) == RESB_NO_ROOM && compiled_len == len);
    resb_bundle again = RESB_DISCARDED;
    EXPECT(resb_prepare_json(out, len, &again, &line) == RESB_OK && line == 0 && again.is_prepared);
    EXPECT(resb_bundle_file(&again, compiled, sizeof compiled, &compiled_len) == RESB_OK);
    EXPECT(compiled_len == file_len && memcmp(compiled, file, file_len) == 0);
    EXPECT(resb_prepare_json(out, len, &again, &line) == RESB_ALREADY_OPEN && again.is_prepared);
    resb_discard(&again);
    EXPECT(bundle->is_prepared);
}

static void writes_bundles(void) {
    resb_bundle bundle = RESB_DISCARDED;
    EXPECT(resb_bundle_file(&bundle, out, sizeof out, &len) == RESB_NOT_OPEN);
    EXPECT(resb_bundle_text(&bundle, S("de"), out, sizeof out, &len) == RESB_NOT_OPEN);
    EXPECT(resb_bundle_json(&bundle, out, sizeof out, &len) == RESB_NOT_OPEN);
    EXPECT(resb_prepare(S("x{a{\"x\"} b:int{5} c:alias{\"/LOCALE/a\"} d{\"p\",\"q\"} e:bin{\"00ff\"} f:intvector{-1,2}}"), true, &bundle, &line) == RESB_OK);
    has_forms(&bundle, "de-at",
              "de_AT {\n    a { \"x\" }\n    b:int { 5 }\n    c:alias { \"/LOCALE/a\" }\n    d {\n        \"p\", \"q\",\n    }\n"
              "    e:bin { \"00ff\" }\n    f:intvector { -1, 2 }\n}\n",
              "{\"a\":\"x\",\"b\":5,\"c\":{\":alias\":\"/LOCALE/a\"},\"d\":[\"p\",\"q\"],\"e\":{\":bin\":\"00ff\"},\"f\":{\":intvector\":[-1,2]}}");
    resb_discard(&bundle);
}

static void refuses_json(void) {
    static const struct {
        const char *text;
        uint32_t error;
        uint64_t line;
    } cases[] = {
        {"\xff", RESB_JSON_NOT_UTF8, 1},
        {"{\n\"a\"", RESB_JSON_NOT_JSON, 2},
        {"{}\n{}", RESB_JSON_TRAILING_TEXT, 2},
        {"[]", RESB_JSON_NOT_TABLE, 1},
        {"{\"a\":\n\ntrue}", RESB_JSON_UNKNOWN_VALUE, 3},
        {"{\"a\":{\":no\":1}}", RESB_JSON_BAD_TAG, 1},
        {"{\"\":\"x\"}", RESB_JSON_BAD_KEY, 1},
        {"{\"a\":\"x\",\n\"a\":\"y\"}", RESB_JSON_DUPLICATE_KEY, 2},
        {"{\"a\": [1, 2.5]}", RESB_JSON_BAD_NUMBER, 1},
        {"{\"a\":{\":bin\":\"0F\"}}", RESB_JSON_BAD_BINARY, 1},
        {"{\"a\":{\":units\":[65]}}", RESB_JSON_BAD_UNITS, 1},
    };
    for (size_t i = 0; i < sizeof cases / sizeof *cases; i++) {
        resb_bundle bundle = RESB_DISCARDED;
        line = 99;
        uint32_t error = resb_prepare_json(S(cases[i].text), &bundle, &line);
        if (error != cases[i].error || line != cases[i].line)
            fprintf(stderr, "%s: %s, line %d\n", cases[i].text, resb_error_name(error), (int)line);
        EXPECT(error == cases[i].error && line == cases[i].line && !bundle.is_prepared);
    }
}

/* Damages JSON. What is still accepted gives JSON that is read as the same file. */
static void reads_damaged_json(int copies) {
    static const char json[] = "{\"a\":\"x\\u00fc\",\"b\":-5,\"c\":{\":alias\":\"/LOCALE/a\"},\"d\":[\"p\",{\"q\":[]}],\"e\":{\":bin\":\"00ff\"},"
                               "\"f\":{\":intvector\":[-1,2]},\"g\":{\":units\":[55296,65]},\"::h\":{}}";
    static uint8_t one[4096], two[4096];
    uint64_t random = 11;
    int accepted = 0;
    for (int i = 0; i < copies; i++) {
        char damaged[sizeof json];
        size_t one_len, two_len;
        memcpy(damaged, json, sizeof json);
        for (int k = 0; k < i % 4; k++)
            damaged[next_random(&random) % (sizeof json - 1)] ^= (char)(1 << next_random(&random) % 8);
        resb_bundle bundle = RESB_DISCARDED, again = RESB_DISCARDED;
        uint32_t error = resb_prepare_json(damaged, sizeof json - 1 - (i % 7 == 6) * next_random(&random) % 99, &bundle, &line);
        EXPECT(error == RESB_OK || (error >= RESB_JSON_TOO_LONG && error <= RESB_JSON_TOO_LARGE && line > 0 && !bundle.is_prepared));
        if (error)
            continue;
        accepted++;
        EXPECT(resb_bundle_json(&bundle, out, sizeof out, &len) == RESB_OK && resb_prepare_json(out, len, &again, &line) == RESB_OK);
        EXPECT(resb_bundle_file(&bundle, one, sizeof one, &one_len) == RESB_OK && resb_bundle_file(&again, two, sizeof two, &two_len) == RESB_OK);
        EXPECT(one_len == two_len && memcmp(one, two, one_len) == 0);
        resb_discard(&bundle);
        resb_discard(&again);
    }
    EXPECT(accepted > copies / 10);
}

/* Prepares a bundle with one number for an edit. */
static resb_edit edit_of(const char *locale, int number) {
    resb_edit edit = {S(locale), RESB_DISCARDED};
    char text[64];
    snprintf(text, sizeof text, "x{n:int{%d}}", number);
    EXPECT(resb_prepare(S(text), true, &edit.bundle, &line) == RESB_OK);
    return edit;
}

/* The number of a bundle, or -1 if there is no bundle with the locale. */
static int number_of(resb *e, const char *app, const char *locale) {
    resb_bundle bundle = RESB_DISCARDED;
    static uint8_t file[4096];
    uint32_t error = resb_export(e, S(app), S(locale), file, sizeof file, &len);
    if (error == RESB_ABSENT)
        return -1;
    EXPECT(error == RESB_OK && resb_prepare(file, len, false, &bundle, &line) == RESB_OK);
    EXPECT(resb_bundle_json(&bundle, out, sizeof out, &len) == RESB_OK);
    resb_discard(&bundle);
    out[len] = 0;
    int number = -2;
    EXPECT(sscanf(out, "{\"n\":%d}", &number) == 1);
    return number;
}

static uint32_t release(resb *e, const char *app, resb_edit *edits, size_t count, size_t wanted_place) {
    size_t place = 99;
    uint32_t error = resb_release(e, S(app), edits, count, &place);
    EXPECT(place == wanted_place);
    for (size_t i = 0; i < count; i++) {
        EXPECT(error || !edits[i].bundle.is_prepared);
        resb_discard(&edits[i].bundle);
    }
    return error;
}

static void releases(resb *e) {
    resb closed = RESB_CLOSED, other = RESB_CLOSED;
    resb_edit removal = {S("fr"), RESB_DISCARDED};
    resb_edit some[] = {edit_of("de", 1), edit_of("DE-at", 2), removal};
    EXPECT(release(&closed, "rel", some, 2, 0) == RESB_NOT_OPEN);
    some[0] = edit_of("de", 1);
    size_t place = 9;
    EXPECT(resb_share(e, &other) == RESB_OK);
    EXPECT(resb_release(e, S("rel"), some, 1, &place) == RESB_SHARED && place == 0 && some[0].bundle.is_prepared);
    resb_close(&other);
    EXPECT(resb_release(e, S("sh op"), some, 1, &place) == RESB_BAD_APP && place == 0 && some[0].bundle.is_prepared);
    EXPECT(resb_release(e, S("ICUDATA"), some, 1, &place) == RESB_RESERVED && some[0].bundle.is_prepared);
    resb_discard(&some[0].bundle);
    resb_locale opened;
    resb_found f;
    EXPECT(resb_open_locale(e, S("shop"), S("de"), &opened) == RESB_OK);
    some[0] = edit_of("de", 1);
    some[1] = edit_of("DE-at", 2);
    EXPECT(release(e, "rel", some, 3, 2) == RESB_ABSENT && number_of(e, "rel", "de") == -1);
    EXPECT(resb_look_at(e, &opened, S("n"), &f) == RESB_OK);
    some[0] = edit_of("de", 1);
    some[1] = edit_of("-", 2);
    EXPECT(release(e, "rel", some, 3, 1) == RESB_BAD_LOCALE && number_of(e, "rel", "de") == -1);
    some[0] = edit_of("de", 1);
    some[1] = edit_of("DE-at", 2);
    EXPECT(release(e, "rel", some, 2, 0) == RESB_OK && number_of(e, "rel", "de") == 1 && number_of(e, "rel", "de_AT") == 2);
    EXPECT(resb_look_at(e, &opened, S("n"), &f) == RESB_STALE);
    /* edits see those before them: one that replaces, one that removes and one that installs again */
    resb_edit more[] = {edit_of("de", 3), {S("de_AT"), RESB_DISCARDED}, edit_of("fr", 4), removal, edit_of("fr", 5)};
    EXPECT(release(e, "rel", more, 5, 0) == RESB_OK);
    EXPECT(number_of(e, "rel", "de") == 3 && number_of(e, "rel", "de_AT") == -1 && number_of(e, "rel", "fr") == 5);
    resb_edit twice[] = {{S("fr"), RESB_DISCARDED}, {S("fr"), RESB_DISCARDED}};
    EXPECT(release(e, "rel", twice, 2, 1) == RESB_ABSENT && number_of(e, "rel", "fr") == 5);
    EXPECT(release(e, "rel", twice, 0, 0) == RESB_OK);
    EXPECT(number_of(e, "other", "de") == -1);
}

static void fills(resb *e) {
    static resb_edit edits[4097];
    static char locales[4097][8];
    for (int i = 0; i < 4097; i++) {
        snprintf(locales[i], sizeof locales[i], "de_%04d", i);
        edits[i] = edit_of(locales[i], i);
    }
    EXPECT(release(e, "full", edits, 4097, 4096) == RESB_FULL && number_of(e, "full", "de_0000") == -1);
    for (int i = 0; i < 4096; i++)
        edits[i] = edit_of(locales[i], i);
    EXPECT(release(e, "full", edits, 4096, 0) == RESB_OK && number_of(e, "full", "de_4095") == 4095);
    edits[0] = edit_of("fr", 1);
    EXPECT(release(e, "full", edits, 1, 0) == RESB_FULL);
    edits[0] = (resb_edit){S("de_0000"), RESB_DISCARDED};
    edits[1] = edit_of("fr", 1);
    EXPECT(release(e, "full", edits, 2, 0) == RESB_OK && number_of(e, "full", "fr") == 1 && number_of(e, "full", "de_0000") == -1);
}

static uint32_t checked(const char *text) {
    static uint8_t file[1 << 15];
    size_t size;
    EXPECT(resb_compile(S(text), file, sizeof file, &size, &line) == RESB_OK && resb_check(file, size) == RESB_OK);
    uint32_t error = resb_check_for_icu(file, size);
    EXPECT(resb_alias_targets(file, size, out, sizeof out, &len) == error);
    file[16] = 4; /* the version of the format */
    EXPECT(resb_check_for_icu(file, size) == RESB_FILE_FORMAT_VERSION);
    return error;
}

static void checks_for_icu(void) {
    EXPECT(checked("de{\"%%ALIAS\"{\"de\"}}") == RESB_ICU_ALIAS);
    EXPECT(checked("de{\"%%ALIAS\"{\"fr\"} \"%%Parent\"{\"root\"}}") == RESB_ICU_ALIAS);
    EXPECT(checked("de{a{\"b\"} \"%%Parent\"{\"root\"}}") == RESB_ICU_PARENT);
    EXPECT(checked("de{a{\"%%ALIAS\"{\"de\"} \"%%Parent\"{\"de\"}}}") == RESB_OK);
    EXPECT(checked("de{a:alias{\"fr/x\"} \"%%ALIA\"{\"de\"} \"%%Version\"{\"1\"}}") == RESB_OK);
    EXPECT(checked("de{}") == RESB_OK);
    EXPECT(checked("de{a{\"b\"} c{\"d\",:alias{\"/LOCALE/\"}}}") == RESB_ICU_TARGET);
    EXPECT(checked("de{a:alias{\"de/\"} \"%%Parent\"{\"root\"}}") == RESB_ICU_PARENT);
    EXPECT(checked("de{a:alias{\"/ICUDATA/de/\"}}") == RESB_ICU_TARGET);
    EXPECT(checked("de{t{a:alias{\"/LOCALE/\\u0000x\"}}}") == RESB_ICU_TARGET);
    EXPECT(checked("de{a{\"/LOCALE/\"} b:alias{\"/LOCALE/a\"} c:alias{\"\"} d:alias{\"/LOCALE\"} \"e/\"{\"x/\"}}") == RESB_OK);
    EXPECT(resb_check_for_icu(out, 0) == RESB_FILE_HEADER);
}

/* Expects the names of the bundles to which a text's aliases lead, each with a zero byte after it, and an untouched byte behind. */
static void leads_to(const char *text, const char *names, size_t whole) {
    memset(out, 'x', sizeof out);
    EXPECT(checked(text) == RESB_OK && len == whole && memcmp(out, names, whole) == 0 && out[whole] == 'x');
    static uint8_t file[1 << 12];
    size_t size;
    memset(out, 'x', sizeof out);
    EXPECT(resb_compile(S(text), file, sizeof file, &size, &line) == RESB_OK);
    len = 0;
    EXPECT(whole == 0 || (resb_alias_targets(file, size, out, whole - 1, &len) == RESB_NO_ROOM && len == whole && out[0] == 'x'));
}

#define LEADS_TO(text, names) leads_to(text, names, sizeof(names) - 1)

static void lists_targets(void) {
    LEADS_TO("de{a{\"fr/x\"} b:alias{\"/LOCALE/a\"} c:alias{\"/LOCALE\"} d:alias{\"\"}}", "");
    LEADS_TO("de{a:alias{\"fr/x\"} b{\"c\",:alias{\"de_AT\"},{:alias{\"fr/y/z\"}}} c:alias{\"root/a\"}}", "de_AT\0fr\0root\0");
    LEADS_TO("de{a:alias{\"/ICUDATA/de/x\"} b:alias{\"/ICUDATA-lang/fr\"} c:alias{\"/ICUDATA\"} d:alias{\"//de\"} e:alias{\"LOCALE/x\"}}",
             "//de\0/ICUDATA-lang/fr\0/ICUDATA/\0/ICUDATA/de\0LOCALE\0");
    LEADS_TO("de{a:alias{\"\\u00e9\\ud83d\\ude00\\ud800/x\"}}", "\xc3\xa9\xf0\x9f\x98\x80\xef\xbf\xbd\0");
    len = 9;
    EXPECT(resb_alias_targets(out, 0, out + 1, 100, &len) == RESB_FILE_HEADER && len == 9);
}

/* Checks that aliases may share a text of usual length. */
static void shares_a_target(void) {
    char source[1 << 14] = "de{t{\"x\"} a:array{";
    for (int i = 0; i < 300; i++)
        strcat(source, ":alias{\"/LOCALE/calendar/gregorian/t\"},");
    EXPECT(checked(strcat(source, "}}")) == RESB_OK);
}

/* Makes a file of an array whose items are one array of ints, and checks it. */
static uint32_t checked_sharing(int number) {
    static uint8_t file[1 << 16];
    char source[1 << 12] = "de{a{{";
    size_t size;
    uint32_t word, shared = 0;
    for (int i = 0; i < number; i++)
        strcat(source, ":int{2},");
    strcat(source, "},");
    for (int i = 0; i < number; i++)
        strcat(source, ":int{1},");
    strcat(source, "}}");
    EXPECT(resb_compile(S(source), file, sizeof file, &size, &line) == RESB_OK && resb_check_for_icu(file, size) == RESB_OK);
    for (size_t at = 0; at + 4 <= size; at += 4) {
        uint32_t before = shared;
        memcpy(&word, file + at, 4);
        shared = word >> 28 == RESB_ARRAY ? word : before;
        if (word == 0x70000001u)
            memcpy(file + at, &shared, 4);
    }
    EXPECT(resb_check(file, size) == RESB_OK);
    return resb_check_for_icu(file, size);
}

int main(int argc, char **argv) {
    bool quick = argc > 1 && strcmp(argv[1], "quick") == 0;
    resb e = RESB_CLOSED;
    uint8_t seed[16] = {8};
    EXPECT(resb_open(&e, seed, 16) == RESB_OK);
    EXPECT(resb_install(&e, S("shop"), S("root"), S(root), true) == RESB_OK);
    EXPECT(resb_install(&e, S("shop"), S("de"), S(de), true) == RESB_OK);
    writes_items(&e);
    writes_trees(&e);
    limits_items(&e, quick);
    if (!quick)
        limits_trees(&e);
    writes_bundles();
    refuses_json();
    reads_damaged_json(quick ? 100 : 30000);
    releases(&e);
    if (!quick)
        fills(&e);
    checks_for_icu();
    lists_targets();
    shares_a_target();
    EXPECT(checked_sharing(1) == RESB_OK && checked_sharing(100) == RESB_ICU_ITEMS);
    resb_close(&e);
    puts("items, trees and bundles were written, prepared and released as expected");
    return 0;
}
