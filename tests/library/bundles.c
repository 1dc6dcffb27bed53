/* Prepares bundles without an engine, installs and exports them, with each error for a caller with memory. */
#include "common.h"

static const char text[] = "de{greeting{\"Gr\\u00fc\\u00df\"} count:int{7} menu{open{\"Auf\"} close{\"Zu\"}}}";
static uint8_t file[4096];
static size_t file_len;
static uint64_t line;

static void compiles(void) {
    EXPECT(resb_compile(S(text), file, sizeof file, &file_len, &line) == RESB_OK);
}

static void prepares(void) {
    resb_bundle bundle = RESB_DISCARDED;
    EXPECT(!bundle.is_prepared);
    line = 9;
    EXPECT(resb_prepare(S(text), true, &bundle, &line) == RESB_OK && bundle.is_prepared && bundle.bundle && line == 0);
    void *first = bundle.bundle;
    line = 9;
    EXPECT(resb_prepare(S("de{"), true, &bundle, &line) == RESB_ALREADY_OPEN && bundle.bundle == first && line == 0);
    resb_discard(&bundle);
    EXPECT(!bundle.is_prepared);
    resb_discard(&bundle);
    EXPECT(!bundle.is_prepared);
    line = 9;
    EXPECT(resb_prepare(file, file_len, false, &bundle, &line) == RESB_OK && bundle.is_prepared && line == 0);
    resb_discard(&bundle);
}

/* Expects an error, with its line, and no bundle. */
static void refuses(const void *bytes, size_t len, bool is_text, uint32_t error, uint64_t at) {
    resb_bundle bundle = RESB_DISCARDED;
    line = 99;
    EXPECT(resb_prepare(bytes, len, is_text, &bundle, &line) == error && line == at && !bundle.is_prepared);
}

static void refuses_errors(void) {
    refuses(S("de{\na:int{09}}"), true, RESB_TEXT_BAD_INT, 2);
    refuses(S("de{a{\"b\"}\n\na{\"c\"}}"), true, RESB_TEXT_DUPLICATE_KEY, 3);
    refuses(S("de{\n\"a"), true, RESB_TEXT_OPEN_QUOTE, 2);
    refuses(S("de{"), true, RESB_TEXT_UNEXPECTED, 1);
    refuses(file, 0, false, RESB_FILE_HEADER, 0);
    refuses(file, file_len, true, RESB_TEXT_NOT_UTF8, 1);
    refuses(S(text), false, RESB_FILE_HEADER, 0);
    uint8_t damaged[4096];
    memcpy(damaged, file, file_len);
    damaged[16] = 4; /* the version of the format */
    refuses(damaged, file_len, false, RESB_FILE_FORMAT_VERSION, 0);
    memcpy(damaged, file, file_len);
    damaged[8] = 1; /* the order of bytes */
    refuses(damaged, file_len, false, RESB_FILE_BIG_ENDIAN, 0);
}

/* Takes a file that resb_check takes, and refuses another with the error of resb_check. */
static void refuses_as_check(void) {
    uint64_t random = 5;
    uint8_t damaged[4096];
    for (int i = 0; i < 20000; i++) {
        resb_bundle bundle = RESB_DISCARDED;
        memcpy(damaged, file, file_len);
        for (int k = 0; k <= i % 3; k++)
            damaged[next_random(&random) % file_len] ^= (uint8_t)(1 << next_random(&random) % 8);
        uint32_t error = resb_check(damaged, file_len);
        EXPECT(resb_prepare(damaged, file_len, false, &bundle, &line) == error && line == 0 && bundle.is_prepared == !error);
        resb_discard(&bundle);
    }
}

static void exports(void) {
    resb engine = RESB_CLOSED;
    uint8_t out[4096], seed[16] = {6};
    size_t len = 9;
    memset(out, 0xab, sizeof out);
    EXPECT(resb_export(&engine, S("shop"), S("de"), out, sizeof out, &len) == RESB_NOT_OPEN && len == 9);
    EXPECT(resb_open(&engine, seed, 16) == RESB_OK);
    EXPECT(resb_install(&engine, S("shop"), S("de"), S(text), true) == RESB_OK);
    EXPECT(resb_install(&engine, S("bank"), S("de"), S("de{}"), true) == RESB_OK);
    EXPECT(resb_export(&engine, S("sh op"), S("-"), out, sizeof out, &len) == RESB_BAD_APP);
    EXPECT(resb_export(&engine, S("ICUDATA"), S("-"), out, sizeof out, &len) == RESB_RESERVED);
    EXPECT(resb_export(&engine, S("shop"), S("-"), out, sizeof out, &len) == RESB_BAD_LOCALE);
    EXPECT(resb_export(&engine, S("shop"), S("fr"), out, sizeof out, &len) == RESB_ABSENT);
    EXPECT(resb_export(&engine, S("none"), S("de"), out, sizeof out, &len) == RESB_ABSENT);
    EXPECT(resb_export(&engine, S("shop"), S("de_AT"), out, sizeof out, &len) == RESB_ABSENT && out[0] == 0xab);
    EXPECT(resb_export(&engine, S("shop"), S("de"), out, file_len - 1, &len) == RESB_NO_ROOM && len == file_len && out[0] == 0xab);
    /* A text is stored as the file that it compiles to. */
    EXPECT(resb_export(&engine, S("shop"), S("DE"), out, file_len, &len) == RESB_OK && len == file_len);
    EXPECT(memcmp(out, file, file_len) == 0 && out[file_len] == 0xab);
    /* What is exported can be installed again. */
    EXPECT(resb_install(&engine, S("copy"), S("de"), out, len, false) == RESB_OK);
    resb_close(&engine);
}

typedef uint32_t change(resb *, const char *, size_t, const char *, size_t, resb_bundle *);

/* Prepares a text and gives it to a change, which leaves no bundle in the handle. */
static uint32_t put(change *call, resb *engine, const char *app, const char *locale, const char *source) {
    resb_bundle bundle = RESB_DISCARDED;
    EXPECT(resb_prepare(source, strlen(source), true, &bundle, &line) == RESB_OK && bundle.is_prepared);
    uint32_t error = call(engine, app, strlen(app), locale, strlen(locale), &bundle);
    EXPECT(!bundle.is_prepared);
    EXPECT(call(engine, app, strlen(app), locale, strlen(locale), &bundle) == RESB_NOT_OPEN && !bundle.is_prepared);
    return error;
}

/* Expects the file of a bundle of the application "shop". */
static void has(resb *engine, const char *locale, const char *source) {
    uint8_t out[4096], wanted[4096];
    size_t len, wanted_len;
    EXPECT(resb_compile(source, strlen(source), wanted, sizeof wanted, &wanted_len, &line) == RESB_OK);
    EXPECT(resb_export(engine, S("shop"), locale, strlen(locale), out, sizeof out, &len) == RESB_OK);
    EXPECT(len == wanted_len && memcmp(out, wanted, len) == 0);
}

/* Gives a change invalid names, a closed engine and a shared one. */
static void refuses_names(change *call, resb *engine) {
    resb closed = RESB_CLOSED, other = RESB_CLOSED;
    EXPECT(put(call, &closed, "shop", "de", text) == RESB_NOT_OPEN && !closed.is_open);
    EXPECT(put(call, engine, "sh op", "-", text) == RESB_BAD_APP);
    EXPECT(put(call, engine, "ICUDATA", "-", text) == RESB_RESERVED);
    EXPECT(put(call, engine, "shop", "-", text) == RESB_BAD_LOCALE);
    EXPECT(resb_share(engine, &other) == RESB_OK);
    EXPECT(put(call, engine, "shop", "de", text) == RESB_SHARED);
    resb_close(&other);
}

static void installs(void) {
    resb engine = RESB_CLOSED;
    uint8_t seed[16] = {7};
    resb_locale opened;
    resb_found found;
    EXPECT(resb_open(&engine, seed, 16) == RESB_OK);
    refuses_names(resb_install_bundle, &engine);
    refuses_names(resb_replace_bundle, &engine);
    EXPECT(put(resb_replace_bundle, &engine, "shop", "de", text) == RESB_ABSENT);
    EXPECT(put(resb_install_bundle, &engine, "shop", "DE", text) == RESB_OK);
    has(&engine, "de", text);
    EXPECT(put(resb_install_bundle, &engine, "shop", "de", "de{}") == RESB_EXISTS);
    has(&engine, "de", text);
    EXPECT(resb_open_locale(&engine, S("shop"), S("de"), &opened) == RESB_OK);
    EXPECT(resb_look_at(&engine, &opened, S("count"), &found) == RESB_OK && found.number == 7);
    EXPECT(put(resb_replace_bundle, &engine, "shop", "de", "de{count:int{8}}") == RESB_OK);
    has(&engine, "de", "de{count:int{8}}");
    EXPECT(resb_look_at(&engine, &opened, S("count"), &found) == RESB_STALE);
    EXPECT(resb_look(&engine, S("shop"), S("de"), S("count"), &found) == RESB_OK && found.number == 8);
    for (int i = 1; i < 4096; i++) {
        char locale[16];
        snprintf(locale, sizeof locale, "de_%04d", i);
        EXPECT(put(resb_install_bundle, &engine, "shop", locale, "de{}") == RESB_OK);
    }
    EXPECT(put(resb_install_bundle, &engine, "shop", "fr", "fr{}") == RESB_FULL);
    EXPECT(put(resb_replace_bundle, &engine, "shop", "de_4095", "de{a{\"b\"}}") == RESB_OK);
    resb_close(&engine);
}

/* Releases one bundle to two engines; closing the first doesn't touch the second. */
static void copies(void) {
    resb engines[] = {RESB_CLOSED, RESB_CLOSED};
    resb_bundle bundle = RESB_DISCARDED, copy = RESB_DISCARDED, other = RESB_DISCARDED;
    uint8_t seed[16] = {8};
    size_t place;
    EXPECT(resb_copy_bundle(&bundle, &copy) == RESB_NOT_OPEN && !bundle.is_prepared && !copy.is_prepared);
    EXPECT(resb_prepare(S(text), true, &bundle, &line) == RESB_OK);
    EXPECT(resb_copy_bundle(&copy, &bundle) == RESB_NOT_OPEN && bundle.is_prepared && !copy.is_prepared);
    EXPECT(resb_copy_bundle(&bundle, &copy) == RESB_OK && bundle.is_prepared && copy.is_prepared);
    EXPECT(resb_prepare(S("de{}"), true, &other, &line) == RESB_OK);
    EXPECT(resb_copy_bundle(&bundle, &other) == RESB_ALREADY_OPEN && bundle.is_prepared && other.is_prepared);
    resb_edit edits[] = {{S("de"), bundle}, {S("de"), copy}, {S("fr"), other}};
    for (int i = 0; i < 2; i++) {
        EXPECT(resb_open(&engines[i], seed, 16) == RESB_OK);
        EXPECT(resb_release(&engines[i], S("shop"), edits + i, (size_t)i + 1, &place) == RESB_OK);
        has(&engines[i], "de", text);
    }
    has(&engines[1], "fr", "de{}");
    resb_close(&engines[0]);
    has(&engines[1], "de", text);
    resb_close(&engines[1]);
}

/* A snapshot of an engine whose handle a reader has: both change apart, and each keeps its bundles when the other one is closed. */
static void snapshots(void) {
    resb engine = RESB_CLOSED, reader = RESB_CLOSED, next = RESB_CLOSED;
    resb_entry icudata[] = {{S("root"), S("root{months{\"January\"}}"), true}};
    uint8_t seed[16] = {9};
    uint64_t place;
    resb_found found;
    EXPECT(resb_snapshot(&engine, seed, 16, &next) == RESB_NOT_OPEN && !next.is_open);
    EXPECT(resb_open_with(&engine, seed, 16, icudata, 1, S("x{parentLocales{fr{\"de\"}}}"), &place) == RESB_OK);
    EXPECT(put(resb_install_bundle, &engine, "shop", "de", text) == RESB_OK);
    EXPECT(put(resb_install_bundle, &engine, "shop", "fr", "fr{months:alias{\"/ICUDATA/root/months\"}}") == RESB_OK);
    EXPECT(resb_share(&engine, &reader) == RESB_OK && resb_open(&next, seed, 16) == RESB_OK);
    EXPECT(resb_snapshot(&reader, seed, 16, &next) == RESB_OK && reader.is_open && next.is_open);
    EXPECT(resb_look(&next, S("shop"), S("de"), S("months"), &found) == RESB_OK && found.count == 7);
    EXPECT(put(resb_replace_bundle, &engine, "shop", "de", "de{}") == RESB_SHARED);
    EXPECT(put(resb_replace_bundle, &next, "shop", "de", "de{count:int{8}}") == RESB_OK);
    EXPECT(resb_remove(&next, S("shop"), S("fr")) == RESB_OK);
    has(&reader, "de", text);
    has(&next, "de", "de{count:int{8}}");
    EXPECT(resb_look(&next, S("shop"), S("de"), S("months"), &found) == RESB_MISSING);
    EXPECT(resb_look(&reader, S("shop"), S("de"), S("months"), &found) == RESB_OK && found.count == 7);
    resb_close(&reader);
    EXPECT(put(resb_install_bundle, &engine, "shop", "en", "en{}") == RESB_OK);
    resb_close(&engine);
    EXPECT(resb_look(&next, S("shop"), S("en"), S(""), &found) == RESB_NO_BUNDLE);
    has(&next, "de", "de{count:int{8}}");
    EXPECT(resb_snapshot(&next, seed, 16, &engine) == RESB_OK);
    resb_close(&next);
    has(&engine, "de", "de{count:int{8}}");
    resb_close(&engine);
}

/* No locale that an engine opened in any of its states answers in another one: in those that it was made from, in those that are made
 * from it, by the same seed too, or in two of one engine by different seeds. */
static void stale_elsewhere(void) {
    enum { ENGINES = 24, CHANGES = 6 };
    resb engines[ENGINES] = {RESB_CLOSED};
    static resb_locale opened[ENGINES][CHANGES];
    resb_found found;
    for (int i = 0; i < ENGINES; i++) {
        uint8_t seed[16] = {(uint8_t)(i / 2 % 2), (uint8_t)(i % 2)};
        EXPECT((i < 2 ? resb_open(&engines[i], seed, 16) : resb_snapshot(&engines[i / 2 - 1], seed, 16, &engines[i])) == RESB_OK);
        for (int k = 0; k < CHANGES; k++) {
            EXPECT(put(i < 2 && k == 0 ? resb_install_bundle : resb_replace_bundle, &engines[i], "shop", "de", text) == RESB_OK);
            EXPECT(resb_open_locale(&engines[i], S("shop"), S("de"), &opened[i][k]) == RESB_OK);
        }
    }
    for (int i = 0; i < ENGINES; i++)
        for (int k = 0; k < CHANGES; k++)
            for (int j = 0; j < ENGINES; j++) {
                uint32_t error = resb_look_at(&engines[j], &opened[i][k], S("count"), &found);
                EXPECT(error == (i == j && k == CHANGES - 1 ? RESB_OK : RESB_STALE));
            }
    for (int i = 0; i < ENGINES; i++)
        resb_close(&engines[i]);
}

int main(void) {
    compiles();
    copies();
    snapshots();
    stale_elsewhere();
    prepares();
    refuses_errors();
    refuses_as_check();
    exports();
    installs();
    puts("each bundle was prepared, installed and exported as expected");
    return 0;
}
