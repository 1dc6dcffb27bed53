/* Calls each function once, with each error that it may return for a caller with memory. */
#include "common.h"

static const char text[] = "de{greeting{\"Gr\\u00fc\\u00df\"} count:int{7} low:int{-1} v:intvector{1,-2,3} b:bin{00ff10} list{\"a\",\"bc\"}"
                           "empty{\"\"} menu{open{\"Auf\"} close{\"Zu\"}} link:alias{\"/LOCALE/greeting\"}}";
static uint8_t out[4096];
static size_t written;

static void checks_and_compiles(void) {
    uint64_t line = 9;
    size_t need = 0;
    EXPECT(resb_compile(S(text), out, sizeof out, &written, &line) == RESB_OK && written > 32 && written % 4 == 0 && line == 0);
    EXPECT(memcmp(out + 2, "\xda\x27", 2) == 0 && memcmp(out + 12, "ResB", 4) == 0);
    EXPECT(resb_check(out, written) == RESB_OK);
    EXPECT(resb_check(out, 0) == RESB_FILE_HEADER);
    EXPECT(resb_check(out, written - 4) != RESB_OK);
    uint8_t kept[4096];
    memset(kept, 0xab, sizeof kept);
    EXPECT(resb_compile(S(text), kept, 10, &need, &line) == RESB_NO_ROOM && need == written && kept[0] == 0xab && kept[9] == 0xab);
    EXPECT(resb_compile(S("de{\na:int{09}}"), kept, sizeof kept, &need, &line) == RESB_TEXT_BAD_INT && line == 2 && need == 0);
    EXPECT(resb_compile(S("de{a{\"b\"} a{\"c\"}}"), kept, sizeof kept, &need, &line) == RESB_TEXT_DUPLICATE_KEY && kept[0] == 0xab);
    EXPECT(resb_compile(S(text), kept, written, &need, &line) == RESB_OK && memcmp(kept, out, written) == 0 && kept[written] == 0xab);
}

static void opens(resb *e) {
    resb_found f;
    size_t len = 7;
    uint8_t seed[16] = {1, 2, 3};
    resb other = RESB_CLOSED;
    EXPECT(resb_look(e, S("shop"), S("de"), S("greeting"), &f) == RESB_NOT_OPEN);
    EXPECT(resb_install(e, S("shop"), S("de"), out, written, false) == RESB_NOT_OPEN);
    EXPECT(resb_remove(e, S("shop"), S("de")) == RESB_NOT_OPEN);
    EXPECT(resb_list(e, S("shop"), (char *)out, 0, &len) == RESB_NOT_OPEN && len == 7);
    EXPECT(resb_share(e, &other) == RESB_NOT_OPEN && !other.is_open);
    EXPECT(resb_open(e, seed, 16) == RESB_OK && e->is_open && e->engine);
    EXPECT(resb_open(e, seed, 16) == RESB_ALREADY_OPEN && e->is_open);
    EXPECT(resb_list(e, S("shop"), (char *)out, 0, &len) == RESB_OK && len == 0);
}

static void installs(resb *e) {
    EXPECT(resb_install(e, S("shop"), S("root"), S("root{greeting{\"Hello\"} only{\"root\"}}"), true) == RESB_OK);
    EXPECT(resb_replace(e, S("shop"), S("de"), out, written, false) == RESB_ABSENT);
    EXPECT(resb_install(e, S("shop"), S("de"), out, written, false) == RESB_OK);
    EXPECT(resb_install(e, S("shop"), S("de"), out, written, false) == RESB_EXISTS);
    EXPECT(resb_install(e, S("shop"), S("fr"), out, written - 1, false) == RESB_BAD_FILE);
    EXPECT(resb_install(e, S("shop"), S("fr"), S("fr{"), true) == RESB_BAD_TEXT);
    EXPECT(resb_install(e, S("ICUDATA"), S("fr"), S("fr{}"), true) == RESB_RESERVED);
    EXPECT(resb_install(e, S("sh op"), S("fr"), S("fr{}"), true) == RESB_BAD_APP);
    EXPECT(resb_install(e, S("shop"), S("-"), S("fr{}"), true) == RESB_BAD_LOCALE);
    EXPECT(resb_install(e, S("bank"), S("de"), S("de{greeting{\"Tag\"}}"), true) == RESB_OK);
    EXPECT(resb_replace(e, S("bank"), S("de"), S("de{greeting{\"Moin\"}}"), true) == RESB_OK);
}

static void lists(resb *e) {
    char names[32] = {0};
    size_t len = 0;
    EXPECT(resb_list(e, S("shop"), names, sizeof names, &len) == RESB_OK && len == 8 && memcmp(names, "root\0de\0", 8) == 0);
    names[0] = 'x';
    EXPECT(resb_list(e, S("shop"), names, 7, &len) == RESB_NO_ROOM && len == 8 && names[0] == 'x');
    EXPECT(resb_list(e, S("none"), names, sizeof names, &len) == RESB_OK && len == 0);
    EXPECT(resb_list(e, S("ICUDATA"), names, sizeof names, &len) == RESB_RESERVED);
    char key[8];
    EXPECT(resb_key(e, S("shop"), S("de"), S("menu"), 0, key, sizeof key, &len) == RESB_OK && len == 5 && memcmp(key, "close", 5) == 0);
    EXPECT(resb_key(e, S("shop"), S("de"), S("menu"), 1, key, sizeof key, &len) == RESB_OK && len == 4 && memcmp(key, "open", 4) == 0);
    EXPECT(resb_key(e, S("shop"), S("de"), S("menu"), 2, key, sizeof key, &len) == RESB_NO_ENTRY);
    EXPECT(resb_key(e, S("shop"), S("de"), S("menu"), 0, key, 4, &len) == RESB_NO_ROOM && len == 5);
    EXPECT(resb_key(e, S("shop"), S("de"), S("list"), 0, key, sizeof key, &len) == RESB_OTHER_KIND);
    EXPECT(resb_key(e, S("shop"), S("de"), S("nothing"), 0, key, sizeof key, &len) == RESB_MISSING);
}

/* Compares the items of a table or an array with what resb_look writes of them. */
static void lists_children(resb *e, const char *path, size_t number) {
    resb_child children[10], last;
    size_t count = 0;
    memset(&last, 0x5a, sizeof last);
    children[number - 1] = last;
    EXPECT(resb_children(e, S("shop"), S("de_AT"), S(path), children, number - 1, &count) == RESB_NO_ROOM && count == number);
    EXPECT(memcmp(&children[number - 1], &last, sizeof last) == 0);
    children[number] = last;
    EXPECT(resb_children(e, S("shop"), S("de_AT"), S(path), children, number + 1, &count) == RESB_OK && count == number);
    EXPECT(memcmp(&children[number], &last, sizeof last) == 0);
    EXPECT(resb_children(e, S("shop"), S("de_AT"), S(path), children, number, &count) == RESB_OK && count == number);
    for (size_t i = 0; i < number; i++) {
        char below[40], key[16];
        size_t len = (size_t)snprintf(key, sizeof key, "%zu", i);
        resb_found f = {NULL, 0, 0, 0}, *child = &children[i].item;
        if (resb_key(e, S("shop"), S("de"), S(path), i, key, sizeof key, &len) == RESB_OK)
            EXPECT(children[i].key_len == len && memcmp(children[i].key, key, len) == 0);
        else
            EXPECT(!children[i].key && children[i].key_len == 0);
        snprintf(below, sizeof below, "%s%s%.*s", path, *path ? "/" : "", (int)len, key);
        EXPECT(resb_look(e, S("shop"), S("de"), S(below), &f) == RESB_OK);
        if (memcmp(key, "link", 4) == 0)
            EXPECT(child->kind == RESB_ALIAS && child->count == 16 && ((const uint16_t *)child->at)[15] == 'g');
        else
            EXPECT(child->at == f.at && child->count == f.count && child->kind == f.kind && child->number == f.number);
    }
}

static void refuses_children(resb *e) {
    resb closed = RESB_CLOSED;
    resb_child child;
    size_t count = 7;
    EXPECT(resb_children(&closed, S("shop"), S("de"), S("menu"), &child, 1, &count) == RESB_NOT_OPEN && count == 7);
    EXPECT(resb_children(e, S("sh op"), S("de"), S("menu"), &child, 1, &count) == RESB_BAD_APP);
    EXPECT(resb_children(e, S("shop"), S("de"), S("nothing"), &child, 1, &count) == RESB_MISSING);
    EXPECT(resb_children(e, S("shop"), S("de"), S("greeting"), &child, 1, &count) == RESB_OTHER_KIND && count == 7);
}

static void looks(resb *e) {
    resb_found f = {NULL, 0, 0, 0};
    EXPECT(resb_look(e, S("shop"), S("de_AT"), S("greeting"), &f) == RESB_OK && f.kind == RESB_STRING && f.count == 4);
    const uint16_t *u = f.at;
    EXPECT(u[0] == 'G' && u[1] == 'r' && u[2] == 0xfc && u[3] == 0xdf && (uintptr_t)u % 2 == 0);
    EXPECT(resb_look(e, S("shop"), S("fr"), S("greeting"), &f) == RESB_OK && f.count == 5 && ((const uint16_t *)f.at)[0] == 'H');
    EXPECT(resb_look(e, S("shop"), S("de"), S("only"), &f) == RESB_OK && f.count == 4);
    EXPECT(resb_look(e, S("shop"), S("de"), S("link"), &f) == RESB_OK && f.kind == RESB_STRING && f.count == 4);
    EXPECT(resb_look(e, S("shop"), S("de"), S("count"), &f) == RESB_OK && f.kind == RESB_INT && f.number == 7 && !f.at);
    EXPECT(resb_look(e, S("shop"), S("de"), S("low"), &f) == RESB_OK && f.number == 0xfffffff);
    EXPECT(resb_look(e, S("shop"), S("de"), S("v"), &f) == RESB_OK && f.kind == RESB_INT_VECTOR && f.count == 3);
    EXPECT(((const int32_t *)f.at)[1] == -2 && (uintptr_t)f.at % 4 == 0);
    EXPECT(resb_look(e, S("shop"), S("de"), S("b"), &f) == RESB_OK && f.kind == RESB_BINARY && f.count == 3);
    EXPECT(((const uint8_t *)f.at)[1] == 0xff);
    EXPECT(resb_look(e, S("shop"), S("de"), S("list"), &f) == RESB_OK && f.kind == RESB_ARRAY && f.count == 2);
    EXPECT(resb_look(e, S("shop"), S("de"), S("list/1"), &f) == RESB_OK && f.kind == RESB_STRING && f.count == 2);
    EXPECT(resb_look(e, S("shop"), S("de"), S("empty"), &f) == RESB_OK && f.kind == RESB_STRING && f.count == 0);
    EXPECT(resb_look(e, S("shop"), S("de"), U8 "", 0, &f) == RESB_OK && f.kind == RESB_TABLE && f.count == 9);
    EXPECT(resb_look(e, S("bank"), S("de"), S("greeting"), &f) == RESB_OK && f.count == 4 && ((const uint16_t *)f.at)[0] == 'M');
    resb_found before = f;
    EXPECT(resb_look(e, S("shop"), S("de"), S("nothing"), &f) == RESB_MISSING && memcmp(&f, &before, sizeof f) == 0);
    EXPECT(resb_look(e, S("none"), S("de"), S("greeting"), &f) == RESB_NO_BUNDLE);
    EXPECT(resb_look(e, S("sh op"), S("de"), S("greeting"), &f) == RESB_BAD_APP);
    EXPECT(resb_look(e, S("shop"), S("de"), S("a//b"), &f) == RESB_BAD_PATH && memcmp(&f, &before, sizeof f) == 0);
}

/* Checks that lookups from an open locale describe the items that those by name describe in `cold`, an engine that keeps no locale open. */
static void looks_alike(resb *e, resb *cold, const char *app, const char *locale, const char *path) {
    resb_found f = {NULL, 0, 0, 0}, g = {NULL, 0, 0, 0};
    resb_locale opened;
    EXPECT(resb_open_locale(e, S(app), S(locale), &opened) == RESB_OK);
    uint32_t error = resb_look(cold, S(app), S(locale), S(path), &f);
    EXPECT(resb_look_at(e, &opened, S(path), &g) == error && memcmp(&f, &g, sizeof f) == 0);
    /* with each limit on the steps, up to one that is enough */
    uint64_t steps = 0;
    do {
        memset(&f, 0, sizeof f);
        memset(&g, 0, sizeof g);
        error = resb_look_within(cold, S(app), S(locale), S(path), steps, &f);
        EXPECT(resb_look_at_within(e, &opened, S(path), steps, &g) == error && memcmp(&f, &g, sizeof f) == 0);
        memset(&g, 0, sizeof g);
        EXPECT(resb_look_within(e, S(app), S(locale), S(path), steps, &g) == error && memcmp(&f, &g, sizeof f) == 0);
    } while (error == RESB_TOO_MANY_STEPS && ++steps < 1000);
    EXPECT(error != RESB_TOO_MANY_STEPS);
    EXPECT(resb_look_at_within(e, &opened, S(path), UINT64_MAX, &g) == error && memcmp(&f, &g, sizeof f) == 0);
}

static void opens_locales(resb *e) {
    resb closed = RESB_CLOSED;
    resb_found f = {NULL, 0, 0, 0};
    resb_locale opened, bank;
    memset(&opened, 0x5a, sizeof opened);
    resb_locale before = opened;
    EXPECT(resb_open_locale(&closed, S("shop"), S("de"), &opened) == RESB_NOT_OPEN);
    EXPECT(resb_open_locale(e, S("sh op"), S("de"), &opened) == RESB_BAD_APP);
    EXPECT(resb_open_locale(e, S("ICUDATA"), S("de"), &opened) == RESB_RESERVED);
    EXPECT(resb_open_locale(e, S("shop"), S("-"), &opened) == RESB_BAD_LOCALE);
    EXPECT(resb_open_locale(e, S("none"), S("de"), &opened) == RESB_NO_BUNDLE);
    EXPECT(resb_open_locale(e, S("bank"), S("fr"), &opened) == RESB_NO_BUNDLE && memcmp(&opened, &before, sizeof opened) == 0);
    EXPECT(resb_look_at(e, &opened, S("greeting"), &f) == RESB_STALE && f.count == 0);
    EXPECT(resb_open_locale(e, S("shop"), S("de_AT"), &opened) == RESB_OK);
    EXPECT(resb_look_at(&closed, &opened, S("greeting"), &f) == RESB_NOT_OPEN);
    EXPECT(resb_look_at(e, &opened, S("greeting"), &f) == RESB_OK && f.kind == RESB_STRING && f.count == 4);
    EXPECT(resb_look_at(e, &opened, S("link"), &f) == RESB_OK && f.count == 4 && ((const uint16_t *)f.at)[2] == 0xfc);
    EXPECT(resb_look_at(e, &opened, S("only"), &f) == RESB_OK && f.count == 4 && ((const uint16_t *)f.at)[0] == 'r');
    EXPECT(resb_look_at(e, &opened, S("count"), &f) == RESB_OK && f.kind == RESB_INT && f.number == 7);
    EXPECT(resb_look_at(e, &opened, S("nothing"), &f) == RESB_MISSING && f.number == 7);
    EXPECT(resb_look_at(e, &opened, S("a//b"), &f) == RESB_BAD_PATH && f.number == 7);
    EXPECT(resb_look_at_within(&closed, &opened, S("greeting"), 9, &f) == RESB_NOT_OPEN);
    EXPECT(resb_look_at_within(e, &opened, S("greeting"), 3, &f) == RESB_TOO_MANY_STEPS && f.number == 7);
    EXPECT(resb_look_at_within(e, &opened, S("nothing"), 99, &f) == RESB_MISSING && f.number == 7);
    EXPECT(resb_look_at_within(e, &opened, S("a//b"), 0, &f) == RESB_BAD_PATH && f.number == 7);
    static const char *const paths[] = {"", "greeting", "count", "low", "v", "b", "list", "list/1", "empty", "menu/open", "menu/x", "link", "only", "/"};
    static const char *const locales[] = {"de", "de_AT", "fr", "root", "zz_Zzzz_ZZ"};
    /* an engine with two handles keeps no locale open */
    static const uint8_t seed[16] = {9};
    resb cold = RESB_CLOSED, held = RESB_CLOSED;
    EXPECT(resb_snapshot(e, seed, sizeof seed, &cold) == RESB_OK && resb_share(&cold, &held) == RESB_OK);
    for (size_t i = 0; i < sizeof paths / sizeof *paths; i++)
        for (size_t k = 0; k < sizeof locales / sizeof *locales; k++)
            looks_alike(e, &cold, "shop", locales[k], paths[i]);
    resb_close(&cold);
    resb_close(&held);
    /* forged places */
    resb_locale forged = opened;
    forged.app = SIZE_MAX;
    EXPECT(resb_look_at(e, &forged, S("greeting"), &f) == RESB_NO_BUNDLE);
    EXPECT(resb_look_at_within(e, &forged, S("greeting"), 99, &f) == RESB_NO_BUNDLE);
    forged = opened;
    forged.count = SIZE_MAX;
    forged.stops[0] = SIZE_MAX;
    EXPECT(resb_look_at(e, &forged, S("greeting"), &f) != RESB_OK);
    forged = opened;
    forged.names = forged.from_valid = 255;
    EXPECT(resb_look_at(e, &forged, S("link"), &f) == resb_look(e, S("shop"), S("de"), S("link"), &f));
    EXPECT(resb_look_at_within(e, &forged, S("link"), 99, &f) == RESB_TOO_MANY_STEPS);
    /* a change of any application, but no refused one */
    EXPECT(resb_open_locale(e, S("bank"), S("de"), &bank) == RESB_OK);
    EXPECT(resb_install(e, S("bank"), S("de"), S("de{}"), true) == RESB_EXISTS && resb_remove(e, S("bank"), S("fr")) == RESB_ABSENT);
    EXPECT(resb_look_at(e, &bank, S("greeting"), &f) == RESB_OK && ((const uint16_t *)f.at)[0] == 'M');
    EXPECT(resb_install(e, S("bank"), S("fr"), S("fr{}"), true) == RESB_OK);
    EXPECT(resb_look_at(e, &bank, S("greeting"), &f) == RESB_STALE && resb_look_at(e, &opened, S("greeting"), &f) == RESB_STALE);
    EXPECT(resb_look_at_within(e, &bank, S("a//b"), 0, &f) == RESB_STALE);
    EXPECT(resb_open_locale(e, S("bank"), S("de"), &bank) == RESB_OK && resb_look_at(e, &bank, S("greeting"), &f) == RESB_OK);
    EXPECT(resb_replace(e, S("bank"), S("fr"), S("fr{a{\"b\"}}"), true) == RESB_OK);
    EXPECT(resb_look_at(e, &bank, S("greeting"), &f) == RESB_STALE);
    EXPECT(resb_open_locale(e, S("bank"), S("de"), &bank) == RESB_OK && resb_remove(e, S("bank"), S("fr")) == RESB_OK);
    EXPECT(resb_look_at(e, &bank, S("greeting"), &f) == RESB_STALE);
}

/* Looks a string up by name, twice, so that the second lookup is from the locale that the first one kept open. */
static bool has(resb *e, const char *app, const char *locale, const char *path, const char *units) {
    uint16_t text[16];
    for (int i = 0; i < 2; i++) {
        size_t len = 0;
        if (resb_text(e, S(app), S(locale), S(path), text, 16, &len) != RESB_OK || len != strlen(units))
            return false;
        for (size_t k = 0; k < len; k++)
            if (text[k] != (uint8_t)units[k])
                return false;
    }
    return true;
}

/* No lookup by name answers from a locale of before a change, of another application or of another name. */
static void keeps_locales(resb *e) {
    resb_found f;
    resb reader = RESB_CLOSED;
    EXPECT(resb_install(e, S("kept"), S("root"), S("root{a{\"r\"}}"), true) == RESB_OK);
    EXPECT(has(e, "kept", "de_AT", "a", "r") && has(e, "kept", "de-at@x=y", "a", "r") && has(e, "kept", "", "a", "r"));
    EXPECT(resb_install(e, S("kept"), S("de"), S("de{a{\"d\"}}"), true) == RESB_OK);
    EXPECT(has(e, "kept", "de_AT", "a", "d") && has(e, "kept", "de-at@x=y", "a", "d") && has(e, "kept", "root", "a", "r"));
    EXPECT(resb_install(e, S("kep"), S("root"), S("root{a{\"k\"}}"), true) == RESB_OK);
    /* The names of the second lookup have the hash of the first one's, as their bytes are the same in all. */
    EXPECT(has(e, "kept", "de_AT", "a", "d") && has(e, "kep", "tde_AT", "a", "k") && has(e, "kept", "de_AT", "a", "d"));
    EXPECT(has(e, "kep", "de_AT", "a", "k") && has(e, "kept", "de", "a", "d"));
    EXPECT(resb_share(e, &reader) == RESB_OK && has(&reader, "kept", "de_AT", "a", "d") && has(e, "kept", "de_CH", "a", "d"));
    resb_close(&reader);
    EXPECT(resb_remove(e, S("kept"), S("de")) == RESB_OK && has(e, "kept", "de_AT", "a", "r"));
    EXPECT(resb_remove(e, S("kept"), S("root")) == RESB_OK && resb_remove(e, S("kep"), S("root")) == RESB_OK);
    for (int i = 0; i < 2; i++)
        EXPECT(resb_look(e, S("kept"), S("de_AT"), S("a"), &f) == RESB_NO_BUNDLE);
}

static void copies(resb *e) {
    uint16_t units[8] = {1, 1, 1, 1, 1};
    size_t len = 0;
    EXPECT(resb_text(e, S("shop"), S("de"), S("greeting"), units, 4, &len) == RESB_OK && len == 4);
    EXPECT(units[0] == 'G' && units[1] == 'r' && units[2] == 0xfc && units[3] == 0xdf && units[4] == 1);
    units[0] = 1;
    EXPECT(resb_text(e, S("shop"), S("de"), S("greeting"), units, 3, &len) == RESB_NO_ROOM && len == 4 && units[0] == 1);
    EXPECT(resb_text(e, S("shop"), S("de"), S("empty"), units, 0, &len) == RESB_OK && len == 0);
    EXPECT(resb_text(e, S("shop"), S("de"), S("count"), units, 8, &len) == RESB_OTHER_KIND);
    EXPECT(resb_text(e, S("shop"), S("de"), S("nothing"), units, 8, &len) == RESB_MISSING && units[0] == 1);
}

/* Checks where resb_look_origin and resb_look_origin_at find an item. */
static void comes_from(resb *e, const char *app, const char *locale, const char *path, const char *actual, const char *valid) {
    resb_found f = {NULL, 0, 0, 0}, g = f, h = f;
    resb_origin origin, again;
    resb_locale opened;
    memset(&origin, 'x', sizeof origin);
    memset(&again, 'x', sizeof again);
    EXPECT(resb_look(e, S(app), S(locale), S(path), &f) == RESB_OK);
    EXPECT(resb_look_origin(e, S(app), S(locale), S(path), &g, &origin) == RESB_OK && memcmp(&f, &g, sizeof f) == 0);
    EXPECT(strcmp(origin.actual, actual) == 0 && strcmp(origin.valid, valid) == 0);
    EXPECT(resb_open_locale(e, S(app), S(locale), &opened) == RESB_OK);
    EXPECT(resb_look_origin_at(e, &opened, S(path), &h, &again) == RESB_OK && memcmp(&f, &h, sizeof f) == 0);
    EXPECT(strcmp(again.actual, actual) == 0 && strcmp(again.valid, valid) == 0);
}

static void origins(resb *e) {
    resb closed = RESB_CLOSED;
    resb_found f = {NULL, 0, 0, 0};
    resb_origin origin = {"x", "y"};
    resb_locale opened;
    const char *longest = "de_AT_XXXXXXXX_XXXXXXXX_XXXXXXXX_XXXXXXXX_XXXXXXXX_XXXXXXXX_XXXX";
    comes_from(e, "shop", "de", "greeting", "de", "de");
    comes_from(e, "shop", "DE-at", "greeting", "de", "de");
    comes_from(e, "shop", "de_AT", "only", "root", "de");
    comes_from(e, "shop", "fr", "greeting", "root", "root");
    EXPECT(strlen(longest) == 64);
    EXPECT(resb_install(e, S("long"), S(longest), S("x{a{\"b\"}}"), true) == RESB_OK);
    comes_from(e, "long", longest, "a", longest, longest);
    EXPECT(resb_remove(e, S("long"), S(longest)) == RESB_OK);
    EXPECT(resb_look_origin(&closed, S("shop"), S("de"), S("greeting"), &f, &origin) == RESB_NOT_OPEN);
    EXPECT(resb_look_origin(e, S("shop"), S("de"), S("nothing"), &f, &origin) == RESB_MISSING);
    EXPECT(resb_look_origin(e, S("none"), S("de"), S("greeting"), &f, &origin) == RESB_NO_BUNDLE);
    EXPECT(resb_open_locale(e, S("shop"), S("de"), &opened) == RESB_OK);
    EXPECT(resb_look_origin_at(&closed, &opened, S("greeting"), &f, &origin) == RESB_NOT_OPEN);
    EXPECT(resb_look_origin_at(e, &opened, S("nothing"), &f, &origin) == RESB_MISSING);
    EXPECT(resb_replace(e, S("bank"), S("de"), S("de{greeting{\"Moin\"}}"), true) == RESB_OK);
    EXPECT(resb_look_origin_at(e, &opened, S("greeting"), &f, &origin) == RESB_STALE);
    EXPECT(f.at == NULL && strcmp(origin.actual, "x") == 0 && strcmp(origin.valid, "y") == 0);
}

static void shares(resb *e) {
    resb other = RESB_CLOSED, third = RESB_CLOSED;
    resb_found f;
    uint8_t seed[16] = {4};
    EXPECT(resb_share(e, &other) == RESB_OK && other.is_open && e->is_open);
    EXPECT(resb_open(&third, seed, 16) == RESB_OK && resb_share(&other, &third) == RESB_OK);
    EXPECT(resb_look(&third, S("shop"), S("de"), S("greeting"), &f) == RESB_OK && f.count == 4);
    EXPECT(resb_install(e, S("shop"), S("fr"), S("fr{}"), true) == RESB_SHARED);
    EXPECT(resb_remove(&third, S("shop"), S("de")) == RESB_SHARED);
    resb_close(&other);
    EXPECT(resb_replace(e, S("shop"), S("de"), S("de{}"), true) == RESB_SHARED);
    resb_close(e);
    EXPECT(!e->is_open && resb_look(e, S("shop"), S("de"), S("greeting"), &f) == RESB_NOT_OPEN);
    EXPECT(resb_look(&third, S("shop"), S("de"), S("greeting"), &f) == RESB_OK && f.count == 4);
    EXPECT(resb_share(&third, e) == RESB_OK);
    resb_close(&third);
}

static void limits(resb *e) {
    resb_found f = {NULL, 0, 0, 0};
    uint64_t bytes = 9, bundles = 9, apps = 0;
    EXPECT(resb_usage(e, S("bank"), &bytes, &bundles) == RESB_OK && bytes > 32 && bundles == 1);
    EXPECT(resb_usage(e, S("none"), &bytes, &bundles) == RESB_OK && bytes == 0 && bundles == 0);
    EXPECT(resb_usage(e, S("ICUDATA"), &bytes, &bundles) == RESB_RESERVED && resb_usage(e, S("a b"), &bytes, &bundles) == RESB_BAD_APP);
    EXPECT(resb_install(e, S("many"), S("de"), out, written, false) == RESB_OK);
    EXPECT(resb_install(e, S("many"), S("fr"), out, written, false) == RESB_OK);
    EXPECT(resb_usage(e, S("many"), &bytes, &bundles) == RESB_OK && bytes == 2 * written && bundles == 2);
    EXPECT(resb_apps(e, &apps) == RESB_OK && apps == 3);
    EXPECT(resb_remove(e, S("many"), S("de")) == RESB_OK && resb_remove(e, S("many"), S("fr")) == RESB_OK);
    EXPECT(resb_apps(e, &apps) == RESB_OK && apps == 2);
    /* de and root, each a step, and one more for the segment */
    EXPECT(resb_look_within(e, S("shop"), S("de"), S("greeting"), 4, &f) == RESB_OK && f.kind == RESB_STRING && f.count == 4);
    resb_found before = f;
    EXPECT(resb_look_within(e, S("shop"), S("de"), S("count"), 3, &f) == RESB_TOO_MANY_STEPS && memcmp(&f, &before, sizeof f) == 0);
    EXPECT(resb_look_within(e, S("shop"), S("de"), S("nothing"), 4, &f) == RESB_MISSING);
    EXPECT(resb_look_within(e, S("shop"), S("de"), S("a//b"), 0, &f) == RESB_BAD_PATH);
    EXPECT(resb_look_within(e, S("a b"), S("de"), S("a"), 0, &f) == RESB_BAD_APP);
}

static uint64_t place;

/* Tries to open an engine with two bundles of ICUDATA and with parents. */
static uint32_t start(resb *e, resb_entry second, const char *parents) {
    uint8_t seed[16] = {3};
    resb_entry entries[] = {{S("root"), S("root{a{\"common\"}}"), true}, second};
    place = 99;
    return resb_open_with(e, seed, 16, entries, 2, S(parents), &place);
}

static void starts(void) {
    resb e = RESB_CLOSED;
    resb_found f;
    uint64_t bytes = 0, bundles = 0;
    static const char parents[] = "x{parentLocales{root{\"zh_Hant\"}}}";
    resb_entry de = {S("de"), out, written, false};
    EXPECT(start(&e, (resb_entry){S("-"), out, written, false}, parents) == RESB_BAD_LOCALE && place == 1);
    EXPECT(start(&e, (resb_entry){S("-"), out, written, false}, "x{") == RESB_BAD_LOCALE && place == 1);
    EXPECT(start(&e, (resb_entry){S("de"), out, written - 4, false}, parents) == RESB_BAD_FILE && place == 1);
    EXPECT(start(&e, (resb_entry){S("de"), S("de{"), true}, parents) == RESB_BAD_TEXT && place == 1);
    EXPECT(start(&e, (resb_entry){S("root"), out, written, false}, parents) == RESB_TWICE && place == 1);
    EXPECT(start(&e, (resb_entry){S("de"), S("de{"), true}, "x{\nparentLocales{") == RESB_TEXT_UNEXPECTED && place == 2);
    EXPECT(start(&e, de, "x{}") == RESB_PARENTS_SHAPE && place == 0);
    EXPECT(start(&e, de, "x{parentLocales{root{\"-\"}}}") == RESB_PARENTS_BAD_LOCALE && place == 0);
    EXPECT(start(&e, de, "x{parentLocales{a{\"de\"} b{\"de\"}}}") != RESB_OK && !e.is_open);
    EXPECT(start(&e, de, "x{parentLocales{aa{\"de\"} bb{\"de\"}}}") == RESB_PARENTS_TWO_PARENTS && place == 0 && !e.is_open);
    EXPECT(start(&e, de, "") == RESB_OK && place == 0 && e.is_open);
    EXPECT(start(&e, de, "") == RESB_ALREADY_OPEN && place == 0 && e.is_open);
    EXPECT(resb_usage(&e, S("shop"), &bytes, &bundles) == RESB_OK && bundles == 0);
    resb_close(&e);
    EXPECT(start(&e, de, parents) == RESB_OK);
    EXPECT(resb_install(&e, S("shop"), S("zh"), S("zh{x{\"Z\"}}"), true) == RESB_OK);
    EXPECT(resb_install(&e, S("shop"), S("root"), S("root{x{\"root\"} m:alias{\"/ICUDATA/de/menu/open\"}}"), true) == RESB_OK);
    EXPECT(resb_look(&e, S("shop"), S("zh_TW"), S("x"), &f) == RESB_OK && f.count == 1);
    EXPECT(resb_look(&e, S("shop"), S("zh_Hant_TW"), S("x"), &f) == RESB_OK && f.count == 4);
    EXPECT(resb_look(&e, S("shop"), S("fr"), S("m"), &f) == RESB_OK && f.count == 3 && ((const uint16_t *)f.at)[0] == 'A');
    resb_close(&e);
}

static void removes(resb *e) {
    resb_found f;
    EXPECT(resb_remove(e, S("shop"), S("de")) == RESB_OK && resb_remove(e, S("shop"), S("de")) == RESB_ABSENT);
    EXPECT(resb_look(e, S("shop"), S("de"), S("greeting"), &f) == RESB_OK && f.count == 5);
    EXPECT(resb_look(e, S("bank"), S("de"), S("greeting"), &f) == RESB_OK && f.count == 4);
    resb_close(e);
    EXPECT(!e->is_open);
    resb_close(e);
}

int main(void) {
    resb e = RESB_CLOSED;
    checks_and_compiles();
    opens(&e);
    EXPECT(resb_compile(S(text), out, sizeof out, &written, &(uint64_t){0}) == RESB_OK);
    installs(&e);
    lists(&e);
    lists_children(&e, "", 9);
    lists_children(&e, "menu", 2);
    lists_children(&e, "list", 2);
    refuses_children(&e);
    looks(&e);
    opens_locales(&e);
    keeps_locales(&e);
    copies(&e);
    origins(&e);
    limits(&e);
    starts();
    shares(&e);
    removes(&e);
    puts("each call answered as expected");
    return 0;
}
