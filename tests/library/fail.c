/* Lets each allocation fail in turn: each call says so or does its work, changes nothing otherwise, and nothing stays allocated.
 * Linked with --wrap=malloc,--wrap=realloc,--wrap=free. */
#include "common.h"

static long left, live;
void *__real_malloc(size_t);
void *__real_realloc(void *, size_t);
void __real_free(void *);

void *__wrap_malloc(size_t n) {
    if (left > 0 && --left == 0)
        return NULL;
    void *p = __real_malloc(n);
    live += p != NULL;
    return p;
}

void *__wrap_realloc(void *old, size_t n) {
    if (left > 0 && --left == 0)
        return NULL;
    void *p = __real_realloc(old, n);
    live += old == NULL && p != NULL;
    return p;
}

void __wrap_free(void *p) {
    live -= p != NULL;
    __real_free(p);
}

static int refusals;

/* Says whether a call did its work; else memory must have run out. */
static bool worked(uint32_t error) {
    EXPECT(error == RESB_OK || error == RESB_MEMORY);
    refusals += error == RESB_MEMORY;
    return error == RESB_OK;
}

static void linting(void) {
    static uint8_t file[4096];
    static resb_finding found[9];
    char names[16] = "";
    size_t written, len = 0, count = 0;
    uint64_t line, more;
    memset(found, 0, sizeof found);
    if (worked(resb_lint(S("de{a{\"b\" \"c\", \"d\"}\nb:int{09}}"), S("de"), found, 9, &count, &more)))
        EXPECT(count == 2 && found[0].line == 1 && found[1].error == RESB_TEXT_BAD_INT && more == 0);
    else
        EXPECT(count == 0 && found[0].line == 0);
    if (!worked(resb_compile(S("de{a:alias{\"fr/x\"} b:alias{\"root\"}}"), file, sizeof file, &written, &line)))
        return;
    worked(resb_check_for_icu(file, written));
    if (worked(resb_alias_targets(file, written, names, sizeof names, &len)))
        EXPECT(len == 8 && memcmp(names, "fr\0root", 8) == 0);
    else
        EXPECT(len == 0 && *names == 0);
}

static void history(void) {
    static uint8_t out[4096];
    static char names[64];
    uint16_t units[8];
    size_t written = 0, len = 0;
    uint64_t line;
    resb e = RESB_CLOSED, other = RESB_CLOSED;
    resb_found f;
    uint8_t seed[16] = {0};
    if (!worked(resb_compile(S("de{greeting{\"Hallo\"} l{\"a\",\"b\"}}"), out, sizeof out, &written, &line)))
        return;
    worked(resb_check(out, written));
    resb_bundle bundle = RESB_DISCARDED;
    EXPECT(worked(resb_prepare(out, written, false, &bundle, &line)) == bundle.is_prepared && line == 0);
    resb_discard(&bundle);
    EXPECT(worked(resb_prepare(S("de{greeting{\"Hallo\"}}"), true, &bundle, &line)) == bundle.is_prepared && line == 0);
    resb_bundle copy = RESB_DISCARDED;
    if (bundle.is_prepared)
        EXPECT(worked(resb_copy_bundle(&bundle, &copy)) == copy.is_prepared && bundle.is_prepared);
    resb_discard(&copy);
    resb_discard(&bundle);
    if (!worked(resb_open(&e, seed, 16))) {
        EXPECT(!e.is_open);
        return;
    }
    bool de = worked(resb_install(&e, S("shop"), S("de"), out, written, false));
    bool root = worked(resb_install(&e, S("shop"), S("root"), S("root{greeting{\"Hello\"}}"), true));
    if (de)
        worked(resb_replace(&e, S("shop"), S("de"), out, written, false));
    if (worked(resb_prepare(out, written, false, &bundle, &line)))
        de |= worked((de ? resb_replace_bundle : resb_install_bundle)(&e, S("shop"), S("de"), &bundle));
    EXPECT(!bundle.is_prepared);
    if (worked(resb_list(&e, S("shop"), names, sizeof names, &len)))
        EXPECT(len == (de ? 3u : 0u) + (root ? 5u : 0u));
    uint32_t seen = resb_look(&e, S("shop"), S("de_AT"), S("greeting"), &f);
    EXPECT(seen == (de || root ? RESB_OK : RESB_NO_BUNDLE));
    resb_locale opened;
    long before = left;
    EXPECT(resb_open_locale(&e, S("shop"), S("de_AT"), &opened) == seen);
    EXPECT((seen || resb_look_at(&e, &opened, S("greeting"), &f) == RESB_OK) && left == before);
    EXPECT((seen || resb_look_at_within(&e, &opened, S("greeting"), 9, &f) == RESB_OK) && left == before);
    resb_origin origin;
    EXPECT((seen || resb_look_origin_at(&e, &opened, S("greeting"), &f, &origin) == RESB_OK) && left == before);
    EXPECT(resb_look_origin(&e, S("shop"), S("de_AT"), S("greeting"), &f, &origin) == seen && left == before);
    EXPECT(seen || (strcmp(origin.actual, de ? "de" : "root") == 0 && strcmp(origin.valid, origin.actual) == 0));
    EXPECT(resb_text(&e, S("shop"), S("de_AT"), S("greeting"), units, 8, &len) == seen && (seen || (len == 5 && units[1] == (de ? 'a' : 'e'))));
    uint32_t error = resb_item_json(&e, S("shop"), S("de_AT"), S("greeting"), 99, names, sizeof names, &len);
    EXPECT(error == RESB_MEMORY ? worked(error) == 0 : error == (seen ? seen : RESB_OK));
    before = left;
    error = resb_item_json_within(&e, S("shop"), S("de_AT"), S("greeting"), 99, 20, names, sizeof names, &len);
    EXPECT(error == (seen ? seen : RESB_REPLY_TOO_LONG) && left == before);
    error = resb_item_json(&e, S("shop"), S("de_AT"), S("greeting"), 99, names, 0, &len);
    EXPECT(error == (seen ? seen : RESB_NO_ROOM) && left == before);
    error = resb_tree_json(&e, S("shop"), S("de_AT"), S(""), 999, names, sizeof names, &len);
    EXPECT(error == RESB_MEMORY ? worked(error) == 0 : error == (seen ? seen : RESB_OK));
    error = resb_text_utf8(&e, S("shop"), S("de_AT"), S("greeting"), names, sizeof names, &len);
    EXPECT(error == RESB_MEMORY ? worked(error) == 0 : error == (seen ? seen : RESB_OK));
    if (worked(resb_prepare_json(S("{\"a\":\"b\"}"), &bundle, &line))) {
        worked(resb_bundle_text(&bundle, S("de"), names, sizeof names, &len));
        worked(resb_bundle_json(&bundle, names, sizeof names, &len));
        size_t place;
        resb_edit edits[] = {{S("en"), bundle}, {S("en"), RESB_DISCARDED}};
        uint64_t size, count, before_count;
        EXPECT(resb_usage(&e, S("shop"), &size, &before_count) == RESB_OK);
        bool made = worked(resb_release(&e, S("shop"), edits, 1, &place));
        EXPECT(resb_usage(&e, S("shop"), &size, &count) == RESB_OK && count == before_count + made && place == 0);
        resb_discard(&edits[0].bundle);
        if (made)
            worked(resb_release(&e, S("shop"), edits + 1, 1, &place));
    }
    if (worked(resb_share(&e, &other)))
        EXPECT(resb_look(&other, S("shop"), S("de_AT"), S("greeting"), &f) == seen);
    else
        EXPECT(e.is_open && !other.is_open);
    if (worked(resb_snapshot(&e, seed, 16, &other))) {
        EXPECT(resb_look(&other, S("shop"), S("de_AT"), S("greeting"), &f) == seen);
        worked(resb_install(&other, S("shop"), S("fr"), S("fr{}"), true));
    }
    EXPECT(resb_look(&e, S("shop"), S("fr"), S(""), &f) == (root ? RESB_OK : RESB_NO_BUNDLE));
    resb_close(&other);
    if (root)
        EXPECT(!worked(resb_remove(&e, S("shop"), S("root"))) || resb_remove(&e, S("shop"), S("root")) != RESB_OK);
    resb_close(&e);
    EXPECT(!e.is_open);
    resb_entry entries[] = {{S("root"), S("root{a{\"b\"}}"), true}, {S("de"), out, written, false}};
    uint64_t place;
    if (worked(resb_open_with(&e, seed, 16, entries, 2, S("x{parentLocales{root{\"zh_Hant\"}}}"), &place)))
        EXPECT(e.is_open && resb_look_within(&e, S("shop"), S("de"), S("greeting"), 9, &f) == RESB_NO_BUNDLE);
    else
        EXPECT(!e.is_open && place == 0);
    resb_close(&e);
}

int main(void) {
    int runs = 0;
    long over;
    do {
        left = ++runs;
        linting();
        history();
        over = left;
        left = 0;
        EXPECT(live == 0);
    } while (over == 0 && runs < 1000);
    EXPECT(over > 0 && refusals > 20);
    printf("%d allocations failed in turn, %d calls ran out of memory, and nothing stayed allocated\n", runs - 1, refusals);
    return 0;
}
