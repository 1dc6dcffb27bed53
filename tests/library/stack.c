/* Measures the stack of calls on the deepest text and the longest path: a thread's stack is painted, and what changes is counted. */
#include <pthread.h>

#include "common.h"

enum { STACK = 8 << 20, FILE_ROOM = 1 << 24, LIMIT = 64 << 10 };
static uint8_t *text, *out;
static size_t text_len, written;
static uint64_t line;
static uint32_t result;
static resb e = RESB_CLOSED;
static resb_found f;
static resb_locale opened;
static char path[2000];

static void *none(void *a) {
    return a;
}

static void *compile(void *a) {
    result = resb_compile((char *)text, text_len, out, FILE_ROOM, &written, &line);
    return a;
}

static void *check(void *a) {
    result = resb_check(out, written);
    return a;
}

static void *prepare_text(void *a) {
    resb_bundle bundle = RESB_DISCARDED;
    result = resb_prepare(text, text_len, true, &bundle, &line);
    resb_discard(&bundle);
    return a;
}

static void *prepare_file(void *a) {
    resb_bundle bundle = RESB_DISCARDED;
    result = resb_prepare(out, written, false, &bundle, &line);
    resb_discard(&bundle);
    return a;
}

static void *install(void *a) {
    result = resb_install(&e, S("a"), S("de"), out, written, false);
    return a;
}

static void *replace(void *a) {
    result = resb_replace(&e, S("a"), S("de"), text, text_len, true);
    return a;
}

static void *replace_bundle(void *a) {
    resb_bundle bundle = RESB_DISCARDED;
    result = resb_prepare(text, text_len, true, &bundle, &line);
    result = result ? result : resb_replace_bundle(&e, S("a"), S("de"), &bundle);
    return a;
}

static void *start(void *a) {
    static const char parents[] = "x{parentLocales{root{\"zh_Hant\"}}}";
    uint8_t seed[16] = {0};
    uint64_t place;
    resb_entry entries[] = {{S("de"), text, text_len, true}, {S("root"), out, written, false}};
    resb other = RESB_CLOSED;
    result = resb_open_with(&other, seed, 16, entries, 2, S(parents), &place);
    resb_close(&other);
    return a;
}

static void *write_text(void *a) {
    resb_bundle bundle = RESB_DISCARDED;
    size_t len;
    result = resb_prepare(text, text_len, true, &bundle, &line);
    result = result ? result : resb_bundle_text(&bundle, S("de"), (char *)out, FILE_ROOM, &len);
    resb_discard(&bundle);
    return a;
}

static void *read_json(void *a) {
    resb_bundle bundle = RESB_DISCARDED, again = RESB_DISCARDED;
    size_t len;
    result = resb_prepare(text, text_len, true, &bundle, &line);
    result = result ? result : resb_bundle_json(&bundle, (char *)out, FILE_ROOM, &len);
    result = result ? result : resb_prepare_json(out, len, &again, &line);
    resb_discard(&bundle);
    resb_discard(&again);
    return a;
}

static void *release(void *a) {
    resb_edit edit = {S("de"), RESB_DISCARDED};
    size_t place;
    result = resb_prepare(text, text_len, true, &edit.bundle, &line);
    result = result ? result : resb_release(&e, S("a"), &edit, 1, &place);
    return a;
}

static void *write_item(void *a) {
    size_t len;
    result = resb_item_json(&e, S("a"), S("de_DE_POSIX"), S(path), UINT64_MAX, (char *)out, FILE_ROOM, &len);
    return a;
}

static void *write_tree(void *a) {
    size_t len;
    result = resb_tree_json(&e, S("a"), S("de_DE_POSIX"), S(""), UINT64_MAX, (char *)out, FILE_ROOM, &len);
    return a;
}

static void *check_for_icu(void *a) {
    result = resb_check_for_icu(out, written);
    return a;
}

static void *alias_targets(void *a) {
    static char targets[64];
    size_t len;
    result = resb_alias_targets(out, written, targets, sizeof targets, &len);
    return a;
}

static void *lint(void *a) {
    static resb_finding found[101];
    size_t count;
    uint64_t more;
    result = resb_lint((char *)text, text_len, S("de"), found, 101, &count, &more);
    return a;
}

static void *look_within(void *a) {
    result = resb_look_within(&e, S("a"), S("de_DE_POSIX"), S(path), 1000, &f);
    return a;
}

static void *look(void *a) {
    result = resb_look(&e, S("a"), S("de_DE_POSIX"), S(path), &f);
    return a;
}

static void *open_locale(void *a) {
    result = resb_open_locale(&e, S("a"), S("de_DE_POSIX"), &opened);
    return a;
}

static void *look_at(void *a) {
    result = resb_look_at(&e, &opened, S(path), &f);
    return a;
}

static void *look_at_within(void *a) {
    result = resb_look_at_within(&e, &opened, S(path), 1000, &f);
    return a;
}

static void *export(void *a) {
    size_t len;
    result = resb_export(&e, S("a"), S("de"), out, FILE_ROOM, &len);
    return a;
}

static void *copy(void *a) {
    uint16_t units[1];
    size_t len;
    result = resb_text(&e, S("a"), S("de_DE_POSIX"), S(path), units, 1, &len);
    return a;
}

static void *look_origin(void *a) {
    resb_origin origin;
    result = resb_look_origin(&e, S("a"), S("de_DE_POSIX"), S(path), &f, &origin);
    return a;
}

static size_t used(void *(*call)(void *)) {
    uint8_t *stack = aligned_alloc(4096, STACK);
    memset(stack, 0xa5, STACK);
    pthread_attr_t attributes;
    pthread_t thread;
    pthread_attr_init(&attributes);
    EXPECT(pthread_attr_setstack(&attributes, stack, STACK) == 0 && pthread_create(&thread, &attributes, call, NULL) == 0);
    pthread_join(thread, NULL);
    size_t i = 0;
    while (i < STACK && stack[i] == 0xa5)
        i++;
    free(stack);
    return STACK - i;
}

static void measure(const char *name, void *(*call)(void *)) {
    size_t bytes = used(call) - used(none);
    printf("%s: %zu bytes\n", name, bytes);
    EXPECT(result == RESB_OK && bytes <= LIMIT);
}

int main(void) {
    uint8_t seed[16] = {0};
    text = malloc(1 << 20);
    out = malloc(FILE_ROOM);
    EXPECT(resb_open(&e, seed, 16) == RESB_OK);
    text_len = (size_t)sprintf((char *)text, "de");
    for (int i = 0; i < 63; i++) {
        text_len += (size_t)sprintf((char *)text + text_len, "{a");
        strcat(path, i ? "/a" : "a");
    }
    text_len += (size_t)sprintf((char *)text + text_len, "{\"x\"}");
    for (int i = 0; i < 63; i++)
        text[text_len++] = '}';
    measure("compile", compile);
    measure("check", check);
    measure("check for libicu", check_for_icu);
    measure("list targets of aliases", alias_targets);
    measure("lint", lint);
    measure("prepare a text", prepare_text);
    measure("prepare a file", prepare_file);
    measure("install", install);
    measure("replace", replace);
    measure("replace by a prepared bundle", replace_bundle);
    measure("start", start);
    measure("look", look);
    measure("look_within", look_within);
    measure("open_locale", open_locale);
    measure("look_at", look_at);
    measure("look_at_within", look_at_within);
    measure("text", copy);
    measure("look_origin", look_origin);
    measure("export", export);
    measure("release", release);
    measure("write an item", write_item);
    measure("write a tree", write_tree);
    measure("write a text", write_text);
    measure("write and read JSON", read_json);
    resb_close(&e);
    free(text);
    free(out);
    return 0;
}
