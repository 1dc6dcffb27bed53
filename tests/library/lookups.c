/* Looks up by libresb and by libicu over the same files, and compares what they find: the kind, the contents, the items of tables and
 * arrays, and the actual and the valid locale. usage: lookups FOLDER QUESTIONS: the .res files of FOLDER, of which one is root
 * Half of the locales have a region or a variant that no file has; a tenth of the paths lead nowhere. Prints how many questions were
 * asked, how many found an item, and how many answers differ, which are listed before. */
#include <dirent.h>
#include <unicode/ures.h>

#include "common.h"

U_CAPI UResourceBundle *U_EXPORT2 ures_getByKeyWithFallback(const UResourceBundle *, const char *, UResourceBundle *, UErrorCode *);

enum { FILES = 2000, PATHS = 100000, PATH = 1200 };

static char *names[FILES], *paths[PATHS];
static int files, count;
static resb engine = RESB_CLOSED;
static uint64_t state = 1;

static void take(const char *folder, const char *file) {
    char path[4096];
    size_t len, end = strlen(file) - 4;
    snprintf(path, sizeof path, "%s/%s", folder, file);
    uint8_t *bytes = read_file(path, &len);
    EXPECT(files < FILES && resb_install(&engine, S("icu"), file, end, bytes, len, false) == RESB_OK);
    names[files++] = strndup(file, end);
    free(bytes);
}

/* Gathers the paths of all items below one. */
static void gather(UResourceBundle *item, char *path, size_t len) {
    UResType type = ures_getType(item);
    if (len && count < PATHS)
        paths[count++] = strdup(path);
    if ((type != URES_TABLE && type != URES_ARRAY) || len > PATH - 300)
        return;
    for (int32_t i = 0; i < ures_getSize(item); i++) {
        UErrorCode status = U_ZERO_ERROR;
        UResourceBundle *child = ures_getByIndex(item, i, NULL, &status);
        const char *key = type == URES_TABLE && U_SUCCESS(status) ? ures_getKey(child) : NULL;
        /* a lookup of ICU takes no number in a path of keys */
        if (key && !strchr(key, '/') && strlen(key) < 200)
            gather(child, path, len + (size_t)sprintf(path + len, "%s%s", len ? "/" : "", key));
        path[len] = 0;
        ures_close(child);
    }
}

/* Compares a found item with that of ICU. */
static bool is_same(const resb_found *found, UResourceBundle *item) {
    UErrorCode status = U_ZERO_ERROR;
    int32_t len = 0;
    const void *bytes;
    if ((uint32_t)ures_getType(item) != found->kind)
        return false;
    switch (found->kind) {
    case RESB_STRING:
        bytes = ures_getString(item, &len, &status);
        return U_SUCCESS(status) && (size_t)len == found->count && !memcmp(bytes, found->at, 2 * found->count);
    case RESB_BINARY:
        bytes = ures_getBinary(item, &len, &status);
        return U_SUCCESS(status) && (size_t)len == found->count && (!len || !memcmp(bytes, found->at, found->count));
    case RESB_INT_VECTOR:
        bytes = ures_getIntVector(item, &len, &status);
        return U_SUCCESS(status) && (size_t)len == found->count && (!len || !memcmp(bytes, found->at, 4 * found->count));
    case RESB_INT:
        return (ures_getUInt(item, &status) & 0xfffffffu) == found->number;
    default:
        return (size_t)ures_getSize(item) == found->count;
    }
}

/* Compares the items of a found table or array with those of ICU, which follows aliases. */
static bool has_same_children(const char *locale, const char *path, UResourceBundle *item) {
    static resb_child children[1 << 16];
    size_t number;
    EXPECT(resb_children(&engine, S("icu"), S(locale), S(path), children, 1 << 16, &number) == RESB_OK);
    bool same = (size_t)ures_getSize(item) == number;
    for (size_t i = 0; same && i < number; i++) {
        UErrorCode status = U_ZERO_ERROR;
        if (children[i].item.kind == RESB_ALIAS)
            continue;
        UResourceBundle *child = ures_getByIndex(item, (int32_t)i, NULL, &status);
        const char *key = ures_getType(item) == URES_TABLE ? ures_getKey(child) : "";
        same = U_SUCCESS(status) && is_same(&children[i].item, child) && strlen(key) == children[i].key_len &&
               (!*key || !memcmp(key, children[i].key, children[i].key_len));
        ures_close(child);
    }
    return same;
}

/* Asks both for an item, and returns whether they answer alike. Counts what is found. */
static bool ask(UResourceBundle *top, const char *locale, const char *path, int *hits) {
    UErrorCode status = U_ZERO_ERROR;
    resb_found found;
    resb_origin origin;
    uint32_t error = resb_look_origin(&engine, S("icu"), S(locale), S(path), &found, &origin);
    UResourceBundle *item = ures_getByKeyWithFallback(top, path, NULL, &status);
    bool same = error ? error == RESB_MISSING && status == U_MISSING_RESOURCE_ERROR : U_SUCCESS(status);
    if (same && !error) {
        const char *actual = ures_getLocaleByType(item, ULOC_ACTUAL_LOCALE, &status);
        const char *valid = ures_getLocaleByType(item, ULOC_VALID_LOCALE, &status);
        same = is_same(&found, item) && !strcmp(origin.actual, actual) && !strcmp(origin.valid, valid);
        if (found.kind == RESB_TABLE || found.kind == RESB_ARRAY)
            same = same && has_same_children(locale, path, item);
        *hits += 1;
        if (!same)
            printf("%s %s: resb finds kind %u in %s, %s; ICU kind %d in %s, %s\n", locale, path, found.kind, origin.actual, origin.valid,
                   ures_getType(item), actual, valid);
    } else if (!same) {
        printf("%s %s: resb returns %u, ICU %s\n", locale, path, error, u_errorName(status));
    }
    ures_close(item);
    return same;
}

/* Checks whether a language has files by script, such as zh_Hans for zh. */
static bool has_scripts(const char *name) {
    size_t len = strlen(name);
    for (int i = 0; i < files; i++)
        if (!strncmp(names[i], name, len) && names[i][len] == '_' && strcspn(names[i] + len + 1, "_") == 4)
            return true;
    return false;
}

/* Writes a locale: a file's, or one below it that has no file. libicu looks for zh_ZZ in zh_Hans, which is no parent by truncation. */
static void choose_locale(char *locale, size_t capacity) {
    static const char *const ends[] = {"", "", "_ZZ", "_ZZ_POSIX"};
    const char *name;
    do
        name = names[next_random(&state) % (unsigned)files];
    while (!strcmp(name, "root"));
    snprintf(locale, capacity, "%s%s", name, has_scripts(name) ? "" : ends[next_random(&state) % 4]);
}

int main(int argc, char **argv) {
    static const char seed[16] = "lookups";
    char path[PATH + 300] = "";
    int asked, hits = 0, differ = 0;
    EXPECT(argc == 3 && !resb_open(&engine, seed, sizeof seed));
    DIR *dir = opendir(argv[1]);
    EXPECT(dir);
    for (struct dirent *entry; (entry = readdir(dir));)
        if (strlen(entry->d_name) > 4 && !strcmp(entry->d_name + strlen(entry->d_name) - 4, ".res"))
            take(argv[1], entry->d_name);
    closedir(dir);
    for (int i = 0; i < files; i++) {
        UErrorCode status = U_ZERO_ERROR;
        UResourceBundle *top = ures_open(argv[1], names[i], &status);
        EXPECT(U_SUCCESS(status));
        path[0] = 0;
        gather(top, path, 0);
        ures_close(top);
    }
    EXPECT(count > 0);
    for (asked = 0; asked < atoi(argv[2]); asked++) {
        char locale[100];
        UErrorCode status = U_ZERO_ERROR;
        choose_locale(locale, sizeof locale);
        snprintf(path, sizeof path, "%s%s", paths[next_random(&state) % (unsigned)count], next_random(&state) % 10 ? "" : "x");
        UResourceBundle *top = ures_open(argv[1], locale, &status);
        EXPECT(U_SUCCESS(status) && status != U_USING_DEFAULT_WARNING);
        differ += !ask(top, locale, path, &hits);
        ures_close(top);
    }
    printf("%d questions over %d files, %d found, %d differ\n", asked, files, hits, differ);
    resb_close(&engine);
    return differ != 0;
}
