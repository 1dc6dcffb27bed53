/* Times lookups in process, of libresb beside libicu with its bundles kept open, in alternating turns.
 * usage: library FOLDER TURNS: the .res files of FOLDER, in version 1 of the format
 * Prints a line for each turn: nanoseconds of processor time for a lookup in each of the ways below, over the same questions.
 *
 * Built with COUNTED and run as `library FOLDER PART` under callgrind with --collect-atstart=no, it prints how many questions are direct
 * and how many lead through aliases, and asks those of one part once: direct in each way (0 to 4), then through aliases (5 to 9). */
#include <dirent.h>
#include <stdio.h>
#include <stdlib.h>
#include <string.h>
#include <time.h>
#include <unicode/ures.h>

#include "resb.h"

#ifdef COUNTED
#include <valgrind/callgrind.h>
#endif

U_CAPI UResourceBundle *U_EXPORT2 ures_getByKeyWithFallback(const UResourceBundle *, const char *, UResourceBundle *, UErrorCode *);

#define STRING(s) (s), strlen(s)
enum { FILES = 2000, PATHS = 60000, QUESTIONS = 20000, STEPS = 1000000 };

static char *names[FILES], *paths[PATHS];
static UResourceBundle *tops[FILES], *fill;
static int files, count;
static resb engine = RESB_CLOSED;
static struct { int file; const char *path; } questions[QUESTIONS];
static resb_locale locales[FILES];
static volatile long sum;

static void stop(const char *why) {
    fprintf(stderr, "library: %s\n", why);
    exit(2);
}

static unsigned next_random(unsigned below) {
    static uint64_t state = 88172645463325252u;
    state = state * 6364136223846793005u + 1442695040888963407u;
    return (unsigned)(state >> 33) % below;
}

static double now(void) {
    struct timespec t;
    clock_gettime(CLOCK_PROCESS_CPUTIME_ID, &t);
    return (double)t.tv_sec * 1e9 + (double)t.tv_nsec;
}

/* Installs a file, and opens it with libicu. */
static void take(const char *folder, const char *name, size_t len) {
    char path[4096];
    UErrorCode status = U_ZERO_ERROR;
    snprintf(path, sizeof path, "%s/%s", folder, name);
    FILE *f = fopen(path, "rb");
    if (!f || fseek(f, 0, SEEK_END))
        stop(path);
    size_t size = (size_t)ftell(f);
    rewind(f);
    uint8_t *bytes = malloc(size);
    if (fread(bytes, 1, size, f) != size)
        stop(path);
    fclose(f);
    names[files] = strndup(name, len);
    tops[files] = ures_open(folder, names[files], &status);
    if (resb_install(&engine, STRING("cldr"), STRING(names[files]), bytes, size, false) == RESB_OK && U_SUCCESS(status))
        files++;
    free(bytes);
}

/* Gathers the paths of the strings below an item. */
static void gather(UResourceBundle *item, char *path, size_t len) {
    UResType type = ures_getType(item);
    if (type == URES_STRING && count < PATHS)
        paths[count++] = strdup(path);
    if ((type != URES_TABLE && type != URES_ARRAY) || len > 800)
        return;
    for (int32_t i = 0; i < ures_getSize(item); i++) {
        UErrorCode status = U_ZERO_ERROR;
        UResourceBundle *child = ures_getByIndex(item, i, NULL, &status);
        char number[16];
        snprintf(number, sizeof number, "%d", (int)i);
        const char *key = type == URES_TABLE && U_SUCCESS(status) ? ures_getKey(child) : number;
        if (U_SUCCESS(status) && key && !strchr(key, '/'))
            gather(child, path, len + (size_t)sprintf(path + len, "%s%s", len ? "/" : "", key));
        path[len] = 0;
        ures_close(child);
    }
}

/* Defines a way to ask libresb. */
#define ASK(way, call)                                                            \
    static bool way(int i) {                                                      \
        const char *name = names[questions[i].file], *path = questions[i].path;   \
        const resb_locale *opened = &locales[questions[i].file];                  \
        resb_found found;                                                         \
        (void)name, (void)opened;                                                 \
        if ((call) || found.kind != RESB_STRING)                                  \
            return false;                                                         \
        sum += ((const uint16_t *)found.at)[0] + (long)found.count;               \
        return true;                                                              \
    }
ASK(by_name, resb_look(&engine, STRING("cldr"), STRING(name), STRING(path), &found))
ASK(from_open, resb_look_at(&engine, opened, STRING(path), &found))
ASK(by_name_within, resb_look_within(&engine, STRING("cldr"), STRING(name), STRING(path), STEPS, &found))
ASK(from_open_within, resb_look_at_within(&engine, opened, STRING(path), STEPS, &found))

static bool by_icu(int i) {
    UErrorCode status = U_ZERO_ERROR;
    int32_t len;
    fill = ures_getByKeyWithFallback(tops[questions[i].file], questions[i].path, fill, &status);
    const UChar *units = ures_getString(fill, &len, &status);
    if (U_FAILURE(status) || len == 0)
        return false;
    sum += units[0] + len;
    return true;
}

static bool (*const ways[])(int) = {by_name, from_open, by_name_within, from_open_within, by_icu};
enum { WAYS = sizeof ways / sizeof *ways };

static double timed(bool (*ask)(int), int asked) {
    double began = now();
    for (int round = 0; round < 10; round++)
        for (int i = 0; i < asked; i++)
            ask(i);
    return (now() - began) / 10 / asked;
}

#ifdef COUNTED
static bool is_within(const char *name, const char *path, uint64_t steps) {
    resb_found found;
    return !resb_look_within(&engine, STRING("cldr"), STRING(name), STRING(path), steps, &found);
}

/* A lookup without aliases takes as many steps as the trail has names, times one more than the path has segments. The empty path takes
 * one step for each name. */
static bool is_direct(int i) {
    uint64_t names_of_trail = 1, segments = 1;
    while (!is_within(names[questions[i].file], "", names_of_trail))
        names_of_trail++;
    for (const char *c = questions[i].path; *c; c++)
        segments += *c == '/';
    return is_within(names[questions[i].file], questions[i].path, names_of_trail * (1 + segments));
}

static void count_instructions(int asked, int part) {
    static bool direct[QUESTIONS];
    int directs = 0;
    for (int i = 0; i < asked; i++)
        directs += direct[i] = is_direct(i);
    printf("%d direct, %d through aliases\n", directs, asked - directs);
    CALLGRIND_TOGGLE_COLLECT;
    for (int i = 0; i < asked; i++)
        if (direct[i] == (part < WAYS))
            ways[part % WAYS](i);
    CALLGRIND_TOGGLE_COLLECT;
}
#endif

int main(int argc, char **argv) {
    const char *sources[] = {"root", "de", "fr", "ja", "zh_Hant"};
    uint8_t seed[16] = {7};
    char path[1200];
    if (argc != 3 || resb_open(&engine, seed, sizeof seed))
        stop("usage: library FOLDER TURNS");
    DIR *dir = opendir(argv[1]);
    if (!dir)
        stop(argv[1]);
    for (struct dirent *entry; files < FILES && (entry = readdir(dir));)
        if (strlen(entry->d_name) > 4 && strcmp(entry->d_name + strlen(entry->d_name) - 4, ".res") == 0)
            take(argv[1], entry->d_name, strlen(entry->d_name) - 4);
    closedir(dir);
    for (int i = 0; i < files; i++)
        for (size_t k = 0; k < sizeof sources / sizeof *sources; k++)
            if (strcmp(names[i], sources[k]) == 0) {
                path[0] = 0;
                gather(tops[i], path, 0);
            }
    if (!count)
        stop("no strings");
    for (int i = 0; i < files; i++)
        if (resb_open_locale(&engine, STRING("cldr"), STRING(names[i]), &locales[i]))
            stop(names[i]);
    int asked = 0;
    for (int tries = 0; asked < QUESTIONS && tries < 10 * QUESTIONS; tries++) {
        questions[asked].file = (int)next_random((unsigned)files);
        questions[asked].path = paths[next_random((unsigned)count)];
        int way = 0;
        while (way < WAYS && ways[way](asked))
            way++;
        asked += way == WAYS;
    }
    printf("%d files, %d questions\n", files, asked);
#ifdef COUNTED
    count_instructions(asked, atoi(argv[2]));
    return 0;
#endif
    for (int turn = 0; turn < atoi(argv[2]); turn++) {
        for (int way = 0; way < WAYS; way++)
            printf("%.0f%s", timed(ways[way], asked), way + 1 < WAYS ? ", " : " ns\n");
    }
    return 0;
}
