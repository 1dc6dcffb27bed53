/* Prints the text at a path, with what the locale inherits: lookup FOLDER LOCALE PATH
 *
 * FOLDER has the bundles: texts as LOCALE.txt, files as LOCALE.res. Build it by
 *   cc lookup.c $(pkg-config --cflags --libs resb) -o lookup */
#include <dirent.h>
#include <resb.h>
#include <stdio.h>
#include <stdlib.h>
#include <string.h>
#include <sys/random.h>

#define STRING(s) (s), strlen(s)

/* Ends the program after it has printed an error's name. */
static void fail(const char *what, uint32_t error) {
    fprintf(stderr, "lookup: %s: %s\n", what, resb_error_name(error));
    exit(1);
}

/* Reads a whole file into a block that the caller frees, or returns NULL. */
static char *read_file(const char *path, size_t *len) {
    FILE *file = fopen(path, "rb");
    if (!file || fseek(file, 0, SEEK_END) || ftell(file) < 0)
        return NULL;
    *len = (size_t)ftell(file);
    rewind(file);
    char *bytes = malloc(*len + 1);
    if (bytes && fread(bytes, 1, *len, file) != *len) {
        free(bytes);
        bytes = NULL;
    }
    fclose(file);
    return bytes;
}

/* Installs a bundle from a file that is named by its locale. Leaves other files out. */
static void install(resb *engine, const char *folder, const char *name) {
    const char *dot = strrchr(name, '.');
    if (!dot || (strcmp(dot, ".txt") && strcmp(dot, ".res")))
        return;
    char path[4096];
    size_t len;
    snprintf(path, sizeof path, "%s/%s", folder, name);
    char *bytes = read_file(path, &len);
    if (!bytes) {
        perror(path);
        exit(1);
    }
    uint32_t error = resb_install(engine, STRING("app"), name, (size_t)(dot - name), bytes, len, dot[1] == 't');
    free(bytes);
    if (error)
        fail(path, error);
}

/* Prints UTF-16 as UTF-8, a lone surrogate as U+FFFD. */
static void print(const uint16_t *units, size_t len) {
    for (size_t i = 0; i < len; i++) {
        uint32_t c = units[i];
        if (c >= 0xd800 && c < 0xdc00 && i + 1 < len && units[i + 1] >> 10 == 0x37)
            c = 0x10000 + ((c & 0x3ff) << 10 | (units[++i] & 0x3ff));
        else if (c >> 11 == 0x1b)
            c = 0xfffd;
        int rest = c < 0x80 ? 0 : c < 0x800 ? 1 : c < 0x10000 ? 2 : 3;
        static const uint8_t first[] = {0, 0xc0, 0xe0, 0xf0};
        putchar((int)(first[rest] | c >> 6 * rest));
        while (rest--)
            putchar((int)(0x80 | (c >> 6 * rest & 0x3f)));
    }
    putchar('\n');
}

int main(int argc, char **argv) {
    if (argc != 4) {
        fprintf(stderr, "usage: lookup FOLDER LOCALE PATH\n");
        return 2;
    }
    DIR *folder = opendir(argv[1]);
    if (!folder) {
        perror(argv[1]);
        return 1;
    }
    resb engine = RESB_CLOSED;
    uint8_t seed[16];
    if (getrandom(seed, sizeof seed, 0) != sizeof seed || resb_open(&engine, seed, sizeof seed))
        return 1;
    for (struct dirent *entry; (entry = readdir(folder));)
        install(&engine, argv[1], entry->d_name);
    closedir(folder);
    resb_found found;
    uint32_t error = resb_look(&engine, STRING("app"), STRING(argv[2]), STRING(argv[3]), &found);
    if (!error && found.kind != RESB_STRING)
        error = RESB_OTHER_KIND;
    if (error)
        fail(argv[3], error);
    print(found.at, found.count);
    resb_close(&engine);
    return 0;
}
