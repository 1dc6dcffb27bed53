/* Damages files, each in a block of exactly its size: the check, an install and a start agree, and what they accept can be read to its end.
 * usage: damage COPIES FILE.. */
#include "common.h"

static volatile long sum;

/* Reads all bytes of an item. */
static void read_item(const resb_found *f) {
    size_t size = f->kind == RESB_STRING ? 2 : f->kind == RESB_INT_VECTOR ? 4 : f->kind == RESB_BINARY ? 1 : 0;
    for (size_t i = 0; i < f->count * size; i++)
        sum += ((const uint8_t *)f->at)[i];
}

/* Walks the items below a path, to some depth and some number for each table and array. */
static void walk(resb *e, char *path, size_t len, int depth) {
    resb_found f;
    if (resb_look(e, S("a"), S("de_AT"), U8 path, len, &f) != RESB_OK)
        return;
    read_item(&f);
    if (depth == 0 || (f.kind != RESB_TABLE && f.kind != RESB_ARRAY))
        return;
    for (size_t i = 0; i < f.count && i < 6; i++) {
        size_t at = len, key = 0;
        if (len)
            path[at++] = '/';
        if (f.kind == RESB_ARRAY)
            key = (size_t)sprintf(path + at, "%zu", i);
        else
            EXPECT(resb_key(e, S("a"), S("de_AT"), U8 path, len, i, (char *)path + at, 200, &key) != RESB_NO_ENTRY);
        if (at + key < 700)
            walk(e, path, at + key, depth - 1);
    }
}

static uint8_t *damaged(const uint8_t *file, size_t *len, int turn, uint64_t *random) {
    size_t n = turn % 10 == 0 ? next_random(random) % (*len + 1) : *len;
    uint8_t *copy = malloc(n ? n : 1);
    memcpy(copy, file, n);
    size_t front = turn % 2 || n < 400 ? n : 400;
    for (int i = 0; front && i <= turn % 4; i++)
        copy[next_random(random) % front] ^= (uint8_t)(1 << next_random(random) % 8);
    *len = n;
    return copy;
}

/* Opens an engine whose ICUDATA has one file. */
static uint32_t start(resb *e, const uint8_t *file, size_t len) {
    uint8_t seed[16] = {2};
    uint64_t place;
    resb_entry entry = {S("de"), file, len, false};
    return resb_open_with(e, seed, 16, &entry, 1, S(""), &place);
}

int main(int argc, char **argv) {
    uint64_t random = 42;
    long tried = 0, accepted = 0;
    int copies = argc > 2 ? atoi(argv[1]) : 0;
    for (int i = 2; i < argc; i++) {
        size_t whole;
        uint8_t *file = read_file(argv[i], &whole);
        for (int turn = 0; turn < copies; turn++) {
            size_t len = whole;
            uint8_t *copy = damaged(file, &len, turn, &random);
            uint8_t seed[16] = {1};
            resb e = RESB_CLOSED, common = RESB_CLOSED;
            EXPECT(resb_open(&e, seed, 16) == RESB_OK);
            uint32_t checked = resb_check(copy, len), installed = resb_install(&e, S("a"), S("de"), copy, len, false);
            EXPECT(start(&common, copy, len) == (checked ? RESB_BAD_FILE : RESB_OK) && common.is_open == !checked);
            resb_close(&common);
            free(copy);
            EXPECT(installed == (checked ? RESB_BAD_FILE : RESB_OK) && (checked == 0 || checked >= RESB_FILE_TOO_LONG));
            char path[1024];
            if (!checked)
                walk(&e, path, 0, 6);
            resb_close(&e);
            tried++;
            accepted += !checked;
        }
        free(file);
    }
    printf("%ld damaged files, %ld accepted and read\n", tried, accepted);
    return tried == 0;
}
