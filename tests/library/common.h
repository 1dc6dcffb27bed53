#include <stdio.h>
#include <stdlib.h>
#include <string.h>

#include "resb.h"

#define U8 (const char *)
#define S(x) U8(x), strlen(x)
#define EXPECT(c)                                              \
    do {                                                       \
        if (!(c)) {                                            \
            printf("%s:%d: not so: %s\n", __FILE__, __LINE__, #c); \
            exit(1);                                           \
        }                                                      \
    } while (0)

/* Reads a whole file into a block of exactly its size. */
static inline uint8_t *read_file(const char *name, size_t *len) {
    FILE *f = fopen(name, "rb");
    EXPECT(f && fseek(f, 0, SEEK_END) == 0);
    *len = (size_t)ftell(f);
    rewind(f);
    uint8_t *bytes = malloc(*len ? *len : 1);
    EXPECT(bytes && fread(bytes, 1, *len, f) == *len);
    fclose(f);
    return bytes;
}

static inline uint64_t next_random(uint64_t *state) {
    *state = *state * 6364136223846793005u + 1442695040888963407u;
    return *state >> 33;
}
