/* Compiles a text: compile TEXT FILE. */
#include "common.h"

int main(int argc, char **argv) {
    size_t len, written;
    uint64_t line;
    EXPECT(argc == 3);
    uint8_t *text = read_file(argv[1], &len), *out = malloc(1 << 24);
    EXPECT(resb_compile((char *)text, len, out, 1 << 24, &written, &line) == RESB_OK);
    FILE *f = fopen(argv[2], "wb");
    EXPECT(f && fwrite(out, 1, written, f) == written && fclose(f) == 0);
    free(text);
    free(out);
    return 0;
}
