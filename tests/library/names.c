/* Prints each error's number and name, for tests/library.sh to compare with resb.h. */
#include "common.h"

int main(void) {
    for (uint32_t error = 0; error < 200; error++) {
        const char *name = resb_error_name(error);
        EXPECT(strlen(name) <= 17);
        if (*name)
            printf("%u %s\n", error, name);
    }
    EXPECT(*resb_error_name(UINT32_MAX) == 0);
    const char *after = resb_version() + strlen(RESB_VERSION);
    EXPECT(strncmp(resb_version(), RESB_VERSION, strlen(RESB_VERSION)) == 0 && (!*after || strcmp(after, "+unproved") == 0));
    return 0;
}
