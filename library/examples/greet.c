/* Greets in the language of a visitor: cc greet.c $(pkg-config --cflags --libs resb) */
#include <resb.h>
#include <stdio.h>
#include <string.h>
#include <sys/random.h>

#define STRING(s) (s), strlen(s)

int main(void) {
    resb engine = RESB_CLOSED;
    uint8_t seed[16];
    if (getrandom(seed, sizeof seed, 0) != sizeof seed || resb_open(&engine, seed, sizeof seed))
        return 1;
    resb_install(&engine, STRING("shop"), STRING("root"), STRING("root{greeting{\"Hello\"}}"), true);
    resb_install(&engine, STRING("shop"), STRING("de"), STRING("de{greeting{\"Guten Tag\"}}"), true);
    const char *locales[] = {"de_AT", "fr"};
    for (int i = 0; i < 2; i++) {
        uint16_t units[64];
        size_t len;
        uint32_t error = resb_text(&engine, STRING("shop"), STRING(locales[i]), STRING("greeting"), units, 64, &len);
        printf("%s: ", locales[i]);
        for (size_t k = 0; !error && k < len; k++)
            putchar(units[k]);
        printf("\n");
    }
    resb_close(&engine);
    return 0;
}
