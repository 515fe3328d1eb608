/* The raw loop of bench/captures: a capture's header, then 16 bytes and as many as they say, read and written through stdio. */
#include <stdint.h>
#include <stdio.h>
#include <string.h>

int main(void) {
    static unsigned char bytes[262144];
    setvbuf(stdin, NULL, _IOFBF, 65536);
    setvbuf(stdout, NULL, _IOFBF, 65536);
    if (fread(bytes, 1, 24, stdin) != 24) {
        return 4;
    }
    fwrite(bytes, 1, 24, stdout);
    while (fread(bytes, 1, 16, stdin) == 16) {
        uint32_t captured;
        memcpy(&captured, bytes + 8, 4);
        fwrite(bytes, 1, 16, stdout);
        if (captured > sizeof bytes || fread(bytes, 1, captured, stdin) != captured) {
            return 4;
        }
        fwrite(bytes, 1, captured, stdout);
    }
    return fflush(stdout) == 0 ? 0 : 6;
}
