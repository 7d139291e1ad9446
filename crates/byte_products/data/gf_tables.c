/* Writes the products of all pairs of bytes, row by row, then the inverses of 1 to 255, as ISA-L answers them. */
#include <stdio.h>
#include <isa-l/erasure_code.h>

int main(void) {
    for (int a = 0; a < 256; a++)
        for (int b = 0; b < 256; b++)
            putchar(gf_mul((unsigned char)a, (unsigned char)b));
    for (int a = 1; a < 256; a++)
        putchar(gf_inv((unsigned char)a));
    return 0;
}
