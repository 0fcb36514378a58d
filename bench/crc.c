/* CRC-32C, slicing by 8: the same work as the program speed, for comparison. */
#include <stdint.h>
#include <stdio.h>
#include <stdlib.h>
#include <string.h>
#include <time.h>

enum { PIECE = 32768, PIECES = 8192 };

static uint32_t table[8][256];

static void make_tables(void)
{
    for (uint32_t k = 0; k < 256; k++) {
        uint32_t c = k;
        for (int bit = 0; bit < 8; bit++)
            c = c >> 1 ^ (c & 1 ? 0x82f63b78u : 0);
        table[0][k] = c;
    }
    for (int j = 1; j < 8; j++)
        for (int k = 0; k < 256; k++)
            table[j][k] = table[j - 1][k] >> 8 ^ table[0][table[j - 1][k] & 0xff];
}

static uint32_t update(uint32_t c, const unsigned char *p, size_t n)
{
    for (; n >= 8; p += 8, n -= 8) {
        uint32_t low, high;
        memcpy(&low, p, 4);
        memcpy(&high, p + 4, 4);
        low ^= c;
        c = table[7][low & 0xff] ^ table[6][low >> 8 & 0xff] ^ table[5][low >> 16 & 0xff] ^ table[4][low >> 24]
            ^ table[3][high & 0xff] ^ table[2][high >> 8 & 0xff] ^ table[1][high >> 16 & 0xff] ^ table[0][high >> 24];
    }
    for (; n; n--)
        c = table[0][(c ^ *p++) & 0xff] ^ c >> 8;
    return c;
}

int main(void)
{
    unsigned char *bytes = malloc(PIECE);
    struct timespec a, b;
    if (!bytes)
        return 1;
    make_tables();
    for (int i = 0; i < PIECE; i++)
        bytes[i] = i % 251;
    printf("%08x\n", update(0xffffffffu, bytes, PIECE) ^ 0xffffffffu);
    clock_gettime(CLOCK_MONOTONIC, &a);
    uint32_t state = 0xffffffffu;
    for (int i = 0; i < PIECES; i++)
        state = update(state, bytes, PIECE);
    clock_gettime(CLOCK_MONOTONIC, &b);
    double micros = (b.tv_sec - a.tv_sec) * 1e6 + (b.tv_nsec - a.tv_nsec) / 1e3;
    printf("%08x %.0f MB/s\n", state, (double)PIECE * PIECES / micros);
    free(bytes);
    return 0;
}
