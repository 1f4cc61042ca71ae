/* Tables, in each form that a compiler gives them, for tests/flash to see: FORM
   says which one this is compiled to. */
#include <stdint.h>

#define FOUR(n) (n) * 7 % 251, (n) * 11 % 251, (n) * 13 % 251, (n) * 17 % 251
#define SIXTEEN(n) FOUR(n), FOUR(n + 1), FOUR(n + 2), FOUR(n + 3)
#define SIXTY_FOUR(n) SIXTEEN(n), SIXTEEN(n + 4), SIXTEEN(n + 8), SIXTEEN(n + 12)

#if FORM == 1 /* an object of 256 bytes */
static const uint8_t table[256] = { SIXTY_FOUR(1), SIXTY_FOUR(17), SIXTY_FOUR(33), SIXTY_FOUR(49) };

unsigned look_up(uint8_t n) { return table[n]; }

#elif FORM == 2 /* one that can be written */
static uint8_t table[256] = { SIXTY_FOUR(1), SIXTY_FOUR(17), SIXTY_FOUR(33), SIXTY_FOUR(49) };

unsigned look_up(uint8_t n) { return table[n]++; }

#elif FORM == 3 /* sixteen constants of 16 bytes, for one function to put together */
typedef uint8_t piece __attribute__((vector_size(16)));

void lay_out(piece *table)
{
#define PIECE(n) table[n] = (piece){ SIXTEEN(4 * n + 1) }
    PIECE(0), PIECE(1), PIECE(2), PIECE(3), PIECE(4), PIECE(5), PIECE(6), PIECE(7);
    PIECE(8), PIECE(9), PIECE(10), PIECE(11), PIECE(12), PIECE(13), PIECE(14), PIECE(15);
}

#elif FORM == 4 /* none in the source: the CRC by a loop over the bits */
unsigned crc(const uint8_t *bytes, unsigned long len)
{
    uint16_t crc = 0xFFFF;
    unsigned long i;
    int bit;

    for (i = 0; i < len; i++) {
        crc ^= (uint16_t)(bytes[i] << 8);
        for (bit = 0; bit < 8; bit++)
            crc = (uint16_t)(crc & 0x8000 ? crc << 1 ^ 0x1021 : crc << 1);
    }
    return crc;
}

#elif FORM == 5 /* 252 bytes, which are no table here */
static const uint8_t numbers[252] = { SIXTY_FOUR(1), SIXTY_FOUR(17), SIXTY_FOUR(33) };

unsigned look_up(uint8_t n) { return n < 252 ? numbers[n] : 0; }
#endif
