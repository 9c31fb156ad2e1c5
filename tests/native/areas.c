/* Areas of 128 bytes on the stack, each used in another way, and a frame of numbers: what `stack` must tell apart. */
#include <stddef.h>
#include <string.h>

enum { AREA = 128 };

int by_address(int (*use)(char *))
{
    char bytes[AREA];
    return use(bytes);
}

void by_wide_moves(char *to, const char *from, void (*use)(void))
{
    char bytes[AREA];
    memcpy(bytes, from, sizeof bytes);
    use();
    memcpy(to, bytes, sizeof bytes);
}

int by_index(const char *from, size_t length, size_t at)
{
    volatile char bytes[AREA];
    size_t i;
    for (i = 0; i < length; i++)
        bytes[i % AREA] = from[i];
    return bytes[at % AREA];
}

int by_length(size_t length, int (*use)(char *))
{
    char bytes[length];
    return use(bytes);
}

/* No area: numbers that must be kept over a call, more than there are registers. */
long numbers_alone(const long *n, long (*use)(void))
{
    long a = n[0] * 3, b = n[1] * 5, c = n[2] * 7, d = n[3] * 9, e = n[4] * 11, f = n[5] * 13, g = n[6] * 17;
    long h = n[7] * 19, i = n[8] * 23, j = n[9] * 29, k = n[10] * 31, l = n[11] * 37, m = n[12] * 41, o = n[13] * 43;
    long p = n[14] * 47, q = n[15] * 53, r = n[16] * 59, s = n[17] * 61, t = n[18] * 67, u = n[19] * 71, v = n[20] * 73;
    long first = use();
    long second = a ^ b ^ c ^ d ^ e ^ f ^ g ^ h ^ i ^ j ^ k ^ l ^ m ^ o ^ p ^ q ^ r ^ s ^ t ^ u ^ v;
    long third = use();
    return first * a + b * c + d * e + f * g + h * i + j * k + l * m + o * p + q * r + s * t + u * v + second + third;
}
