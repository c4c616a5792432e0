/* Encodes a message under N512R12, flips one bit of the codeword, and decodes it.
 * cc -Iinclude examples/encode.c target/staticlib/libdesklink.a -o target/encode && target/encode */
#include "desklink.h"
#include <stdio.h>

int main(void)
{
    uint8_t message[256] = {1, 0, 1, 1}, codeword[512], bits[256];
    uint16_t rounds, first;
    float llr[512], work[DESKLINK_WORK];

    int32_t answer = desklink_encode(0, message, 256, codeword, 512);
    if (answer < 0) {
        printf("refused %d\n", (int)-answer);
        return 1;
    }
    for (int i = 0; i < 512; i++)
        llr[i] = codeword[i] ? -2.0f : 2.0f;
    llr[3] = 0.5f;
    answer = desklink_decode_soft(0, 20, llr, 512, bits, 256, &rounds, &first, work, DESKLINK_WORK);
    if (answer < 0) {
        printf("refused %d\n", (int)-answer);
        return 1;
    }
    printf("%d checks unsatisfied after %d rounds, first bits %d%d%d%d\n", (int)answer, rounds, bits[0], bits[1], bits[2], bits[3]);
    answer = desklink_encode(0, message, 255, codeword, 512);
    printf("255 message bytes: refused %d\n", (int)-answer);
    return 0;
}
