/* The same bits whatever control word the host program has set, and that word as it was afterwards: batches of frames of
 * tiny, ordinary and huge values, by each code and rule that it takes. */
#include "desklink.h"
#include <stdio.h>
#include <string.h>

#define FRAMES 2

struct left {
    int32_t answer;
    uint8_t bits[FRAMES * 384];
    uint16_t counts[FRAMES], rounds[FRAMES], firsts[FRAMES];
};

static float values[FRAMES * 576], work[DESKLINK_WORK];

/* Mixed signs and sizes about the one given, from a small generator of its own. */
static void fill_values(float size)
{
    uint32_t state = 12345;
    for (int i = 0; i < FRAMES * 576; i++) {
        state = state * 1664525u + 1013904223u;
        values[i] = size * ((float)(state >> 8) / 8388608.0f - 0.25f);
    }
}

static void decode(uint32_t code, uint32_t rule, struct left *out)
{
    uint32_t n = DESKLINK_N(code), pairs[2 * FRAMES] = {0, n, n, n};
    memset(out, 9, sizeof *out);
    out->answer = desklink_decode_batch(code, rule, 10, 0.75f, values, FRAMES * n, pairs, 2 * FRAMES, out->bits,
                                        FRAMES * DESKLINK_K(code), out->counts, FRAMES, out->rounds, FRAMES, out->firsts,
                                        FRAMES, work, DESKLINK_WORK);
}

int main(void)
{
    /* rounding modes; flush-to-zero; denormals-are-zero; both, with flags raised; every exception unmasked */
    static const uint32_t words[] = {0x3F80, 0x5F80, 0x7F80, 0x9F80, 0x1FC0, 0x9FFF, 0x0000};
    static const float sizes[] = {1e-45f, 1e-41f, 1e-38f, 1e-20f, 1.0f, 1e20f, 1e38f};
    int decodes = 0, wrong = 0;
    for (size_t s = 0; s < sizeof sizes / sizeof *sizes; s++) {
        fill_values(sizes[s]);
        for (uint32_t code = 0; code < 4; code++)
            for (uint32_t rule = 0; rule < 5; rule++) {
                struct left expected, given;
                decode(code, rule, &expected);
                for (size_t w = 0; w < sizeof words / sizeof *words; w++) {
                    _mm_setcsr(words[w]);
                    decode(code, rule, &given);
                    uint32_t after = _mm_getcsr();
                    _mm_setcsr(0x1F80);
                    decodes++;
                    wrong += after != words[w] || memcmp(&given, &expected, sizeof given) != 0;
                }
            }
    }
    printf("%d decodes under %d control words, %d of them other than under the default\n", decodes,
           (int)(sizeof words / sizeof *words), wrong);
    return wrong != 0;
}
