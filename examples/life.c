/* The whole life of a few frames: message, encoding, noise, a batch decode, and what to do with a frame that is open.
 * cc -Iinclude examples/life.c target/staticlib/libdesklink.a -o target/life && target/life
 * It prints examples/life.txt; rust/examples/life.rs is the same in Rust. */
#include "desklink.h"
#include <math.h>
#include <stdio.h>
#include <stdlib.h>
#include <string.h>

enum { MOST_FRAMES = 5, MOST_VALUES = 576, ROUNDS = 5, MORE_ROUNDS = 50 };

static float work[DESKLINK_WORK];

/* A value or a count as it is. A refusal here would be a fault of this program. */
static int32_t accepted(int32_t answer)
{
    if (answer < 0) {
        printf("refused %d\n", (int)-answer);
        exit(1);
    }
    return answer;
}

/* About normal noise: twelve numbers from 0 to 1 added up, less six. The seed is fixed, so that every run is the same. */
static float noise(uint32_t *seed)
{
    float sum = -6.0f;
    for (int i = 0; i < 12; i++) {
        *seed ^= *seed << 13;
        *seed ^= *seed >> 17;
        *seed ^= *seed << 5;
        sum += (float)(*seed >> 8) / 16777216.0f;
    }
    return sum;
}

/* What a receiver hands on of a word: 2/sigma^2 times what it hears, positive where 0 is likelier. */
static void receive(const uint8_t *word, size_t n, float sigma, uint32_t seed, float *values)
{
    for (size_t i = 0; i < n; i++)
        values[i] = ((word[i] ? -1.0f : 1.0f) + sigma * noise(&seed)) * (2.0f / (sigma * sigma));
}

/* A text of up to 32 letters is the message of an N512R12 frame. */
static void send_move(const char *text, float sigma, uint32_t seed, float *values)
{
    uint8_t letters[32] = {0}, message[256], word[512];
    memcpy(letters, text, strlen(text));
    accepted(desklink_unpack_bits(letters, 32, message, 256));
    accepted(desklink_encode(DESKLINK_N512R12, message, 256, word, 512));
    receive(word, 512, sigma, seed, values);
}

/* A text of up to nine letters is the payload of a (174,91) frame. `flipped` is laid over the first letter once the
 * checksum is made: a sender with a fault. */
static void send_call(const char *text, uint8_t flipped, float sigma, uint32_t seed, float *values)
{
    uint8_t payload[10] = {0}, a91[12], codeword[22], word[174];
    memcpy(payload, text, strlen(text));
    accepted(desklink_ft8_add_crc(payload, 10, a91, 12));
    a91[0] ^= flipped;
    accepted(desklink_ldpc_encode(a91, 12, codeword, 22));
    accepted(desklink_unpack_bits(codeword, 22, word, 174));
    receive(word, 174, sigma, seed, values);
}

/* The text of a message's bits. */
static void print_text(uint32_t code, const uint8_t *bits)
{
    uint8_t letters[49] = {0};
    size_t k = DESKLINK_K(code);
    accepted(desklink_pack_bits(bits, k, letters, (k + 7) / 8));
    printf("\"%.*s\"\n", code == DESKLINK_FT8 ? 9 : 32, (const char *)letters);
}

static int32_t reason(uint32_t code, uint16_t limit, const float *values, uint8_t *word, uint16_t *part, uint16_t *computed)
{
    size_t n = DESKLINK_N(code);
    return accepted(desklink_frame_reason(code, DESKLINK_DEFAULT_RULE, 0.0f, limit, values, n, word, n, part, computed,
                                          work, DESKLINK_WORK));
}

/* What to do with a frame that is open: it depends on why. */
static void deal_with(uint32_t code, const float *values)
{
    uint8_t word[MOST_VALUES];
    uint16_t part, computed;
    int32_t why = reason(code, ROUNDS, values, word, &part, &computed);
    if (why == DESKLINK_REASON_NAN) {
        printf("  value %d is NaN: no decode can help, look at the receiver\n", part);
        return;
    }
    if (why == DESKLINK_REASON_CHECKSUM) {
        printf("  it carries checksum %04x, its payload has %04x: drop it\n", part, computed);
        return;
    }
    printf("  check %d is not satisfied: decode once more, the count cannot rise\n", part);
    if (reason(code, MORE_ROUNDS, values, word, &part, &computed) == DESKLINK_REASON_CLEAN) {
        printf("  clean within %d rounds: ", MORE_ROUNDS);
        print_text(code, word);
    } else {
        printf("  open after %d rounds too: keep what was there, and ask for it again\n", MORE_ROUNDS);
    }
}

/* Decodes all frames in one call, and takes the message of each that is clean. */
static void decode(uint32_t code, const float *values, size_t frames)
{
    size_t n = DESKLINK_N(code), k = DESKLINK_K(code);
    uint32_t pairs[2 * MOST_FRAMES];
    uint8_t bits[MOST_FRAMES * 384];
    uint16_t counts[MOST_FRAMES], rounds[MOST_FRAMES], firsts[MOST_FRAMES];
    for (size_t j = 0; j < frames; j++) {
        pairs[2 * j] = (uint32_t)(j * n);
        pairs[2 * j + 1] = (uint32_t)n;
    }
    accepted(desklink_decode_batch(code, DESKLINK_DEFAULT_RULE, ROUNDS, 0.0f, values, frames * n, pairs, 2 * frames, bits,
                                   frames * k, counts, frames, rounds, frames, firsts, frames, work, DESKLINK_WORK));
    for (size_t j = 0; j < frames; j++) {
        printf("%d count %d rounds %d ", (int)j, counts[j], rounds[j]);
        if (accepted(desklink_frame_clean(code, values + j * n, n, counts[j], bits + j * k, k))) {
            printf("clean ");
            print_text(code, bits + j * k);
        } else {
            printf("open\n");
            deal_with(code, values + j * n);
        }
    }
}

int main(void)
{
    static float values[MOST_FRAMES * MOST_VALUES];

    printf("moves over N512R12, at most %d rounds\n", ROUNDS);
    send_move("lift r+3 g+1 b-2", 0.4f, 11, values);
    send_move("gain r+0 g+2 b+2", 0.7f, 12, values + 512);
    send_move("gamma r+1 g+1 b+0", 0.75f, 13, values + 2 * 512);
    send_move("saturation -4", 1.1f, 14, values + 3 * 512);
    for (int i = 4 * 512; i < 5 * 512; i++)
        values[i] = NAN;
    decode(DESKLINK_N512R12, values, 5);

    printf("calls over (174,91), at most %d rounds\n", ROUNDS);
    send_call("DESK 3 ON", 0, 0.6f, 21, values);
    send_call("DESK 4 ON", 0x01, 0.4f, 22, values + 174);
    decode(DESKLINK_FT8, values, 2);
    return 0;
}
