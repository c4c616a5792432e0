/* desklink.h: the C interface of libdesklink.a (`tools/build desklink` writes it to target/staticlib).
 *
 * Answers. Every call answers one int32_t: a value or a count from 0 up, or a refusal as minus its number, -1 to -18
 * or -20. A refused call has written nothing. A call that only writes answers 0.
 *
 * Counts. A word's count is how many of the code's parity checks it leaves unsatisfied; 0 says that it is a codeword.
 * A count of 0 alone is not clean. Before a frame is trusted, test that its count is 0, that none of its values is
 * NaN (a dead aerial gives NaN everywhere, which decodes to the zero word with count 0) and, for (174,91), that its
 * first 77 bits have the checksum that it carries. A frame that passes all of that is clean, as desklink_frame_clean
 * says. Beside a count, `first` gets the number of the lowest check that it includes, from 0, or DESKLINK_NO_CHECK
 * where it is 0; beside the count of a decode, `rounds` gets how many rounds were run. Neither pointer is null.
 *
 * Slices. A slice is passed as a pointer and then the number of its elements. The pointer is never null (a slice of
 * no elements may have any other pointer that is aligned), is aligned for its type, and the memory is the caller's
 * for the whole call. A slice that is written to overlaps no other slice of the call. That is all that a caller owes:
 * every value of a number, and every length, is tested by the call.
 *
 * Floats. Two machines get the same bits only if both compute rounded to nearest, with subnormals, and a thread's
 * control word (MXCSR) may say otherwise: a host that sets flush-to-zero or denormals-are-zero would get other bits,
 * other counts. So each call below that computes with floats is an inline function around the library's own: it sets
 * the default control word, makes the call, and puts the caller's word back, flags included, also where the call is
 * refused. The functions whose names end in _unguarded compute under whatever word is set; call one only where that
 * is known to be the default.
 *
 * Codes. 0 is N512R12 (N 512, K 256), 1 is N576R23 (N 576, K 384), 2 is N512R34 (N 512, K 384); in a batch, for a
 * frame's reason and for erasures 3 is (174,91) (N 174, K 91), which is decoded by rules 0, 3 and 4 only.
 * Rules. 0 is sum-product, 1 min-sum, 2 min-sum scaled by `scale`, 3 the house default: min-sum scaled by 0.75 on
 * codes 0 to 2, and rule 4 on code 3. Rule 4, for code 3 alone, is sum-product with the right sign: rule 0 there is
 * the original's, which pulls the wrong way at 24 of its 83 checks and gains nothing over hard decisions.
 *
 * Work area. Each decoder borrows at least DESKLINK_WORK floats, of any contents. After an accepted call the first
 * DESKLINK_WORK of them are +0.0, and the rest are as they were.
 */
#ifndef DESKLINK_H
#define DESKLINK_H

#include <stddef.h>
#include <stdint.h>
#include <xmmintrin.h>

/* How the guarded calls, and those over a struct, are defined: inline in each file that includes this one, or once, by
 * a file that says otherwise. */
#ifndef DESKLINK_GUARDED
#define DESKLINK_GUARDED static inline
#endif

#ifdef __cplusplus
extern "C" {
#endif

#define DESKLINK_VERSION "0.2.0"
#define DESKLINK_WORK 3070
#define DESKLINK_MAX_PAIRS 24
#define DESKLINK_NO_CHECK 65535
#define DESKLINK_MAX_CYCLES 41

enum desklink_code { DESKLINK_N512R12 = 0, DESKLINK_N576R23 = 1, DESKLINK_N512R34 = 2, DESKLINK_FT8 = 3 };

enum desklink_rule {
    DESKLINK_SUM_PRODUCT = 0,
    DESKLINK_MIN_SUM = 1,
    DESKLINK_SCALED_MIN_SUM = 2,
    DESKLINK_DEFAULT_RULE = 3,
    DESKLINK_UNNEGATED = 4
};

/* N, the values of a frame, and K, its message bits, of a code 0 to 3. */
#define DESKLINK_N(code) ((code) == 1 ? 576 : (code) == 3 ? 174 : 512)
#define DESKLINK_K(code) ((code) == 0 ? 256 : (code) == 3 ? 91 : 384)

enum desklink_refusal {
    DESKLINK_UNKNOWN_CODE = -1,     /* the code's number names none */
    DESKLINK_UNKNOWN_RULE = -2,     /* the rule's number is above 4 */
    DESKLINK_RULE_NOT_OF_CODE = -3, /* (174,91) takes rules 0, 3 and 4 only, and no other code takes rule 4 */
    DESKLINK_INPUT_LENGTH = -4,     /* an input is not its fixed length, or has fewer bytes than the bits asked for */
    DESKLINK_WORD_TOO_SHORT = -5,   /* a staircase word to be counted has fewer than N bytes */
    DESKLINK_MESSAGE_SLACK = -6,    /* a (174,91) message has a set bit among the low five of byte 11 */
    DESKLINK_TOO_MANY_PAIRS = -7,   /* more than 24 pairs */
    DESKLINK_OUTPUT_LENGTH = -8,    /* an output is not exactly its length; a list of cycles has not the room */
    DESKLINK_WORK_TOO_SHORT = -9,   /* the work area has fewer than DESKLINK_WORK floats */
    DESKLINK_PAIR_LENGTH = -10,     /* a pair's length is not N */
    DESKLINK_PAIR_ORDER = -11,      /* a pair starts below the end of the one before */
    DESKLINK_PAIR_PAST_END = -12,   /* a pair ends past the values */
    DESKLINK_MALFORMED = -13,       /* a program's input is malformed; no call here answers it */
    DESKLINK_SUM_PAST_LIMIT = -14,  /* a sum of the reception figures would pass its limit */
    DESKLINK_NO_FRAMES = -15,       /* a fraction is asked of no frames */
    DESKLINK_ERASURE_BYTE = -16,    /* a byte of a word with erasures is above 2 */
    DESKLINK_BYTE_OUT_OF_RANGE = -17, /* a soft byte is -128 */
    DESKLINK_NOT_EIGHTHS = -18,     /* a value is no soft byte's */
    DESKLINK_NO_SUCH_PLACE = -19,   /* a program is asked about a frame past the last; no call here answers it */
    DESKLINK_GROUP_SIZES = -20      /* a group's size is 0, or the sizes do not add up to the number of pairs */
};

/* Sets the default control word, nearest, subnormals kept, exceptions masked, and gives the caller's. Flags alone, the
 * low six bits, change no result. */
static inline uint32_t desklink_default_floats(void)
{
    uint32_t callers = _mm_getcsr();
    if ((callers & ~0x3Fu) != 0x1F80)
        _mm_setcsr(0x1F80);
    return callers;
}

/* Puts the caller's control word back, flags included. */
static inline void desklink_callers_floats(uint32_t callers)
{
    if (_mm_getcsr() != callers)
        _mm_setcsr(callers);
}

/* The CRC-14 of the first num_bits bits of message, most significant bit first: 0 to 0x3FFF. */
int32_t desklink_ft8_crc14(const uint8_t *message, size_t message_len, size_t num_bits);

/* payload: 10 bytes; a91: 12 bytes, written. */
int32_t desklink_ft8_add_crc(const uint8_t *payload, size_t payload_len, uint8_t *a91, size_t a91_len);

/* a91: 12 bytes. The 14 bits at places 77 to 90. */
int32_t desklink_ft8_extract_crc(const uint8_t *a91, size_t a91_len);

/* message: 12 bytes, the low five bits of the last one 0; codeword: 22 bytes, written. */
int32_t desklink_ldpc_encode(const uint8_t *message, size_t message_len, uint8_t *codeword, size_t codeword_len);

/* hard: 174 bytes. How many of the 83 checks have bytes whose XOR is not 0. */
int32_t desklink_ldpc_count_errors(const uint8_t *hard, size_t hard_len, uint16_t *first);

/* llr: 174 values, positive where 0 is likelier; plain: 174 bytes, written. The count of the chosen word. */
int32_t desklink_ldpc_decode_soft_unguarded(const float *llr, size_t llr_len, uint16_t limit, uint8_t *plain,
                                            size_t plain_len, uint16_t *rounds, uint16_t *first, float *work,
                                            size_t work_len);
DESKLINK_GUARDED int32_t desklink_ldpc_decode_soft(const float *llr, size_t llr_len, uint16_t limit, uint8_t *plain,
                                                   size_t plain_len, uint16_t *rounds, uint16_t *first, float *work,
                                                   size_t work_len)
{
    uint32_t callers = desklink_default_floats();
    int32_t answer = desklink_ldpc_decode_soft_unguarded(llr, llr_len, limit, plain, plain_len, rounds, first, work,
                                                         work_len);
    desklink_callers_floats(callers);
    return answer;
}

/* message: K bytes; codeword: N bytes, written. */
int32_t desklink_encode(uint32_t code, const uint8_t *message, size_t message_len, uint8_t *codeword,
                        size_t codeword_len);

/* hard: N bytes or more, of which the first N are read. How many checks their low bits leave unsatisfied. */
int32_t desklink_syndrome_weight(uint32_t code, const uint8_t *hard, size_t hard_len, uint16_t *first);

/* llr: N values; bits: K bytes, written. Sum-product. The count of the chosen word. */
int32_t desklink_decode_soft_unguarded(uint32_t code, uint16_t limit, const float *llr, size_t llr_len,
                                       uint8_t *bits, size_t bits_len, uint16_t *rounds, uint16_t *first,
                                       float *work, size_t work_len);
DESKLINK_GUARDED int32_t desklink_decode_soft(uint32_t code, uint16_t limit, const float *llr, size_t llr_len,
                                              uint8_t *bits, size_t bits_len, uint16_t *rounds, uint16_t *first,
                                              float *work, size_t work_len)
{
    uint32_t callers = desklink_default_floats();
    int32_t answer = desklink_decode_soft_unguarded(code, limit, llr, llr_len, bits, bits_len, rounds, first, work,
                                                    work_len);
    desklink_callers_floats(callers);
    return answer;
}

/* The same by the rule with that number; scale is read by rule 2 alone, and may have any bits. */
int32_t desklink_decode_soft_with_unguarded(uint32_t code, uint32_t rule, float scale, uint16_t limit,
                                            const float *llr, size_t llr_len, uint8_t *bits, size_t bits_len,
                                            uint16_t *rounds, uint16_t *first, float *work, size_t work_len);
DESKLINK_GUARDED int32_t desklink_decode_soft_with(uint32_t code, uint32_t rule, float scale, uint16_t limit,
                                                   const float *llr, size_t llr_len, uint8_t *bits, size_t bits_len,
                                                   uint16_t *rounds, uint16_t *first, float *work, size_t work_len)
{
    uint32_t callers = desklink_default_floats();
    int32_t answer = desklink_decode_soft_with_unguarded(code, rule, scale, limit, llr, llr_len, bits, bits_len,
                                                         rounds, first, work, work_len);
    desklink_callers_floats(callers);
    return answer;
}

/* Decodes many frames of one code. pairs: for each frame its offset in values and its length, which is N, in turn,
 * sorted by offset; pairs_len counts those numbers, two a pair, at most 48 (an odd one at the end is not read).
 * bits: K bytes a pair, written; counts, rounds and firsts: one place a pair each, written. */
int32_t desklink_decode_batch_unguarded(uint32_t code, uint32_t rule, uint16_t limit, float scale,
                                        const float *values, size_t values_len, const uint32_t *pairs,
                                        size_t pairs_len, uint8_t *bits, size_t bits_len, uint16_t *counts,
                                        size_t counts_len, uint16_t *rounds, size_t rounds_len, uint16_t *firsts,
                                        size_t firsts_len, float *work, size_t work_len);
DESKLINK_GUARDED int32_t desklink_decode_batch(uint32_t code, uint32_t rule, uint16_t limit, float scale,
                                               const float *values, size_t values_len, const uint32_t *pairs,
                                               size_t pairs_len, uint8_t *bits, size_t bits_len, uint16_t *counts,
                                               size_t counts_len, uint16_t *rounds, size_t rounds_len,
                                               uint16_t *firsts, size_t firsts_len, float *work, size_t work_len)
{
    uint32_t callers = desklink_default_floats();
    int32_t answer = desklink_decode_batch_unguarded(code, rule, limit, scale, values, values_len, pairs, pairs_len,
                                                     bits, bits_len, counts, counts_len, rounds, rounds_len, firsts,
                                                     firsts_len, work, work_len);
    desklink_callers_floats(callers);
    return answer;
}

/* A pair: where a frame's values begin, and how many they are. */
struct desklink_pair {
    uint32_t offset;
    uint32_t length;
};

/* The same, with the pairs as records; pairs_len counts them, at most DESKLINK_MAX_PAIRS. */
int32_t desklink_decode_pairs_unguarded(uint32_t code, uint32_t rule, uint16_t limit, float scale,
                                        const float *values, size_t values_len, const struct desklink_pair *pairs,
                                        size_t pairs_len, uint8_t *bits, size_t bits_len, uint16_t *counts,
                                        size_t counts_len, uint16_t *rounds, size_t rounds_len, uint16_t *firsts,
                                        size_t firsts_len, float *work, size_t work_len);
DESKLINK_GUARDED int32_t desklink_decode_pairs(uint32_t code, uint32_t rule, uint16_t limit, float scale,
                                               const float *values, size_t values_len,
                                               const struct desklink_pair *pairs, size_t pairs_len, uint8_t *bits,
                                               size_t bits_len, uint16_t *counts, size_t counts_len,
                                               uint16_t *rounds, size_t rounds_len, uint16_t *firsts,
                                               size_t firsts_len, float *work, size_t work_len)
{
    uint32_t callers = desklink_default_floats();
    int32_t answer = desklink_decode_pairs_unguarded(code, rule, limit, scale, values, values_len, pairs, pairs_len,
                                                     bits, bits_len, counts, counts_len, rounds, rounds_len, firsts,
                                                     firsts_len, work, work_len);
    desklink_callers_floats(callers);
    return answer;
}

/* desklink_decode_batch of a batch that was stored when rule 3 stood for rule 0: 3 is taken as 0, and every other
 * number as it is. */
int32_t desklink_decode_stored_batch_unguarded(uint32_t code, uint32_t rule, uint16_t limit, float scale,
                                               const float *values, size_t values_len, const uint32_t *pairs,
                                               size_t pairs_len, uint8_t *bits, size_t bits_len, uint16_t *counts,
                                               size_t counts_len, uint16_t *rounds, size_t rounds_len,
                                               uint16_t *firsts, size_t firsts_len, float *work, size_t work_len);
DESKLINK_GUARDED int32_t desklink_decode_stored_batch(uint32_t code, uint32_t rule, uint16_t limit, float scale,
                                                      const float *values, size_t values_len, const uint32_t *pairs,
                                                      size_t pairs_len, uint8_t *bits, size_t bits_len,
                                                      uint16_t *counts, size_t counts_len, uint16_t *rounds,
                                                      size_t rounds_len, uint16_t *firsts, size_t firsts_len,
                                                      float *work, size_t work_len)
{
    uint32_t callers = desklink_default_floats();
    int32_t answer = desklink_decode_stored_batch_unguarded(code, rule, limit, scale, values, values_len, pairs,
                                                            pairs_len, bits, bits_len, counts, counts_len, rounds,
                                                            rounds_len, firsts, firsts_len, work, work_len);
    desklink_callers_floats(callers);
    return answer;
}

/* The batch with groups, for frames that are of use only together. sizes: how many frames each group has, in turn,
 * each at least 1, together as many as there are pairs; the first group takes the first pairs, and so on. A group
 * is delivered if all its frames are clean: a frame is clean when its count is 0, none of its values is NaN and,
 * for code 3, its bits carry the checksum of their first 77. All bit bytes of any other group are 255, which no
 * bit's byte is; counts, rounds and firsts are those of every frame all the same. With sizes_len 0 there are no
 * groups, and this is desklink_decode_batch. */
int32_t desklink_decode_groups_unguarded(uint32_t code, uint32_t rule, uint16_t limit, float scale,
                                         const float *values, size_t values_len, const uint32_t *pairs,
                                         size_t pairs_len, const uint32_t *sizes, size_t sizes_len, uint8_t *bits,
                                         size_t bits_len, uint16_t *counts, size_t counts_len, uint16_t *rounds,
                                         size_t rounds_len, uint16_t *firsts, size_t firsts_len, float *work,
                                         size_t work_len);
DESKLINK_GUARDED int32_t desklink_decode_groups(uint32_t code, uint32_t rule, uint16_t limit, float scale,
                                                const float *values, size_t values_len, const uint32_t *pairs,
                                                size_t pairs_len, const uint32_t *sizes, size_t sizes_len,
                                                uint8_t *bits, size_t bits_len, uint16_t *counts, size_t counts_len,
                                                uint16_t *rounds, size_t rounds_len, uint16_t *firsts,
                                                size_t firsts_len, float *work, size_t work_len)
{
    uint32_t callers = desklink_default_floats();
    int32_t answer = desklink_decode_groups_unguarded(code, rule, limit, scale, values, values_len, pairs, pairs_len,
                                                      sizes, sizes_len, bits, bits_len, counts, counts_len, rounds,
                                                      rounds_len, firsts, firsts_len, work, work_len);
    desklink_callers_floats(callers);
    return answer;
}

/* Whether a frame is clean, 1 or 0. values: its N values; count and bits: what a decode of them gave, K bytes of bits. */
int32_t desklink_frame_clean_unguarded(uint32_t code, const float *values, size_t values_len, uint16_t count,
                                       const uint8_t *bits, size_t bits_len);
DESKLINK_GUARDED int32_t desklink_frame_clean(uint32_t code, const float *values, size_t values_len, uint16_t count,
                                              const uint8_t *bits, size_t bits_len)
{
    uint32_t callers = desklink_default_floats();
    int32_t answer = desklink_frame_clean_unguarded(code, values, values_len, count, bits, bits_len);
    desklink_callers_floats(callers);
    return answer;
}

/* Why a frame is open: what desklink_frame_reason answers. */
enum desklink_reason {
    DESKLINK_REASON_CLEAN = 0,   /* it is not: the frame is clean */
    DESKLINK_REASON_NAN = 1,     /* a value is NaN; part is the lowest position of one, from 0 */
    DESKLINK_REASON_CHECK = 2,   /* the chosen word leaves a check unsatisfied; part is the lowest such check, from 0 */
    DESKLINK_REASON_CHECKSUM = 3 /* the checksum of a (174,91) word is wrong; part is the one that it carries, computed
                                    the one of its payload */
};

/* Decodes a frame, and answers the first of the reasons NaN, check and checksum that applies, or that it is clean.
 * values: its N values; word: N bytes, written: the word that the decode chooses, of which the first K bytes are the
 * message. part and computed are written, 0 where the reason has none; neither pointer is null. */
int32_t desklink_frame_reason_unguarded(uint32_t code, uint32_t rule, float scale, uint16_t limit, const float *values,
                                        size_t values_len, uint8_t *word, size_t word_len, uint16_t *part,
                                        uint16_t *computed, float *work, size_t work_len);
DESKLINK_GUARDED int32_t desklink_frame_reason(uint32_t code, uint32_t rule, float scale, uint16_t limit,
                                               const float *values, size_t values_len, uint8_t *word, size_t word_len,
                                               uint16_t *part, uint16_t *computed, float *work, size_t work_len)
{
    uint32_t callers = desklink_default_floats();
    int32_t answer = desklink_frame_reason_unguarded(code, rule, scale, limit, values, values_len, word, word_len,
                                                     part, computed, work, work_len);
    desklink_callers_floats(callers);
    return answer;
}

/* Reception figures: totals of the frames of many batches. Each number may be anything its type holds; four zeros are
 * the totals of no frames. */
struct desklink_totals {
    uint32_t frames;
    uint64_t clean;  /* how many of them are clean */
    uint64_t counts; /* the sum of their counts */
    uint64_t rounds; /* the sum of their rounds */
};

/* Adds the frames of a batch to the totals. values and pairs: as the batch call took them; bits, counts and rounds: as
 * it left them. (A call with groups leaves 255 in the bits of a group that is not delivered: a (174,91) frame of such a
 * group is counted as not clean.) A code, pair or length that the batch call would refuse is refused by the same
 * number; DESKLINK_SUM_PAST_LIMIT leaves the totals as they were. */
int32_t desklink_totals_add_unguarded(uint32_t *frames, uint64_t *clean, uint64_t *count_sum, uint64_t *round_sum,
                                      uint32_t code, const float *values, size_t values_len, const uint32_t *pairs,
                                      size_t pairs_len, const uint8_t *bits, size_t bits_len, const uint16_t *counts,
                                      size_t counts_len, const uint16_t *rounds, size_t rounds_len);
DESKLINK_GUARDED int32_t desklink_totals_add(struct desklink_totals *totals, uint32_t code, const float *values,
                                             size_t values_len, const uint32_t *pairs, size_t pairs_len,
                                             const uint8_t *bits, size_t bits_len, const uint16_t *counts,
                                             size_t counts_len, const uint16_t *rounds, size_t rounds_len)
{
    uint32_t callers = desklink_default_floats();
    int32_t answer = desklink_totals_add_unguarded(&totals->frames, &totals->clean, &totals->counts, &totals->rounds,
                                                   code, values, values_len, pairs, pairs_len, bits, bits_len, counts,
                                                   counts_len, rounds, rounds_len);
    desklink_callers_floats(callers);
    return answer;
}

/* Adds totals to totals, or answers DESKLINK_SUM_PAST_LIMIT and leaves them as they were. */
int32_t desklink_totals_join_unguarded(uint32_t *frames, uint64_t *clean, uint64_t *counts, uint64_t *rounds,
                                       uint32_t more_frames, uint64_t more_clean, uint64_t more_counts,
                                       uint64_t more_rounds);
DESKLINK_GUARDED int32_t desklink_totals_join(struct desklink_totals *totals, const struct desklink_totals *more)
{
    return desklink_totals_join_unguarded(&totals->frames, &totals->clean, &totals->counts, &totals->rounds,
                                          more->frames, more->clean, more->counts, more->rounds);
}

/* A fraction in lowest terms; one of zero is 0/1. */
struct desklink_fraction {
    uint64_t over;
    uint64_t under;
};

/* The share of clean frames, written to fraction, or DESKLINK_NO_FRAMES. */
int32_t desklink_clean_share_unguarded(uint32_t frames, uint64_t clean, uint64_t *over, uint64_t *under);
DESKLINK_GUARDED int32_t desklink_clean_share(const struct desklink_totals *totals,
                                              struct desklink_fraction *fraction)
{
    return desklink_clean_share_unguarded(totals->frames, totals->clean, &fraction->over, &fraction->under);
}

/* The mean count of a frame, likewise. */
int32_t desklink_mean_count_unguarded(uint32_t frames, uint64_t counts, uint64_t *over, uint64_t *under);
DESKLINK_GUARDED int32_t desklink_mean_count(const struct desklink_totals *totals, struct desklink_fraction *fraction)
{
    return desklink_mean_count_unguarded(totals->frames, totals->counts, &fraction->over, &fraction->under);
}

/* word: N bytes, each 0, 1, or 2 for an unknown bit; the unknown bits that the checks of the code (0 to 3) decide are
 * set. places: N numbers, of which the first ones are written: the positions that were set, in the order in which they
 * were. How many were set. */
int32_t desklink_fill_erasures(uint32_t code, uint8_t *word, size_t word_len, uint16_t *places, size_t places_len);

/* The cycles of length four of code 0 to 2: two columns, positions of a word, that lie in the same two rows, its
 * checks. places gets four numbers a cycle, from the front: lower column, higher column, lower row, higher row, in
 * that order ascending; what lies past the last cycle is as it was. places_len counts the numbers: 4 *
 * DESKLINK_MAX_CYCLES are enough for every code. relaxed, which is not null, gets how many picks of the code's
 * construction were relaxed. How many cycles there are. */
int32_t desklink_list_cycles(uint32_t code, uint16_t *places, size_t places_len, uint16_t *relaxed);

/* A word is one bit a byte here, and packed, eight bits a byte, most significant first, in the calls of FT8's names: a
 * (174,91) message of 91 bits in 12 bytes, its codeword of 174 in 22. pack_bits packs the low bits of word's bytes, the
 * last byte filled with zeros; bytes: exactly as many as the bits need, written. unpack_bits takes out as many bits as
 * word has places, written, from bytes, of which what the bits do not need is not read. */
int32_t desklink_pack_bits(const uint8_t *word, size_t word_len, uint8_t *bytes, size_t bytes_len);
int32_t desklink_unpack_bits(const uint8_t *bytes, size_t bytes_len, uint8_t *word, size_t word_len);

/* Soft bytes, -127 to 127 in eighths, and values, as many of one as of the other; where positive_is_one is not 0, the
 * bytes are of a model that counts positive as 1. Either call undoes the other. */
int32_t desklink_values_of_bytes_unguarded(const int8_t *bytes, size_t bytes_len, uint32_t positive_is_one,
                                           float *values, size_t values_len);
DESKLINK_GUARDED int32_t desklink_values_of_bytes(const int8_t *bytes, size_t bytes_len, uint32_t positive_is_one,
                                                  float *values, size_t values_len)
{
    uint32_t callers = desklink_default_floats();
    int32_t answer = desklink_values_of_bytes_unguarded(bytes, bytes_len, positive_is_one, values, values_len);
    desklink_callers_floats(callers);
    return answer;
}
int32_t desklink_bytes_of_values_unguarded(const float *values, size_t values_len, uint32_t positive_is_one,
                                           int8_t *bytes, size_t bytes_len);
DESKLINK_GUARDED int32_t desklink_bytes_of_values(const float *values, size_t values_len, uint32_t positive_is_one,
                                                  int8_t *bytes, size_t bytes_len)
{
    uint32_t callers = desklink_default_floats();
    int32_t answer = desklink_bytes_of_values_unguarded(values, values_len, positive_is_one, bytes, bytes_len);
    desklink_callers_floats(callers);
    return answer;
}

#ifdef __cplusplus
}
#endif

#endif
