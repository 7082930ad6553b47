/*
 * LC3 spectral noise shaping: the encoder's quantizer, the decoder's synthesis, interpolation and shaping, and the numbering of pulse vectors.
 *
 * Every call takes any numbers and any floats in buffers of any length, and always returns. Bad input is refused: `number` is then not 0,
 * every lent buffer holds what it held, and the answer's other fields are 0, but for `place`, which tells where, and for the offending value
 * of no. 8 in the check of one factor.
 *
 *   number  given exactly when
 *     1     a codebook row is over 31                                      (place 0 low row, 1 high row)
 *     2     the shape is over 3
 *     3     the gain is over 1, 3, 3, 7 for shapes 0 to 3
 *     4     a lead sign in use is neither 0 nor 1                          (place 0 set A, 1 set B)
 *     5     an index in use is at or above its size                        (place 0 set A, 1 set B)
 *     6     the vector's pulses don't add up to the pair's K
 *     7     a factor is NaN or infinite                                    (place: the factor's index)
 *     8     a factor is above 64.0 or below -64.0                          (place: the factor's index)
 *     9     a lent buffer has the wrong length
 *    10     the rate index is over 4, or the pair is none of the four
 *    11     the band count isn't 60 or 64, or isn't the table's
 *    12     a spectrum line or linear gain is NaN or infinite              (place: its index in the lines or the gains)
 *
 * They are asked in the order 10, 11, 9, 1, 2, 3, 4, 5, 6, then elements by place; a call is asked only the questions for the inputs it has,
 * and answers the first that is given. Number 12 looks at all gains, then at the lines below the last band limit. Where no place is named it is 0.
 *
 * A buffer is a pointer and its length in elements. The pointer is not null (even for a length of 0) and aligned for its type, and a buffer
 * that a call fills overlaps no other.
 */
#ifndef LC3_SNS_H
#define LC3_SNS_H

#include <stdbool.h>
#include <stddef.h>
#include <stdint.h>

#ifdef __cplusplus
extern "C" {
#endif

/* What a call that fills a buffer answers. number 0: done. */
typedef struct { uint32_t number, place; } lc3_sns_code;

/*
 * What the encoder answers. number 0: done.
 *   low_row, high_row   codebook rows, 0 to 31
 *   shape               0 to 3
 *   gain                0 to 1, 3, 3, 7 for shapes 0 to 3
 *   sign_a, sign_b      lead signs, 0 positive, 1 negative; sign_b is 0 in shapes 1 to 3
 *   joint_index         at most 33460055 for shapes 0 and 1, 16708095 for shapes 2 and 3
 *   index_a, index_b    the plain indices of sets A and B; index_b is 0 in shapes 1 to 3
 */
typedef struct {
    uint32_t number, place, low_row, high_row, shape, gain, sign_a, sign_b, joint_index, index_a, index_b;
} lc3_sns_encoded;

/* What packing a vector answers. number 0: done; sign is the lead sign, index is below the pair's size. */
typedef struct { uint32_t number, place, sign, index; } lc3_sns_packed;

/* What the check of one factor answers: number 0 and the factor; 8 and the offending value; 7 and 0.0. */
typedef struct { uint32_t number; float value; } lc3_sns_checked;

/* Checks one factor. Refusals: 7, 8. */
lc3_sns_checked lc3_sns_check_factor(float x);

/*
 * Quantizes sixteen factors, and fills sixteen synthesised factors: bit for bit those that lc3_sns_decode makes of the answer's fields,
 * each within plus or minus 11.
 *   factors, out   16 elements each
 * Refusals: 9, 7, 8.
 */
lc3_sns_encoded lc3_sns_encode(const float *factors, size_t factors_len, float *out, size_t out_len);

/*
 * Synthesises sixteen factors from the decoder's fields; each lies within plus or minus 64. Shapes 1 to 3 don't look at sign_b and index_b.
 *   low_row, high_row   0 to 31
 *   shape               0 to 3
 *   gain                0 to 1, 3, 3, 7 for shapes 0 to 3
 *   sign_a, sign_b      0 or 1
 *   index_a             below 2390004, 2390004, 15158272, 774912 for shapes 0 to 3
 *   index_b             below 6
 *   factors             16 elements
 * Refusals: 9, 1, 2, 3, 4, 5.
 */
lc3_sns_code lc3_sns_decode(uint32_t low_row, uint32_t high_row, uint32_t shape, uint32_t gain, uint32_t sign_a, uint32_t sign_b,
                            uint32_t index_a, uint32_t index_b, float *factors, size_t factors_len);

/*
 * Interpolates sixteen factors to bands.
 *   factors      16 elements
 *   band_count   60 or 64
 *   bands        band_count elements
 * Refusals: 11, 9, 7, 8.
 */
lc3_sns_code lc3_sns_interpolate(const float *factors, size_t factors_len, uint32_t band_count, float *bands, size_t bands_len);

/*
 * Multiplies each spectrum line of band b once by gain b. Lines past the last band limit stay. A product may be infinite.
 *   rate         0 to 4: 8, 16, 24, 32, 48 kHz
 *   ten_ms       true for frames of 10 ms, false for 7.5 ms
 *   band_count   60 for 8 kHz and 7.5 ms, 64 otherwise
 *   gains        band_count linear gains
 *   lines        at least as many as the last band limit: 80, 160, 240, 320, 400 for 10 ms, 60, 120, 180, 240, 300 for 7.5 ms
 * Refusals: 10, 11, 9, 12.
 */
lc3_sns_code lc3_sns_shape(uint32_t rate, bool ten_ms, uint32_t band_count, const float *gains, size_t gains_len, float *lines, size_t lines_len);

/*
 * Numbers a pulse vector.
 *   dimension, pulses   (10,10), (6,1), (16,8) or (16,6)
 *   vector              dimension elements; their absolute values add up to pulses
 * Refusals: 10, 9, 6.
 */
lc3_sns_packed lc3_sns_pack(uint32_t dimension, uint32_t pulses, const int32_t *vector, size_t vector_len);

/*
 * The pulse vector of a lead sign and an index.
 *   dimension, pulses   (10,10), (6,1), (16,8) or (16,6)
 *   sign                0 or 1
 *   index               below 2390004, 6, 15158272, 774912
 *   vector              dimension elements
 * Refusals: 10, 9, 4, 5.
 */
lc3_sns_code lc3_sns_unpack(uint32_t dimension, uint32_t pulses, uint32_t sign, uint32_t index, int32_t *vector, size_t vector_len);

#ifdef __cplusplus
}
#endif

#endif
