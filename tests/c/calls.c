/* The C header and the archive, called from C: each call once done and once refused. Prints a line for each, and fails if one is not as it should be. */
#include <math.h>
#include <stdio.h>
#include <string.h>
#include "lc3_sns.h"

static int wrong;

static void say(const char *what, int right) {
    printf("%s: %s\n", what, right ? "right" : "WRONG");
    wrong += !right;
}

static int code_is(lc3_sns_code c, uint32_t number, uint32_t place) {
    return c.number == number && c.place == place;
}

int main(void) {
    lc3_sns_checked k = lc3_sns_check_factor(64.0f);
    say("64.0 is taken", k.number == 0 && k.value == 64.0f);
    k = lc3_sns_check_factor(nextafterf(64.0f, 65.0f));
    say("the next one up is no. 8 with its value", k.number == 8 && k.value == nextafterf(64.0f, 65.0f));
    k = lc3_sns_check_factor(NAN);
    say("NaN is no. 7 with 0.0", k.number == 7 && k.value == 0.0f);

    float scf[16] = {0}, out[16], held[16];
    for (int i = 0; i < 16; i++) out[i] = held[i] = 5.0f;
    scf[4] = INFINITY;
    lc3_sns_encoded e = lc3_sns_encode(scf, 16, out, 16);
    say("an infinite factor: no. 7 at its place, other fields 0", e.number == 7 && e.place == 4 && e.joint_index == 0 && e.low_row == 0);
    say("and nothing is written", memcmp(out, held, sizeof out) == 0);
    scf[4] = 0.0f;
    e = lc3_sns_encode(scf, 16, out, 16);
    say("zeros are quantized", e.number == 0 && e.shape < 4 && e.low_row < 32 && e.high_row < 32);
    say("and the decoder takes the fields",
        code_is(lc3_sns_decode(e.low_row, e.high_row, e.shape, e.gain, e.sign_a, e.sign_b, e.index_a, e.index_b, held, 16), 0, 0));
    say("and makes of them the encoder's factors, bit for bit", memcmp(out, held, sizeof out) == 0);

    int32_t vector[16], kept[16];
    for (int i = 0; i < 16; i++) vector[i] = kept[i] = 77;
    say("(10,10) index 2390004: no. 5", code_is(lc3_sns_unpack(10, 10, 0, 2390004, vector, 10), 5, 0));
    say("(10,10) into 16 places: no. 9", code_is(lc3_sns_unpack(10, 10, 2, 2390004, vector, 16), 9, 0));
    say("(10,6): no. 10", code_is(lc3_sns_unpack(10, 6, 2, 0, vector, 16), 10, 0));
    say("and the vector is kept", memcmp(vector, kept, sizeof vector) == 0);
    say("(10,10) index 2", code_is(lc3_sns_unpack(10, 10, 0, 2, vector, 10), 0, 0) && vector[0] == 9 && vector[1] == -1 && vector[2] == 0);
    lc3_sns_packed p = lc3_sns_pack(10, 10, vector, 10);
    say("packed again", p.number == 0 && p.place == 0 && p.sign == 0 && p.index == 2);
    vector[0] = INT32_MIN;
    p = lc3_sns_pack(10, 10, vector, 10);
    say("the least i32: no. 6, other fields 0", p.number == 6 && p.place == 0 && p.sign == 0 && p.index == 0);

    float factors[16], bands[64], lines[80], gains[64];
    for (int i = 0; i < 16; i++) factors[i] = i == 0 ? 0.0f : 8.0f;
    for (int i = 0; i < 64; i++) bands[i] = gains[i] = 2.0f;
    say("63 lent bands: no. 9", code_is(lc3_sns_interpolate(factors, 16, 64, bands, 63), 9, 0) && bands[0] == 2.0f);
    say("62 bands: no. 11", code_is(lc3_sns_interpolate(factors, 16, 62, bands, 62), 11, 0) && bands[0] == 2.0f);
    say("64 bands", code_is(lc3_sns_interpolate(factors, 16, 64, bands, 64), 0, 0) && bands[2] == 1.0f && bands[5] == 7.0f && bands[63] == 8.0f);
    say("15 factors: no. 9", code_is(lc3_sns_decode(32, 0, 0, 0, 0, 0, 0, 0, factors, 15), 9, 0) && factors[1] == 8.0f);
    say("high row 32: no. 1 at 1", code_is(lc3_sns_decode(31, 32, 4, 0, 0, 0, 0, 0, factors, 16), 1, 1) && factors[1] == 8.0f);
    say("decoded", code_is(lc3_sns_decode(31, 31, 3, 7, 1, 9, 774911, 9, factors, 16), 0, 0) && factors[1] != 8.0f);

    for (int i = 0; i < 80; i++) lines[i] = 3.0f;
    lines[60] = INFINITY;
    say("an infinite line at 60: no. 12", code_is(lc3_sns_shape(0, true, 64, gains, 64, lines, 80), 12, 60) && lines[0] == 3.0f);
    say("past the last limit it is not asked", code_is(lc3_sns_shape(0, false, 60, gains, 60, lines, 80), 0, 0));
    say("lines below the limit doubled, others kept", lines[0] == 6.0f && lines[59] == 6.0f && isinf(lines[60]) && lines[79] == 3.0f);
    say("61 gains for 60 bands: no. 9", code_is(lc3_sns_shape(0, false, 60, gains, 61, lines, 80), 9, 0));
    return wrong != 0;
}
