/* The check's advance over zero bytes and the join, in plain C: the same halving, the same product. */
enum { PRINTED = 40 };                                                    /* a heading's bytes */

__attribute__((noinline)) static u16 check_text(u16 p, u16 check, const u8 *text, size n) {
    for (size i = 0; i < n; i++)
        for (int k = 0; k < 8; k++) check = step_over(p, check, text[i] >> k & 1);
    return check;
}

static u16 product(u16 p, u16 a, u16 b) {
    u16 sum = 0;
    for (; b; b >>= 1) {
        if (b & 1) sum ^= a;
        a = step_over(p, a, 0);
    }
    return sum;
}

__attribute__((noinline)) static u16 advance(u16 p, u16 r, size k) {
    if (!k) return r;
    u16 half = advance(p, 1, k / 2), factor = product(p, half, half);
    if (k % 2) for (int i = 0; i < 8; i++) factor = step_over(p, factor, 0);
    return product(p, factor, r);
}

__attribute__((noinline)) static u16 joined(u16 heading, u16 body, size k) {
    return body ^ advance(POLYNOMIAL, heading, k);                        /* both as they are sent: preset and complement cancel */
}
