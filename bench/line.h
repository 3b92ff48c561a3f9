/* The line writer in plain C: one note's frame, a bit per byte, at a place of a buffer; gives the zeros inserted, or a refusal. Behind it the
   zero count and the page timer. */
enum { LONGEST = 2048, NO_LINE = 1000000 };

static u8 *put(u8 *p, int bit, int *run) {
    *p++ = bit;
    if (!bit) { *run = 0; return p; }
    if (++*run == 5) { *p++ = 0; *run = 0; }
    return p;
}

static u8 *put_flag(u8 *p) {
    *p++ = 0;
    for (int i = 0; i < 6; i++) *p++ = 1;
    *p++ = 0;
    return p;
}

static size lay(const u8 *note, size n, u8 *out) {
    u8 *p = put_flag(out);
    u16 check = 0xFFFF;
    int run = 0;
    for (size i = 0; i < n; i++)
        for (int k = 0; k < 8; k++) {
            int bit = note[i] >> k & 1;
            check = check_step(check, bit);
            p = put(p, bit, &run);
        }
    check = ~check;
    for (int k = 15; k >= 0; k--) p = put(p, check >> k & 1, &run);
    size zeros = p - out - 8 - 8 * (n + 2);
    put_flag(p);
    return zeros;
}

__attribute__((noinline)) static size write_line(const u8 *note, size n, u8 *out, size len, size at) {
    static u8 own[20000];
    if (n == 0 || n > LONGEST) return NO_LINE + 6;
    size room = len < at ? 0 : len - at, content = 8 * (n + 2);
    if (room < content + 16 + content / 5 && room < content + 16 + lay(note, n, own)) return NO_LINE + 8;
    return lay(note, n, out + at);
}

/* The zeros inserted into a note's frame, or a refusal: the line laid out and its zeros counted, and counted as the bits go by. */
__attribute__((noinline)) static size zeros_laid(const u8 *note, size n) {
    static u8 own[20000];
    return n == 0 || n > LONGEST ? NO_LINE + 6 : lay(note, n, own);
}

static int owes(int bit, int *run) {
    if (!bit) { *run = 0; return 0; }
    if (++*run < 5) return 0;
    *run = 0;
    return 1;
}

__attribute__((noinline)) static size zeros_counted(const u8 *note, size n) {
    if (n == 0 || n > LONGEST) return NO_LINE + 6;
    u16 check = 0xFFFF;
    int run = 0;
    size zeros = 0;
    for (size i = 0; i < n; i++)
        for (int k = 0; k < 8; k++) {
            int bit = note[i] >> k & 1;
            check = check_step(check, bit);
            zeros += owes(bit, &run);
        }
    check = ~check;
    for (int k = 15; k >= 0; k--) zeros += owes(check >> k & 1, &run);
    return zeros;
}

/* The page timer: a list's ticks, or a refusal; the zeros of each note by the one or the other. */
__attribute__((noinline)) static size page_ticks(const u8 *list, size len, int lay_out) {
    size notes = 0, total = 0;
    if (len > 65535) return NO_LINE + 9;
    if (len == 0 || list[0] != 1) return NO_LINE + 5;
    for (size i = 1, n; i < len; i += 2 + n) {
        if (len - i < 2) return NO_LINE + 7;
        n = list[i] << 8 | list[i + 1];
        if (n == 0 || n > LONGEST) return NO_LINE + 6;
        if (len - i - 2 < n) return NO_LINE + 7;
    }
    for (size i = 1, n; i < len; i += 2 + n) {
        n = list[i] << 8 | list[i + 1];
        total += 8 * (n + 2) + 16 + (lay_out ? zeros_laid : zeros_counted)(list + i + 2, n);
        notes++;
    }
    return notes ? total - 8 * (notes - 1) : 0;
}
