/* The line writer in C with the byte engine's tables: what crates/table and crates/stamp hold, made here once from the rules. */
typedef unsigned u32;
static u16 checks[256], stamps[5 * 256];
static u32 fours[16];

static void make_tables(void) {
    for (int k = 0; k < 256; k++) {
        checks[k] = k;
        for (int step = 0; step < 8; step++) checks[k] = checks[k] >> 1 ^ (checks[k] & 1 ? 0x8408 : 0);
    }
    for (int k = 0; k < 5 * 256; k++) {
        u8 cells[10] = {0}, *end = cells;
        int run = k / 256, first = 0, late = 0;
        for (int bit = 0; bit < 8; bit++) end = put(end, k >> bit & 1, &run);
        for (int i = 0; i < 8; i++) first |= cells[i] << i;
        for (int i = 8; i < end - cells; i++) late |= cells[i] << (i - 8);
        stamps[k] = first | run << 8 | late << 11 | (end - cells - 8) << 13;
    }
    for (int n = 0; n < 16; n++) fours[n] = (n & 1) | (n >> 1 & 1) << 8 | (n >> 2 & 1) << 16 | (n >> 3 & 1) << 24;
}

static u8 *put_stamp(u8 *p, u8 v, size *row) {
    u16 e = stamps[*row + v];
    __builtin_memcpy(p, &fours[e & 15], 4);
    __builtin_memcpy(p + 4, &fours[e >> 4 & 15], 4);
    __builtin_memcpy(p + 8, &fours[e >> 11 & 3], 4);
    *row = e & 0x700;
    return p + 8 + (e >> 13);
}

static size lay_tabled(const u8 *note, size n, u8 *out) {
    u8 *p = put_flag(out);
    u16 check = 0xFFFF;
    size row = 0;
    for (size i = 0; i < n; i++) {
        p = put_stamp(p, note[i], &row);
        check = check >> 8 ^ checks[(check ^ note[i]) & 255];
    }
    check = ~check;
    p = put_stamp(p, check & 255, &row);
    p = put_stamp(p, check >> 8, &row);
    size zeros = p - out - 8 - 8 * (n + 2);
    put_flag(p);
    return zeros;
}

__attribute__((noinline)) static size write_tabled(const u8 *note, size n, u8 *out, size len, size at) {
    static u8 own[20000];
    if (n == 0 || n > LONGEST) return NO_LINE + 6;
    size room = len < at ? 0 : len - at, content = 8 * (n + 2);
    if (room < content + 16 + content / 5 && room < content + 16 + lay_tabled(note, n, own)) return NO_LINE + 8;
    return lay_tabled(note, n, out + at);
}
