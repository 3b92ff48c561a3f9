/* Rounds of one job, done by plain C (1), by the product (2), by both in turn (3), or left undone (0). Standard input: the job (t transmit ticks,
   r receive ticks, T and R the same of both channels in turn, m and M of them in Monosync, y and Y in Bisync, s a note sent, l a line written; c
   the zeros of a note counted and p the ticks of the largest list of such notes, C and P the same beside C that lays the lines out first; a and z
   the check's advance over zero bytes by
   halves and byte by byte, j a body's check joined to a heading's, w the check of both worked out whole; notes' lines by the byte engine, its tables
   lent, beside the bit engine b, plain C i and C with the same tables k, and u a note's with its tables made for it beside the bit engine), who, the
   note's kind (0 mixed, 1 FF, 2 00, 3 other random bytes in each round; of a and z the polynomial, 0 SDLC's, 1 the other) and length, and the
   rounds. Of b, i and k a round has sixteen notes of more than 40 bytes, 10,000 notes of 40, and 1,000 of fewer. Prints for C and for the product a sum over all that came
   out and the best round's nanoseconds, and then how many ticks, line bits or note bits a round has. */
#include "station.h"
#include "line.h"
#include "joining.h"
#include "tables.h"
int printf(const char *, ...);
int scanf(const char *, ...);
struct timespec { long seconds, nanoseconds; };
int clock_gettime(int, struct timespec *);

extern size sio_transmit(const u8 *note, size n, u8 *out, size len, size ticks, _Bool both, u8 wr4);
extern size sio_receive(const u8 *line, size n, u8 *out, size len, size ticks, _Bool both, u8 wr4);
extern size sio_send(const u8 *note, size n, size *told, size told_len, size rounds);
extern size sio_write_line(const u8 *note, size note_len, u8 *out, size out_len, size at);
extern size sio_engine(const u8 *note, size note_len, u8 *out, size out_len, size at);
extern size sio_notes_by_bits(const u8 *notes, size len, u8 *out, size out_len, size bytes);
extern size sio_notes_by_bytes(const u8 *notes, size len, u8 *out, size out_len, size bytes);
extern size sio_zeros_of(const u8 *note, size n);
extern size sio_page_ticks(const u8 *list, size n);
extern size sio_advance(u16 p, u16 r, size k);
extern size sio_check_text(u16 p, u16 r, const u8 *text, size n);
extern size sio_check_of(const u8 *text, size n);
extern size sio_joined(u16 heading, u16 body, size k);

enum { LINE = 20000, TICKS = 65536, NOTES = 4, CHECKS = 16, LIST = 65535, MONTH = 400000, SYNC_CHARACTER = 0x16 };

/* RR0 and RR1 of both channels. */
static size state(const struct chip *c) {
    return rr0(c, 0) | rr1(c, 0) << 8 | rr0(c, 1) << 16 | (size)rr1(c, 1) << 24;
}

static void set_up(struct chip *c, int ch, u8 wr4) {
    control_write(c, ch, 4);
    control_write(c, ch, wr4);
    control_write(c, ch, 6);
    control_write(c, ch, SYNC_CHARACTER);
    control_write(c, ch, 7);
    control_write(c, ch, SYNC_CHARACTER);
    control_write(c, ch, 3);
    control_write(c, ch, 0xC9);
    control_write(c, ch, 5);
    control_write(c, ch, 0x6D);
    control_write(c, ch, 0x80);
    control_write(c, ch, 0xC0);
}

/* The note's next byte if the buffer is empty; behind the last, when the underrun bit says that the frame is closing, the next frame begins. */
static size feed(struct chip *c, int ch, const u8 *note, size n, size at) {
    const struct channel *x = &c->ch[ch];
    if (at < n) {
        if (x->full) return at;
        data_write(c, ch, note[at]);
        return at + 1;
    }
    if (!(x->live & UNDERRUN)) return at;
    control_write(c, ch, 0x80);
    control_write(c, ch, 0xD0);
    return 0;
}

__attribute__((noinline)) static size c_transmit(const u8 *note, size n, u8 *out, size len, size ticks, _Bool both, u8 wr4) {
    struct chip c;
    size at = 0, other = 0, sent = 0;
    u8 ch = 0;
    reset(&c);
    set_up(&c, 0, wr4);
    set_up(&c, 1, wr4);
    for (size left = ticks; left > 0; left--) {
        size next = feed(&c, ch, note, n, at);
        u8 bit = transmit(&c, ch);
        if (sent < len) out[sent++] = bit;
        at = next;
        if (both) {
            at = other;
            other = next;
            ch = 1 - ch;
        }
    }
    return state(&c);
}

/* The line again and again; each character is read as it comes. */
__attribute__((noinline)) static size c_receive(const u8 *line, size n, u8 *out, size len, size ticks, _Bool both, u8 wr4) {
    struct chip c;
    size at = 0, other = 0, got = 0;
    u8 ch = 0;
    reset(&c);
    set_up(&c, 0, wr4);
    set_up(&c, 1, wr4);
    for (size left = ticks; left > 0; left--) {
        size next = at + 1 < n ? at + 1 : 0;
        receive(&c, ch, line[at]);
        if (c.ch[ch].waiting && got < len) out[got++] = data_read(&c, ch);
        at = next;
        if (both) {
            at = other;
            other = next;
            ch = 1 - ch;
        }
    }
    return state(&c);
}

__attribute__((noinline)) static size c_send(const u8 *note, size n, size *told, size rounds) {
    struct chip c;
    reset(&c);
    for (size left = rounds; left > 0; left--) told[1] = send(&c, note, n, &told[0]);
    return state(&c);
}

static u8 note[LONGEST], line[LINE], out[TICKS], zeros[LONGEST], list[LIST], month[MONTH];
static u16 heading, body;                                                 /* the checks of the note's first bytes and of the rest */

/* One check, from the heading's with r in it. */
static u16 check_job(char what, int who, u16 p, size n, u16 r) {
    switch (what) {
    case 'a': return who == 1 ? advance(p, heading ^ r, n) : sio_advance(p, heading ^ r, n);
    case 'z': return who == 1 ? check_text(p, heading ^ r, zeros, n) : sio_check_text(p, heading ^ r, zeros, n);
    case 'j': return r ^ (who == 1 ? joined(heading, body ^ r, n - PRINTED) : sio_joined(heading, body ^ r, n - PRINTED));
    default: return who == 1 ? ~check_text(POLYNOMIAL, PRESET, note, n) : sio_check_of(note, n);
    }
}

static size check_jobs(char what, int who, int kind, size n) {
    size sum = 0;
    for (u16 r = 0; r < CHECKS; r++) {
        __asm__ volatile("" ::: "memory");                                /* no check may stand for the next */
        sum = sum * 31 + check_job(what, who, kind ? 0x8005 : POLYNOMIAL, n, r);
    }
    return sum;
}

/* How many notes of n bytes the byte engine writes in a round: enough that the clock's own 0.3 microseconds do not count. */
static size notes_of(size n) { return n > 40 ? 16 : n == 40 ? 10000 : 1000; }

static size notes_by_c(const u8 *notes, size len, size n, int tabled) {
    size zeros = 0;
    for (size at = 0; at < len; at += n) zeros += (tabled ? write_tabled : write_line)(notes + at, n, out, LINE, 3);
    return zeros;
}

static size engine_job(char what, int who, size n) {
    size len = n * notes_of(n);
    if (who == 2) return sio_notes_by_bytes(month, len, out, LINE, n);
    return what == 'b' ? sio_notes_by_bits(month, len, out, LINE, n) : notes_by_c(month, len, n, what == 'k');
}

/* The notes, and how many line bits they have. */
static size fill_month(int kind, size n, size round) {
    static u32 seed = 1;
    size bits = 0;
    for (size i = 0; i < n * notes_of(n); i++) {
        seed ^= seed << 13, seed ^= seed >> 17, seed ^= seed << 5;
        month[i] = kind == 0 ? (u8)(i * 167 + 13 + round) : kind == 1 ? 0xFF : kind == 2 ? 0 : (u8)seed;
    }
    for (size i = 0; i < notes_of(n); i++) bits += write_line(month + i * n, n, line, LINE, 0) + 8 * (n + 2) + 16;
    return bits;
}

static size job(char what, int who, int kind, size n, size bits, size *told) {
    _Bool both = what == 'T' || what == 'R';
    u8 wr4 = what == 'm' || what == 'M' ? 0x00 : what == 'y' || what == 'Y' ? 0x10 : 0x20;
    switch (what) {
    case 't': case 'T': case 'm': case 'y':
        return who == 1 ? c_transmit(note, n, out, TICKS, TICKS, both, wr4) : sio_transmit(note, n, out, TICKS, TICKS, both, wr4);
    case 'r': case 'R': case 'M': case 'Y':
        return who == 1 ? c_receive(line, bits, out, TICKS, TICKS, both, wr4) : sio_receive(line, bits, out, TICKS, TICKS, both, wr4);
    case 's': return who == 1 ? c_send(note, n, told, NOTES) : sio_send(note, n, told, 2, NOTES);
    case 'a': case 'z': case 'j': case 'w': return check_jobs(what, who, kind, n);
    case 'c': return who == 1 ? zeros_counted(note, n) : sio_zeros_of(note, n);
    case 'C': return who == 1 ? zeros_laid(note, n) : sio_zeros_of(note, n);
    case 'b': case 'i': case 'k': return engine_job(what, who, n);
    case 'u': return who == 1 ? sio_write_line(note, n, out, LINE, 3) : sio_engine(note, n, out, LINE, 3);
    case 'p': case 'P': return who == 1 ? page_ticks(list, LIST, what == 'P') : sio_page_ticks(list, LIST);
    default: return who == 1 ? write_line(note, n, out, LINE, 3) : sio_write_line(note, n, out, LINE, 3);
    }
}

/* The largest list of copies of the note, the last as long as there is room; gives the notes' bits. */
static size fill_list(size n) {
    size bits = 0;
    list[0] = 1;
    for (size i = 1, k; i < LIST; i += 2 + k) {
        size left = LIST - i - 2;
        k = left < n + 3 ? left : n;
        list[i] = k >> 8;
        list[i + 1] = k;
        for (size j = 0; j < k; j++) list[i + 2 + j] = note[j % n];
        bits += 8 * k;
    }
    return bits;
}

/* Two sync characters and the note, low bits first; gives the bits. */
static size fill_block(size n) {
    for (size i = 0; i < 16; i++) line[i] = SYNC_CHARACTER >> i % 8 & 1;
    for (size i = 0; i < 8 * n; i++) line[16 + i] = note[i / 8] >> i % 8 & 1;
    return 8 * n + 16;
}

static long now(void) {
    struct timespec t;
    clock_gettime(2, &t);
    return t.seconds * 1000000000 + t.nanoseconds;
}

int main(void) {
    char what;
    int who, kind;
    size n, rounds, sum[3] = {0, 0, 0};
    long best[3] = {0, 0, 0};
    if (scanf("%c %d %d %lu %lu", &what, &who, &kind, &n, &rounds) != 5 || n == 0 || n > LONGEST) return 1;
    for (size i = 0; i < n; i++) note[i] = kind == 0 ? (u8)(i * 167 + 13) : kind == 1 ? 0xFF : 0;
    size zeros = write_line(note, n, line, LINE, 0), bits = zeros + 8 * (n + 2) + 8;      /* no closing flag: the next opening one closes the frame */
    _Bool checks = what == 'a' || what == 'z' || what == 'j' || what == 'w';
    _Bool engine = what == 'b' || what == 'i' || what == 'k';
    _Bool counts = what == 'c' || what == 'C', pages = what == 'p' || what == 'P';
    size units = what == 's' ? NOTES * (bits + 8) : what == 'l' || what == 'u' ? bits + 8 : engine ? fill_month(kind, n, 0) : checks ? CHECKS : counts ? 8 * n : pages ? fill_list(n) : TICKS;
    if (checks && n < PRINTED) return 1;
    if (what == 'M' || what == 'Y') bits = fill_block(n);
    make_tables();
    for (size r = 0; r < rounds; r++) {
        if (engine && kind == 3) fill_month(kind, n, r);
        if (checks) {
            heading = ~check_text(POLYNOMIAL, PRESET, note, PRINTED);
            body = ~check_text(POLYNOMIAL, PRESET, note + PRINTED, n - PRINTED);
        }
        for (int k = 1; k <= 2; k++) {
            if (!(who & k)) continue;
            size told[2] = {0, 0};
            for (size i = 0; who == 3 && r == 0 && i < TICKS; i++) out[i] = 0;
            long start = now();
            size state = job(what, k, kind, n, bits, told);
            long took = now() - start;
            if (r == 0 || took < best[k]) best[k] = took;
            sum[k] = ((sum[k] * 31 + state) * 31 + told[0]) * 31 + told[1];
            for (size i = 0; who == 3 && r == 0 && i < TICKS; i++) sum[k] = sum[k] * 31 + out[i];
        }
        note[r % n] ^= 1;
        list[3 + r % n] ^= 1;
    }
    printf("%lu %lu %ld %ld %lu\n", sum[1], sum[2], best[1], best[2], units);
    return 0;
}
