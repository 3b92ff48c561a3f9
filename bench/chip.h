/* The chip of documents 01 and 02 in plain C, for the benchmarks alone: a chip behind a pointer, changed in place. Included, so that a program is one
   module for the compiler, as a Rattle program is. bench/run holds it against the product, event by event, before it measures anything. */
typedef unsigned char u8;
typedef unsigned short u16;
typedef unsigned long size;

enum mode { NO_MODE, ASYNCHRONOUS, MONOSYNC, BISYNC, SDLC };
enum unit { MARK, FLAG, BYTE, CHECK, ABORT, CHARACTER, SYNC };
enum { DCD = 8, HUNT = 16, CTS = 32, UNDERRUN = 64, BROKEN = 128 };       /* RR0's five latched bits */
enum { REFUSED = 256, PRESET = 0xFFFF, POLYNOMIAL = 0x1021, CRC_16 = 0x8005, GOOD = 0x1D0F, QUEUE = 3 };

struct entry { u8 byte, parity, overrun, framing, ends, bad; };

struct channel {
    u8 wr[8], pointer, mode;
    u8 live, latched, shown;                                              /* the five bits as they are; external status */
    u8 armed, transmit, service;                                          /* service: receive 1, transmit 2, external 4 */
    u8 unit, left, run, owed, buffer, full;                               /* sender */
    u16 rest, send_check;
    u8 skip, ones, delay, count, part, have, held;               /* receiver, SDLC; the delay lies under a leading one */
    u16 receive_check;
    u8 leading, turn;                                                     /* receiver, Monosync and Bisync; the last bits, the newest highest */
    u16 seen;
    u8 wait, to_come, bits, weight, odd, blank, parity, even;             /* receiver, asynchronous */
    u8 waiting, parity_latch, overrun_latch;                              /* queue */
    struct entry queue[QUEUE];
};

struct chip { struct channel ch[2]; };

static u16 step_over(u16 polynomial, u16 check, int bit) {
    return (u16)(check << 1) ^ ((check >> 15) != bit ? polynomial : 0);
}

static u16 check_step(u16 check, int bit) {
    return step_over(POLYNOMIAL, check, bit);
}

/* A byte of Monosync or Bisync enters a check. */
static u16 entered(const struct channel *c, u16 check, u8 v) {
    u16 polynomial = c->wr[5] & 4 ? CRC_16 : POLYNOMIAL;
    for (int k = 0; k < 8; k++) check = step_over(polynomial, check, v >> k & 1);
    return check;
}

static int in_blocks(const struct channel *c) {
    return c->mode == MONOSYNC || c->mode == BISYNC;
}

static int hunts(enum mode mode) {
    return mode == MONOSYNC || mode == BISYNC || mode == SDLC;
}

static u16 sync_pair(const struct channel *c) {
    return c->wr[6] | c->wr[7] << 8;
}

/* Status: any change of the five bits latches them, but D6 falling. */
static int latches(u8 was, u8 is) {
    return (was ^ is) & ~UNDERRUN || (is & ~was & UNDERRUN);
}

static void show(struct channel *c, u8 is) {
    if (!c->latched && latches(c->live, is)) {
        c->latched = 1;
        c->shown = is;
    }
    c->live = is;
}

/* Sending */
static int sender_on(const struct channel *c) {
    return c->wr[5] & 8 && !(c->wr[3] & 0x20 && !(c->live & CTS));
}

static void start(struct channel *c, enum unit unit, u8 left, u16 rest) {
    c->unit = unit;
    c->left = left;
    c->rest = rest;
    if (unit != BYTE && unit != CHECK) c->run = 0;
}

static u8 load(struct channel *c) {
    c->full = 0;
    if (c->wr[1] & 2) c->transmit = 1;
    return c->buffer;
}

static void next_unit(struct channel *c) {
    if (!sender_on(c)) {
        start(c, MARK, 1, 1);
    } else if ((c->unit == FLAG || c->unit == BYTE) && c->full) {
        u8 v = load(c);
        if (c->wr[5] & 1)
            for (int k = 0; k < 8; k++) c->send_check = check_step(c->send_check, v >> k & 1);
        start(c, BYTE, 8, v);
    } else if (c->unit == BYTE) {
        if (!(c->live & UNDERRUN) && c->wr[5] & 1) start(c, CHECK, 16, ~c->send_check);
        else start(c, FLAG, 8, 0x7E);
        show(c, c->live | UNDERRUN);
    } else {
        start(c, FLAG, 8, 0x7E);
    }
}

static int sdlc_bit(struct channel *c) {
    int bit;
    if (c->owed) {
        c->owed = 0;
        return 0;
    }
    if (c->left == 0) next_unit(c);
    c->left--;
    if (c->unit == CHECK) {
        bit = c->rest >> 15;
        c->rest <<= 1;
    } else {
        bit = c->rest & 1;
        c->rest >>= 1;
    }
    if (c->unit == BYTE || c->unit == CHECK) {
        if (!bit) c->run = 0;
        else if (++c->run == 5) {
            c->run = 0;
            c->owed = 1;
        }
    }
    return bit;
}

static void next_block_unit(struct channel *c) {
    int ended = c->unit == BYTE;
    if (!sender_on(c)) {
        start(c, MARK, 1, 1);
    } else if (c->unit != MARK && c->full) {
        u8 v = load(c);
        if (c->wr[5] & 1) c->send_check = entered(c, c->send_check, v);
        start(c, BYTE, 8, v);
    } else {
        if (ended && !(c->live & UNDERRUN) && c->wr[5] & 1) start(c, CHECK, 16, c->send_check);
        else if (c->mode == BISYNC) start(c, SYNC, 16, sync_pair(c));
        else start(c, SYNC, 8, c->wr[6]);
        if (ended) show(c, c->live | UNDERRUN);
    }
}

static int block_bit(struct channel *c) {
    int bit;
    if (c->left == 0) next_block_unit(c);
    c->left--;
    if (c->unit == CHECK) {
        bit = c->rest >> 15;
        c->rest <<= 1;
    } else {
        bit = c->rest & 1;
        c->rest >>= 1;
    }
    return bit;
}

static u8 length(int field) {
    static const u8 lengths[4] = {5, 7, 6, 8};
    return lengths[field & 3];
}

/* How many low bits of a byte go out; with length 00 its shape says it. */
static u8 count_sent(const struct channel *c, u8 v) {
    if (c->wr[5] & 0x60) return length(c->wr[5] >> 5);
    if ((v & 0xFE) == 0xF0) return 1;
    if ((v & 0xFC) == 0xE0) return 2;
    if ((v & 0xF8) == 0xC0) return 3;
    return (v & 0xF0) == 0x80 ? 4 : 5;
}

static int asynchronous_bit(struct channel *c) {
    if (c->left == 0) {
        if (!sender_on(c) || !c->full) return 1;
        u8 v = load(c), n = count_sent(c, v), stops = (c->wr[4] & 0x0C) == 0x0C ? 2 : 1, at = n + 1;
        u16 rest = (u16)((v & ((1 << n) - 1)) << 1);
        if (c->wr[4] & 1) {
            int odd = !(c->wr[4] & 2);
            for (int k = 1; k <= n; k++) odd ^= rest >> k & 1;
            rest |= odd << at++;
        }
        start(c, CHARACTER, at + stops, rest | 3 << at);
    }
    int bit = c->rest & 1;
    c->rest >>= 1;
    c->left--;
    return bit;
}

static void idle(struct channel *c) {
    c->unit = MARK;
    c->left = c->run = c->owed = 0;
}

static void send_abort(struct channel *c) {
    if (c->mode != SDLC || !sender_on(c) || c->unit == ABORT) return;
    c->full = c->owed = 0;
    start(c, ABORT, 8, 0xFF);
    show(c, c->live | UNDERRUN);
}

/* Receiving */
static void became_oldest(struct channel *c) {
    c->parity_latch |= c->queue[0].parity;
    c->overrun_latch |= c->queue[0].overrun;
}

static void enqueue(struct channel *c, struct entry e) {
    if (c->waiting == QUEUE) {
        e.overrun = 1;
        c->queue[QUEUE - 1] = e;
        return;
    }
    c->queue[c->waiting++] = e;
    if (c->waiting == 1) became_oldest(c);
}

static void drop_frame(struct channel *c) {
    c->delay = 1;
    c->count = c->part = c->have = 0;
}

static void restart(struct channel *c) {
    drop_frame(c);
    c->skip = c->ones = c->wait = c->to_come = 0;
    c->seen = c->leading = c->turn = 0;
}

static int listens(const struct channel *c) {
    return !(c->live & HUNT) && !c->skip;
}

static void content(struct channel *c, int bit) {
    u8 d = c->delay;
    if (d < 128) {
        c->delay = d << 1 | bit;
        return;
    }
    int out = d >> 6 & 1;
    c->delay = 128 | (d & 63) << 1 | bit;
    c->receive_check = check_step(c->receive_check, out);
    c->part = c->part >> 1 | out << 7;
    if (++c->count < 8) return;
    c->count = 0;
    if (!c->have && c->wr[3] & 4 && c->part != c->wr[6] && c->part != 0xFF) {
        c->skip = 1;
        drop_frame(c);
        return;
    }
    if (c->have) enqueue(c, (struct entry){.byte = c->held});
    c->have = 1;
    c->held = c->part;
}

static void flag(struct channel *c) {
    if (listens(c) && c->have) {
        int good = c->count == 0 && c->receive_check == GOOD;
        enqueue(c, (struct entry){.byte = c->held, .ends = 1, .bad = !good});
    }
    drop_frame(c);
    c->skip = 0;
    c->receive_check = PRESET;
    show(c, c->live & ~(BROKEN | HUNT));
}

static void sdlc_receive(struct channel *c, int bit) {
    u8 ones = c->ones;
    if (bit) {
        c->ones = ones < 7 ? ones + 1 : 7;
        if (ones < 6) {
            if (listens(c)) content(c, 1);
        } else if (!(c->live & HUNT)) {
            c->skip = 1;
            drop_frame(c);
            show(c, c->live | BROKEN);
        }
        return;
    }
    c->ones = 0;
    if (ones == 6) {
        flag(c);
        return;
    }
    if (listens(c) && ones != 5) content(c, 0);
    if (c->live & BROKEN) show(c, c->live & ~BROKEN);
}

static void block_receive(struct channel *c, int bit) {
    int two = c->mode == BISYNC;
    c->seen = c->seen >> 1 | bit << 15;
    if (c->live & HUNT) {
        if (c->count < 16) c->count++;
        if (two ? c->count == 16 && c->seen == sync_pair(c) : c->count >= 8 && c->seen >> 8 == c->wr[7]) {
            c->count = c->have = c->turn = 0;
            c->leading = 1;
            show(c, c->live & ~HUNT);
        }
        return;
    }
    if (++c->count < 8) return;
    u8 v = c->seen >> 8;
    c->count = 0;
    if (c->have && c->wr[3] & 8) c->receive_check = entered(c, c->receive_check, c->held);
    c->have = 1;
    c->held = v;
    c->leading = c->leading && v == (two && !c->turn ? c->wr[6] : c->wr[7]);
    c->turn = !c->turn;
    if (!(c->leading && c->wr[3] & 2)) enqueue(c, (struct entry){.byte = v});
}

static void asynchronous_receive(struct channel *c, int bit) {
    if (c->wait) {
        if (bit) {
            c->wait = 0;
            show(c, c->live & ~BROKEN);
        }
    } else if (c->to_come == 0) {
        if (bit) return;
        c->parity = c->wr[4] & 1;
        c->even = c->wr[4] >> 1 & 1;
        c->to_come = length(c->wr[3] >> 6) + c->parity + 1;
        c->bits = 0xFF;
        c->weight = c->blank = 1;
        c->odd = 0;
    } else if (--c->to_come) {
        if (!bit) c->bits ^= c->weight;
        c->weight <<= 1;
        c->odd ^= bit;
        if (bit) c->blank = 0;
    } else {
        enqueue(c, (struct entry){.byte = c->bits, .parity = c->parity && c->odd == c->even, .framing = !bit});
        if (!bit) {
            c->wait = 1;
            if (c->blank) show(c, c->live | BROKEN);
        }
    }
}

/* Registers */
static void reset_channel(struct channel *c) {
    u8 inputs = c->live & (DCD | CTS);
    *c = (struct channel){.live = inputs | UNDERRUN, .armed = 1, .delay = 1, .send_check = PRESET, .receive_check = PRESET};
}

static void reset(struct chip *c) {
    c->ch[0].live = c->ch[1].live = 0;
    reset_channel(&c->ch[0]);
    reset_channel(&c->ch[1]);
}

static int special(const struct channel *c) {
    const struct entry *e = &c->queue[0];
    return c->waiting && (e->overrun || e->framing || e->ends || (e->parity && (c->wr[1] >> 3 & 3) == 2));
}

/* The pending sources of a channel, as service has them. */
static int pending_in(const struct channel *c) {
    int mode = c->wr[1] >> 3 & 3, receive = mode && ((c->waiting && (mode != 1 || c->armed)) || special(c));
    return receive | c->transmit << 1 | (c->latched && c->wr[1] & 1) << 2;
}

/* The highest source, 0 is A's receive and 5 B's external; 6 for none. */
static int highest(int a, int b) {
    int all = a | b << 3;
    return all ? __builtin_ctz(all) : 6;
}

static int pending(const struct chip *c) {
    return highest(pending_in(&c->ch[0]), pending_in(&c->ch[1]));
}

static int vector(const struct chip *c, int level) {
    const struct channel *b = &c->ch[1];
    int code[7] = {special(&c->ch[0]) ? 7 : 6, 4, 5, special(b) ? 3 : 2, 0, 1, 3};
    return b->wr[1] & 4 ? (b->wr[2] & 0xF1) | code[level] << 1 : b->wr[2];
}

static void reti(struct chip *c) {
    int level = highest(c->ch[0].service, c->ch[1].service);
    if (level < 6) c->ch[level / 3].service &= ~(1 << level % 3);
}

static int acknowledge(struct chip *c) {
    int level = pending(c);
    if (level >= highest(c->ch[0].service, c->ch[1].service)) return REFUSED + 4;
    c->ch[level / 3].service |= 1 << level % 3;
    return vector(c, level);
}

static int ready(const struct channel *c) {
    return !c->full && c->unit != CHECK;
}

static int rr0(const struct chip *c, int ch) {
    const struct channel *x = &c->ch[ch];
    int value = x->latched ? x->shown : x->live;
    if (x->waiting) value |= 1;
    if (ch == 0 && pending(c) < 6) value |= 2;
    if (ready(x)) value |= 4;
    return value;
}

static int rr1(const struct chip *c, int ch) {
    const struct channel *x = &c->ch[ch];
    const struct entry *e = &x->queue[0];
    int value = hunts(x->mode) || (x->left == 0 && !x->full) ? 1 : 0;
    value |= x->parity_latch << 4 | x->overrun_latch << 5;
    if (x->waiting && e->ends) value |= 0x86;
    if (in_blocks(x) ? x->receive_check != 0 : x->waiting && (e->framing || (e->ends && e->bad))) value |= 0x40;
    return value;
}

static void set_mode(struct channel *c, enum mode mode) {
    c->mode = mode;
    idle(c);
    restart(c);
    show(c, (c->live & ~(BROKEN | HUNT)) | (hunts(mode) ? HUNT : 0));
}

static enum mode mode_of(u8 wr4) {
    static const u8 modes[4] = {MONOSYNC, BISYNC, SDLC, SDLC};
    return wr4 & 0x0C ? ASYNCHRONOUS : modes[wr4 >> 4 & 3];
}

static void write_register(struct channel *c, int ch, int n, u8 v) {
    if (n == 2 && ch == 0) return;
    c->wr[n] = v;
    if (n == 1 && !(v & 2)) c->transmit = 0;
    if (n == 3 && v & 0x10 && hunts(c->mode)) {
        restart(c);
        show(c, c->live | HUNT);
    }
    if (n == 4 && c->mode != mode_of(v)) set_mode(c, mode_of(v));
}

static void command(struct chip *c, int ch, u8 v) {
    struct channel *x = &c->ch[ch];
    switch (v >> 3 & 7) {
    case 1: send_abort(x); break;
    case 2:
        if (x->latched) {
            x->latched = latches(x->shown, x->live);
            x->shown = x->live;
        }
        break;
    case 3: reset_channel(x); return;
    case 4: x->armed = 1; break;
    case 5: x->transmit = 0; break;
    case 6: x->parity_latch = x->overrun_latch = 0; break;
    case 7: if (ch == 0) reti(c); break;
    }
    switch (v >> 6) {
    case 1: x->receive_check = in_blocks(x) ? 0 : PRESET; break;
    case 2: x->send_check = in_blocks(x) ? 0 : PRESET; break;
    case 3: show(x, x->live & ~UNDERRUN); break;
    }
    x->pointer = v & 7;
}

/* The events. Each gives a value, 0 for none, or REFUSED and the refusal's number. */
static int control_write(struct chip *c, int ch, u8 v) {
    if (ch > 1) return REFUSED + 1;
    struct channel *x = &c->ch[ch];
    int n = x->pointer;
    if (n == 0) {
        command(c, ch, v);
        return 0;
    }
    if (n == 4 && (v >> 6 || (v & 0x0C) == 8 || ((v & 0x0C) == 0 && (v & 0x30) == 0x30))) return REFUSED + 3;
    x->pointer = 0;
    write_register(x, ch, n, v);
    return 0;
}

static int control_read(struct chip *c, int ch) {
    if (ch > 1) return REFUSED + 1;
    int n = c->ch[ch].pointer;
    c->ch[ch].pointer = 0;
    switch (n) {
    case 0: return rr0(c, ch);
    case 1: return rr1(c, ch);
    case 2: return ch == 1 ? vector(c, pending(c)) : 0;
    default: return 0;
    }
}

static int data_write(struct chip *c, int ch, u8 v) {
    if (ch > 1) return REFUSED + 1;
    struct channel *x = &c->ch[ch];
    x->buffer = v;
    x->full = 1;
    x->transmit = 0;
    return 0;
}

static int data_read(struct chip *c, int ch) {
    if (ch > 1) return REFUSED + 1;
    struct channel *x = &c->ch[ch];
    if (!x->waiting) return REFUSED + 10;
    u8 v = x->queue[0].byte;
    for (int i = 0; i < QUEUE - 1; i++) x->queue[i] = x->queue[i + 1];
    x->armed = 0;
    if (--x->waiting) became_oldest(x);
    return v;
}

static int transmit(struct chip *c, int ch) {
    if (ch > 1) return REFUSED + 1;
    struct channel *x = &c->ch[ch];
    if (x->mode == NO_MODE) return 1;
    int bit = x->mode == SDLC ? sdlc_bit(x) : in_blocks(x) ? block_bit(x) : asynchronous_bit(x);
    return x->wr[5] & 0x10 ? 0 : bit;
}

static int receive(struct chip *c, int ch, u8 bit) {
    if (ch > 1) return REFUSED + 1;
    if (bit > 1) return REFUSED + 2;
    struct channel *x = &c->ch[ch];
    if (x->mode == NO_MODE) return 0;
    if (!(x->wr[3] & 1) || (x->wr[3] & 0x20 && !(x->live & DCD))) {
        restart(x);
        show(x, (x->live & ~BROKEN) | (hunts(x->mode) ? HUNT : 0));
    } else if (x->mode == SDLC) {
        sdlc_receive(x, bit);
    } else if (in_blocks(x)) {
        block_receive(x, bit);
    } else {
        asynchronous_receive(x, bit);
    }
    return 0;
}

static int set_lines(struct chip *c, int ch, u8 dcd, u8 cts) {
    if (ch > 1) return REFUSED + 1;
    if (dcd > 1 || cts > 1) return REFUSED + 2;
    struct channel *x = &c->ch[ch];
    show(x, (x->live & ~(DCD | CTS)) | (dcd ? DCD : 0) | (cts ? CTS : 0));
    return 0;
}
