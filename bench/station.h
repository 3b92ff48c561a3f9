/* One note through channel A of the plain C chip, as the crate station sends it: gives the ticks with both flags, and the zeros inserted. */
#include "chip.h"

static int can_send(const struct channel *x) {
    return x->mode == SDLC && sender_on(x) && x->wr[5] & 1 && !(x->wr[5] & 0x10);
}

static void prepare(struct chip *c) {
    const struct channel *x = &c->ch[0];
    control_read(c, 0);
    if (can_send(x)) {
        if ((x->unit == MARK || x->unit == FLAG || x->unit == ABORT) && x->run == 0 && !x->owed) return;
        if (x->unit != ABORT) {
            control_write(c, 0, 0x08);
            return;
        }
    }
    control_write(c, 0, 0x18);
    control_write(c, 0, 4);
    control_write(c, 0, 0x20);
    control_write(c, 0, 5);
    control_write(c, 0, 0x69);
}

static size send(struct chip *c, const u8 *note, size n, size *zeros) {
    const struct channel *x = &c->ch[0];
    prepare(c);
    for (int left = x->unit == FLAG ? x->left : x->unit == ABORT ? x->left + 8 : 8; left > 0; left--) transmit(c, 0);
    control_write(c, 0, 0x80);
    control_write(c, 0, 0xC0);
    data_write(c, 0, note[0]);
    size i = 1, ticks = 8;
    while (!(x->unit == FLAG && x->left == 0 && x->live & UNDERRUN)) {
        if (i < n && ready(x)) data_write(c, 0, note[i++]);
        transmit(c, 0);
        ticks++;
    }
    *zeros = ticks - 8 * (n + 2) - 16;
    return ticks;
}
