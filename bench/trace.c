/* The C model on the events that the program `trace` reads, printed as it prints them: so is the model held against the product. */
#include "chip.h"
int printf(const char *, ...);
size fread(void *, size, size, void *);
extern void *stdin;

static int event(struct chip *c, const u8 *e) {
    switch (e[0]) {
    case 0: reset(c); return 0;
    case 1: return control_write(c, e[1], e[2]);
    case 2: return control_read(c, e[1]);
    case 3: return data_write(c, e[1], e[2]);
    case 4: return data_read(c, e[1]);
    case 5: return transmit(c, e[1]);
    case 6: return receive(c, e[1], e[2]);
    case 7: return set_lines(c, e[1], e[2], e[3]);
    case 8: return acknowledge(c);
    default: reti(c); return 0;
    }
}

int main(void) {
    struct chip c;
    u8 e[4];
    reset(&c);
    while (fread(e, 1, 4, stdin) == 4) {
        int r = event(&c, e);
        printf("%d %d ", r < REFUSED ? 0 : r - REFUSED, r < REFUSED ? r : 0);
        printf("%d %d %d %d %d\n", rr0(&c, 0), rr1(&c, 0), rr0(&c, 1), rr1(&c, 1), vector(&c, pending(&c)));
    }
    return 0;
}
