/* The program sendlist in plain C, over the plain C chip: between two notes a closing and an opening flag. */
#include "station.h"
int printf(const char *, ...);
size fread(void *, size, size, void *);
extern void *stdin;

enum { LONGEST_LIST = 65535, LONGEST_NOTE = 2048 };

static u8 list[LONGEST_LIST + 1];

/* The refusal's number, 0 for none. */
static int scan(size len) {
    if (len > LONGEST_LIST) return 9;
    if (len == 0 || list[0] != 1) return 5;
    for (size i = 1; i < len;) {
        if (len - i < 2) return 7;
        size n = list[i] << 8 | list[i + 1];
        if (n == 0 || n > LONGEST_NOTE) return 6;
        if (len - i - 2 < n) return 7;
        i += 2 + n;
    }
    return 0;
}

/* The opening flag of a next note. */
static void send_flag(struct chip *c) {
    for (int left = 8; left > 0; left--) transmit(c, 0);
}

int main(void) {
    size len = fread(list, 1, sizeof list, stdin), notes = 0, total = 0;
    int refusal = scan(len);
    struct chip c;
    if (refusal) {
        printf("refused %d\n", refusal);
        return 0;
    }
    reset(&c);
    for (size i = 1; i < len;) {
        if (notes) send_flag(&c);
        size n = list[i] << 8 | list[i + 1], zeros, ticks = send(&c, list + i + 2, n, &zeros);
        printf("%lu %lu %lu %lu\n", ++notes, n, zeros, ticks);
        total += ticks;
        i += 2 + n;
    }
    printf("end %lu %lu\n", notes, total);
    return 0;
}
