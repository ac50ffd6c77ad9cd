/* The game of life on a torus. The input is a picture, of which `#` and `O` are alive; then so many generations are played,
   until nothing lives, nothing changes, or an earlier generation returns. */
#include <stdint.h>
#include <stdio.h>
#include <stdlib.h>
#include <string.h>

enum { WIDTH = 64, HEIGHT = 32, KEPT = 200 };

/* A row is one word, a bit for each place. */
struct world {
    uint64_t row[HEIGHT];
};

static int read_world(struct world *to) {
    char line[256];
    int r = 0, alive = 0;
    memset(to, 0, sizeof *to);
    while (r < HEIGHT && fgets(line, sizeof line, stdin)) {
        if (line[0] == '!')
            continue;
        for (int c = 0; c < WIDTH && line[c] && line[c] != '\n'; c++)
            if (line[c] == '#' || line[c] == 'O') {
                to->row[r] |= (uint64_t)1 << c;
                alive++;
            }
        r++;
    }
    return alive;
}

static uint64_t left(uint64_t row) { return row << 1 | row >> 63; }
static uint64_t right(uint64_t row) { return row >> 1 | row << 63; }

/* Adds a row of bits to counters of three bits, one for each place; the fourth bit is not needed, since 8 counts as 0. */
static void count(uint64_t sums[3], uint64_t row) {
    uint64_t carry = sums[0] & row;
    sums[0] ^= row;
    uint64_t further = sums[1] & carry;
    sums[1] ^= carry;
    sums[2] ^= further;
}

static void step(struct world *to, const struct world *from) {
    for (int r = 0; r < HEIGHT; r++) {
        uint64_t above = from->row[(r + HEIGHT - 1) % HEIGHT], here = from->row[r], below = from->row[(r + 1) % HEIGHT];
        uint64_t sums[3] = {0, 0, 0};
        count(sums, left(above));
        count(sums, above);
        count(sums, right(above));
        count(sums, left(here));
        count(sums, right(here));
        count(sums, left(below));
        count(sums, below);
        count(sums, right(below));
        to->row[r] = ~sums[2] & sums[1] & (sums[0] | here);
    }
}

static int population(const struct world *it) {
    int n = 0;
    for (int r = 0; r < HEIGHT; r++)
        for (uint64_t row = it->row[r]; row; row &= row - 1)
            n++;
    return n;
}

static void show(const struct world *it, int generation) {
    printf("generation %d, %d alive\n", generation, population(it));
    int last = HEIGHT - 1;
    while (last > 0 && !it->row[last])
        last--;
    for (int r = 0; r <= last; r++) {
        char line[WIDTH + 2];
        int n = 0;
        for (int c = 0; c < WIDTH; c++)
            if (it->row[r] >> c & 1) {
                while (n < c)
                    line[n++] = '.';
                line[n++] = '#';
            }
        line[n++] = '\n';
        fwrite(line, 1, (size_t)n, stdout);
    }
}

static uint64_t digest(const struct world *it) {
    uint64_t h = 1469598103934665603u;
    for (int r = 0; r < HEIGHT; r++) {
        h ^= it->row[r];
        h *= 1099511628211u;
        h ^= h >> 29;
    }
    return h;
}

int main(void) {
    static struct world worlds[2];
    static uint64_t seen[KEPT];
    struct world *now = &worlds[0], *next = &worlds[1];
    if (read_world(now) == 0) {
        puts("nothing lives");
        return 0;
    }
    show(now, 0);
    int generation = 0, period = 0;
    for (; generation < KEPT && !period; generation++) {
        seen[generation] = digest(now);
        for (int k = 1; k <= generation && !period; k++)
            if (seen[generation - k] == seen[generation])
                period = k;
        if (period)
            break;
        step(next, now);
        struct world *kept = now;
        now = next;
        next = kept;
    }
    show(now, generation);
    if (period)
        printf("as %d before\n", period);
    printf("digest %08x%08x\n", (unsigned)(digest(now) >> 32), (unsigned)digest(now));
    return population(now) % 256;
}
