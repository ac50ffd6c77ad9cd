/* The game of life on a ring of 8 by 8: a glider goes one place down and right in four rounds. */
/* prints: ........\n..o.....\n...o....\n.ooo....\n........\n........\n........\n........\n */
/* returns: 5 */
int putchar(int);

static unsigned char grid[8] = {0x40, 0x20, 0xE0};

static int alive(const unsigned char *g, int row, int column) {
    return g[row & 7] >> (7 - (column & 7)) & 1;
}

static void round(void) {
    unsigned char next[8] = {0};
    for (int row = 0; row < 8; row++)
        for (int column = 0; column < 8; column++) {
            int around = -alive(grid, row, column);
            for (int i = -1; i <= 1; i++)
                for (int j = -1; j <= 1; j++)
                    around += alive(grid, row + i, column + j);
            if (around == 3 || (around == 2 && alive(grid, row, column)))
                next[row] |= (unsigned char)(0x80 >> column);
        }
    for (int row = 0; row < 8; row++)
        grid[row] = next[row];
}

int main(void) {
    int count = 0;
    for (int i = 0; i < 4; i++)
        round();
    for (int row = 0; row < 8; row++) {
        for (int column = 0; column < 8; column++) {
            count += alive(grid, row, column);
            putchar(alive(grid, row, column) ? 'o' : '.');
        }
        putchar('\n');
    }
    return count;
}
