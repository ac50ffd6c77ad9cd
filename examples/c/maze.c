/* The shortest way through a maze, breadth first with a ring of places; the way is drawn. */
/* prints: #########\n#*#   # #\n#*# # # #\n#***#   #\n###*### #\n#  *****#\n#########\n10\n */
/* returns: 10 */
int putchar(int);
int puts(const char *);

enum { WIDTH = 9, HEIGHT = 7 };

static char maze[HEIGHT][WIDTH + 1] = {
    "#########",
    "# #   # #",
    "# # # # #",
    "#   #   #",
    "### ### #",
    "#       #",
    "#########",
};
static unsigned char distance[HEIGHT][WIDTH];

struct place {
    signed char row, column;
};

static struct place ring[16];
static const struct place moves[4] = {{0, 1}, {1, 0}, {0, -1}, {-1, 0}};

static void flood(const struct place *from) {
    unsigned head = 0, tail = 0;
    ring[tail++ % 16] = *from;
    distance[from->row][from->column] = 1;
    while (head != tail) {
        struct place here = ring[head++ % 16];
        for (int k = 0; k < 4; k++) {
            struct place next = {here.row + moves[k].row, here.column + moves[k].column};
            if (maze[next.row][next.column] == '#' || distance[next.row][next.column])
                continue;
            distance[next.row][next.column] = distance[here.row][here.column] + 1;
            ring[tail++ % 16] = next;
        }
    }
}

static void draw(const struct place *p) {
    maze[p->row][p->column] = '*';
    for (int k = 0; k < 4; k++) {
        struct place next = {p->row + moves[k].row, p->column + moves[k].column};
        if (distance[next.row][next.column] + 1 == distance[p->row][p->column]) {
            if (distance[p->row][p->column] > 1)
                draw(&next);
            return;
        }
    }
}

int main(void) {
    struct place start = {1, 1}, end = {5, 7};
    flood(&start);
    draw(&end);
    for (int i = 0; i < HEIGHT; i++)
        puts(maze[i]);
    int steps = distance[end.row][end.column] - 1;
    if (steps >= 10)
        putchar('0' + steps / 10);
    putchar('0' + steps % 10);
    putchar('\n');
    return steps;
}
