#include <stdio.h>

void number(long n)
{
    char digits[24];
    int count = 0;
    if (n < 0) {
        putchar('-');
        n = -n;
    }
    do {
        digits[count++] = '0' + n % 10;
        n /= 10;
    } while (n > 0);
    while (count > 0)
        putchar(digits[--count]);
}
void field(long n, int behind)
{
    number(n);
    putchar(behind);
}
static char maze[][16] = {
    "###############",
    "#S..#.........#",
    "#.#.#.###.#.#.#",
    "#.#...#...#.#.#",
    "#.#####.###.#.#",
    "#.......#...#E#",
    "###############"
};

enum { ROWS = sizeof maze / sizeof maze[0], COLUMNS = 15 };

struct place {
    int row, column, steps;
    struct place *from;
};

static struct place queue[ROWS * COLUMNS];
static const int moves[4][2] = {{0, 1}, {1, 0}, {0, -1}, {-1, 0}};

struct place *shortest(int row, int column)
{
    struct place *first = queue, *last = queue;
    last->row = row;
    last->column = column;
    last++;
    while (first != last) {
        int i;
        for (i = 0; i < 4; i++) {
            int r = first->row + moves[i][0], c = first->column + moves[i][1];
            char *cell = &maze[r][c];
            if (*cell == '#' || *cell == '+')
                continue;
            last->row = r;
            last->column = c;
            last->steps = first->steps + 1;
            last->from = first;
            if (*cell == 'E')
                return last;
            *cell = '+';
            last++;
        }
        first++;
    }
    return 0;
}

int main(void)
{
    struct place *p = shortest(1, 1);
    int r, c, seen = 0;
    field(p->steps, '\n');
    for (p = p->from; p->from; p = p->from)
        maze[p->row][p->column] = 'o';
    for (r = 0; r < ROWS; r++) {
        for (c = 0; maze[r][c]; c++) {
            seen += maze[r][c] == '+';
            putchar(maze[r][c] == '+' ? '.' : maze[r][c]);
        }
        putchar('\n');
    }
    return seen;
}
