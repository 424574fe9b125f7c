/* Runs a job whose script is one line `step N`, N above 0, and prints what `lab` prints for it.

   It should be the C that one would write first, for `lab` to be timed against: do not make it faster.
   It is given good jobs only, and with any other it may end with status 1. */

#include <stdio.h>
#include <stdlib.h>
#include <string.h>

enum { LARGEST_SIDE = 256, LARGEST_AREA = 16384 };

static int width, height, phase;
static unsigned char cells[LARGEST_AREA];

/* Both ways to go round the edge are plain, and they differ in speed. */
#ifdef WRAP_BY_COMPARISON
static int after(int at, int side) { return at == side - 1 ? 0 : at + 1; }
static int before(int at, int side) { return at == 0 ? side - 1 : at - 1; }
#else
static int after(int at, int side) { return (at + 1) % side; }
static int before(int at, int side) { return (at + side - 1) % side; }
#endif

/* The block maps. */

static const unsigned char bbm_table[16] = {0, 8, 4, 3, 2, 5, 9, 7, 1, 6, 10, 11, 12, 13, 14, 15};
static const unsigned char critters_table[16] = {15, 14, 13, 3, 11, 5, 6, 1, 7, 9, 10, 2, 12, 4, 8, 0};
static const unsigned char tron_table[16] = {15, 1, 2, 3, 4, 5, 6, 7, 8, 9, 10, 11, 12, 13, 14, 0};

static void rewrite_block(const unsigned char *table, int x, int y)
{
    int right = after(x, width), below = after(y, height);
    int a = y * width + x, b = y * width + right, c = below * width + x, d = below * width + right;
    int entry = table[(cells[a] & 1) | (cells[b] & 1) << 1 | (cells[c] & 1) << 2 | (cells[d] & 1) << 3];
    cells[a] = (cells[a] & 0xfe) | (entry & 1);
    cells[b] = (cells[b] & 0xfe) | (entry >> 1 & 1);
    cells[c] = (cells[c] & 0xfe) | (entry >> 2 & 1);
    cells[d] = (cells[d] & 0xfe) | (entry >> 3 & 1);
}

static void rewrite_blocks(const unsigned char *table)
{
    for (int y = phase; y < height; y += 2)
        for (int x = phase; x < width; x += 2)
            rewrite_block(table, x, y);
    phase = 1 - phase;
}

static void bbm(void) { rewrite_blocks(bbm_table); }
static void critters(void) { rewrite_blocks(critters_table); }
static void tron(void) { rewrite_blocks(tron_table); }

/* The lift of Life. */

static unsigned char life_table[512];

static void fill_life_table(void)
{
    for (int number = 0; number < 512; number++) {
        int own = number >> 4 & 1, neighbours = 0;
        for (int bit = 0; bit < 9; bit++)
            if (bit != 4)
                neighbours += number >> bit & 1;
        life_table[number] = neighbours == 3 || (own && neighbours == 2);
    }
}

static int present_at(int x, int y) { return cells[y * width + x] & 1; }

static int neighbourhood(int x, int y)
{
    int west = before(x, width), east = after(x, width);
    int north = before(y, height), south = after(y, height);
    return present_at(west, north) | present_at(x, north) << 1 | present_at(east, north) << 2
        | present_at(west, y) << 3 | present_at(x, y) << 4 | present_at(east, y) << 5
        | present_at(west, south) << 6 | present_at(x, south) << 7 | present_at(east, south) << 8;
}

static void exchange(void)
{
    for (int i = 0; i < width * height; i++)
        cells[i] = (cells[i] & 0xfc) | (cells[i] & 1) << 1 | (cells[i] >> 1 & 1);
}

static void life2(void)
{
    for (int y = 0; y < height; y++)
        for (int x = 0; x < width; x++)
            cells[y * width + x] ^= life_table[neighbourhood(x, y)] << 1;
    exchange();
}

/* The stack of both. Two exchanges meet here and undo each other; they are left in, as in the map. */

static void mixed(void)
{
    for (int i = 0; i < 3; i++) {
        bbm();
        exchange();
        life2();
        exchange();
    }
}

/* The job. */

static void no_such_job(void)
{
    fputs("this is no job of one step forward\n", stderr);
    exit(1);
}

static void (*map_of(const char *name))(void)
{
    if (strcmp(name, "bbm") == 0) return bbm;
    if (strcmp(name, "critters") == 0) return critters;
    if (strcmp(name, "tron") == 0) return tron;
    if (strcmp(name, "life2") == 0) return life2;
    if (strcmp(name, "mixed") == 0) return mixed;
    no_such_job();
    return NULL;
}

static int is_side(int side) { return side >= 2 && side <= LARGEST_SIDE && side % 2 == 0; }

static void read_board(void)
{
    if (scanf(" board %d %d %d", &width, &height, &phase) != 3) no_such_job();
    if (!is_side(width) || !is_side(height) || width * height > LARGEST_AREA) no_such_job();
    if (phase != 0 && phase != 1) no_such_job();
    for (int y = 0; y < height; y++) {
        scanf(" row ");
        for (int x = 0; x < width; x++)
            if (scanf("%2hhx", &cells[y * width + x]) != 1) no_such_job();
    }
}

static void print_board(void)
{
    printf("board\t%d\t%d\t%d\n", width, height, phase);
    for (int y = 0; y < height; y++) {
        printf("row\t");
        for (int x = 0; x < width; x++)
            printf("%02x", cells[y * width + x]);
        printf("\n");
    }
}

int main(void)
{
    char name[16];
    int steps;
    if (scanf("map %15s", name) != 1) no_such_job();
    void (*move)(void) = map_of(name);
    read_board();
    if (scanf(" step %d", &steps) != 1 || steps < 1) no_such_job();
    fill_life_table();
    for (int i = 0; i < steps; i++)
        move();
    printf("done\t1\t%d\t1\t0\n", steps);
    print_board();
    return 0;
}
