/* The benchmark's work once more, plainly, in C, without proofs: cells in an array, or in the pile's two sorted tables. The same
   checks of values and cells as the warehouse makes, and the same checksums. With the argument "time" each line has
   nanoseconds too. */
#include <stdint.h>
#include <stdio.h>
#include <stdlib.h>
#include <string.h>
#include <time.h>

enum { LARGEST = 4096, TOUCHED = 4096 + 300 };

static const int64_t LIMIT = (int64_t)1 << 56;

/* a table of numbers by cell, in rising order of cells; none of them is zero */
struct table {
    uint32_t cells[1024];
    int64_t numbers[1024];
    int used, most;
};

/* a table that holds numbers back over one that they come to */
struct pile {
    struct table held, below;
};

/* its cells lie in an array, with `room` zeros, or else in a pile */
struct tree {
    int bands, size;
    int64_t *cells;
    int64_t room;
    struct pile *pile;
};

/* where the cell is, or would be */
static int place_of(const struct table *t, uint32_t cell)
{
    int low = 0, high = t->used;
    while (low < high) {
        int middle = (low + high) / 2;
        if (t->cells[middle] < cell)
            low = middle + 1;
        else
            high = middle;
    }
    return low;
}

static int has(const struct table *t, int at, uint32_t cell) { return at < t->used && t->cells[at] == cell; }

static int64_t number_in(const struct table *t, uint32_t cell)
{
    int at = place_of(t, cell);
    return has(t, at, cell) ? t->numbers[at] : 0;
}

/* 0 where the table is full */
static int put(struct table *t, uint32_t cell, int64_t number)
{
    int at = place_of(t, cell), there = has(t, at, cell), after = t->used - at;
    if (number == 0) {
        if (there) {
            memmove(t->cells + at, t->cells + at + 1, (after - 1) * sizeof *t->cells);
            memmove(t->numbers + at, t->numbers + at + 1, (after - 1) * sizeof *t->numbers);
            t->used--;
        }
        return 1;
    }
    if (!there) {
        if (t->used == t->most)
            return 0;
        memmove(t->cells + at + 1, t->cells + at, after * sizeof *t->cells);
        memmove(t->numbers + at + 1, t->numbers + at, after * sizeof *t->numbers);
        t->cells[at] = cell;
        t->used++;
    }
    t->numbers[at] = number;
    return 1;
}

static int64_t pile_read(const struct pile *p, uint32_t cell)
{
    int64_t held = number_in(&p->held, cell);
    return held != 0 ? held : number_in(&p->below, cell);
}

static int64_t pile_room(const struct pile *p)
{
    int64_t room = p->below.most - p->below.used;
    for (int i = 0; i < p->held.used; i++)
        room -= number_in(&p->below, p->held.cells[i]) == 0;
    return room;
}

static void pile_write(struct pile *p, uint32_t cell, int64_t number)
{
    if (number == 0)
        put(&p->held, cell, 0);
    if (number == 0 || !put(&p->held, cell, number))
        put(&p->below, cell, number);
}

static int64_t values[LARGEST], tree[LARGEST], shares[TOUCHED];
static uint32_t touched[TOUCHED];

static uint32_t tiles_before(int above) { return ((1u << (4 * above)) - 1) / 15; }

static uint32_t difference_cell(int bands, int level, uint32_t index)
{
    int band = (level - 1) / 4;
    uint32_t width = 1u << (4 * band + 4 - level);
    return 16 * (tiles_before(bands - 1 - band) + index / width) + width + index % width;
}

static uint32_t sum_cell(int bands, int level, uint32_t index)
{
    int band = level > 0 ? (level - 1) / 4 : 0;
    return 16 * (tiles_before(bands - 1 - band) + (index >> (4 * band + 4 - level)));
}

static int bands_in_use(int size) { return size == 0 ? 1 : (size + 3) / 4; }

/* sums and differences, level by level: D(j,k) at k * 2^j + 2^(j-1), the sum at 0 */
static void transform(int level)
{
    memcpy(tree, values, sizeof *tree << level);
    for (int j = 1; j <= level; j++)
        for (uint32_t at = 0; at < 1u << level; at += 1u << j) {
            int64_t left = tree[at], right = tree[at + (1u << (j - 1))];
            tree[at] = left + right;
            tree[at + (1u << (j - 1))] = left - right;
        }
}

static int64_t sum_of(const int64_t *from, uint32_t many)
{
    int64_t sum = 0;
    for (uint32_t i = 0; i < many; i++)
        sum += from[i];
    return sum;
}

static int touch(const struct tree *t, int level, uint32_t index)
{
    int many = 0;
    for (int band = bands_in_use(t->size) - 1; band >= 0; band--) {
        int top = 4 * band + 4;
        if (top > level) {
            touched[many] = 16 * (tiles_before(t->bands - 1 - band) + (index >> (top - level)));
            shares[many++] = tree[0];
        } else {
            for (uint32_t k = 0; k < 1u << (level - top); k++) {
                touched[many] = 16 * (tiles_before(t->bands - 1 - band) + (index << (level - top)) + k);
                shares[many++] = sum_of(values + (k << top), 1u << top);
            }
        }
    }
    for (int j = t->size; j > level; j--) {
        touched[many] = difference_cell(t->bands, j, index >> (j - level));
        shares[many++] = (index >> (j - 1 - level)) % 2 == 0 ? tree[0] : -tree[0];
    }
    for (int j = level; j > 0; j--)
        for (uint32_t k = 0; k < 1u << (level - j); k++) {
            touched[many] = difference_cell(t->bands, j, (index << (level - j)) + k);
            shares[many++] = tree[(k << j) + (1u << (j - 1))];
        }
    return many;
}

static int pile_load(struct pile *p, int many)
{
    int64_t fresh = 0;
    for (int i = 0; i < many; i++) {
        int64_t old = pile_read(p, touched[i]), new = old + shares[i];
        if (new < -LIMIT || new > LIMIT)
            return 0;
        fresh += old == 0 && new != 0;
    }
    if (fresh > pile_room(p))
        return 0;
    for (int i = 0; i < many; i++)
        pile_write(p, touched[i], pile_read(p, touched[i]) + shares[i]);
    return many;
}

/* adds the values of the chunk, or changes nothing: how many cells were written, or 0 */
static int load(struct tree *t, int level, uint32_t index)
{
    if (level > t->size || index >= 1u << (t->size - level))
        return 0;
    for (uint32_t i = 0; i < 1u << level; i++)
        if (values[i] < INT32_MIN || values[i] > INT32_MAX)
            return 0;
    transform(level);
    int many = touch(t, level, index);
    if (t->pile)
        return pile_load(t->pile, many);
    int64_t fresh = 0, gone = 0;
    for (int i = 0; i < many; i++) {
        int64_t old = t->cells[touched[i]], new = old + shares[i];
        if (new < -LIMIT || new > LIMIT)
            return 0;
        fresh += old == 0 && new != 0;
        gone += old != 0 && new == 0;
    }
    if (fresh > t->room)
        return 0;
    for (int i = 0; i < many; i++)
        t->cells[touched[i]] += shares[i];
    t->room += gone - fresh;
    return many;
}

static inline int64_t number(const struct tree *t, const struct pile *p, uint32_t cell)
{
    return p ? pile_read(p, cell) : t->cells[cell];
}

/* S(level, index), with the cells read for it; -1 cells where they cannot belong to a sum */
static inline int64_t sum_in(const struct tree *t, const struct pile *p, int level, uint32_t index, int *cells)
{
    int top = (level > 0 ? (level - 1) / 4 : 0) * 4 + 4;
    if (top > t->size)
        top = t->size;
    int64_t sum = number(t, p, sum_cell(t->bands, level, index));
    if (sum < -LIMIT || sum > LIMIT)
        return *cells = -1;
    *cells += 1;
    for (int j = top; j > level; j--) {
        int64_t d = number(t, p, difference_cell(t->bands, j, index >> (j - level)));
        if (d < -LIMIT || d > LIMIT || (sum + d) % 2 != 0)
            return *cells = -1;
        sum = (index >> (j - 1 - level)) % 2 == 0 ? (sum + d) / 2 : (sum - d) / 2;
        *cells += 1;
    }
    return sum;
}

static int64_t read_sum(const struct tree *t, int level, uint32_t index, int *cells)
{
    return t->pile ? sum_in(t, t->pile, level, index, cells) : sum_in(t, NULL, level, index, cells);
}

static int64_t read_range(const struct tree *t, uint32_t from, uint32_t to, int *cells)
{
    int64_t sum = 0;
    while (from < to) {
        int level = t->size;
        while (level > 0 && (from % (1u << level) != 0 || from + (1u << level) > to))
            level--;
        sum += read_sum(t, level, from >> level, cells);
        from += 1u << level;
    }
    return sum;
}

/* the sixteen minutes of a tile, each of its cells read once */
static int read_tile(const struct tree *t, uint32_t tile, int64_t *minutes)
{
    minutes[0] = t->cells[sum_cell(t->bands, 4, tile)];
    if (minutes[0] < -LIMIT || minutes[0] > LIMIT)
        return 0;
    for (int j = 4; j > 0; j--)
        for (uint32_t at = 0; at < 16; at += 1u << j) {
            int64_t sum = minutes[at], d = t->cells[difference_cell(t->bands, j, (16 * tile + at) >> j)];
            if (d < -LIMIT || d > LIMIT || (sum + d) % 2 != 0)
                return 0;
            minutes[at] = (sum + d) / 2;
            minutes[at + (1u << (j - 1))] = (sum - d) / 2;
        }
    return 1;
}

/* an array with the largest minute of each tile, and its count of zeros */
struct index {
    int64_t *cells, room;
};

static int64_t most[LARGEST / 16];

/* a chunk of 16 minutes or more, also into the index; no part of this work damages a cell */
static int load_both(struct tree *t, struct index *x, int level, uint32_t index)
{
    int64_t minutes[16], fresh = 0, gone = 0;
    uint32_t first = index << (level - 4), tiles = 1u << (level - 4);
    for (uint32_t k = 0; k < tiles; k++) {
        if (!read_tile(t, first + k, minutes))
            return 0;
        most[k] = minutes[0] + values[16 * k];
        for (int i = 1; i < 16; i++)
            if (minutes[i] + values[16 * k + i] > most[k])
                most[k] = minutes[i] + values[16 * k + i];
        if (most[k] < -LIMIT || most[k] > LIMIT)
            return 0;
        fresh += x->cells[first + k] == 0 && most[k] != 0;
        gone += x->cells[first + k] != 0 && most[k] == 0;
    }
    if (fresh > x->room)
        return 0;
    int written = load(t, level, index);
    if (written == 0)
        return 0;
    for (uint32_t k = 0; k < tiles; k++)
        x->cells[first + k] = most[k];
    x->room += gone - fresh;
    return written;
}

/* the same numbers as the benchmark draws */
static uint64_t state;

static uint32_t draw(void)
{
    state = state * 6364136223846793005u + 1442695040888963407u;
    return (uint32_t)(state >> 32);
}

static void draw_values(int level)
{
    for (uint32_t i = 0; i < 1u << level; i++)
        values[i] = (int64_t)(draw() % 61);
}

static uint64_t check;

static void note(int64_t answer) { check = check * 31 + (uint64_t)answer; }

static void loads(struct tree *t, int level, uint32_t chunks, int times)
{
    for (int i = 0; i < times; i++) {
        uint32_t index = draw() % chunks;
        draw_values(level);
        note(load(t, level, index));
    }
}

static void loads_both(struct tree *t, struct index *x, int level, uint32_t chunks, int times)
{
    for (int i = 0; i < times; i++) {
        uint32_t index = draw() % chunks;
        draw_values(level);
        note(load_both(t, x, level, index));
    }
}

static void busiest(struct tree *t, struct index *x, int times)
{
    for (int i = 0; i < times; i++) {
        uint32_t a = draw() % ((1u << t->size) + 1), b = draw() % ((1u << t->size) + 1);
        uint32_t at = a < b ? a : b, to = a < b ? b : a;
        int cells = 0;
        int64_t best = INT64_MIN;
        while (at < to) {
            int whole = at % 16 == 0 && at + 16 <= to;
            int64_t here = whole ? x->cells[at / 16] : read_sum(t, 0, at, &cells);
            cells += whole;
            at += whole ? 16 : 1;
            if (here > best)
                best = here;
        }
        note(best);
        note(cells);
    }
}

static void best_points(struct tree *t, int times)
{
    for (int i = 0; i < times; i++) {
        uint32_t a = draw() % ((1u << t->size) + 1), b = draw() % ((1u << t->size) + 1);
        int64_t best = INT64_MIN;
        for (uint32_t at = a < b ? a : b; at < (a < b ? b : a); at++) {
            int cells = 0;
            int64_t here = read_sum(t, 0, at, &cells);
            if (here > best)
                best = here;
        }
        note(best);
    }
}

static void points(struct tree *t, int times)
{
    for (int i = 0; i < times; i++) {
        uint32_t minute = draw() % (1u << t->size);
        values[0] = (int64_t)(draw() % 61);
        note(load(t, 0, minute));
    }
}

static void questions(struct tree *t, int times)
{
    for (int i = 0; i < times; i++) {
        int cells = 0;
        note(read_sum(t, 0, draw() % (1u << t->size), &cells));
        note(cells);
    }
}

static void sums(struct tree *t, int times)
{
    for (int i = 0; i < times; i++) {
        uint32_t a = draw() % ((1u << t->size) + 1), b = draw() % ((1u << t->size) + 1);
        int cells = 0;
        note(read_range(t, a < b ? a : b, a < b ? b : a, &cells));
        note(cells);
    }
}

/* two years of forty machines: each has 16,384 chunks of 64 minutes */
static void floor_years(struct tree *t)
{
    for (int machine = 0; machine < 40; machine++)
        for (uint32_t index = 0; index < 16384; index++) {
            draw_values(6);
            note(load(t, 6, index));
        }
    int cells = 0;
    note(read_range(t, 1000, 900000, &cells));
    note(cells);
}

static int timed;

static int64_t now(void)
{
    struct timespec t;
    clock_gettime(CLOCK_MONOTONIC, &t);
    return (int64_t)t.tv_sec * 1000000000 + t.tv_nsec;
}

static int64_t started;

static void begin(void)
{
    state = 1;
    check = 0;
    started = now();
}

static void end(const char *name)
{
    int64_t took = now() - started;
    if (timed)
        printf("%s %llu %lld\n", name, (unsigned long long)check, (long long)took);
    else
        printf("%s %llu\n", name, (unsigned long long)check);
}

int main(int argc, char **argv)
{
    timed = argc > 1 && strcmp(argv[1], "time") == 0;
    static struct pile tables = { .held.most = 64, .below.most = 1024 };
    struct tree flat = { 5, 20, calloc(1118480, sizeof(int64_t)), 1118480, NULL };
    struct tree pile = { 3, 12, NULL, 0, &tables };
    struct tree both = { 5, 20, calloc(1118480, sizeof(int64_t)), 1118480, NULL };
    struct index index = { calloc(1118480, sizeof(int64_t)), 1118480 };
    if (!flat.cells || !both.cells || !index.cells)
        return 1;
    begin(); loads(&flat, 6, 1u << 14, 20000); end("flat-loads-6");
    begin(); loads(&flat, 12, 1u << 8, 500); end("flat-loads-12");
    begin(); points(&flat, 200000); end("flat-additions");
    begin(); questions(&flat, 200000); end("flat-points");
    begin(); sums(&flat, 50000); end("flat-sums");
    begin(); floor_years(&flat); end("flat-floor");
    begin(); loads(&pile, 6, 8, 5000); end("pile-loads-6");
    begin(); sums(&pile, 20000); end("pile-sums");
    begin(); loads_both(&both, &index, 6, 1u << 14, 20000); end("indexed-loads-6");
    begin(); loads_both(&both, &index, 12, 1u << 8, 500); end("indexed-loads-12");
    begin(); busiest(&both, &index, 20); end("busiest");
    begin(); best_points(&both, 20); end("best-of-points");
    return 0;
}
