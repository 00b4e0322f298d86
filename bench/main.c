// Runs the core and the plain C on the same work, checks that both come to the same, and prints the times,
// each the best of five.
#include "course.h"
#include <stdbool.h>
#include <stdio.h>
#include <stdlib.h>
#include <string.h>
#include <time.h>

// The heap that the core takes its store from.
struct tried {
    bool ok;
    void *p;
};

struct tried rattle_alloc(size_t n, size_t align)
{
    (void)align;
    void *p = malloc(n == 0 ? 1 : n);
    return (struct tried){p != NULL, p};
}

struct tried rattle_realloc(void *p, size_t kept, size_t n, size_t align)
{
    (void)kept, (void)align;
    void *q = realloc(p, n == 0 ? 1 : n);
    return (struct tried){q != NULL, q};
}

void rattle_dealloc(void *p)
{
    free(p);
}

static double now(void)
{
    struct timespec t;
    clock_gettime(CLOCK_MONOTONIC, &t);
    return t.tv_sec * 1e9 + t.tv_nsec;
}

enum { RUNS = 5, TICKS = 1000000, LINES = 100000 };

static int failed = 0;

static void report(const char *name, const char *unit, double core, double plain, bool agree)
{
    printf("%-44s %9.1f %9.1f %7.2f  ns a %s%s\n", name, core, plain, core / plain, unit, agree ? "" : "  DIFFER");
    if (!agree)
        failed = 1;
}

static void measure_moves(const char *name, struct course course)
{
    double best_core = 1e18, best_plain = 1e18;
    int64_t core = 0, plain = 0;
    course.ticks = plain_ticks(&course);
    if (course.ticks == 0) {
        printf("%s: the moves are refused\n", name);
        failed = 1;
        return;
    }
    course.moves = (TICKS + course.ticks - 1) / course.ticks;
    double ticks = (double)course.ticks * course.moves;
    for (int i = 0; i < RUNS; i++) {
        double t = now();
        core = core_moves(&course);
        double u = now();
        plain = plain_moves(&course);
        double v = now();
        best_core = u - t < best_core ? u - t : best_core;
        best_plain = v - u < best_plain ? v - u : best_plain;
    }
    char full[128];
    snprintf(full, sizeof full, "%s, ramp of %u, %.1f pulses", name, plain_steps(&course),
             (double)course.far / course.ticks);
    report(full, "tick", best_core / ticks, best_plain / ticks, core == plain && core != 0);
}

static const char *const lines[] = {
    "N10 G01 G54 G90 X12.5 F1200 M08",
    "X-39999.999",
    "(to the first hole) N20 G00 X100",
    "N0030G91X+0.125F65000",
    "",
    "M30",
    "N40 G01 G90 G53 X1.25 (slowly) F300 M07 (coolant on)",
    "G00 G57 X40000.001",
    "N50 G01 G00 X3",
    "X12.5.5",
};

typedef int64_t reader(const uint8_t *line, size_t length, size_t blocks);

// `many` lines from the first of a number of them on.
static int64_t read_all(reader *read, size_t first, size_t count, size_t many)
{
    size_t length[sizeof lines / sizeof *lines];
    uint64_t sum = 0;
    for (size_t i = 0; i < count; i++)
        length[i] = strlen(lines[first + i]);
    for (size_t i = 0, j = 0; i < many; i++) {
        sum = sum * 31 + (uint64_t)read((const uint8_t *)lines[first + j], length[j], 3);
        j = j + 1 == count ? 0 : j + 1;
    }
    return (int64_t)sum;
}

static void measure_lines(const char *name, size_t first, size_t count)
{
    double best_core = 1e18, best_plain = 1e18;
    int64_t core = 0, plain = 0;
    for (int i = 0; i < RUNS; i++) {
        double t = now();
        core = read_all(core_line, first, count, LINES);
        double u = now();
        plain = read_all(plain_line, first, count, LINES);
        double v = now();
        best_core = u - t < best_core ? u - t : best_core;
        best_plain = v - u < best_plain ? v - u : best_plain;
    }
    report(name, "line", best_core / LINES, best_plain / LINES, core == plain);
}

int main(void)
{
    printf("%-44s %9s %9s %7s\n", "", "core", "plain C", "ratio");
    // fm, fs, increase, far, speed
    measure_moves("moves", (struct course){3000000, 1000, 2370, 18000, 180, 0, 0});
    measure_moves("slow moves", (struct course){400000, 1000, 319, 2400, 24, 0, 0});
    measure_moves("fast moves", (struct course){100000000, 1000, 77000, 600000, 6000, 0, 0});
    measure_moves("alike", (struct course){3000000, 2900000, 31500, 24000, 180, 0, 0});
    measure_moves("alike", (struct course){3000000, 2900000, 82, 24000, 180, 0, 0});
    measure_lines("ten lines", 0, sizeof lines / sizeof *lines);
    measure_lines("a long line", 0, 1);
    measure_lines("a short line", 5, 1);
    return failed;
}
