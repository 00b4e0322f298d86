// What both cores are asked for: an axis in millimetres with 400 units and 400 pulses a turn, limits at
// 40,000,000 either way and a reference at 0, and the moves to and fro that it makes.
#include <stddef.h>
#include <stdint.h>

struct course {
    uint32_t fm, fs, increase;
    int32_t far;
    uint32_t speed;
    uint32_t ticks;
    uint32_t moves;
};

int64_t core_moves(const struct course *course);
int64_t core_line(const uint8_t *line, size_t length, size_t blocks);

int64_t plain_moves(const struct course *course);
int64_t plain_line(const uint8_t *line, size_t length, size_t blocks);

// How many ticks a move of the course has, and how many steps its ramp.
uint32_t plain_ticks(const struct course *course);
uint32_t plain_steps(const struct course *course);
