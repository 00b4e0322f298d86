// The rules of one axis over a clock stage and of a program line, written plainly in C for comparison:
// docs/MACHINE-DATA.md, docs/MOTION.md, docs/ORDERS.md, docs/DRIVES.md and docs/PROGRAMS.md. Only what the
// measured work meets is here: orders of modes 5, 6 and stops, ticks outside programs, lines.
#include "course.h"
#include <stdbool.h>
#include <string.h>

#define REACH 40000000
#define STEPS 4096
#define FARTHEST 1000000000000

// The clock stage.

enum direction { FORWARD, BACKWARD };
enum refusal { TAKEN, NOT_READY, ENDED };

struct stage {
    int64_t count;
    enum direction direction;
    bool ready;
};

static enum refusal pulse(struct stage *stage, enum direction direction)
{
    if (!stage->ready)
        return NOT_READY;
    if (direction == FORWARD ? stage->count >= FARTHEST : stage->count <= -FARTHEST)
        return ENDED;
    stage->direction = direction;
    stage->count += direction == FORWARD ? 1 : -1;
    return TAKEN;
}

static enum refusal send(struct stage *stage, enum direction direction, uint64_t pulses)
{
    for (uint64_t i = 0; i < pulses; i++) {
        enum refusal refusal = pulse(stage, direction);
        if (refusal != TAKEN)
            return refusal;
    }
    return TAKEN;
}

// One axis.

enum measure { MILLIMETRE, INCH, DEGREE };

struct data {
    uint32_t fm, fs, increase, duration, patterns, units, pulses;
    int32_t low, high, reference, offsets[4];
    enum measure measure;
};

enum state { STANDING, MOVING, BRAKING };

struct axis {
    struct stage stage;
    bool begin, end;
    bool has_data;
    struct data data;
    uint32_t ramp[STEPS];
    uint32_t steps;
    uint8_t mode, auxiliary, fault;
    int32_t offset, tool, coordinate;
    int64_t zero;
    bool referenced, in_position;
    enum state state;
    int32_t start, target;
    int64_t distance;
    uint32_t rate;
    uint64_t total, left;
    uint32_t step;
    uint64_t sum;
};

// At most 40,000,000 x 10,000 x 2 + 1,000,000 either way.
static int64_t floored(int64_t a, int64_t b)
{
    int64_t q = a / b;
    return a % b < 0 ? q - 1 : q;
}

static int64_t pulses_of(const struct data *d, int64_t c)
{
    return floored(2 * c * d->pulses + d->units, 2 * (int64_t)d->units);
}

// n is less than 3,000,000,000,000 either way, so the product is less than 2 ^ 63.
static int64_t nearest(const struct data *d, int64_t n)
{
    return floored(2 * n * d->units + d->pulses, 2 * (int64_t)d->pulses);
}

static uint64_t units_in(enum measure measure)
{
    return measure == INCH ? 10000 : 1000;
}

static uint64_t rate_of(const struct data *d, uint64_t word)
{
    return word * units_in(d->measure) * 1000 * d->pulses / (60 * (uint64_t)d->units);
}

static bool within(int64_t v, int64_t low, int64_t high)
{
    return low <= v && v <= high;
}

static bool in_range(const struct data *d)
{
    for (int i = 0; i < 4; i++)
        if (!within(d->offsets[i], -REACH, REACH))
            return false;
    return within(d->fm, 40000, 100000000) && within(d->fs, 1000, 10000000) && within(d->increase, 20, 2599999)
        && within(d->duration, 1, 31) && within(d->patterns, 4, 40) && within(d->units, 1, 1000000)
        && within(d->pulses, 1, 10000) && within(d->low, -REACH, REACH) && within(d->high, -REACH, REACH)
        && within(d->reference, -REACH, REACH);
}

// The ramp, up to its first step equal to fm; false where it has none.
static bool make_ramp(struct axis *axis)
{
    const struct data *d = &axis->data;
    uint64_t h = 20 * (uint64_t)(d->fm - d->fs);
    uint64_t f = d->fs;
    for (uint32_t i = 0; i < STEPS; i++) {
        axis->ramp[i] = f;
        if (f == d->fm) {
            axis->steps = i + 1;
            return true;
        }
        f += d->increase * (h - 19 * (f - d->fs)) / h;
        if (f > d->fm)
            f = d->fm;
    }
    return false;
}

static int enter(struct axis *axis, const struct data *d)
{
    if (axis->state != STANDING)
        return 3;
    if (!in_range(d))
        return 4;
    if (d->fs > d->fm || d->low >= d->high || !within(d->reference, d->low, d->high))
        return 5;
    struct axis entered = *axis;
    entered.data = *d;
    if (!make_ramp(&entered))
        return 5;
    *axis = entered;
    axis->has_data = true;
    axis->offset = axis->tool = axis->coordinate = 0;
    axis->zero = axis->stage.count;
    axis->mode = 4;
    axis->auxiliary = 2;
    axis->referenced = axis->in_position = false;
    return 0;
}

enum command { START, STOP, AHEAD, BACK, TAKE_OVER };

struct order {
    uint8_t mode;
    enum command command;
    uint8_t byte;
    uint16_t word;
    int32_t dword;
};

static void begin(struct axis *axis, uint64_t rate, int32_t target)
{
    axis->start = axis->coordinate;
    axis->target = target;
    axis->distance = pulses_of(&axis->data, target) - (axis->stage.count - axis->zero);
    axis->rate = rate;
    axis->total = 1000000 * (uint64_t)(axis->distance < 0 ? -axis->distance : axis->distance);
    axis->left = axis->total;
    axis->step = 0;
    axis->sum = 0;
    axis->in_position = false;
    axis->state = MOVING;
}

static int ask_move(const struct axis *axis, uint64_t rate, int64_t target)
{
    if (rate < 1 || rate > axis->data.fm)
        return 18;
    if (!within(target, axis->data.low, axis->data.high))
        return 19;
    if (!within(axis->zero + pulses_of(&axis->data, target), -FARTHEST, FARTHEST))
        return 20;
    if (!axis->stage.ready)
        return 21;
    return 0;
}

static int position(struct axis *axis, const struct order *o)
{
    if (!axis->referenced)
        return 12;
    if (!within(o->word, 1, 65000) || !within(o->dword, -REACH, REACH))
        return 13;
    uint64_t rate = rate_of(&axis->data, o->word);
    int64_t target = (int64_t)o->dword + axis->offset + axis->tool;
    int fault = ask_move(axis, rate, target);
    if (fault == 0)
        begin(axis, rate, target);
    return fault;
}

static int reference(struct axis *axis)
{
    axis->coordinate = axis->data.reference;
    axis->zero = axis->stage.count - pulses_of(&axis->data, axis->data.reference);
    axis->referenced = axis->in_position = true;
    return 0;
}

static int answer(struct axis *axis, const struct order *o)
{
    if (o->mode != 5 && o->mode != 6)
        return 8;
    if (o->command != START && !(o->mode == 6 && o->command == STOP))
        return 9;
    if (axis->state == BRAKING)
        return 10;
    if (o->command == STOP) {
        if (axis->state == MOVING)
            axis->state = BRAKING;
        return 0;
    }
    if (axis->state != STANDING)
        return 11;
    if (!axis->has_data)
        return 7;
    return o->mode == 5 ? reference(axis) : position(axis, o);
}

static int order(struct axis *axis, const struct order *o)
{
    int fault = answer(axis, o);
    axis->fault = fault;
    if (fault == 11 && axis->state == MOVING)
        axis->state = BRAKING;
    if (fault == 0 && o->command != STOP)
        axis->mode = o->mode;
    return fault;
}

static uint32_t frequency(const struct axis *axis, uint32_t step)
{
    return step > axis->steps ? axis->data.fm : axis->ramp[step - 1];
}

// g of the rules; S is kept beside the step, so that no tick sums the ramp.
static uint32_t gain(const struct axis *axis, uint32_t step)
{
    if (step == 0)
        return 0;
    uint32_t f = frequency(axis, step);
    return f < axis->rate ? f : axis->rate;
}

static bool in_ramp(const struct axis *axis, uint32_t step)
{
    return step <= 1 || frequency(axis, step - 1) < axis->rate;
}

// A tick of motion at the greatest step that may be run; false where none may, and the move is complete.
static bool run(struct axis *axis)
{
    uint64_t above = axis->sum + gain(axis, axis->step + 1);
    uint64_t below = axis->sum - gain(axis, axis->step);
    if (in_ramp(axis, axis->step + 1) && above <= axis->left) {
        axis->step++;
        axis->sum = above;
    } else if (axis->step >= 1 && axis->sum <= axis->left) {
        // the step stays
    } else if (axis->step >= 2 && below <= axis->left) {
        axis->step--;
        axis->sum = below;
    } else {
        axis->step = 0;
        axis->sum = 0;
        axis->left = 0;
        return false;
    }
    axis->left -= gain(axis, axis->step);
    return true;
}

// A braking tick; false where the axis then stands.
static bool slow(struct axis *axis)
{
    axis->sum -= gain(axis, axis->step);
    if (axis->step > 0)
        axis->step--;
    axis->left -= gain(axis, axis->step);
    return axis->step > 0;
}

static void place(struct axis *axis)
{
    int32_t low = axis->start < axis->target ? axis->start : axis->target;
    int32_t high = axis->start < axis->target ? axis->target : axis->start;
    int64_t q = nearest(&axis->data, axis->stage.count - axis->zero);
    axis->coordinate = q < low ? low : q > high ? high : q;
}

static int fail(struct axis *axis, int fault)
{
    axis->fault = fault;
    place(axis);
    axis->referenced = false;
    axis->state = STANDING;
    return fault;
}

static int tick(struct axis *axis)
{
    if (axis->state == STANDING)
        return 0;
    if (!axis->stage.ready)
        return fail(axis, 24);
    if (axis->distance < 0 ? axis->begin : axis->distance > 0 && axis->end)
        return fail(axis, 23);
    uint64_t sent = (axis->total - axis->left) / 1000000;
    bool goes = axis->state == MOVING ? run(axis) : slow(axis);
    uint64_t pulses = (axis->total - axis->left) / 1000000 - sent;
    send(&axis->stage, axis->distance < 0 ? BACKWARD : FORWARD, pulses);
    if (axis->state == MOVING && !goes) {
        axis->coordinate = axis->target;
        axis->in_position = true;
    } else {
        place(axis);
    }
    if (!goes)
        axis->state = STANDING;
    return 0;
}

static uint8_t feedback(const struct axis *axis)
{
    uint8_t byte = axis->has_data && axis->data.measure == DEGREE ? 0x01 : 0;
    byte |= axis->has_data && axis->data.measure == MILLIMETRE ? 0x02 : 0;
    byte |= axis->in_position ? 0x04 : 0;
    byte |= axis->referenced ? 0x08 : 0x20;
    byte |= axis->has_data ? 0 : 0x40;
    byte |= axis->state == STANDING ? 0x80 : 0;
    return byte;
}

// The measured moves.

static bool referenced(struct axis *axis, const struct course *course)
{
    struct data d = {
        .fm = course->fm,
        .fs = course->fs,
        .increase = course->increase,
        .duration = 5,
        .patterns = 4,
        .units = 400,
        .pulses = 400,
        .low = -REACH,
        .high = REACH,
        .measure = MILLIMETRE,
    };
    struct order o = {.mode = 5, .command = START};
    memset(axis, 0, sizeof *axis);
    if (enter(axis, &d) != 0)
        return false;
    axis->stage.ready = true;
    return order(axis, &o) == 0;
}

static int go(struct axis *axis, const struct course *course, uint32_t i)
{
    struct order o = {.mode = 6, .command = START, .word = course->speed, .dword = i % 2 == 0 ? course->far : 0};
    return order(axis, &o);
}

static int64_t seen(const struct axis *axis)
{
    return axis->stage.count * 31 + (int64_t)axis->coordinate * 256 + feedback(axis);
}

int64_t plain_moves(const struct course *course)
{
    struct axis axis;
    uint64_t sum = 0;
    if (!referenced(&axis, course))
        return 0;
    for (uint32_t i = 0; i < course->moves; i++) {
        if (go(&axis, course, i) != 0)
            return 0;
        for (uint32_t j = 0; j < course->ticks; j++)
            if (tick(&axis) != 0)
                return 0;
        sum = sum * 31 + (uint64_t)seen(&axis);
    }
    return (int64_t)sum;
}

uint32_t plain_ticks(const struct course *course)
{
    struct axis axis;
    uint32_t ticks = 0;
    if (!referenced(&axis, course) || go(&axis, course, 0) != 0)
        return 0;
    while (axis.state != STANDING) {
        tick(&axis);
        ticks++;
    }
    return ticks;
}

uint32_t plain_steps(const struct course *course)
{
    struct axis axis;
    return referenced(&axis, course) ? axis.steps : 0;
}

// A program line.

#define MOST_BYTES 80
#define MOST_BLOCKS 64

struct word {
    char letter;
    const uint8_t *number;
    size_t length;
    size_t at;
};

// -1 where no word says it.
struct block {
    int64_t number, motion, offset, way, target, feed, auxiliary;
};

static bool is_digit(uint8_t b)
{
    return '0' <= b && b <= '9';
}

static size_t digits_in(const uint8_t *bytes, size_t length)
{
    size_t n = 0;
    while (n < length && is_digit(bytes[n]))
        n++;
    return n;
}

// An X: the whole digits and the decimals of a number, false where it is not well formed.
struct decimal {
    bool negative;
    const uint8_t *whole, *decimals;
    size_t wholes, places;
};

static bool take_apart(const struct word *w, struct decimal *d)
{
    const uint8_t *bytes = w->number;
    size_t length = w->length;
    d->negative = length > 0 && bytes[0] == '-';
    if (length > 0 && (bytes[0] == '-' || bytes[0] == '+')) {
        bytes++;
        length--;
    }
    d->whole = bytes;
    d->wholes = digits_in(bytes, length);
    d->decimals = bytes + d->wholes;
    d->places = 0;
    if (d->wholes < 1 || d->wholes > 5)
        return false;
    if (d->wholes == length)
        return true;
    if (bytes[d->wholes] != '.')
        return false;
    d->decimals++;
    d->places = length - d->wholes - 1;
    return digits_in(d->decimals, d->places) == d->places;
}

static size_t most_places(enum measure measure)
{
    return measure == INCH ? 4 : 3;
}

static bool well_formed(const struct word *w, enum measure measure)
{
    struct decimal d;
    if (w->letter == 'X')
        return take_apart(w, &d) && d.places <= most_places(measure);
    if (digits_in(w->number, w->length) != w->length)
        return false;
    return w->letter == 'G' || w->letter == 'M' ? w->length == 2 : w->length > 0;
}

// The value of digits, or one more than the most if it is above that.
static uint32_t value_upto(const uint8_t *digits, size_t length, uint32_t most)
{
    uint32_t n = 0;
    for (size_t i = 0; i < length; i++) {
        n = n * 10 + (digits[i] - '0');
        if (n > most)
            return most + 1;
    }
    return n;
}

// 0 where a G word is of no group.
static int group_of(const struct word *w)
{
    switch (value_upto(w->number, w->length, 99)) {
    case 0: case 1: return 1;
    case 53: case 54: case 55: case 56: case 57: return 2;
    case 90: case 91: return 4;
    default: return 0;
    }
}

static int64_t fault(int number, size_t at)
{
    return number * 100 + (int64_t)at;
}

// 32: cuts a line into its words.
static int64_t cut(const uint8_t *line, size_t length, enum measure measure, struct word *words, size_t *count)
{
    size_t i = 0;
    *count = 0;
    while (i < length) {
        size_t at = i;
        uint8_t b = line[i++];
        if (b == ' ')
            continue;
        if (b == '(') {
            while (i < length && line[i] != ')')
                i++;
            if (i == length)
                return fault(32, at);
            i++;
            continue;
        }
        if (b != 'N' && b != 'G' && b != 'X' && b != 'F' && b != 'M')
            return fault(32, at);
        while (i < length && (is_digit(line[i]) || line[i] == '+' || line[i] == '-' || line[i] == '.'))
            i++;
        struct word w = {(char)b, line + at + 1, i - at - 1, at};
        if (!well_formed(&w, measure))
            return fault(32, at);
        words[(*count)++] = w;
    }
    return 0;
}

static int place_in_line(char letter)
{
    return letter == 'N' ? 0 : letter == 'G' ? 1 : letter == 'X' ? 2 : letter == 'F' ? 3 : 4;
}

// 33
static int64_t in_order(const struct word *words, size_t count)
{
    int last = -1, groups = 0;
    for (size_t i = 0; i < count; i++) {
        int now = place_in_line(words[i].letter);
        if (now < last || (now == last && now != 1))
            return fault(33, words[i].at);
        if (now == 1) {
            int group = group_of(&words[i]);
            if (groups & group)
                return fault(33, words[i].at);
            groups |= group;
        }
        last = now;
    }
    return 0;
}

static bool units_of(const struct word *w, enum measure measure, int64_t *units)
{
    struct decimal d;
    take_apart(w, &d);
    int64_t n = value_upto(d.whole, d.wholes, REACH);
    for (size_t i = 0; i < most_places(measure); i++)
        n = n * 10 + (i < d.places ? d.decimals[i] - '0' : 0);
    *units = d.negative ? -n : n;
    return n <= REACH;
}

static bool says(const struct word *w, enum measure measure, struct block *block)
{
    uint32_t n;
    switch (w->letter) {
    case 'N':
        n = value_upto(w->number, w->length, 9999);
        block->number = n;
        return 1 <= n && n <= 9999;
    case 'F':
        n = value_upto(w->number, w->length, 65000);
        block->feed = n;
        return 1 <= n && n <= 65000;
    case 'M':
        block->auxiliary = value_upto(w->number, w->length, 99);
        return true;
    case 'X':
        return units_of(w, measure, &block->target);
    default:
        n = value_upto(w->number, w->length, 99);
        switch (group_of(w)) {
        case 1: block->motion = n; return true;
        case 2: block->offset = n; return true;
        case 4: block->way = n; return true;
        default: return false;
        }
    }
}

static int64_t said(const struct block *b)
{
    const int64_t values[] = {b->number, b->motion, b->offset, b->way, b->target, b->feed, b->auxiliary};
    uint64_t sum = 0;
    for (int i = 0; i < 7; i++)
        sum = sum * 31 + (uint64_t)values[i];
    return (int64_t)sum;
}

int64_t plain_line(const uint8_t *line, size_t length, size_t blocks)
{
    struct word words[MOST_BYTES];
    size_t count;
    struct block block = {-1, -1, -1, -1, -1, -1, -1};
    if (length > MOST_BYTES || blocks >= MOST_BLOCKS)
        return fault(31, 0);
    if (blocks == 0 && length > 0 && line[0] == '%')
        return 0;
    int64_t failed = cut(line, length, MILLIMETRE, words, &count);
    if (failed != 0)
        return failed;
    failed = in_order(words, count);
    if (failed != 0)
        return failed;
    for (size_t i = 0; i < count; i++)
        if (!says(&words[i], MILLIMETRE, &block))
            return fault(34, words[i].at);
    return count == 0 ? 0 : said(&block);
}
