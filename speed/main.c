/* Times the proved crates against plain.c, side by side on the same inputs, checks that both give the same, and prints a table of ratios. */
#include "plain.h"
#include <stdarg.h>
#include <stdbool.h>
#include <stdio.h>
#include <stdlib.h>
#include <string.h>
#include <time.h>

enum { ROUNDS = 40, LEAST = 2000000 /* ns of one round of one side */, LIST = 4096, RECORD = 12, ROOM = 1024 * RECORD, ROOMS = 2 * ROOM };
enum { UNTOUCHED = 0xa5 /* what a room is filled with beforehand */, PAGE = 4096 };
enum { MIXED = 366 /* mixed commands that take 4,096 bytes */ };
enum { INDEX = 512 /* the most offsets of an index */, PLACES = 640 /* of a room for one, more than it needs */, ASKED = 400 /* the number looked up */ };
enum { STRETCH = 4 /* bytes of a table for one stretch */, TABLE = 2048 /* of a table, more than it needs */ };
enum { FRAMES = 8, HOUSEKEEPING = 18, APART = 32 /* from one housekeeping frame to the next: what lies between may be left over */ };
enum { VALVE_FRAME = 64, VALVE_WORDS = 32, SUM_WORD = 5 /* behind the words that it sums up */, VALVE_APART = 80 /* from one to the next, as above */ };
enum { SEATS = 4, QUEUE = 32 /* the most commands that wait for one seat */, WAITING = SEATS * QUEUE };
enum { CALLS = 16 /* in which about as many wait */ };

static uint8_t commands[256], frames[256];

/* A raw list, or a typed one. */
struct list {
    uint8_t bytes[ROOM];
    size_t size;
};

/* Offsets of an index, or what is handed in as such. */
struct offsets {
    uint16_t at[PLACES];
    size_t count;
};

/* What one side leaves its bytes and offsets in, with room for those of two lists, and the stretches of one. It begins with a page wherever the linker puts
   it: where a frame was written across two pages, that side took half as long again. */
struct room {
    _Alignas(PAGE) uint8_t bytes[ROOMS];
    uint16_t offsets[2 * PLACES];
    uint8_t table[TABLE];
};

static double now(void)
{
    struct timespec t;
    clock_gettime(CLOCK_PROCESS_CPUTIME_ID, &t); /* processor time: other work on the machine counts less */
    return (double)t.tv_sec * 1e9 + (double)t.tv_nsec;
}

static void put32(uint8_t *s, uint32_t v)
{
    s[0] = (uint8_t)(v >> 24);
    s[1] = (uint8_t)(v >> 16);
    s[2] = (uint8_t)(v >> 8);
    s[3] = (uint8_t)v;
}

static size_t get16(const uint8_t *s)
{
    return (size_t)s[0] << 8 | s[1];
}

static void put16(uint8_t *s, size_t v)
{
    s[0] = (uint8_t)(v >> 8);
    s[1] = (uint8_t)v;
}

/* A command of n words, the last of them the XOR of the others. */
static size_t put_command(uint8_t *at, unsigned opcode, bool flag, unsigned n, uint32_t one, uint32_t two)
{
    uint32_t head = opcode << 16 | (flag ? 0x8000u : 0) | n;
    uint32_t words[3] = { head, one, two }, sum = 0;
    for (unsigned i = 0; i + 1 < n; i++) {
        put32(at + 4 * i, words[i]);
        sum ^= words[i];
    }
    put32(at + 4 * (n - 1), sum);
    return 4 * n;
}

static void append(struct list *l, unsigned opcode, bool flag, unsigned n, uint32_t one, uint32_t two)
{
    if (l->size + 4 * n > LIST) {
        fprintf(stderr, "a list is too long\n");
        exit(1);
    }
    l->size += put_command(l->bytes + l->size, opcode, flag, n, one, two);
}

/* The nine plain commands in turn, with changing arguments. The power is only ever put on, so that no picture is refused. */
static void append_plain(struct list *l, unsigned i, bool flag)
{
    switch (i % 9) {
    case 0: append(l, 0x0114, flag, 3, 1u << 24, 0); break;
    case 1: append(l, 0x0117, flag, 3, (i * 7 % 1024) << 16 | i * 13 % 1024, 0); break;
    case 2: append(l, 0x0118, flag, 3, (i * 11) << 16 | (i % 50 + 1), 0); break;
    case 3: append(l, 0x0148, flag, 3, (uint32_t)(i / 9 % 3) << 24, 0); break;
    case 4: append(l, 0x014b, flag, 3, (uint32_t)(i / 9 % 2) << 24, 0); break;
    case 5: append(l, 0x0150, flag, 3, (i * 17) << 16 | (i % 20 + 1), 0); break;
    case 6: append(l, 0x0153, flag, 4, 0x43ffc000 + i, 0x80000000); break;
    case 7: append(l, 0x015a, flag, 2, 0, 0); break;
    case 8: append(l, 0x015c, flag, 3, (uint32_t)(i / 9 % 2) << 24, 0); break;
    }
}

static void plain_command(struct list *l, unsigned i)
{
    append_plain(l, i, false);
}

/* Macro commands in turn: macro after macro is opened, filled with seven entries, one of them a RUN of the macro below, and closed; after the
   eighth, all are cleared. */
static void macro_command(struct list *l, unsigned i)
{
    unsigned m = i % 73 / 9, step = i % 73 % 9;
    if (m == 8) append(l, 0x7f06, false, 2, 0, 0);
    else if (step == 0) append(l, 0x7f01, false, 3, m << 24, 0);
    else if (step == 8) append(l, 0x7f02, false, 2, 0, 0);
    else if (step == 4 && m > 0) append(l, 0x7f03, true, 3, (m - 1) << 24, 0);
    else if (step == 6) append(l, 0x7f04, true, 3, 5 << 16, 0);
    else append_plain(l, i, true);
}

/* Eight macros of 24, which take all entries there are, each the last entry of the one above; the highest is started. Their waits are 599 seconds, and
   what lies behind the last of them takes one more. */
static void deep_list(struct list *l)
{
    l->size = 0;
    for (unsigned m = 0; m < 8; m++) {
        append(l, 0x7f01, false, 3, m << 24, 0);
        for (unsigned i = 0; i < 24; i++) {
            if (i == 12) append(l, 0x7f04, true, 3, (m == 7 ? 74u : 75u) << 16, 0);
            else if (i == 23 && m > 0) append(l, 0x7f03, true, 3, (m - 1) << 24, 0);
            else append_plain(l, m * 24 + i, true);
        }
        append(l, 0x7f02, false, 2, 0, 0);
    }
    append(l, 0x7f03, false, 3, 7u << 24, 0);
}

/* A macro of 64 entries and a second to wait, run 24 times by a macro that is run 25 times by the one that is started. One of its power commands puts
   the power off until the last: of its fourteen images and tracks, the last of each get 26, and what those before them set stays. */
static void full_list(struct list *l)
{
    l->size = 0;
    append(l, 0x7f01, false, 3, 0, 0);
    for (unsigned i = 0; i < 64; i++) {
        if (i == 54) append(l, 0x0114, true, 3, 0, 0);
        else append_plain(l, i, true);
    }
    append(l, 0x7f04, true, 3, 1u << 16, 0);
    append(l, 0x7f02, false, 2, 0, 0);
    for (unsigned m = 1; m < 3; m++) {
        append(l, 0x7f01, false, 3, m << 24, 0);
        for (unsigned i = 0; i < 23 + m; i++) append(l, 0x7f03, true, 3, (m - 1) << 24, 0);
        append(l, 0x7f02, false, 2, 0, 0);
    }
    append(l, 0x7f03, false, 3, 2u << 24, 0);
}

/* Sixteen commands, sixteen bytes apart: each kind once, and one whose argument is out of range. */
static void make_commands(void)
{
    struct list l;
    for (unsigned i = 0; i < 9; i++) {
        l.size = 0;
        append_plain(&l, i + 9, i % 2);
        memcpy(commands + 16 * i, l.bytes, l.size);
    }
    put_command(commands + 144, 0x7f01, false, 3, 3u << 24, 0);
    put_command(commands + 160, 0x7f02, false, 2, 0, 0);
    put_command(commands + 176, 0x7f03, true, 3, 5u << 24, 0);
    put_command(commands + 192, 0x7f04, true, 3, 600u << 16, 0);
    put_command(commands + 208, 0x7f05, false, 2, 0, 0);
    put_command(commands + 224, 0x7f06, false, 2, 0, 0);
    put_command(commands + 240, 0x0150, false, 3, 5u << 16, 0);
}

/* Eight frames; the last has a wrong count of ones. */
static void make_frames(void)
{
    for (unsigned i = 0; i < 8; i++) {
        uint8_t *f = frames + 32 * i;
        unsigned closed = (0xd1u + i * 2) & 0xfd;
        put32(f, i * 300u << 16 | (i + 1));
        put32(f + 4, 65535u << 16 | (i * 5 + 1));
        put32(f + 8, i * 999u << 16 | i * 77u);
        put32(f + 12, (i * 100u) << 16 | (1023 - i));
        put32(f + 16, 0x43ffc000 + i);
        put32(f + 20, 0x80000000);
        f[24] = (uint8_t)(i | (i % 3) << 4);
        f[25] = (uint8_t)(i * 31);
        f[26] = i % 2 ? 0 : 255;
        f[27] = i % 3 ? 255 : 1;
        f[28] = (uint8_t)(i % 2 ? 2 : 0);
        f[29] = (uint8_t)(i % 2 ? 88 - i : 0);
        f[30] = (uint8_t)closed;
        f[31] = (uint8_t)(__builtin_popcount(closed) + (i == 7));
    }
}

/* Eight housekeeping frames with changing numbers. */
static struct list housekeeping_frames(void)
{
    static const uint8_t zeros[HOUSEKEEPING] = { 0x12, 4, 0, 0, 0, 0, 0x13, 4, 0, 0, 0, 0, 0x14, 1, 0, 0x15, 1, 0 };
    struct list l = { .size = FRAMES * APART };
    for (unsigned i = 0; i < FRAMES; i++) {
        uint8_t *f = l.bytes + APART * i;
        memcpy(f, zeros, HOUSEKEEPING);
        put32(f + 2, i * 0x01234567u + 512);
        put32(f + 8, i * 0x00fedcbau);
        f[14] = (uint8_t)(i * 4);
        f[17] = (uint8_t)(192 - i * 27);
    }
    return l;
}

/* The same with two tags or lengths of each broken, so many places apart; none apart is one alone. */
static struct list broken_frames(unsigned apart)
{
    static const uint8_t places[FRAMES] = { 0, 1, 6, 7, 12, 13, 15, 16 };
    struct list l = housekeeping_frames();
    for (unsigned i = 0; i < FRAMES; i++) {
        uint8_t *f = l.bytes + APART * i;
        f[places[i]] = f[places[(i + apart) % FRAMES]] = 0;
    }
    return l;
}

/* The sum of a valve's frame is made right. */
static void mend(uint8_t *f)
{
    size_t sum = 0;
    for (unsigned i = 0; i < SUM_WORD; i++) sum += get16(f + 2 * i);
    put16(f + 2 * SUM_WORD, sum);
}

/* A frame to the valve with these flags and these words 1 to 4. */
static void append_valve_frame(struct list *l, unsigned flags, const uint16_t *words)
{
    uint8_t *f = l->bytes + l->size;
    memset(f, 0, VALVE_APART);
    put16(f, flags << 14 | 0x000e);
    for (unsigned i = 1; i < SUM_WORD; i++) put16(f + 2 * i, words[i - 1]);
    mend(f);
    l->size += VALVE_APART;
}

static void append_arming(struct list *l, unsigned flags)
{
    append_valve_frame(l, flags, (const uint16_t[]){ 0xffff, 0x0001, 0, 0 });
}

static void append_firing(struct list *l, unsigned flags, uint16_t code)
{
    append_valve_frame(l, flags, (const uint16_t[]){ 0, 0, 0xffff, code });
}

/* Eight frames to the valve: with each pair of flags one that arms and one that fires, each with another code. */
static struct list valve_frames(void)
{
    static const uint16_t codes[] = { 0x1810, 0, 0xffff, 0x1811 };
    struct list l = { .size = 0 };
    for (unsigned flags = 0; flags < 4; flags++) {
        append_arming(&l, flags);
        append_firing(&l, flags, codes[flags]);
    }
    return l;
}

static void flip(uint8_t *f, unsigned word, unsigned bit)
{
    put16(f + 2 * word, get16(f + 2 * word) ^ 1u << bit);
}

/* The same with one bit of two words of each wrong, or of one where they are the same. The sum may be mended; where it is one of the two, it is broken
   after that. */
static struct list broken_valve_frames(unsigned first, unsigned second, unsigned bit, bool mended)
{
    struct list l = valve_frames();
    for (unsigned i = 0; i < FRAMES; i++) {
        uint8_t *f = l.bytes + VALVE_APART * i;
        if (first != SUM_WORD) flip(f, first, bit);
        if (second != SUM_WORD && second != first) flip(f, second, bit);
        if (mended) mend(f);
        if (first == SUM_WORD || second == SUM_WORD) flip(f, SUM_WORD, bit);
    }
    return l;
}

enum layout { BARE, BYTE, HALF, HALVES, SINGLES };
enum flags { EITHER, NEVER, ALWAYS };

/* The fifteen commands as they are typed, with the limits of their arguments; those of goals in quarters. */
static const struct form {
    const char *name;
    unsigned opcode;
    enum layout layout;
    enum flags flags;
    struct { uint32_t least, most; } limits[2];
} forms[] = {
    { "img_pwr", 0x0114, BYTE, EITHER, { { 0, 1 } } },
    { "img_region", 0x0117, HALVES, EITHER, { { 0, 1023 }, { 0, 1023 } } },
    { "img_track", 0x0118, HALVES, EITHER, { { 0, 65535 }, { 1, 65535 } } },
    { "trk_alg", 0x0148, BYTE, EITHER, { { 0, 2 } } },
    { "trk_loop", 0x014b, BYTE, EITHER, { { 0, 1 } } },
    { "img_image", 0x0150, HALVES, EITHER, { { 0, 65535 }, { 1, 65535 } } },
    { "trk_goal", 0x0153, SINGLES, EITHER, { { 0, 4095 }, { 0, 4095 } } },
    { "tlm_flush", 0x015a, BARE, EITHER, { { 0 } } },
    { "flush_auto", 0x015c, BYTE, EITHER, { { 0, 1 } } },
    { "open", 0x7f01, BYTE, NEVER, { { 0, 7 } } },
    { "close", 0x7f02, BARE, NEVER, { { 0 } } },
    { "run", 0x7f03, BYTE, EITHER, { { 0, 7 } } },
    { "wait", 0x7f04, HALF, ALWAYS, { { 1, 600 } } },
    { "stop", 0x7f05, BARE, NEVER, { { 0 } } },
    { "clear", 0x7f06, BARE, NEVER, { { 0 } } },
};

/* A list in its three ways of writing; the stored one without its first two numbers, the second of which is how many commands there are. */
struct typed {
    struct list raw, text, stored;
    unsigned count;
};

static void append_text(struct list *l, const char *format, ...)
{
    va_list words;
    va_start(words, format);
    int n = vsnprintf((char *)l->bytes + l->size, ROOM - l->size, format, words);
    va_end(words);
    if (n < 0 || l->size + (size_t)n >= ROOM) {
        fprintf(stderr, "a text is too long\n");
        exit(1);
    }
    l->size += (size_t)n;
}

/* Arguments of one to five digits, where the limits have room for them. */
static uint32_t argument(const struct form *f, unsigned k, unsigned i)
{
    static const uint32_t sizes[] = { 3, 47, 512, 8191, 60001 };
    uint32_t least = f->limits[k].least, most = f->limits[k].most;
    return least + (sizes[(i / 15 + 2 * k) % 5] + i) % (most - least + 1);
}

static uint32_t goal_bits(uint32_t quarters)
{
    float goal = (float)quarters / 4;
    uint32_t bits;
    memcpy(&bits, &goal, sizeof bits);
    return bits;
}

/* How many arguments a layout has. */
static const unsigned arguments[] = { [BARE] = 0, [BYTE] = 1, [HALF] = 1, [HALVES] = 2, [SINGLES] = 2 };

static void append_line(struct list *l, const struct form *f, bool flag, const uint32_t *values)
{
    static const char *const endings[] = { "", ".25", ".5", ".75" };
    append_text(l, "%s%s", flag ? "+" : "", f->name);
    for (unsigned k = 0; k < arguments[f->layout]; k++) {
        if (f->layout == SINGLES) append_text(l, " %u%s", values[k] / 4, endings[values[k] % 4]);
        else append_text(l, " %u", values[k]);
    }
    append_text(l, "\n");
}

static void append_byte(struct list *l, uint8_t byte)
{
    if (l->size >= ROOM) {
        fprintf(stderr, "a stored list is too long\n");
        exit(1);
    }
    l->bytes[l->size++] = byte;
}

/* A number in groups of seven bits, the lowest first, in as many groups as are asked for or in more where it needs them. */
static void append_groups(struct list *l, uint64_t value, unsigned least)
{
    for (unsigned n = 1; n < least || value >= 128; n++) {
        append_byte(l, (uint8_t)(value % 128 + 128));
        value /= 128;
    }
    append_byte(l, (uint8_t)value);
}

static void append_stored(struct list *l, const struct form *f, uint32_t flag, const uint32_t *words)
{
    append_groups(l, f->opcode, 1);
    append_groups(l, flag, 1);
    for (unsigned k = 0; k < arguments[f->layout]; k++) append_groups(l, words[k], 1);
}

/* The arguments of a form laid out on the wire; those of goals are bits. */
static void append_raw(struct list *l, const struct form *f, bool flag, const uint32_t *words)
{
    switch (f->layout) {
    case BARE: append(l, f->opcode, flag, 2, 0, 0); break;
    case BYTE: append(l, f->opcode, flag, 3, words[0] << 24, 0); break;
    case HALF: append(l, f->opcode, flag, 3, words[0] << 16, 0); break;
    case HALVES: append(l, f->opcode, flag, 3, words[0] << 16 | words[1], 0); break;
    case SINGLES: append(l, f->opcode, flag, 4, words[0], words[1]); break;
    }
}

static void append_typed(struct typed *t, const struct form *f, unsigned i)
{
    bool flag = f->flags == ALWAYS || (f->flags == EITHER && i % 2), goals = f->layout == SINGLES;
    uint32_t values[2] = { argument(f, 0, i), argument(f, 1, i) };
    uint32_t words[2] = { goals ? goal_bits(values[0]) : values[0], goals ? goal_bits(values[1]) : values[1] };
    append_line(&t->text, f, flag, values);
    append_raw(&t->raw, f, flag, words);
    append_stored(&t->stored, f, flag, words);
    t->count++;
}

/* The fifteen commands, far ones next to each other, so that few are a fair mixture too. */
static void mixed_line(struct typed *t, unsigned i)
{
    append_typed(t, &forms[i * 7 % 15], i);
}

/* The four commands without arguments: only of them a list can have 512. */
static void bare_line(struct typed *t, unsigned i)
{
    static const unsigned bare[] = { 7, 10, 13, 14 };
    append_typed(t, &forms[bare[i % 4]], i / 4);
}

/* One job on both sides. */
enum which {
    READ, WRITE, FRAME_READ, FRAME_WRITE, HOUSEKEEPING_READ, HOUSEKEEPING_WRITE, RUNS, SECONDS, ASSEMBLE, LISTING, INDEXING, LOOKING_UP, SHOWING,
    TO_CARD, FROM_CARD, RESCUING, VALVE_READ, VALVE_WRITE, VALVE_CARRY_OUT, QUEUEING, TURNS, EVENTS
};

struct job {
    const char *name;
    enum which which;
    struct list kit, pupil; /* of assembling, listing, indexing and cards: the first list and the second; of housekeeping and of the valve: the frames;
                               of a look-up and of a rescue: the list; of the seats: the events whose commands wait at first, and those of the calls */
    struct offsets old;     /* of indexing: an earlier index of the first list; of a look-up: the index */
    uint32_t each;          /* of housekeeping and of the valve: bytes of each frame, or of its room; of indexing, cards and rescues: places of the room
                               for one list */
    uint32_t table;         /* of a rescue: bytes of the table */
    uint32_t number;        /* of a look-up, and of showing: the command's */
    uint8_t sender;         /* of showing */
    uint32_t units;         /* what one time counts for: commands of a run or of lists, seconds, calls of the seats */
    bool single;            /* the table shows the time of one unit */
    double aim;
    double ours, plain; /* nanoseconds a unit, best of the rounds */
};

/* Builds the index of these bytes from an earlier one. */
static uint64_t indexed(bool ours, const struct list *l, const struct offsets *old, uint16_t *room, uint32_t fits, uint32_t times)
{
    return ours ? timing_index(l->bytes, l->size, old->at, old->count, room, fits, times)
                : plain_index(l->bytes, l->size, old->at, old->count, room, fits, times);
}

/* Assembles or lists these bytes. */
static uint64_t translate(enum which which, bool ours, const struct list *l, uint8_t *room, uint32_t times)
{
    if (which == ASSEMBLE) {
        return ours ? timing_assemble(l->bytes, l->size, room, ROOM, times) : plain_assemble(l->bytes, l->size, room, ROOM, times);
    }
    return ours ? timing_list(l->bytes, l->size, room, ROOM, times) : plain_list(l->bytes, l->size, room, ROOM, times);
}

/* Moves these bytes to a card or from one. */
static uint64_t moved(enum which which, bool ours, const struct list *l, uint8_t *room, uint32_t fits, uint32_t times)
{
    if (which == TO_CARD) return ours ? timing_to_card(l->bytes, l->size, room, fits, times) : plain_to_card(l->bytes, l->size, room, fits, times);
    return ours ? timing_from_card(l->bytes, l->size, room, fits, times) : plain_from_card(l->bytes, l->size, room, fits, times);
}

static uint64_t do_job(const struct job *j, bool ours, struct room *r, uint32_t times)
{
    static const struct offsets none;
    uint8_t *room = r->bytes;
    switch (j->which) {
    case READ:
        return ours ? timing_read(commands, 256, times) : plain_read(commands, 256, times);
    case WRITE:
        return ours ? timing_write(commands, 256, room, ROOM, times) : plain_write(commands, 256, room, ROOM, times);
    case FRAME_READ:
        return ours ? timing_frame_read(frames, 256, times) : plain_frame_read(frames, 256, times);
    case FRAME_WRITE:
        return ours ? timing_frame_write(frames, 256, room, ROOM, times) : plain_frame_write(frames, 256, room, ROOM, times);
    case HOUSEKEEPING_READ:
        return ours ? timing_housekeeping_read(j->kit.bytes, j->kit.size, j->each, times)
                    : plain_housekeeping_read(j->kit.bytes, j->kit.size, j->each, times);
    case HOUSEKEEPING_WRITE:
        return ours ? timing_housekeeping_write(j->kit.bytes, j->kit.size, room, ROOM, j->each, times)
                    : plain_housekeeping_write(j->kit.bytes, j->kit.size, room, ROOM, j->each, times);
    case RUNS:
        return ours ? timing_run(j->kit.bytes, j->kit.size, j->pupil.bytes, j->pupil.size, room, ROOM, times)
                    : plain_run(j->kit.bytes, j->kit.size, j->pupil.bytes, j->pupil.size, room, ROOM, times);
    case SECONDS:
        return ours ? timing_seconds(j->kit.bytes, j->kit.size, room, ROOM, j->units, times)
                    : plain_seconds(j->kit.bytes, j->kit.size, room, ROOM, j->units, times);
    case INDEXING: {
        uint64_t sum = indexed(ours, &j->kit, &j->old, r->offsets, j->each, times);
        return j->pupil.size == 0 ? sum : sum * 31 + indexed(ours, &j->pupil, &none, r->offsets + PLACES, j->each, times);
    }
    case LOOKING_UP:
        return ours ? timing_look_up(j->kit.bytes, j->kit.size, j->old.at, j->old.count, j->number, times)
                    : plain_look_up(j->kit.bytes, j->kit.size, j->old.at, j->old.count, j->number, times);
    case SHOWING:
        return ours ? timing_shown(j->kit.bytes, j->kit.size, j->pupil.bytes, j->pupil.size, j->sender, j->number, times)
                    : plain_shown(j->kit.bytes, j->kit.size, j->pupil.bytes, j->pupil.size, j->sender, j->number, times);
    case TO_CARD:
    case FROM_CARD: {
        uint64_t sum = moved(j->which, ours, &j->kit, room, j->each, times);
        return j->pupil.size == 0 ? sum : sum * 31 + moved(j->which, ours, &j->pupil, room + ROOM, j->each, times);
    }
    case RESCUING:
        return ours ? timing_rescue(j->kit.bytes, j->kit.size, room, j->each, r->table, j->table, times)
                    : plain_rescue(j->kit.bytes, j->kit.size, room, j->each, r->table, j->table, times);
    case VALVE_READ:
        return ours ? timing_valve_read(j->kit.bytes, j->kit.size, j->each, times) : plain_valve_read(j->kit.bytes, j->kit.size, j->each, times);
    case VALVE_WRITE:
        return ours ? timing_valve_write(j->kit.bytes, j->kit.size, room, ROOM, j->each, times)
                    : plain_valve_write(j->kit.bytes, j->kit.size, room, ROOM, j->each, times);
    case VALVE_CARRY_OUT:
        return ours ? timing_valve_carry_out(j->kit.bytes, j->kit.size, j->each, times)
                    : plain_valve_carry_out(j->kit.bytes, j->kit.size, j->each, times);
    case QUEUEING:
        return ours ? timing_queue(j->kit.bytes, j->kit.size, j->pupil.bytes, j->pupil.size, times)
                    : plain_queue(j->kit.bytes, j->kit.size, j->pupil.bytes, j->pupil.size, times);
    case TURNS:
        return ours ? timing_turn(j->kit.bytes, j->kit.size, j->units, times) : plain_turn(j->kit.bytes, j->kit.size, j->units, times);
    case EVENTS:
        return ours ? timing_seats(j->pupil.bytes, j->pupil.size) : plain_seats(j->pupil.bytes, j->pupil.size);
    default: {
        uint64_t sum = translate(j->which, ours, &j->kit, room, times);
        return j->pupil.size == 0 ? sum : sum * 31 + translate(j->which, ours, &j->pupil, room + ROOM, times);
    }
    }
}

/* As many times as take this side long enough for the clock. */
static uint32_t enough(const struct job *j, bool ours, struct room *room)
{
    uint32_t times = 16;
    for (;;) {
        double start = now();
        do_job(j, ours, room, times);
        if (now() - start > LEAST || times > 1u << 30) return times;
        times *= 2;
    }
}

static double timed(const struct job *j, bool ours, struct room *room, uint32_t times)
{
    double start = now();
    do_job(j, ours, room, times);
    return (now() - start) / (double)times / (double)j->units;
}

static void best_of(double *best, double time)
{
    if (time < *best) *best = time;
}

/* One of each side. */
static struct room rooms[2];

/* Both sides must give the same. */
static void compare(const struct job *j)
{
    memset(rooms, UNTOUCHED, sizeof rooms);
    uint64_t plain = do_job(j, false, &rooms[0], 100), ours = do_job(j, true, &rooms[1], 100);
    if (plain != ours || memcmp(&rooms[0], &rooms[1], sizeof rooms[0]) != 0) {
        printf("%s: the two sides differ (%016llx, %016llx)\n", j->name, (unsigned long long)plain, (unsigned long long)ours);
        exit(1);
    }
}

/* Both sides give the same; then they are timed in turn, and each round the other one begins. */
static void measure(struct job *j)
{
    compare(j);
    uint32_t plain_times = enough(j, false, &rooms[0]), our_times = enough(j, true, &rooms[1]);
    j->ours = j->plain = 1e30;
    for (int round = 0; round < ROUNDS; round++) {
        if (round % 2 == 0) best_of(&j->plain, timed(j, false, &rooms[0], plain_times));
        best_of(&j->ours, timed(j, true, &rooms[1], our_times));
        if (round % 2 == 1) best_of(&j->plain, timed(j, false, &rooms[0], plain_times));
    }
}

/* A run of n commands, the first half of them in the kit's list. */
static struct job run_job(const char *name, void (*put)(struct list *, unsigned), unsigned n)
{
    struct job j = { .name = name, .which = RUNS, .units = n, .aim = 2.0 };
    for (unsigned i = 0; i < n; i++) put(i < n / 2 ? &j.kit : &j.pupil, i);
    return j;
}

/* A job on these frames, of housekeeping or of the valve, with so many bytes of each or of room for each. */
static struct job frames_job(const char *name, enum which which, const struct list *frames, uint32_t each)
{
    return (struct job){ .name = name, .which = which, .kit = *frames, .each = each, .units = 1, .aim = 1.2 };
}

/* Housekeeping frames that are refused, which no timed job has: whole and broken ones, cut off at every length and with bytes left over, and written
   into every room. */
static void compare_refused_frames(void)
{
    static struct job j;
    for (uint32_t each = 0; each <= APART; each++) {
        struct list frames = housekeeping_frames();
        j = frames_job("housekeeping frames cut off or too long", HOUSEKEEPING_READ, &frames, each);
        compare(&j);
        j = frames_job("housekeeping frames in little room", HOUSEKEEPING_WRITE, &frames, each);
        compare(&j);
        for (unsigned apart = 0; apart < FRAMES; apart++) {
            frames = broken_frames(apart);
            j = frames_job("broken housekeeping frames", HOUSEKEEPING_READ, &frames, each);
            compare(&j);
        }
    }
}

/* Plain commands, of which every fifth has an argument out of range. */
static void failing_command(struct list *l, unsigned i)
{
    if (i % 5 == 2) append(l, 0x0150, false, 3, 5u << 16, 0);
    else plain_command(l, i);
}

/* Runs that leave other numbers of the latest run than the timed ones, whose commands are all accepted: no records, one, a failed record that is not
   the last, a last one that failed, and failed ones of the kit alone. */
static void compare_failing_runs(void)
{
    static const unsigned sizes[] = { 0, 1, 4, 6, 8, 12, 60 };
    static struct job j;
    for (unsigned i = 0; i < sizeof sizes / sizeof sizes[0]; i++) {
        j = run_job("a run with failed commands", failing_command, sizes[i]);
        compare(&j);
    }
}

/* What one job makes is what the other takes, and no byte more. */
static void check_made(const struct job *j, const struct job *other)
{
    static struct room room, wanted;
    memset(&room, UNTOUCHED, sizeof room);
    memset(&wanted, UNTOUCHED, sizeof wanted);
    memcpy(wanted.bytes, other->kit.bytes, other->kit.size);
    memcpy(wanted.bytes + ROOM, other->pupil.bytes, other->pupil.size);
    do_job(j, false, &room, 1);
    if (memcmp(&room, &wanted, sizeof room) != 0) {
        printf("%u %s: made something else than was typed\n", j->units, j->name);
        exit(1);
    }
}

/* How lists are filled, and how many commands one of them is given at most. */
static const struct filling {
    void (*put)(struct typed *, unsigned);
    unsigned most;
    const char *assembled, *listed;
} mixed = { mixed_line, 256, "mixed commands assembled", "mixed commands listed" },
  bare = { bare_line, 512, "bare commands assembled", "bare commands listed" };

/* The same n commands to assemble and to list, in one list or in two. */
static void typed_jobs(struct job *assembling, struct job *listing, const struct filling *f, unsigned n)
{
    static struct typed lists[2];
    memset(lists, 0, sizeof lists);
    for (unsigned i = 0; i < n; i++) f->put(&lists[i / f->most], i);
    *assembling = (struct job){ .name = f->assembled, .which = ASSEMBLE, .kit = lists[0].text, .pupil = lists[1].text, .units = n, .aim = 1.5 };
    *listing = (struct job){ .name = f->listed, .which = LISTING, .kit = lists[0].raw, .pupil = lists[1].raw, .units = n, .aim = 1.5 };
    check_made(assembling, listing);
    check_made(listing, assembling);
}

/* So many bare commands, as one list. */
static struct list bare_list(unsigned n)
{
    static struct typed t;
    memset(&t, 0, sizeof t);
    for (unsigned i = 0; i < n; i++) bare_line(&t, i);
    return t.raw;
}

/* The offsets of so many commands that begin so many bytes apart. */
static struct offsets evenly(unsigned count, unsigned apart)
{
    struct offsets o = { .count = count };
    for (unsigned i = 0; i < count; i++) o.at[i] = (uint16_t)(apart * i);
    return o;
}

/* Indexing a list from an earlier index, with so many places of room. */
static struct job index_job(const char *name, const struct list *l, const struct offsets *old, uint32_t places, unsigned units)
{
    return (struct job){ .name = name, .which = INDEXING, .kit = *l, .old = *old, .each = places, .units = units, .aim = 1.5 };
}

/* Looking a command up by an index. */
static struct job look_up_job(const char *name, const struct list *l, const struct offsets *index, uint32_t number)
{
    return (struct job){ .name = name, .which = LOOKING_UP, .kit = *l, .old = *index, .number = number, .units = 1, .aim = 1.5 };
}

/* Showing a command by the walk. */
static struct job shown_job(const char *name, const struct list *kit, const struct list *pupil, uint8_t sender, uint32_t number)
{
    return (struct job){ .name = name, .which = SHOWING, .kit = *kit, .pupil = *pupil, .sender = sender, .number = number, .units = 1, .aim = 1.5 };
}

/* Commands of 2 to 32 words, told apart by their bytes; their sums are wrong, which no walk asks. */
static struct list numbered_list(void)
{
    struct list l = { .size = 0 };
    for (unsigned i = 0; l.size + 4 * (i % 31 + 2) <= LIST; i++) {
        uint8_t *at = l.bytes + l.size;
        unsigned words = i % 31 + 2;
        put32(at, 0x015a0000u | (i % 2 ? 0x8000u : 0) | words);
        for (unsigned k = 1; k < words; k++) put32(at + 4 * k, (i + 1) * 0x01000193u + k * 0x9e3779b9u);
        l.size += 4 * words;
    }
    return l;
}

/* The index of a list as plain C makes it from an earlier one; none where that is refused. */
static struct offsets made_index(const struct list *l, const struct offsets *old)
{
    static struct room room;
    static struct job j;
    struct offsets made = { .count = 0 };
    j = index_job("an index", l, old, INDEX, 1);
    memset(&room, UNTOUCHED, sizeof room);
    do_job(&j, false, &room, 1);
    while (made.count < INDEX && room.offsets[made.count] != UNTOUCHED * 0x101) {
        made.at[made.count] = room.offsets[made.count];
        made.count++;
    }
    return made;
}

/* One offset of some is another: the first, one in the middle or the last. */
static struct offsets with_other(struct offsets o, unsigned half, uint16_t value)
{
    if (o.count > 0) o.at[(o.count - 1) * half / 2] = value;
    return o;
}

/* The index of a list from these offsets, and from these with one changed. */
static void compare_from(const struct list *l, const struct offsets *old, uint32_t fits)
{
    static const uint16_t others[] = { 0, 1, 8, 4080, 4095, 4096, 65535 };
    static struct job j;
    j = index_job("indexing from some offsets", l, old, fits, 1);
    compare(&j);
    for (unsigned i = 0; i < sizeof others / sizeof others[0]; i++) {
        for (unsigned half = 0; half <= 2; half++) {
            j.old = with_other(*old, half, others[i]);
            compare(&j);
        }
    }
}

/* Indexes that are refused, and some that are not: 20, 54 of every sort, 24 in little room and for more than 512 offsets. */
static void compare_refused_indexes(void)
{
    static const struct { unsigned count, apart; } olds[] = {
        { 0, 0 }, { 1, 8 }, { 2, 8 }, { 2, 0 }, { 64, 8 }, { 511, 8 }, { 512, 8 }, { 512, 1 }, { 513, 7 }
    };
    static const size_t sizes[] = { 0, 7, 8, 9, 4088, 4095, 4096, 4097 };
    static const uint32_t places[] = { 0, 2, 511, 512, PLACES };
    struct list l = bare_list(INDEX);
    for (unsigned i = 0; i < sizeof olds / sizeof olds[0]; i++) {
        struct offsets old = evenly(olds[i].count, olds[i].apart);
        for (unsigned k = 0; k < sizeof sizes / sizeof sizes[0]; k++) {
            l.size = sizes[k];
            for (unsigned p = 0; p < sizeof places / sizeof places[0]; p++) compare_from(&l, &old, places[p]);
        }
    }
}

/* The index of a list that is cut off anywhere, and of the whole list from that one, which must be its own; then its commands by the index and by the
   walk, of this list and of the other, of either sender and of none, and numbers that there are not. */
static void compare_indexes(struct list l, const struct list *other)
{
    static const struct offsets none;
    static struct job j;
    struct offsets whole = made_index(&l, &none);
    struct list cut = l;
    for (cut.size = 0; cut.size <= l.size; cut.size += 37) {
        struct offsets old = made_index(&cut, &none), grown = made_index(&l, &old);
        if (memcmp(&grown, &whole, sizeof whole) != 0) {
            printf("an index of %u commands was extended to another\n", (unsigned)old.count);
            exit(1);
        }
        j = index_job("the index of a list that is cut off", &cut, &none, INDEX, 1);
        compare(&j);
        j = index_job("the index of a list that has grown", &l, &old, INDEX, 1);
        compare(&j);
        j = look_up_job("looking up by the index of a longer list", &cut, &whole, (uint32_t)(cut.size / 8));
        compare(&j);
    }
    for (uint32_t number = 0; number <= INDEX + 8; number += 4) {
        j = look_up_job("looking up", &l, &whole, number);
        compare(&j);
        for (uint8_t sender = 0; sender <= 3; sender++) {
            j = shown_job("showing", &l, other, sender, number);
            compare(&j);
        }
    }
    l.size = LIST + 1;
    j = look_up_job("looking up in a list that is too long", &l, &whole, 1);
    compare(&j);
    for (uint8_t sender = 1; sender <= 2; sender++) {
        j = shown_job("showing with a kit's list that is too long", &l, other, sender, 1);
        compare(&j);
        j = shown_job("showing with a pupil's list that is too long", other, &l, sender, 1);
        compare(&j);
    }
}

/* Moving a list to a card or from one, or rescuing it, with so many bytes of room, and for a rescue with a table that is large enough. */
static struct job list_job(const char *name, enum which which, const struct list *l, uint32_t fits)
{
    return (struct job){ .name = name, .which = which, .kit = *l, .each = fits, .table = TABLE, .units = 1, .aim = 1.5 };
}

/* The first two numbers of a stored list, and these commands. */
static struct list stored_list(uint32_t count, const struct list *commands)
{
    struct list l = { .size = 0 };
    append_groups(&l, 1, 1);
    append_groups(&l, count, 1);
    for (size_t i = 0; i < commands->size; i++) append_byte(&l, commands->bytes[i]);
    return l;
}

/* The same n commands to a card and from one, in one list or in two; where there are none, in one. */
static void card_jobs(struct job *to, struct job *from, const struct filling *f, unsigned n)
{
    static struct typed lists[2];
    memset(lists, 0, sizeof lists);
    for (unsigned i = 0; i < n; i++) f->put(&lists[i / f->most], i);
    *to = list_job("commands to a card", TO_CARD, &lists[0].raw, ROOM);
    struct list stored = stored_list(lists[0].count, &lists[0].stored);
    *from = list_job("commands from a card", FROM_CARD, &stored, ROOM);
    if (lists[1].count > 0) {
        to->pupil = lists[1].raw;
        from->pupil = stored_list(lists[1].count, &lists[1].stored);
    }
    to->units = from->units = n;
    check_made(to, from);
    check_made(from, to);
}

/* A list moved with room enough, with as much as it takes, with one byte less and with none. */
static void compare_rooms(const char *name, enum which which, const struct list *l, size_t taken)
{
    static struct job j;
    const size_t rooms[] = { ROOM, taken, taken > 0 ? taken - 1 : 0, 0 };
    for (unsigned i = 0; i < sizeof rooms / sizeof rooms[0]; i++) {
        j = list_job(name, which, l, (uint32_t)rooms[i]);
        compare(&j);
    }
}

/* A list, and what is left of it where it is cut off, so many bytes apart. */
static void compare_cut(const char *name, enum which which, struct list l, size_t apart)
{
    static struct job j;
    for (;;) {
        j = list_job(name, which, &l, ROOM);
        compare(&j);
        if (l.size < apart) return;
        l.size -= apart;
    }
}

/* A list with each byte changed to several others, taken out, or with another byte put in before it. */
static void compare_changed(const char *name, enum which which, const struct list *l)
{
    static const uint8_t others[] = { 0, 1, 2, 9, 0x7e, 0x7f, 0x80, 0x81, 0xfe, 0xff };
    static struct job j;
    j = list_job(name, which, l, ROOM);
    for (size_t at = 0; at <= l->size; at++) {
        for (unsigned i = 0; i < sizeof others; i++) {
            j.kit = *l;
            memmove(j.kit.bytes + at + 1, l->bytes + at, l->size - at);
            j.kit.bytes[at] = others[i];
            j.kit.size++;
            compare(&j);
            if (at == l->size) continue;
            j.kit = *l;
            j.kit.bytes[at] = others[i];
            compare(&j);
            j.kit.bytes[at] = l->bytes[at] ^ (uint8_t)(1u << i % 8);
            compare(&j);
        }
        if (at == l->size) continue;
        j.kit = *l;
        memmove(j.kit.bytes + at, l->bytes + at + 1, l->size - at - 1);
        j.kit.size--;
        compare(&j);
    }
}

/* Each form behind a good command and before another, as it is stored and on the wire, with one argument or both at their limits, one beside them, and
   far off, and with every flag. */
static void compare_arguments(void)
{
    static struct job j;
    const uint32_t one[] = { 1, 1 };
    for (unsigned i = 0; i < sizeof forms / sizeof forms[0]; i++) {
        const struct form *f = &forms[i];
        for (unsigned choice = 0; choice < 64; choice++) {
            uint32_t words[2];
            for (unsigned k = 0; k < 2; k++) {
                uint32_t least = f->limits[k].least, most = f->layout == SINGLES ? 0x447fffff : f->limits[k].most;
                const uint32_t values[] = { least, most, most + 1, least - 1, 0x80000000, 0x7fc00001, 256, 65536 };
                words[k] = values[choice >> 3 * k & 7];
            }
            for (uint32_t flag = 0; flag <= 3; flag++) {
                struct list l = { .size = 0 };
                append_stored(&l, &forms[0], 0, one);
                append_stored(&l, f, flag, words);
                append_stored(&l, &forms[7], 1, one);
                l = stored_list(3, &l);
                j = list_job("any arguments from a card", FROM_CARD, &l, ROOM);
                compare(&j);
                l.size = 0;
                append_raw(&l, &forms[0], false, one);
                append_raw(&l, f, flag % 2 == 1, words);
                append_raw(&l, &forms[7], true, one);
                j = list_job("any arguments to a card", TO_CARD, &l, ROOM);
                compare(&j);
                j = list_job("any arguments rescued", RESCUING, &l, ROOM);
                compare(&j);
            }
        }
    }
}

/* A stored list of one command, whose numbers are these, one of them in so many groups. */
static struct list with_number(unsigned which, uint64_t number, unsigned groups)
{
    uint64_t numbers[] = { 1, 1, 0x0150, 1, 3, 4 };
    struct list l = { .size = 0 };
    numbers[which] = number;
    for (unsigned i = 0; i < sizeof numbers / sizeof numbers[0]; i++) append_groups(&l, numbers[i], i == which ? groups : 1);
    return l;
}

/* Each number of a stored command in its turn is any number, in as many groups as it needs or in more, and is cut off anywhere. */
static void compare_numbers(void)
{
    static const uint64_t numbers[] = {
        0, 1, 2, 5, 127, 128, 0x0150, 0x0151, 16383, 16384, 65535, 65536, 0x10150, 2097152, 268435455, 268435456, 0x80000000, 0xffffffff, 0x100000000,
        0x100000150, 0x7ffffffff, 0x800000000, 0x10000000000
    };
    for (unsigned which = 0; which < 6; which++) {
        for (unsigned i = 0; i < sizeof numbers / sizeof numbers[0]; i++) {
            for (unsigned groups = 1; groups <= 8; groups++) compare_cut("any number from a card", FROM_CARD, with_number(which, numbers[i], groups), 1);
        }
    }
}

/* Other opcodes on the wire, and wrong lengths and pads, which no stored form can have; the sums are right. */
static void compare_wire(void)
{
    static struct job j;
    for (unsigned i = 0; i < sizeof forms / sizeof forms[0]; i++) {
        for (unsigned n = 2; n <= 4; n++) {
            for (unsigned bit = 0; bit < 32; bit++) {
                struct list l = { .size = 0 };
                append(&l, 0x015a, true, 2, 0, 0);
                append(&l, forms[i].opcode, forms[i].flags == ALWAYS, n, 1u << bit, 1);
                j = list_job("any length and pad to a card", TO_CARD, &l, ROOM);
                compare(&j);
                j = list_job("any length and pad rescued", RESCUING, &l, ROOM);
                compare(&j);
                l.size = 0;
                append(&l, forms[i].opcode ^ 1u << bit % 16, bit >= 16, n, 0, 0);
                j = list_job("any opcode to a card", TO_CARD, &l, ROOM);
                compare(&j);
                j = list_job("any opcode rescued", RESCUING, &l, ROOM);
                compare(&j);
            }
        }
    }
}

/* Stored lists whose raw ones are too long: bare commands, then mixed ones. Room or not, that comes before it; bytes left over, and a bad command
   behind the last one that would fit, come before that. */
static void compare_too_long(const struct filling *f, unsigned count)
{
    static struct typed t;
    struct list l;
    memset(&t, 0, sizeof t);
    for (unsigned i = 0; i < count; i++) {
        t.raw.size = t.text.size = 0; /* neither is asked for, and they would be too long */
        f->put(&t, i);
    }
    l = stored_list(count, &t.stored);
    compare_rooms("too many commands from a card", FROM_CARD, &l, LIST);
    append_byte(&l, 0);
    compare_rooms("too many commands and a byte from a card", FROM_CARD, &l, LIST);
    compare_cut("too many commands cut off from a card", FROM_CARD, l, 37);
    l = stored_list(count + 1, &t.stored);
    append_byte(&l, 0);
    compare_rooms("a bad command behind too many from a card", FROM_CARD, &l, LIST);
    l = stored_list(count - 1, &t.stored);
    compare_rooms("a command left over from a card", FROM_CARD, &l, LIST);
}

/* Lists both ways, good ones of some sizes and whatever may be refused. */
static void compare_cards(void)
{
    static const unsigned sizes[] = { 0, 1, 2, 8, 15, 127, 128, 256, 512 };
    static const struct filling *const fillings[] = { &mixed, &bare };
    static struct job to, from;
    struct list l = { .size = 0 };
    for (unsigned i = 0; i < 2 * sizeof sizes / sizeof sizes[0]; i++) {
        unsigned n = sizes[i / 2];
        card_jobs(&to, &from, fillings[i % 2], n);
        compare(&to);
        compare(&from);
        compare_rooms("a list to a card", TO_CARD, &to.kit, from.kit.size);
        compare_rooms("a list from a card", FROM_CARD, &from.kit, to.kit.size);
        compare_cut("a list cut off to a card", TO_CARD, to.kit, n <= 15 ? 1 : 37);
        compare_cut("a list cut off from a card", FROM_CARD, from.kit, n <= 15 ? 1 : 37);
        if (n > 15) continue;
        compare_changed("a changed list to a card", TO_CARD, &to.kit);
        compare_changed("a changed list from a card", FROM_CARD, &from.kit);
    }
    compare_arguments();
    compare_numbers();
    compare_wire();
    compare_too_long(&bare, 513);
    compare_too_long(&mixed, 512);
    for (l.size = LIST - 1; l.size <= LIST + 4; l.size++) compare_rooms("a list of 4,096 bytes or so to a card", TO_CARD, &l, LIST);
}

/* So many mixed commands, as one list. */
static struct list mixed_list(unsigned n)
{
    static struct typed t;
    memset(&t, 0, sizeof t);
    for (unsigned i = 0; i < n; i++) mixed_line(&t, i);
    return t.raw;
}

static void append_bytes(struct list *l, const struct list *more)
{
    memcpy(l->bytes + l->size, more->bytes, more->size);
    l->size += more->size;
}

/* The next byte that looks like chance. */
static uint8_t chance(uint32_t *state)
{
    *state ^= *state << 13;
    *state ^= *state >> 17;
    *state ^= *state << 5;
    return (uint8_t)(*state >> 8);
}

/* Bytes that look like chance, each time the same. */
static struct list noise(size_t size)
{
    struct list l = { .size = size };
    uint32_t state = 0x2545f491;
    for (size_t i = 0; i < size; i++) l.bytes[i] = chance(&state);
    return l;
}

/* Mixed commands, one bit of every third wrong: in turn in each of its bytes, and in each place of a byte. */
static struct list damaged(void)
{
    struct list l = mixed_list(MIXED);
    size_t at = 0;
    for (unsigned i = 0; at < l.size; i++) {
        size_t size = 4u * l.bytes[at + 3];
        if (i % 3 == 2) l.bytes[at + i / 3 % size] ^= (uint8_t)(1u << i % 8);
        at += size;
    }
    return l;
}

/* As many stretches as there can be: a byte before each command, and behind the last one. */
static struct list most_stretches(void)
{
    struct list l = { .size = 0 };
    while (l.size + 9 <= LIST) {
        append_byte(&l, 0xff);
        append(&l, 0x015a, true, 2, 0, 0);
    }
    append_byte(&l, 0xff);
    return l;
}

/* Every other byte begins what could be a command of 32 words, whose sum is right and whose opcode there is not. */
static struct list long_lengths(void)
{
    struct list l = { .size = LIST };
    for (size_t i = 0; i < LIST; i++) l.bytes[i] = i % 2 ? 32 : 0;
    return l;
}

/* How many bytes plain C keeps of a list, and how many of the table it takes. What is kept and the stretches must be the list, each byte once. */
static struct rescued {
    size_t kept, table;
} rescued(const struct list *l)
{
    static struct room room;
    static struct job j;
    struct rescued r = { 0, 0 };
    bool last = false, whole = true;
    j = list_job("a rescue", RESCUING, l, ROOM);
    memset(&room, UNTOUCHED, sizeof room);
    do_job(&j, false, &room, 1);
    for (size_t at = 0; whole && !last;) {
        const uint8_t *stretch = room.table + r.table;
        size_t start = get16(stretch);
        last = start == UNTOUCHED * 0x101; /* behind the last one, as no list is that long */
        if (last) start = l->size;
        whole = at <= start && start <= l->size && memcmp(room.bytes + r.kept, l->bytes + at, start - at) == 0;
        r.kept += start - at;
        at = start + get16(stretch + 2);
        if (!last) r.table += STRETCH;
    }
    if (!whole || room.bytes[r.kept] != UNTOUCHED) {
        printf("a rescue of %u bytes has lost or changed some\n", (unsigned)l->size);
        exit(1);
    }
    return r;
}

/* A list rescued with as much room and table as it takes, with more, with one byte less and with none. */
static void compare_rescue(const char *name, const struct list *l)
{
    static struct job j;
    struct rescued r = l->size <= LIST ? rescued(l) : (struct rescued){ 0, 0 };
    const size_t rooms[] = { ROOM, r.kept, r.kept > 0 ? r.kept - 1 : 0, 0 }, tables[] = { TABLE, r.table, r.table > 0 ? r.table - 1 : 0, 0 };
    for (unsigned i = 0; i < 4; i++) {
        for (unsigned k = 0; k < 4; k++) {
            j = list_job(name, RESCUING, l, (uint32_t)rooms[i]);
            j.table = (uint32_t)tables[k];
            compare(&j);
        }
    }
}

/* Zeros and lists of the timed sorts, of few bytes and of 4,096 or so. */
static void compare_sizes(void)
{
    const struct { const char *name; struct list list; } sorts[] = {
        { "zeros rescued", { .size = 0 } },
        { "noise rescued", noise(LIST + 4) },
        { "damaged commands rescued", damaged() },
        { "long lengths rescued", long_lengths() },
        { "mixed commands rescued", mixed_list(MIXED) },
        { "bare commands rescued", bare_list(INDEX) },
    };
    for (unsigned i = 0; i < sizeof sorts / sizeof sorts[0]; i++) {
        struct list l = sorts[i].list;
        for (l.size = 0; l.size < 10; l.size++) compare_rescue(sorts[i].name, &l);
        for (l.size = LIST - 1; l.size <= LIST + 4; l.size++) compare_rescue(sorts[i].name, &l);
    }
}

/* Lists with damage of every sort, and with none. */
static void compare_rescues(void)
{
    static const unsigned sizes[] = { 0, 1, 2, 15 };
    static const uint32_t one[] = { 1, 1 };
    struct list l, mixeds = mixed_list(15), bares = bare_list(8);
    for (unsigned i = 0; i < sizeof sizes / sizeof sizes[0]; i++) {
        l = mixed_list(sizes[i]);
        compare_cut("a list cut off rescued", RESCUING, l, 1);
        compare_changed("a changed list rescued", RESCUING, &l);
    }
    compare_sizes();
    for (size_t between = 0; between <= 40; between++) {
        struct list gap = noise(between);
        l = gap;
        append_bytes(&l, &mixeds);
        append_bytes(&l, &gap);
        append_bytes(&l, &bares);
        compare_rescue("lists with noise before them rescued", &l);
        append_bytes(&l, &gap);
        compare_rescue("lists with noise all around rescued", &l);
    }
    for (unsigned flag = 0; flag < 2; flag++) {
        l.size = 0;
        for (unsigned i = 0; i < MIXED; i++) append_raw(&l, &forms[i * 7 % 15], flag == 1, one);
        compare_rescue("commands with any flag rescued", &l);
    }
    l = most_stretches();
    compare_rescue("as many stretches as there can be rescued", &l);
}

/* These frames are read, and carried out one after another by a fresh valve. */
static void compare_valve_frames(const char *name, const struct list *frames, uint32_t each)
{
    static struct job j;
    j = frames_job(name, VALVE_READ, frames, each);
    compare(&j);
    j = frames_job(name, VALVE_CARRY_OUT, frames, each);
    compare(&j);
}

/* Whatever words 1 to 4 may be that have to do with arming or firing: in each job frames with each pair of flags, whose word 4 is one of two. */
static void compare_patterns(void)
{
    static const uint16_t values[] = { 0, 0x0001, 0xffff, 0x1810 };
    for (unsigned choice = 0; choice < 128; choice++) {
        struct list l = { .size = 0 };
        for (unsigned i = 0; i < FRAMES; i++) {
            const uint16_t words[] = { values[choice % 4], values[choice / 4 % 4], values[choice / 16 % 4], values[choice / 64 * 2 + i / 4] };
            append_valve_frame(&l, i % 4, words);
        }
        compare_valve_frames("any pattern of a valve's frame", &l, VALVE_FRAME);
    }
}

/* A valve carries these frames out when it is safe, when it is armed and when it is fired, each by itself. */
static void compare_states(const struct list *frames)
{
    for (unsigned i = 0; i < FRAMES; i++) {
        struct list frame = { .size = VALVE_APART }, l = { .size = 0 };
        memcpy(frame.bytes, frames->bytes + VALVE_APART * i, VALVE_APART);
        append_bytes(&l, &frame);
        append_arming(&l, 0);
        append_bytes(&l, &frame);
        append_firing(&l, 0, 0x1810);
        append_bytes(&l, &frame);
        append_arming(&l, 0);
        append_bytes(&l, &frame);
        append_firing(&l, 0, 0);
        compare_valve_frames("a valve's frame in every state", &l, VALVE_FRAME);
    }
}

/* A fresh valve carries out any four frames of four sorts, twice over: one that arms, one that fires, one that fires with a wrong code, and one whose sum
   is wrong. */
static void compare_orders(void)
{
    for (unsigned order = 0; order < 256; order++) {
        struct list l = { .size = 0 };
        for (unsigned i = 0; i < FRAMES; i++) {
            unsigned sort = order >> i % 4 * 2 & 3;
            if (sort == 1 || sort == 2) append_firing(&l, i % 4, sort == 1 ? 0x1810 : 0x1018);
            else append_arming(&l, i % 4);
            if (sort == 3) flip(l.bytes + l.size - VALVE_APART, SUM_WORD, 0);
        }
        compare_valve_frames("a valve's frames in any order", &l, VALVE_FRAME);
    }
}

/* A valve's frames that are refused, which no timed job has: cut off at every length and with bytes left over, one bit of a word or of two wrong, any
   words 1 to 4; the timed ones written into every room; and what a valve makes of all these, safe, armed and fired. */
static void compare_valves(void)
{
    static struct job j;
    struct list frames = valve_frames();
    compare_states(&frames);
    for (uint32_t each = 0; each <= VALVE_APART; each++) {
        compare_valve_frames("a valve's frames cut off or too long", &frames, each);
        j = frames_job("a valve's frames in little room", VALVE_WRITE, &frames, each);
        compare(&j);
    }
    for (unsigned first = 0; first < VALVE_WORDS; first++) {
        for (unsigned choice = 0; choice < 2 * 16; choice++) {
            frames = broken_valve_frames(first, first, choice / 2, choice % 2);
            compare_valve_frames("a valve's frames with a word broken", &frames, VALVE_FRAME);
            if (choice / 2 == first % 16) compare_states(&frames);
        }
        for (unsigned second = 0; second < 2 * first; second++) {
            frames = broken_valve_frames(first, second / 2, (first + second) % 16, second % 2);
            compare_valve_frames("a valve's frames with two words broken", &frames, VALVE_FRAME);
            compare_valve_frames("a valve's frames with two words broken and cut off", &frames, VALVE_FRAME - 1);
        }
    }
    compare_patterns();
    compare_orders();
}

static uint8_t *append_event(struct list *l, unsigned what, unsigned seat)
{
    uint8_t *event = l->bytes + l->size;
    if (l->size + EVENT > ROOM) {
        fprintf(stderr, "there are too many events\n");
        exit(1);
    }
    memset(event, 0, EVENT);
    event[0] = (uint8_t)what;
    event[SEAT_AT] = (uint8_t)seat;
    l->size += EVENT;
    return event;
}

/* These bytes are queued for a seat. */
static void append_queueing(struct list *l, unsigned seat, const struct list *bytes)
{
    uint8_t *event = append_event(l, QUEUE_EVENT, seat);
    if (bytes->size > EVENT - BYTES_AT) {
        fprintf(stderr, "there are too many bytes to queue\n");
        exit(1);
    }
    event[SIZE_AT] = (uint8_t)bytes->size;
    memcpy(event + BYTES_AT, bytes->bytes, bytes->size);
}

static void append_turns(struct list *l, unsigned n)
{
    for (unsigned i = 0; i < n; i++) append_event(l, TURN_EVENT, 0);
}

/* A command is queued for a seat, and a turn is taken. */
static void append_offer(struct list *l, unsigned seat, unsigned opcode, bool flag, unsigned n, uint32_t one)
{
    struct list command = { .size = 0 };
    append(&command, opcode, flag, n, one, 0);
    append_queueing(l, seat, &command);
    append_turns(l, 1);
}

/* A queue is given this count, and the number of commands that it has queued so far. */
static uint8_t *append_queue_change(struct list *l, unsigned seat, unsigned count, uint32_t queued)
{
    uint8_t *event = append_event(l, QUEUE_CHANGE, seat);
    event[SIZE_AT] = (uint8_t)count;
    event[PLACE_AT] = QUEUE; /* which it has not: its commands stay */
    put32(event + QUEUED_AT, queued);
    return event;
}

/* The same with a command in one of its places. */
static void append_command_change(struct list *l, unsigned seat, unsigned count, unsigned place, const struct form *f, bool flag, const uint32_t *words)
{
    uint8_t *event = append_queue_change(l, seat, count, count);
    event[PLACE_AT] = (uint8_t)place;
    put16(event + OPCODE_AT, f->opcode);
    event[FLAG_AT] = flag;
    put32(event + FIRST_AT, words[0]);
    put32(event + SECOND_AT, words[1]);
}

static void append_bench_change(struct list *l, unsigned last, unsigned x, bool closed)
{
    uint8_t *event = append_event(l, BENCH_CHANGE, last);
    put16(event + X_AT, x);
    event[CLOSED_AT] = closed;
}

/* Commands for the seats in turn, as many as can wait, all accepted: for seats 0 and 2 plain ones, and for seats 1 and 3 those that fill macros. */
static struct list seat_events(void)
{
    struct list l = { .size = 0 };
    for (unsigned i = 0; i < WAITING; i++) {
        struct list command = { .size = 0 };
        if (i % 2 == 0) plain_command(&command, i / 2);
        else macro_command(&command, i / 2);
        append_queueing(&l, i % SEATS, &command);
    }
    return l;
}

/* So many calls of the seats, from a state in which the first so many of the commands wait. Queued are the commands behind these. */
static struct job seats_job(const char *name, enum which which, unsigned waiting, unsigned calls)
{
    struct job j = { .name = name, .which = which, .kit = seat_events(), .units = calls, .single = true, .aim = 3 };
    if (which == QUEUEING) {
        j.pupil.size = EVENT * calls;
        memcpy(j.pupil.bytes, j.kit.bytes + EVENT * waiting, j.pupil.size);
    }
    j.kit.size = EVENT * waiting;
    return j;
}

/* Both sides make the same of these events, and leave the same state behind each. */
static void compare_events(const char *name, const struct list *events)
{
    static struct job j;
    j = (struct job){ .name = name, .which = EVENTS, .pupil = *events };
    compare(&j);
}

/* Bytes that are refused with this code, of 1 to 10, and for 0 a command that passes. */
static struct list coded_bytes(unsigned code)
{
    struct list l = { .size = 0 };
    switch (code) {
    case 2: append(&l, 0x015a, false, 2, 0, 0); l.bytes[3] = 1; break;
    case 3: append(&l, 0x015a, false, 2, 0, 0); l.bytes[3] = 3; break;
    case 4: append(&l, 0x015a, false, 2, 0, 0); l.bytes[7] ^= 1; break;
    case 5: append(&l, 0x015b, false, 2, 0, 0); break;
    case 6: append(&l, 0x015a, false, 3, 0, 0); break;
    case 7: append(&l, 0x0114, false, 3, 1, 0); break;
    case 8: append(&l, 0x0150, false, 3, 5u << 16, 0); break;
    case 9: append(&l, 0x7f05, true, 2, 0, 0); break;
    case 10: append(&l, 0x7f04, false, 3, 1u << 16, 0); break;
    default: append(&l, 0x015a, false, 2, 0, 0); break;
    }
    if (code == 1) l.size--;
    return l;
}

/* Queueing for every seat and for others, with queues that are empty or full, each code of 0 to 10, alone, with a byte more and with a command more. */
static void compare_codes(bool full)
{
    static const unsigned seats[] = { 0, 1, 2, 3, 4, 5, 255 };
    struct list flush = coded_bytes(0), events = { .size = 0 };
    for (unsigned i = 0; full && i < WAITING; i++) append_queueing(&events, i % SEATS, &flush);
    for (unsigned i = 0; i < sizeof seats / sizeof seats[0]; i++) {
        for (unsigned code = 0; code <= 10; code++) {
            struct list l = coded_bytes(code);
            append_queueing(&events, seats[i], &l);
            append_byte(&l, 1);
            append_queueing(&events, seats[i], &l);
            l = coded_bytes(code);
            append_bytes(&l, &flush);
            append_queueing(&events, seats[i], &l);
        }
    }
    append_turns(&events, WAITING + 1);
    compare_events(full ? "queueing for seats that are full" : "queueing for any seat", &events);
}

/* A command of each form is cut off everywhere, has a byte more, and has each byte changed to several others; a turn after each. */
static void compare_changed_queueings(void)
{
    static const uint8_t others[] = { 0, 1, 2, 3, 4, 33, 0x7f, 0x80, 0x81, 0xff };
    static const uint32_t one[] = { 1, 1 };
    for (unsigned i = 0; i < sizeof forms / sizeof forms[0]; i++) {
        struct list l = { .size = 0 }, events = { .size = 0 };
        append_raw(&l, &forms[i], forms[i].flags == ALWAYS, one);
        size_t size = l.size;
        for (l.size = 0; l.size <= size + 1; l.size++) {
            append_queueing(&events, i % SEATS, &l);
            append_turns(&events, 1);
        }
        l.size = size;
        for (size_t at = 0; at < size; at++) {
            for (unsigned k = 0; k < sizeof others; k++) {
                struct list changed = l;
                changed.bytes[at] = others[k];
                append_queueing(&events, (i + k) % SEATS, &changed);
                append_turns(&events, 1);
            }
        }
        compare_events("queueing of changed commands", &events);
    }
}

/* Each form with any arguments and flags, queued and carried out; and put into a queue by force, where it waits behind others or stands behind all that
   wait. */
static void compare_any_commands(void)
{
    for (unsigned i = 0; i < sizeof forms / sizeof forms[0]; i++) {
        const struct form *f = &forms[i];
        struct list queued = { .size = 0 };
        for (unsigned choice = 0; choice < 128; choice++) {
            uint32_t words[2];
            bool flag = choice >= 64;
            for (unsigned k = 0; k < 2; k++) {
                uint32_t least = f->limits[k].least, most = f->layout == SINGLES ? 0x447fffff : f->limits[k].most;
                const uint32_t below = f->layout == SINGLES ? 0x80000001 : least - 1; /* and the only not-a-number is that of both sides */
                const uint32_t values[] = { least, most, most + 1, below, 0x80000000, 0x7fc00000, 256, 65536 };
                words[k] = values[choice >> 3 * k & 7];
            }
            struct list l = { .size = 0 };
            append_raw(&l, f, flag, words);
            append_queueing(&queued, choice % SEATS, &l);
            append_turns(&queued, 1);
            for (unsigned count = 1; count <= 3; count++) {
                struct list forced = { .size = 0 };
                append_command_change(&forced, choice % SEATS, count, choice % 3, f, flag, words);
                append_queueing(&forced, choice / 2 % SEATS, &l);
                append_turns(&forced, count + 1);
                compare_events("any command in a queue", &forced);
            }
        }
        compare_events("queueing of any command", &queued);
    }
}

/* Turns from every last seat with every set of waiting seats, until none waits. */
static void compare_turns(void)
{
    struct list flush = coded_bytes(0);
    for (unsigned last = 0; last < SEATS; last++) {
        for (unsigned set = 0; set < 1u << SEATS; set++) {
            struct list events = { .size = 0 };
            append_bench_change(&events, last, 0, false);
            for (unsigned seat = 0; seat < SEATS; seat++) {
                for (unsigned i = 0; (set >> seat & 1) && i <= (seat + set) % 3; i++) append_queueing(&events, seat, &flush);
            }
            append_turns(&events, 3 * SEATS + 1);
            compare_events("turns with any seats waiting", &events);
        }
    }
}

/* Two calls that ask for what the state is, and two more. */
static void append_calls(struct list *l)
{
    struct list flush = coded_bytes(0);
    for (unsigned i = 0; i < 2; i++) {
        append_queueing(l, i, &flush);
        append_turns(l, 1);
        append_queueing(l, 255, &flush);
    }
}

/* States that are sound or not by one clause each: the last seat, a queue's count, a waiting command in each place, and of the bench the camera's X and a
   closed macro without entries. */
static void compare_unsound(void)
{
    static const unsigned lasts[] = { 0, 3, 4, 5, 255 }, counts[] = { 0, 1, 31, 32, 33, 34, 255 }, xs[] = { 0, 1023, 1024, 65535 };
    static const uint32_t two[] = { 2, 0 };
    for (unsigned i = 0; i < sizeof lasts / sizeof lasts[0]; i++) {
        for (unsigned k = 0; k < sizeof xs / sizeof xs[0]; k++) {
            for (unsigned closed = 0; closed < 2; closed++) {
                struct list events = { .size = 0 };
                append_bench_change(&events, lasts[i], xs[k], closed == 1);
                append_calls(&events);
                append_bench_change(&events, 0, 1, false);
                append_calls(&events);
                compare_events("a last seat or a bench that may not be", &events);
            }
        }
    }
    for (unsigned seat = 0; seat < SEATS; seat++) {
        for (unsigned i = 0; i < sizeof counts / sizeof counts[0]; i++) {
            struct list events = { .size = 0 };
            append_queue_change(&events, seat, counts[i], 0);
            append_calls(&events);
            compare_events("any count of a queue", &events);
        }
        for (unsigned place = 0; place < QUEUE; place++) {
            struct list events = { .size = 0 };
            append_command_change(&events, seat, place, place, &forms[0], false, two);
            append_calls(&events);
            append_command_change(&events, seat, QUEUE, place, &forms[0], false, two);
            append_calls(&events);
            compare_events("a waiting command that may not be", &events);
        }
    }
}

/* Numbers near 2^32, and fewer queued so far than wait. */
static void compare_seat_numbers(void)
{
    static const uint32_t numbers[] = { 0, 1, 5, 0x7fffffff, 0xfffffffd, 0xfffffffe, 0xffffffff };
    struct list flush = coded_bytes(0);
    for (unsigned i = 0; i < sizeof numbers / sizeof numbers[0]; i++) {
        for (unsigned count = 0; count <= QUEUE; count += 8) {
            struct list events = { .size = 0 };
            append_queue_change(&events, i % SEATS, count, numbers[i]);
            for (unsigned k = 0; k < 4; k++) append_queueing(&events, i % SEATS, &flush);
            append_turns(&events, QUEUE + 4);
            compare_events("numbers of a seat", &events);
        }
    }
}

/* Commands that get 11 to 15, 17 to 19, 25 and 26, and those between them that make them so, in turn from three seats: two of them write the macros. */
static void compare_denials(void)
{
    static const struct { unsigned opcode, n; bool flag; uint32_t one; } commands[] = {
        { 0x0150, 3, false, 5u << 16 | 1 }, { 0x0118, 3, false, 5u << 16 | 1 }, { 0x0118, 3, false, 1 }, { 0x015a, 2, true, 0 }, { 0x7f02, 2, false, 0 },
        { 0x7f01, 3, false, 1u << 24 }, { 0x7f01, 3, false, 2u << 24 }, { 0x7f02, 2, false, 0 }, { 0x7f03, 3, true, 1u << 24 }, { 0x7f03, 3, true, 0 },
        { 0x015a, 2, true, 0 }, { 0x7f04, 3, true, 600u << 16 }, { 0x7f02, 2, false, 0 }, { 0x7f01, 3, false, 1u << 24 }, { 0x7f03, 3, false, 0 },
        { 0x7f03, 3, false, 1u << 24 }, { 0x7f03, 3, false, 1u << 24 }, { 0x7f06, 2, false, 0 }, { 0x7f05, 2, false, 0 }, { 0x7f01, 3, false, 4u << 24 },
        { 0x7f04, 3, true, 600u << 16 }, { 0x015a, 2, true, 0 }, { 0x7f02, 2, false, 0 }, { 0x7f06, 2, false, 0 }, { 0x0114, 3, false, 1u << 24 },
        { 0x0150, 3, false, 5u << 16 | 1 },
    };
    struct list events = { .size = 0 };
    for (unsigned i = 0; i < sizeof commands / sizeof commands[0]; i++) {
        append_offer(&events, i % 3, commands[i].opcode, commands[i].flag, commands[i].n, commands[i].one);
    }
    append_offer(&events, 0, 0x7f01, false, 3, 0);
    for (unsigned i = 0; i < 65; i++) append_offer(&events, i % SEATS, 0x015a, true, 2, 0);
    append_offer(&events, 1, 0x7f02, false, 2, 0);
    compare_events("commands that a turn refuses", &events);
    events.size = 0;
    append_offer(&events, 0, 0x7f01, false, 3, 0);
    for (unsigned i = 0; i <= 192; i++) append_offer(&events, i % SEATS, 0x015a, true, 2, 0);
    compare_events("more entries than there are", &events);
}

/* Events as they come: turns, and commands of any form with any arguments for any seat, some of them broken. */
static void compare_chances(void)
{
    uint32_t state = 0x9e3779b9;
    for (unsigned i = 0; i < 64; i++) {
        struct list events = { .size = 0 };
        while (events.size + EVENT <= ROOM) {
            const struct form *f = &forms[chance(&state) % 15];
            const uint32_t words[] = { f->layout == SINGLES ? goal_bits(chance(&state)) : chance(&state) % 4, chance(&state) % 8 };
            struct list l = { .size = 0 };
            append_raw(&l, f, f->flags == ALWAYS || (f->flags == EITHER && chance(&state) % 2), words);
            if (chance(&state) % 16 == 0) l.bytes[chance(&state) % l.size] ^= (uint8_t)(1u << chance(&state) % 8);
            if (chance(&state) % 64 < 20 + i % 32) append_turns(&events, 1);
            else append_queueing(&events, chance(&state) % 64 == 0 ? 4 : chance(&state) % SEATS, &l);
        }
        compare_events("seats by chance", &events);
    }
}

/* What no timed job of the seats has; and both timed ones with the whole state behind every call. */
static void compare_seats(void)
{
    struct list events = seat_events();
    append_turns(&events, WAITING + 1);
    compare_events("queues that are filled and emptied", &events);
    compare_codes(false);
    compare_codes(true);
    compare_changed_queueings();
    compare_any_commands();
    compare_turns();
    compare_unsound();
    compare_seat_numbers();
    compare_denials();
    compare_chances();
}

/* How many records of a run have code 0. */
static unsigned accepted(const struct job *j)
{
    static struct room room;
    unsigned n = 0;
    memset(&room, 0xff, sizeof room);
    do_job(j, false, &room, 1);
    for (unsigned i = 0; i < j->units; i++) n += room.bytes[RECORD * i + 1] == 0;
    return n;
}

/* How many commands wait before the first of the calls. */
static unsigned waiting(const struct job *j)
{
    return (unsigned)(j->kit.size / EVENT);
}

/* How many bytes are assembled or listed. */
static unsigned taken(const struct job *j)
{
    return (unsigned)(j->kit.size + j->pupil.size);
}

static void print_jobs(struct job *jobs, int n)
{
    printf("%-36s %12s %12s %8s %6s\n", "job", "Rattle ns", "C ns", "ratio", "aim");
    for (struct job *j = jobs; j < jobs + n; j++) {
        measure(j);
        uint32_t shown = j->single ? 1 : j->units;
        printf("%-36s %12.1f %12.1f %8.2f %6.1f%s\n", j->name, j->ours * shown, j->plain * shown, j->ours / j->plain, j->aim,
               j->ours / j->plain <= j->aim ? "" : "  missed");
    }
}

/* The time of one unit, and one more number of each job. */
static void print_growth(struct job *jobs, int n, const char *of, const char *heading, unsigned (*number)(const struct job *))
{
    printf("\n%-36s %12s %12s %8s %9s\n", of, "Rattle ns", "C ns", "ratio", heading);
    for (struct job *j = jobs; j < jobs + n; j++) {
        char name[40];
        measure(j);
        snprintf(name, sizeof name, "%u %s", j->units, j->name);
        printf("%-36s %12.1f %12.1f %8.2f %9u\n", name, j->ours, j->plain, j->ours / j->plain, number(j));
    }
}

enum { ALL = 34, SIZES = 3 };

/* The lists of two listing jobs are indexed, the latter also from its first 511 commands; and one command of the latter is looked up, and shown by the
   walk. */
static void index_jobs(struct job *jobs, const struct job *mixed_lists, const struct job *bare_lists)
{
    static const struct offsets none;
    static const struct list empty;
    const struct list *l = &bare_lists->kit;
    struct offsets index = made_index(l, &none), shorter = index;
    shorter.count = INDEX - 1;
    jobs[0] = index_job("indexing 512 mixed commands", &mixed_lists->kit, &none, INDEX, INDEX);
    jobs[0].pupil = mixed_lists->pupil;
    jobs[1] = index_job("indexing 512 bare commands", l, &none, INDEX, INDEX);
    jobs[2] = index_job("extending an index from 511 to 512", l, &shorter, INDEX, 1);
    jobs[3] = look_up_job("looking up number 400 of 512", l, &index, ASKED);
    jobs[4] = shown_job("showing number 400 of 512", &empty, l, 2, ASKED);
}

/* Damage of three sorts, and lists without any. */
static void rescue_jobs(struct job *jobs)
{
    struct list chance = noise(LIST), hurt = damaged(), lengths = long_lengths(), mixeds = mixed_list(MIXED), bares = bare_list(INDEX);
    jobs[0] = list_job("rescuing 4,096 bytes of noise", RESCUING, &chance, LIST);
    jobs[1] = list_job("rescuing 4,096 bytes of damage", RESCUING, &hurt, LIST);
    jobs[2] = list_job("rescuing 4,096 bytes of lengths", RESCUING, &lengths, LIST);
    jobs[3] = list_job("rescuing 4,096 bytes of commands", RESCUING, &mixeds, LIST);
    jobs[4] = list_job("rescuing 512 bare commands", RESCUING, &bares, LIST);
    jobs[3].aim = jobs[4].aim = 3;
}

static void make_jobs(struct job *jobs)
{
    struct list frames = housekeeping_frames(), valves = valve_frames();
    jobs[0] = (struct job){ .name = "reading a command", .which = READ, .units = 1, .aim = 1.0 };
    jobs[1] = (struct job){ .name = "writing a command", .which = WRITE, .units = 1, .aim = 1.2 };
    jobs[2] = (struct job){ .name = "reading a frame", .which = FRAME_READ, .units = 1, .aim = 1.2 };
    jobs[3] = (struct job){ .name = "writing a frame", .which = FRAME_WRITE, .units = 1, .aim = 1.2 };
    jobs[4] = frames_job("reading a housekeeping frame", HOUSEKEEPING_READ, &frames, HOUSEKEEPING);
    jobs[5] = frames_job("writing a housekeeping frame", HOUSEKEEPING_WRITE, &frames, HOUSEKEEPING);
    jobs[6] = run_job("a run of 8 plain commands", plain_command, 8);
    jobs[7] = run_job("a run of 8 macro commands", macro_command, 8);
    jobs[8] = run_job("a run of 512 plain commands", plain_command, 512);
    jobs[9] = run_job("a run of 512 macro commands", macro_command, 512);
    jobs[6].aim = jobs[7].aim = 2.5; /* most of a short run is the judging of the state it starts from */
    jobs[10] = (struct job){ .name = "600 seconds of an eight-deep macro", .which = SECONDS, .units = 600, .aim = 1.5 };
    jobs[11] = (struct job){ .name = "600 seconds of 64 entries each", .which = SECONDS, .units = 600, .aim = 1.5 };
    deep_list(&jobs[10].kit);
    full_list(&jobs[11].kit);
    typed_jobs(&jobs[12], &jobs[13], &mixed, 512);
    typed_jobs(&jobs[14], &jobs[15], &bare, 512);
    jobs[12].name = "assembling 512 mixed commands";
    jobs[13].name = "listing 512 mixed commands";
    jobs[14].name = "assembling 512 bare commands";
    jobs[15].name = "listing 512 bare commands";
    index_jobs(jobs + 16, &jobs[13], &jobs[15]);
    card_jobs(&jobs[21], &jobs[22], &mixed, 512);
    card_jobs(&jobs[23], &jobs[24], &bare, 512);
    jobs[21].name = "512 mixed commands to a card";
    jobs[22].name = "512 mixed commands from a card";
    jobs[23].name = "512 bare commands to a card";
    jobs[24].name = "512 bare commands from a card";
    rescue_jobs(jobs + 25);
    jobs[30] = frames_job("reading a valve's frame", VALVE_READ, &valves, VALVE_FRAME);
    jobs[31] = frames_job("writing a valve's frame", VALVE_WRITE, &valves, VALVE_FRAME);
    jobs[32] = seats_job("a queueing", QUEUEING, 0, WAITING);
    jobs[33] = seats_job("a turn", TURNS, WAITING, WAITING);
}

int main(int argc, char **argv)
{
    static const unsigned sizes[SIZES] = { 8, 64, 512 };
    static struct job jobs[ALL], runs[2 * SIZES], lines[4 * SIZES], calls[2 * SIZES];
    const char *note = argc > 1 ? argv[1] : "";
    make_commands();
    make_frames();
    make_jobs(jobs);
    compare_refused_frames();
    compare_failing_runs();
    compare_refused_indexes();
    struct list bares = bare_list(INDEX), others = numbered_list();
    compare_indexes(bares, &others);
    compare_indexes(others, &bares);
    compare_cards();
    compare_rescues();
    compare_valves();
    compare_seats();
    for (int i = 0; i < SIZES; i++) {
        runs[i] = run_job("plain commands", plain_command, sizes[i]);
        runs[SIZES + i] = run_job("macro commands", macro_command, sizes[i]);
        typed_jobs(&lines[i], &lines[SIZES + i], &mixed, sizes[i]);
        typed_jobs(&lines[2 * SIZES + i], &lines[3 * SIZES + i], &bare, sizes[i]);
        calls[i] = seats_job("queueings", QUEUEING, (WAITING - CALLS) / 2 * (unsigned)i, CALLS);
        calls[SIZES + i] = seats_job("turns", TURNS, (WAITING - CALLS) / 2 * (unsigned)i + CALLS, CALLS);
    }
    printf("Rattle against plain C (gcc -O2), both x86-64, same inputs, same results; best of %d rounds.%s%s\n\n", ROUNDS, *note ? " " : "", note);
    print_jobs(jobs, ALL);
    print_growth(runs, 2 * SIZES, "growth: one command of a run of", "accepted", accepted);
    print_growth(lines, 4 * SIZES, "growth: one line of", "bytes", taken);
    print_growth(calls, 2 * SIZES, "growth: one of", "waiting", waiting);
    return 0;
}
