/* The bench of 01-scope.md in plain C, written from that page: the state is one struct that is passed by pointer and changed in place.
   It does the same jobs as crates/timing and folds their results in the same way. Typed lists are assembled and listed by the rules of request Q-1;
   the macros share one pool of entries by those of request Q-9, a second hands over a group of them by those of request Q-2, no picture is asked for
   with the power off by those of request Q-3, a number out of range is told with its limits by those of request Q-6, the numbers of the latest run
   are kept, and sent as housekeeping, by those of request Q-11, a command is looked up through an index by those of request Q-14, a list is moved to
   a memory card and back by those of request Q-4, a damaged list is rescued by those of request Q-10, and four seats share the bench by those of
   request Q-13. The gas valve, a bench of its own, goes by those of request Q-7. */
#include "plain.h"
#include <stdbool.h>
#include <string.h>

enum { MACROS = 8, POOL = 192, NONE = 255, LONGEST = 600, GROUP = 64, FOR_EVER = 65535, LIST = 4096, RECORD = 12, ROOM = 1024 * RECORD };
enum { LAST_PIXEL = 1023, LAST_ALGORITHM = 2, LAST_GOAL = 0x447fffff /* the bits of the largest single below 1024 */ };
enum { RECEIVED_TAG = 0x12, FAILED_TAG = 0x13, CODE_TAG = 0x14, FREE_TAG = 0x15, HEAD = 2 /* a tag and a length, before each value */ };
enum { RECEIVED_AT = 0, FAILED_AT = 6, CODE_AT = 12, FREE_AT = 15, HOUSEKEEPING = 18 /* bytes of a whole housekeeping frame */ };
enum { VALVE_FRAME = 64 /* bytes */, VALVE_WORDS = 32, OCPL = 0x8000, QUIET = 0x4000, IDENTIFIER = 0x000e /* below these two flags */ };
enum { YES = 0xffff, MASK = 0x0001, FIRING_CODE = 0x1810, ARMED = 0x4000, FIRED = 0x8000 /* bits of the valve's status */ };
enum { KIT = 1, PUPIL = 2, INDEX = 512 /* the most offsets of an index */ };
enum { SEATS = 4, WAITING = 32 /* the most commands of a queue */ };
enum { TEXT = 32768, DIGITS = 5, LISTED = 8192 /* above the 7,846 bytes that a list's text has at most */ };
enum { LONGEST_COMMAND = 4 * 32 /* bytes */ };
enum { STRETCH = 4 /* bytes of a table for one stretch */, STRETCHES = 456 /* at most: between two of them lies a command of 8 bytes or more */ };
enum { GROUP_BITS = 7, MORE = 0x80 /* on every group of a number but its last */, MOST_GROUPS = 5, STORED_FORM = 1 /* the first number on a card */ };

enum kind {
    IMG_PWR, IMG_REGION, IMG_TRACK, TRK_ALG, TRK_LOOP, IMG_IMAGE, TRK_GOAL, TLM_FLUSH, FLUSH_AUTO, OPEN, CLOSE, RUN, WAIT, STOP, CLEAR
};

struct command {
    bool flag;
    uint8_t kind;
    union {
        uint8_t mode;                       /* the kinds with one byte: a mode or a macro's number */
        uint16_t seconds;
        struct { uint16_t first, second; }; /* X and Y, or time and interval */
        struct { float x, y; };
    };
};

struct series {
    uint16_t time, interval, next, count;
};

/* The number of the last of the pupil's records of a run, and number and code of the last whose code is not 0; 0 where there is none. */
struct latest {
    uint32_t received, failed;
    uint8_t code;
};

struct bench {
    struct series image, track;
    uint16_t x, y;
    float xgoal, ygoal;
    bool power, automatic, loop;
    uint8_t algorithm, flushes;
    uint8_t running, opened;
    uint16_t left;
    struct command pool[POOL]; /* the entries of macro 0, behind them those of macro 1, and so on */
    uint8_t used;              /* how many entries that is in all */
    uint8_t counts[MACROS];    /* 0 for a macro that is neither open nor closed */
    bool closed[MACROS];
    struct latest latest;      /* of the latest run that was not refused */
};

/* The queue of one seat. */
struct queue {
    struct command commands[WAITING]; /* those that wait, the oldest first */
    uint8_t count;
    uint32_t queued; /* how many the seat has queued so far, modulo 2^32 */
};

struct seats {
    struct bench bench;
    struct queue queues[SEATS];
    uint8_t last; /* the seat that was served last */
};

struct frame {
    uint16_t image_time, image_interval, track_time, track_interval, images, tracks, x, y;
    uint32_t xgoal, ygoal;
    bool power, automatic, loop;
    uint8_t algorithm, flushes, running, opened;
    uint16_t left;
    uint8_t closed;
};

struct housekeeping {
    struct latest latest;
    uint8_t free; /* entries of the pool */
};

/* A frame to the gas valve: its two flags, and whether it arms or fires. */
struct valve_frame {
    bool ocpl, quiet, fires;
    uint16_t code; /* where it fires */
};

struct valve {
    bool armed, fired;
};

/* An argument out of range: which one it is, 1 or 2, its value, and the lowest and the highest allowed. All zeros where there is none. */
struct stray {
    uint8_t par;
    uint32_t value, low, high;
};

static uint16_t get16(const uint8_t *s)
{
    return (uint16_t)(s[0] << 8 | s[1]);
}

static uint32_t get32(const uint8_t *s)
{
    return (uint32_t)s[0] << 24 | (uint32_t)s[1] << 16 | (uint32_t)s[2] << 8 | s[3];
}

static void put16(uint8_t *s, uint16_t v)
{
    s[0] = (uint8_t)(v >> 8);
    s[1] = (uint8_t)v;
}

static void put32(uint8_t *s, uint32_t v)
{
    s[0] = (uint8_t)(v >> 24);
    s[1] = (uint8_t)(v >> 16);
    s[2] = (uint8_t)(v >> 8);
    s[3] = (uint8_t)v;
}

static float single(uint32_t bits)
{
    float x;
    memcpy(&x, &bits, 4);
    return x;
}

static uint32_t bits(float x)
{
    uint32_t v;
    memcpy(&v, &x, 4);
    return v;
}

/* The lowest and the highest that each argument of a kind may be, for telling; of goals, by their bits. The tests in judge have them as constants,
   which is faster. */
static const struct limits {
    uint32_t low, high;
} limits[][2] = {
    [IMG_PWR] = { { 0, 1 } },
    [IMG_REGION] = { { 0, LAST_PIXEL }, { 0, LAST_PIXEL } },
    [IMG_TRACK] = { { 0, 65535 }, { 1, 65535 } },
    [TRK_ALG] = { { 0, LAST_ALGORITHM } },
    [TRK_LOOP] = { { 0, 1 } },
    [IMG_IMAGE] = { { 0, 65535 }, { 1, 65535 } },
    [TRK_GOAL] = { { 0, LAST_GOAL }, { 0, LAST_GOAL } },
    [FLUSH_AUTO] = { { 0, 1 } },
    [OPEN] = { { 0, MACROS - 1 } },
    [RUN] = { { 0, MACROS - 1 } },
    [WAIT] = { { 1, LONGEST } },
};

/* Code 8: an argument of this command, 1 or 2, has a value outside its limits. That is rare, so it is kept out of line. */
__attribute__((cold, noinline))
static uint8_t out_of_range(const struct command *c, uint8_t par, uint32_t value, struct stray *stray)
{
    const struct limits *l = &limits[c->kind][par - 1];
    *stray = (struct stray){ par, value, l->low, l->high };
    return 8;
}

static bool goal_allowed(uint32_t v)
{
    return v <= LAST_GOAL || v == 0x80000000;
}

/* Codes 8 to 10 on a decoded command. Here and below, 8 alone sets *stray. */
static uint8_t judge(const struct command *c, struct stray *stray)
{
    switch (c->kind) {
    case IMG_PWR: case TRK_LOOP: case FLUSH_AUTO:
        if (c->mode > 1) return out_of_range(c, 1, c->mode, stray);
        break;
    case TRK_ALG:
        if (c->mode > LAST_ALGORITHM) return out_of_range(c, 1, c->mode, stray);
        break;
    case OPEN: case RUN:
        if (c->mode >= MACROS) return out_of_range(c, 1, c->mode, stray);
        break;
    case WAIT:
        if (c->seconds < 1 || c->seconds > LONGEST) return out_of_range(c, 1, c->seconds, stray);
        break;
    case IMG_REGION:
        if (c->first > LAST_PIXEL) return out_of_range(c, 1, c->first, stray);
        if (c->second > LAST_PIXEL) return out_of_range(c, 2, c->second, stray);
        break;
    case IMG_TRACK: case IMG_IMAGE:
        if (c->second < 1) return out_of_range(c, 2, c->second, stray);
        break;
    case TRK_GOAL:
        if (!goal_allowed(bits(c->x))) return out_of_range(c, 1, bits(c->x), stray);
        if (!goal_allowed(bits(c->y))) return out_of_range(c, 2, bits(c->y), stray);
        break;
    }
    if (c->flag && (c->kind == OPEN || c->kind == CLOSE || c->kind == STOP || c->kind == CLEAR)) return 9;
    if (!c->flag && c->kind == WAIT) return 10;
    return 0;
}

static inline int kind_of(uint16_t opcode, unsigned *words)
{
    switch (opcode) {
    case 0x0114: *words = 3; return IMG_PWR;
    case 0x0117: *words = 3; return IMG_REGION;
    case 0x0118: *words = 3; return IMG_TRACK;
    case 0x0148: *words = 3; return TRK_ALG;
    case 0x014b: *words = 3; return TRK_LOOP;
    case 0x0150: *words = 3; return IMG_IMAGE;
    case 0x0153: *words = 4; return TRK_GOAL;
    case 0x015a: *words = 2; return TLM_FLUSH;
    case 0x015c: *words = 3; return FLUSH_AUTO;
    case 0x7f01: *words = 3; return OPEN;
    case 0x7f02: *words = 2; return CLOSE;
    case 0x7f03: *words = 3; return RUN;
    case 0x7f04: *words = 3; return WAIT;
    case 0x7f05: *words = 2; return STOP;
    case 0x7f06: *words = 2; return CLEAR;
    }
    return -1;
}

/* Codes 1 to 10. *span is how far the command reaches: all the bytes where the list ends. */
static uint8_t read_command(const uint8_t *s, size_t size, struct command *c, size_t *span, struct stray *stray)
{
    *span = size;
    if (size < 8) return 1;
    unsigned length = get16(s + 2) & 0x7fff;
    if (length < 2 || length > 32) return 2;
    if (4 * length > size) return 3;
    *span = 4 * length;
    uint32_t sum = 0;
    for (unsigned i = 0; i < length; i++) sum ^= get32(s + 4 * i);
    if (sum != 0) return 4;
    unsigned words;
    int kind = kind_of(get16(s), &words);
    if (kind < 0) return 5;
    if (length != words) return 6;
    c->flag = (s[2] & 0x80) != 0;
    c->kind = (uint8_t)kind;
    switch (kind) {
    case IMG_PWR: case TRK_ALG: case TRK_LOOP: case FLUSH_AUTO: case OPEN: case RUN:
        if (s[5] != 0 || s[6] != 0 || s[7] != 0) return 7;
        c->mode = s[4];
        break;
    case WAIT:
        if (s[6] != 0 || s[7] != 0) return 7;
        c->seconds = get16(s + 4);
        break;
    case IMG_REGION: case IMG_TRACK: case IMG_IMAGE:
        c->first = get16(s + 4);
        c->second = get16(s + 6);
        break;
    case TRK_GOAL:
        c->x = single(get32(s + 4));
        c->y = single(get32(s + 8));
        break;
    }
    return judge(c, stray);
}

static uint16_t opcode_of(uint8_t kind)
{
    static const uint16_t opcodes[] = {
        0x0114, 0x0117, 0x0118, 0x0148, 0x014b, 0x0150, 0x0153, 0x015a, 0x015c, 0x7f01, 0x7f02, 0x7f03, 0x7f04, 0x7f05, 0x7f06
    };
    return opcodes[kind];
}

/* Codes 8 to 10, then 24. */
static uint8_t write_command(const struct command *c, uint8_t *room, size_t fits, size_t *size, struct stray *stray)
{
    *size = 0;
    uint8_t code = judge(c, stray);
    if (code != 0) return code;
    uint32_t words[4];
    unsigned n = 1;
    switch (c->kind) {
    case IMG_PWR: case TRK_ALG: case TRK_LOOP: case FLUSH_AUTO: case OPEN: case RUN:
        words[n++] = (uint32_t)c->mode << 24;
        break;
    case WAIT:
        words[n++] = (uint32_t)c->seconds << 16;
        break;
    case IMG_REGION: case IMG_TRACK: case IMG_IMAGE:
        words[n++] = (uint32_t)c->first << 16 | c->second;
        break;
    case TRK_GOAL:
        words[n++] = bits(c->x);
        words[n++] = bits(c->y);
        break;
    }
    if (fits < 4 * (n + 1)) return 24;
    words[0] = (uint32_t)opcode_of(c->kind) << 16 | (c->flag ? 0x8000u : 0) | (n + 1);
    uint32_t sum = 0;
    for (unsigned i = 0; i < n; i++) {
        put32(room + 4 * i, words[i]);
        sum ^= words[i];
    }
    put32(room + 4 * n, sum);
    *size = 4 * (n + 1);
    return 0;
}

static bool macro_or_none(uint8_t m)
{
    return m < MACROS || m == NONE;
}

static bool frame_obeys(const struct frame *f)
{
    if (f->image_interval < 1 || f->track_interval < 1) return false;
    if (f->x > LAST_PIXEL || f->y > LAST_PIXEL) return false;
    if (!goal_allowed(f->xgoal) || !goal_allowed(f->ygoal)) return false;
    if (f->algorithm > LAST_ALGORITHM) return false;
    if (!macro_or_none(f->running) || !macro_or_none(f->opened)) return false;
    if (f->left > LONGEST || (f->left == 0) != (f->running == NONE)) return false;
    if (f->running != NONE && !(f->closed >> f->running & 1)) return false;
    if (f->opened != NONE && (f->closed >> f->opened & 1)) return false;
    return true;
}

/* 22, then 23. */
static uint8_t read_frame(const uint8_t *s, size_t size, struct frame *f)
{
    if (size != 32) return 22;
    f->image_time = get16(s);
    f->image_interval = get16(s + 2);
    f->track_time = get16(s + 4);
    f->track_interval = get16(s + 6);
    f->images = get16(s + 8);
    f->tracks = get16(s + 10);
    f->x = get16(s + 12);
    f->y = get16(s + 14);
    f->xgoal = get32(s + 16);
    f->ygoal = get32(s + 20);
    if ((s[24] & 0xc8) != 0) return 23;
    f->power = s[24] & 1;
    f->automatic = s[24] >> 1 & 1;
    f->loop = s[24] >> 2 & 1;
    f->algorithm = s[24] >> 4 & 3;
    f->flushes = s[25];
    f->running = s[26];
    f->opened = s[27];
    f->left = get16(s + 28);
    f->closed = s[30];
    if (s[31] != __builtin_popcount(s[30])) return 23;
    return frame_obeys(f) ? 0 : 23;
}

/* 23, then 24. */
static uint8_t write_frame(const struct frame *f, uint8_t *room, size_t fits)
{
    if (!frame_obeys(f)) return 23;
    if (fits < 32) return 24;
    put16(room, f->image_time);
    put16(room + 2, f->image_interval);
    put16(room + 4, f->track_time);
    put16(room + 6, f->track_interval);
    put16(room + 8, f->images);
    put16(room + 10, f->tracks);
    put16(room + 12, f->x);
    put16(room + 14, f->y);
    put32(room + 16, f->xgoal);
    put32(room + 20, f->ygoal);
    room[24] = (uint8_t)(f->power | f->automatic << 1 | f->loop << 2 | f->algorithm << 4);
    room[25] = f->flushes;
    room[26] = f->running;
    room[27] = f->opened;
    put16(room + 28, f->left);
    room[30] = f->closed;
    room[31] = (uint8_t)__builtin_popcount(f->closed);
    return 0;
}

/* 47, 48, 49 on the item that begins there. */
static uint8_t judge_item(const uint8_t *s, size_t size, size_t at, uint8_t tag, uint8_t length)
{
    if (size < at + HEAD + length) return 47;
    if (s[at] != tag) return 48;
    if (s[at + 1] != length) return 49;
    return 0;
}

/* 47 to 49 at each item in turn, then 50. */
static uint8_t read_housekeeping(const uint8_t *s, size_t size, struct housekeeping *h)
{
    uint8_t code = judge_item(s, size, RECEIVED_AT, RECEIVED_TAG, 4);
    if (code == 0) code = judge_item(s, size, FAILED_AT, FAILED_TAG, 4);
    if (code == 0) code = judge_item(s, size, CODE_AT, CODE_TAG, 1);
    if (code == 0) code = judge_item(s, size, FREE_AT, FREE_TAG, 1);
    if (code != 0) return code;
    if (size > HOUSEKEEPING) return 50;
    h->latest.received = get32(s + RECEIVED_AT + HEAD);
    h->latest.failed = get32(s + FAILED_AT + HEAD);
    h->latest.code = s[CODE_AT + HEAD];
    h->free = s[FREE_AT + HEAD];
    return 0;
}

static void put_head(uint8_t *s, uint8_t tag, uint8_t length)
{
    s[0] = tag;
    s[1] = length;
}

/* 24. */
static uint8_t write_housekeeping(const struct housekeeping *h, uint8_t *room, size_t fits)
{
    if (fits < HOUSEKEEPING) return 24;
    put_head(room + RECEIVED_AT, RECEIVED_TAG, 4);
    put32(room + RECEIVED_AT + HEAD, h->latest.received);
    put_head(room + FAILED_AT, FAILED_TAG, 4);
    put32(room + FAILED_AT + HEAD, h->latest.failed);
    put_head(room + CODE_AT, CODE_TAG, 1);
    room[CODE_AT + HEAD] = h->latest.code;
    put_head(room + FREE_AT, FREE_TAG, 1);
    room[FREE_AT + HEAD] = h->free;
    return 0;
}

/* 40 to 44. */
static uint8_t read_valve_frame(const uint8_t *s, size_t size, struct valve_frame *f)
{
    if (size != VALVE_FRAME) return 40;
    uint16_t head = get16(s), update = get16(s + 2), mask = get16(s + 4), fire = get16(s + 6), code = get16(s + 8);
    if (get16(s + 10) != (uint16_t)(head + update + mask + fire + code)) return 41;
    if ((head & ~(OCPL | QUIET)) != IDENTIFIER) return 42;
    for (unsigned i = 6; i < VALVE_WORDS; i++) {
        if (get16(s + 2 * i) != 0) return 43;
    }
    if (update == YES && mask == MASK && fire == 0 && code == 0) f->fires = false;
    else if (update == 0 && mask == 0 && fire == YES) f->fires = true;
    else return 44;
    f->ocpl = (head & OCPL) != 0;
    f->quiet = (head & QUIET) != 0;
    f->code = code;
    return 0;
}

/* 24. */
static uint8_t write_valve_frame(const struct valve_frame *f, uint8_t *room, size_t fits)
{
    if (fits < VALVE_FRAME) return 24;
    uint16_t head = (uint16_t)((f->ocpl ? OCPL : 0) | (f->quiet ? QUIET : 0) | IDENTIFIER), sum = head;
    memset(room, 0, VALVE_FRAME);
    put16(room, head);
    if (f->fires) {
        put16(room + 6, YES);
        put16(room + 8, f->code);
        sum += YES + f->code;
    } else {
        put16(room + 2, YES);
        put16(room + 4, MASK);
        sum += YES + MASK;
    }
    put16(room + 10, sum);
    return 0;
}

/* 40 to 46. A fired valve counts as armed. */
static uint8_t carry_out(struct valve *v, const uint8_t *s, size_t size)
{
    struct valve_frame f;
    uint8_t code = read_valve_frame(s, size, &f);
    if (code != 0) return code;
    if (f.fires) {
        if (!v->armed) return 45;
        if (f.code != FIRING_CODE) return 46;
        v->fired = true;
    }
    v->armed = true;
    return 0;
}

static uint16_t valve_status(const struct valve *v)
{
    return (uint16_t)((v->armed ? ARMED : 0) | (v->fired ? FIRED : 0));
}

static void fresh(struct bench *b)
{
    memset(b, 0, sizeof *b);
    b->image.interval = 1;
    b->track.interval = 1;
    b->running = NONE;
    b->opened = NONE;
}

static void status(const struct bench *b, struct frame *f)
{
    f->image_time = b->image.time;
    f->image_interval = b->image.interval;
    f->track_time = b->track.time;
    f->track_interval = b->track.interval;
    f->images = b->image.count;
    f->tracks = b->track.count;
    f->x = b->x;
    f->y = b->y;
    f->xgoal = bits(b->xgoal);
    f->ygoal = bits(b->ygoal);
    f->power = b->power;
    f->automatic = b->automatic;
    f->loop = b->loop;
    f->algorithm = b->algorithm;
    f->flushes = b->flushes;
    f->running = b->running;
    f->opened = b->opened;
    f->left = b->left;
    f->closed = 0;
    for (int m = 0; m < MACROS; m++) f->closed |= (uint8_t)(b->closed[m] << m);
}

/* How many entries the macros below n have together, which is where those of macro n start. */
static unsigned entries_below(const struct bench *b, unsigned n)
{
    unsigned sum = 0;
    for (unsigned m = 0; m < n; m++) sum += b->counts[m];
    return sum;
}

/* How the entries of a macro, its RUNs replaced, fall into seconds. */
struct span {
    unsigned waits;       /* the sum of its WAITs; 601 stands for anything above 600 */
    unsigned first, last; /* entries of its first second, and those behind its last WAIT; both are all entries where it has no WAIT */
    unsigned most;        /* entries of its fullest second; in these three, 65 stands for anything above 64 */
    bool waited;          /* whether it has a WAIT */
};

/* The entries behind the last WAIT take one second more. */
static unsigned length(const struct span *s)
{
    return s->waits + (s->last > 0);
}

/* These entries follow: their first second goes on with the last one so far. */
static void join(struct span *s, const struct span *next)
{
    unsigned joined = s->last + next->first;
    if (!s->waited) s->first = joined;
    if (joined > s->most) s->most = joined;
    if (next->most > s->most) s->most = next->most;
    s->last = next->waited ? next->last : joined;
    s->waits += next->waits;
    s->waited |= next->waited;
}

static unsigned at_most(unsigned value, unsigned limit)
{
    return value < limit ? value : limit;
}

/* The spans of the macros below n. */
static void measure(const struct bench *b, unsigned n, struct span *spans)
{
    const struct command *c = b->pool;
    for (unsigned m = 0; m < n; m++) {
        struct span s = { 0 };
        for (const struct command *end = c + b->counts[m]; c < end; c++) {
            switch (c->kind) {
            case WAIT:
                s.waits += c->seconds;
                s.last = 0;
                s.waited = true;
                break;
            case RUN:
                if (c->mode < m && b->closed[c->mode]) join(&s, &spans[c->mode]);
                break;
            default:
                s.last++;
                if (!s.waited) s.first++;
                if (s.last > s.most) s.most = s.last;
                break;
            }
        }
        s.waits = at_most(s.waits, LONGEST + 1);
        s.first = at_most(s.first, GROUP + 1);
        s.last = at_most(s.last, GROUP + 1);
        s.most = at_most(s.most, GROUP + 1);
        spans[m] = s;
    }
}

/* What a second hands over, and the code of each entry. */
struct group {
    struct command entries[GROUP];
    uint8_t codes[GROUP];
    unsigned count;
};

/* Adds the entries of macro m that lie in one second, *ahead seconds from its start. True once a WAIT closes that second; else *ahead is counted from
   the macro's end. */
static bool gather(const struct bench *b, unsigned m, unsigned *ahead, const struct span *spans, struct group *g)
{
    const struct command *c = b->pool + entries_below(b, m);
    for (const struct command *end = c + b->counts[m]; c < end; c++) {
        switch (c->kind) {
        case WAIT:
            if (*ahead < c->seconds) return true;
            *ahead -= c->seconds;
            break;
        case RUN:
            if (length(&spans[c->mode]) <= *ahead) *ahead -= spans[c->mode].waits;
            else if (gather(b, c->mode, ahead, spans, g)) return true;
            break;
        default:
            if (*ahead == 0) g->entries[g->count++] = *c;
            break;
        }
    }
    return false;
}

static bool paced(const struct series *s)
{
    return s->time == 0 || (s->next >= 1 && s->next <= s->interval);
}

/* 27: may this state be? The spans of all macros are worked out on the way. */
static bool sound(const struct bench *b, struct span *spans)
{
    struct frame f;
    status(b, &f);
    if (!frame_obeys(&f) || !paced(&b->image) || !paced(&b->track)) return false;
    if (b->used > POOL || b->used != entries_below(b, MACROS)) return false;
    measure(b, MACROS, spans);
    const struct command *c = b->pool;
    for (unsigned m = 0; m < MACROS; m++) {
        unsigned seconds = length(&spans[m]);
        if (b->closed[m] && (b->counts[m] < 1 || seconds < 1 || seconds > LONGEST || spans[m].most > GROUP)) return false;
        if (!b->closed[m] && b->opened != m && b->counts[m] != 0) return false;
        for (const struct command *end = c + b->counts[m]; c < end; c++) {
            struct stray stray;
            if (!c->flag || judge(c, &stray) != 0) return false;
            if (c->kind == RUN && (c->mode >= m || !b->closed[c->mode])) return false;
        }
    }
    return b->running == NONE || (b->left >= 1 && b->left <= length(&spans[b->running]));
}

/* 27, else the numbers of the housekeeping frame. */
static uint8_t housekeeping(const struct bench *b, struct housekeeping *h)
{
    struct span spans[MACROS];
    if (!sound(b, spans)) return 27;
    h->latest = b->latest;
    h->free = (uint8_t)(POOL - b->used);
    return 0;
}

static void start_series(struct series *s, uint16_t time, uint16_t interval)
{
    s->time = time;
    s->interval = interval;
    s->next = 1;
}

/* A command that was accepted and is executed. */
static void execute(struct bench *b, const struct command *c)
{
    struct span spans[MACROS];
    switch (c->kind) {
    case IMG_PWR: b->power = c->mode == 1; break;
    case IMG_REGION: b->x = c->first; b->y = c->second; break;
    case IMG_TRACK: start_series(&b->track, c->first, c->second); break;
    case TRK_ALG: b->algorithm = c->mode; break;
    case TRK_LOOP: b->loop = c->mode == 1; break;
    case IMG_IMAGE: start_series(&b->image, c->first, c->second); break;
    case TRK_GOAL: b->xgoal = c->x; b->ygoal = c->y; break;
    case TLM_FLUSH: b->flushes++; break;
    case FLUSH_AUTO: b->automatic = c->mode == 1; break;
    case OPEN: b->opened = c->mode; break;
    case CLOSE: b->closed[b->opened] = true; b->opened = NONE; break;
    case RUN:
        measure(b, c->mode + 1u, spans);
        b->running = c->mode;
        b->left = (uint16_t)length(&spans[c->mode]);
        break;
    case STOP: b->running = NONE; b->left = 0; break;
    case CLEAR:
        b->used = 0;
        memset(b->counts, 0, sizeof b->counts);
        memset(b->closed, 0, sizeof b->closed);
        b->opened = NONE;
        break;
    }
}

/* Does this command ask for pictures with the power off? With a time of 0 it asks for none. */
static bool dark(const struct bench *b, const struct command *c)
{
    return !b->power && (c->kind == IMG_IMAGE || c->kind == IMG_TRACK) && c->first > 0;
}

/* Codes 26, 11 to 15, 25, 16 to 19. Put in place in runs and in turns, as the next two are: called, a run of 512 plain commands takes a sixth longer. */
__attribute__((always_inline))
static inline uint8_t denied(const struct bench *b, const struct command *c)
{
    if (!c->flag && dark(b, c)) return 26;
    if ((c->flag || c->kind == CLOSE) && b->opened == NONE) return 11;
    if (c->kind == OPEN && b->opened != NONE) return 12;
    if (c->kind == OPEN && b->closed[c->mode]) return 13;
    if (c->kind == CLOSE) {
        struct span spans[MACROS];
        if (b->counts[b->opened] == 0) return 14;
        measure(b, b->opened + 1u, spans);
        if (length(&spans[b->opened]) > LONGEST) return 15;
        if (spans[b->opened].most > GROUP) return 25;
    }
    if (c->flag && b->used >= POOL) return 16;
    if (c->flag && c->kind == RUN && c->mode >= b->opened) return 17;
    if (c->kind == RUN && !b->closed[c->mode]) return 18;
    if (((c->kind == RUN && !c->flag) || c->kind == CLEAR) && b->running != NONE) return 19;
    return 0;
}

/* The open macro's next entry; those of the macros behind it make room. */
__attribute__((always_inline))
static inline void append(struct bench *b, const struct command *c)
{
    unsigned at = entries_below(b, b->opened + 1u);
    memmove(b->pool + at + 1, b->pool + at, (b->used - at) * sizeof b->pool[0]);
    b->pool[at] = *c;
    b->counts[b->opened]++;
    b->used++;
}

/* A command that passed 1 to 10, on a sound bench. */
__attribute__((always_inline))
static inline uint8_t take_decoded(struct bench *b, const struct command *c)
{
    uint8_t code = denied(b, c);
    if (code != 0) return code;
    if (c->flag) append(b, c);
    else execute(b, c);
    return 0;
}

/* The command at the front of these bytes, on a sound bench. */
static uint8_t take(struct bench *b, const uint8_t *s, size_t size, size_t *reach, struct stray *stray)
{
    struct command c;
    uint8_t code = read_command(s, size, &c, reach, stray);
    return code == 0 ? take_decoded(b, &c) : code;
}

static uint32_t run_list(struct bench *b, const uint8_t *list, size_t size, uint8_t sender, uint8_t *room)
{
    uint32_t count = 0;
    size_t reach;
    for (size_t at = 0; at < size; at += reach) {
        struct stray stray;
        uint8_t code = take(b, list + at, size - at, &reach, &stray);
        uint8_t *record = room + RECORD * count;
        record[0] = sender;
        record[1] = code;
        record[2] = code == 8 ? stray.par : 0;
        record[3] = 0;
        put32(record + 4, ++count);
        put32(record + 8, code == 8 ? stray.value : 0);
    }
    return count;
}

/* What so many records say, the last of them first. */
static struct latest latest_of(const uint8_t *records, uint32_t count)
{
    struct latest l = { 0 };
    if (count == 0) return l;
    const uint8_t *r = records + RECORD * (count - 1);
    l.received = get32(r + 4);
    while (r > records && r[1] == 0) r -= RECORD;
    if (r[1] != 0) {
        l.failed = get32(r + 4);
        l.code = r[1];
    }
    return l;
}

/* 20, 21, 27, then the two lists; the pupil's records are what is kept of the run. */
static uint8_t run(struct bench *b, const uint8_t *kit, size_t kits, const uint8_t *pupil, size_t pupils, uint8_t *room, size_t fits,
                   uint32_t *records)
{
    records[0] = records[1] = 0;
    if (kits > LIST || pupils > LIST) return 20;
    if (fits < ROOM) return 21;
    struct span spans[MACROS];
    if (!sound(b, spans)) return 27;
    records[0] = run_list(b, kit, kits, 1, room);
    room += RECORD * records[0];
    records[1] = run_list(b, pupil, pupils, 2, room);
    b->latest = latest_of(room, records[1]);
    return 0;
}

static void series_second(struct series *s)
{
    if (s->time == 0) return;
    s->next--;
    if (s->next == 0) {
        s->count++;
        s->next = s->interval;
    }
    if (s->time != FOR_EVER) s->time--;
}

/* 27, else a second passes; *handed is what the running macro handed over. An entry that is dark when its turn comes gets 26 and has no effect. */
static uint8_t second(struct bench *b, struct group *handed)
{
    handed->count = 0;
    struct span spans[MACROS];
    if (!sound(b, spans)) return 27;
    series_second(&b->image);
    series_second(&b->track);
    if (b->running == NONE) return 0;
    unsigned passed = length(&spans[b->running]) - b->left;
    gather(b, b->running, &passed, spans, handed);
    b->left--;
    if (b->left == 0) b->running = NONE;
    for (unsigned i = 0; i < handed->count; i++) {
        const struct command *c = &handed->entries[i];
        handed->codes[i] = dark(b, c) ? 26 : 0;
        if (handed->codes[i] == 0) execute(b, c);
    }
    return 0;
}

static void fresh_seats(struct seats *s)
{
    memset(s, 0, sizeof *s);
    fresh(&s->bench);
    s->last = SEATS - 1;
}

/* At most 32 commands wait, each of which passes 8 to 10. */
static bool queue_sound(const struct queue *q)
{
    if (q->count > WAITING) return false;
    for (const struct command *c = q->commands; c < q->commands + q->count; c++) {
        struct stray stray;
        if (judge(c, &stray) != 0) return false;
    }
    return true;
}

/* 27: may this state of the seats and their bench be? */
static bool seats_sound(const struct seats *s)
{
    struct span spans[MACROS];
    if (s->last >= SEATS) return false;
    for (unsigned seat = 0; seat < SEATS; seat++) {
        if (!queue_sound(&s->queues[seat])) return false;
    }
    return sound(&s->bench, spans);
}

/* 27, 51, 1 to 10, 53, 52. */
static uint8_t queue(struct seats *s, uint8_t seat, const uint8_t *bytes, size_t size, struct stray *stray)
{
    if (!seats_sound(s)) return 27;
    if (seat >= SEATS) return 51;
    struct command c;
    size_t reach;
    uint8_t code = read_command(bytes, size, &c, &reach, stray);
    if (code != 0) return code;
    if (reach < size) return 53;
    struct queue *q = &s->queues[seat];
    if (q->count == WAITING) return 52;
    q->commands[q->count++] = c;
    q->queued++;
    return 0;
}

/* The next waiting seat after the last served; SEATS where none waits. */
static unsigned next_waiting(const struct seats *s)
{
    for (unsigned i = 1; i <= SEATS; i++) {
        unsigned seat = (s->last + i) % SEATS;
        if (s->queues[seat].count > 0) return seat;
    }
    return SEATS;
}

/* 27, else the oldest command of the next waiting seat is carried out, and *record tells of it; *served says whether there was one. */
static uint8_t turn(struct seats *s, uint8_t *record, bool *served)
{
    *served = false;
    if (!seats_sound(s)) return 27;
    unsigned seat = next_waiting(s);
    if (seat == SEATS) return 0;
    struct queue *q = &s->queues[seat];
    record[0] = (uint8_t)seat;
    record[1] = take_decoded(&s->bench, &q->commands[0]);
    record[2] = record[3] = 0;
    put32(record + 4, q->queued - q->count + 1);
    put32(record + 8, 0);
    q->count--;
    memmove(q->commands, q->commands + 1, q->count * sizeof q->commands[0]);
    s->last = (uint8_t)seat;
    *served = true;
    return 0;
}

/* Typed lists: one command a line, as names and decimal arguments. */

struct name {
    const char *text;
    uint8_t length, arguments;
};

static const struct name names[] = {
    { "img_pwr", 7, 1 }, { "img_region", 10, 2 }, { "img_track", 9, 2 }, { "trk_alg", 7, 1 }, { "trk_loop", 8, 1 },
    { "img_image", 9, 2 }, { "trk_goal", 8, 2 }, { "tlm_flush", 9, 0 }, { "flush_auto", 10, 1 }, { "open", 4, 1 },
    { "close", 5, 0 }, { "run", 3, 1 }, { "wait", 4, 1 }, { "stop", 4, 0 }, { "clear", 5, 0 }
};

enum { KINDS = sizeof names / sizeof names[0] };

/* A part of a line, between blanks. */
struct word {
    const uint8_t *start;
    size_t size;
};

static int kind_named(struct word w)
{
    for (int k = 0; k < KINDS; k++) {
        if (names[k].length == w.size && memcmp(names[k].text, w.start, w.size) == 0) return k;
    }
    return -1;
}

/* The digits at the front of a word, up to one too many, and their value. */
static size_t digits(struct word w, uint32_t *value)
{
    size_t n = 0;
    *value = 0;
    while (n < w.size && n <= DIGITS && w.start[n] >= '0' && w.start[n] <= '9') *value = *value * 10 + (w.start[n++] - '0');
    return n;
}

static bool whole(struct word w, uint32_t *value)
{
    size_t n = digits(w, value);
    return n >= 1 && n <= DIGITS && n == w.size;
}

static bool goal(struct word w, float *value)
{
    uint32_t v;
    size_t n = digits(w, &v);
    if (n < 1 || n > DIGITS) return false;
    const uint8_t *end = w.start + n;
    *value = (float)v;
    switch (w.size - n) {
    case 0:
        return true;
    case 2:
        *value += 0.5f;
        return end[0] == '.' && end[1] == '5';
    case 3:
        *value += end[1] == '2' ? 0.25f : 0.75f;
        return end[0] == '.' && (end[1] == '2' || end[1] == '7') && end[2] == '5';
    }
    return false;
}

/* 8 where a number is too large for its field; the rest of 8 to 10 is left to the writer. */
static uint8_t set_numbers(struct command *c, uint32_t first, uint32_t second, struct stray *stray)
{
    switch (c->kind) {
    case IMG_PWR: case TRK_ALG: case TRK_LOOP: case FLUSH_AUTO: case OPEN: case RUN:
        if (first > 255) return out_of_range(c, 1, first, stray);
        c->mode = (uint8_t)first;
        break;
    case WAIT:
        if (first > 65535) return out_of_range(c, 1, first, stray);
        c->seconds = (uint16_t)first;
        break;
    case IMG_REGION: case IMG_TRACK: case IMG_IMAGE:
        if (first > limits[c->kind][0].high) return out_of_range(c, 1, first, stray);
        if (second > 65535) return out_of_range(c, 2, second, stray);
        c->first = (uint16_t)first;
        c->second = (uint16_t)second;
        break;
    }
    return 0;
}

/* 30, 32, 31, then 8 as above, on a line that is neither empty nor a remark. */
static uint8_t read_line(const uint8_t *s, size_t size, struct command *c, struct stray *stray)
{
    struct word words[3]; /* the name and two arguments */
    size_t count = 0, start = s[0] == '+';
    c->flag = s[0] == '+';
    for (size_t at = start; at <= size; at++) {
        if (at < size && s[at] != ' ') continue;
        if (count < 3) words[count] = (struct word){ s + start, at - start };
        count++;
        start = at + 1;
    }
    int kind = kind_named(words[0]);
    if (kind < 0) return 30;
    if (count != names[kind].arguments + 1u) return 32;
    c->kind = (uint8_t)kind;
    if (kind == TRK_GOAL) {
        float x, y;
        if (!goal(words[1], &x) || !goal(words[2], &y)) return 31;
        c->x = x;
        c->y = y;
        return 0;
    }
    uint32_t numbers[2] = { 0, 0 };
    for (size_t i = 1; i < count; i++) {
        if (!whole(words[i], &numbers[i - 1])) return 31;
    }
    return set_numbers(c, numbers[0], numbers[1], stray);
}

/* What became of a text or a list: a code, the line or the command that was refused (0 where it is neither), bytes written. */
struct placed {
    uint8_t code;
    uint32_t place;
    size_t bytes;
};

static struct placed placed(uint8_t code, uint32_t place, size_t bytes)
{
    struct placed p = { code, place, bytes };
    return p;
}

/* 20, the first bad line, 20, 24. The list is made beside the room, so that a refusal leaves the room alone. */
static struct placed assembled(const uint8_t *text, size_t size, uint8_t *room, size_t fits, struct stray *stray)
{
    uint8_t list[LIST];
    size_t made = 0;
    uint32_t line = 0;
    bool too_long = false;
    if (size > TEXT) return placed(20, 0, 0);
    for (size_t at = 0, end; at < size; at = end + 1) {
        const uint8_t *feed = memchr(text + at, '\n', size - at);
        end = feed != NULL ? (size_t)(feed - text) : size;
        line++;
        if (end == at || text[at] == '#') continue;
        struct command c;
        size_t n = 0;
        uint8_t code = read_line(text + at, end - at, &c, stray);
        if (code == 0) code = write_command(&c, list + made, LIST - made, &n, stray);
        if (code == 24) too_long = true; /* a bad line further down still comes first */
        else if (code != 0) return placed(code, line, 0);
        made += n;
    }
    if (too_long) return placed(20, 0, 0);
    if (made > fits) return placed(24, 0, 0);
    memcpy(room, list, made);
    return placed(0, 0, made);
}

static uint8_t *put_number(uint8_t *out, uint32_t value)
{
    uint8_t reversed[10];
    unsigned n = 0;
    do {
        reversed[n++] = (uint8_t)('0' + value % 10);
        value /= 10;
    } while (value != 0);
    while (n > 0) *out++ = reversed[--n];
    return out;
}

/* A goal that is allowed; NULL where it is no number of quarters. */
static uint8_t *put_goal(uint8_t *out, float value)
{
    static const char *const endings[] = { "", ".25", ".5", ".75" };
    uint32_t quarters = (uint32_t)(value * 4);
    if (bits((float)quarters / 4) != bits(value)) return NULL;
    out = put_number(out, quarters / 4);
    for (const char *s = endings[quarters % 4]; *s != '\0'; s++) *out++ = (uint8_t)*s;
    return out;
}

/* The line of a command that passed 1 to 10; NULL for 33. */
static uint8_t *put_line(uint8_t *out, const struct command *c)
{
    if (c->flag) *out++ = '+';
    memcpy(out, names[c->kind].text, names[c->kind].length);
    out += names[c->kind].length;
    if (names[c->kind].arguments > 0) *out++ = ' ';
    switch (c->kind) {
    case IMG_PWR: case TRK_ALG: case TRK_LOOP: case FLUSH_AUTO: case OPEN: case RUN:
        out = put_number(out, c->mode);
        break;
    case WAIT:
        out = put_number(out, c->seconds);
        break;
    case IMG_REGION: case IMG_TRACK: case IMG_IMAGE:
        out = put_number(out, c->first);
        *out++ = ' ';
        out = put_number(out, c->second);
        break;
    case TRK_GOAL:
        out = put_goal(out, c->x);
        if (out == NULL) return NULL;
        *out++ = ' ';
        out = put_goal(out, c->y);
        if (out == NULL) return NULL;
        break;
    }
    *out++ = '\n';
    return out;
}

/* 20, the first bad command, 24. The text is made beside the room, as above. */
static struct placed listed(const uint8_t *list, size_t size, uint8_t *room, size_t fits, struct stray *stray)
{
    uint8_t text[LISTED], *out = text;
    uint32_t number = 0;
    size_t reach;
    if (size > LIST) return placed(20, 0, 0);
    for (size_t at = 0; at < size; at += reach) {
        struct command c;
        number++;
        uint8_t code = read_command(list + at, size - at, &c, &reach, stray);
        if (code != 0) return placed(code, number, 0);
        out = put_line(out, &c);
        if (out == NULL) return placed(33, number, 0);
    }
    size_t made = (size_t)(out - text);
    if (made > fits) return placed(24, 0, 0);
    memcpy(room, text, made);
    return placed(0, 0, made);
}

/* Lists on a memory card: numbers in groups of seven bits, the lowest first. */

static uint8_t *put_groups(uint8_t *out, uint32_t value)
{
    for (; value >= MORE; value >>= GROUP_BITS) *out++ = (uint8_t)(value | MORE);
    *out++ = (uint8_t)value;
    return out;
}

/* 34, 35, else the number at the front of *s, which is then behind it. */
static inline uint8_t get_groups(const uint8_t **s, const uint8_t *end, uint32_t *value)
{
    const uint8_t *p = *s;
    uint64_t sum = 0;
    for (unsigned shift = 0; shift < MOST_GROUPS * GROUP_BITS; shift += GROUP_BITS) {
        if (p == end) return 34;
        uint8_t group = *p++;
        sum |= (uint64_t)(group & (MORE - 1)) << shift;
        if (group < MORE) {
            if (sum > UINT32_MAX || (group == 0 && shift > 0)) return 35;
            *value = (uint32_t)sum;
            *s = p;
            return 0;
        }
    }
    while (p < end) {
        if (*p++ < MORE) return 35;
    }
    return 34;
}

/* The stored form of a command that passed 1 to 10. */
static uint8_t *put_stored(uint8_t *out, const struct command *c)
{
    out = put_groups(out, opcode_of(c->kind));
    out = put_groups(out, c->flag);
    switch (c->kind) {
    case IMG_PWR: case TRK_ALG: case TRK_LOOP: case FLUSH_AUTO: case OPEN: case RUN:
        return put_groups(out, c->mode);
    case WAIT:
        return put_groups(out, c->seconds);
    case IMG_REGION: case IMG_TRACK: case IMG_IMAGE:
        return put_groups(put_groups(out, c->first), c->second);
    case TRK_GOAL:
        return put_groups(put_groups(out, bits(c->x)), bits(c->y));
    }
    return out;
}

/* 20, the first bad command, 24. The stored form is made beside the room, as above; only the number of commands has to be known before it. */
static struct placed stored(const uint8_t *list, size_t size, uint8_t *room, size_t fits, struct stray *stray)
{
    uint8_t head[2 * MOST_GROUPS], commands[LIST], *out = commands; /* no command takes more bytes than it did */
    uint32_t number = 0;
    size_t reach;
    if (size > LIST) return placed(20, 0, 0);
    for (size_t at = 0; at < size; at += reach) {
        struct command c;
        number++;
        uint8_t code = read_command(list + at, size - at, &c, &reach, stray);
        if (code != 0) return placed(code, number, 0);
        out = put_stored(out, &c);
    }
    size_t before = (size_t)(put_groups(put_groups(head, STORED_FORM), number) - head), made = (size_t)(out - commands);
    if (before + made > fits) return placed(24, 0, 0);
    memcpy(room, head, before);
    memcpy(room + before, commands, made);
    return placed(0, 0, before + made);
}

/* 34, 35, 8 on an argument of this command, 1 or 2. */
static uint8_t get_argument(const uint8_t **s, const uint8_t *end, const struct command *c, uint8_t par, uint32_t *value, struct stray *stray)
{
    const struct limits *l = &limits[c->kind][par - 1];
    uint8_t code = get_groups(s, end, value);
    if (code != 0) return code;
    if (*value >= l->low && *value <= l->high) return 0;
    return c->kind == TRK_GOAL && goal_allowed(*value) ? 0 : out_of_range(c, par, *value, stray);
}

/* 34 and 35 at each number, then 5, 38 or 8; 9 and 10 are left to the writer. */
static uint8_t get_stored(const uint8_t **s, const uint8_t *end, struct command *c, struct stray *stray)
{
    uint32_t opcode, flag, numbers[2] = { 0, 0 };
    unsigned words;
    uint8_t code = get_groups(s, end, &opcode);
    if (code != 0) return code;
    int kind = opcode > UINT16_MAX ? -1 : kind_of((uint16_t)opcode, &words);
    if (kind < 0) return 5;
    code = get_groups(s, end, &flag);
    if (code != 0) return code;
    if (flag > 1) return 38;
    c->flag = flag == 1;
    c->kind = (uint8_t)kind;
    for (uint8_t i = 0; i < names[kind].arguments; i++) {
        code = get_argument(s, end, c, i + 1, &numbers[i], stray);
        if (code != 0) return code;
    }
    switch (kind) {
    case IMG_PWR: case TRK_ALG: case TRK_LOOP: case FLUSH_AUTO: case OPEN: case RUN:
        c->mode = (uint8_t)numbers[0];
        break;
    case WAIT:
        c->seconds = (uint16_t)numbers[0];
        break;
    case IMG_REGION: case IMG_TRACK: case IMG_IMAGE:
        c->first = (uint16_t)numbers[0];
        c->second = (uint16_t)numbers[1];
        break;
    case TRK_GOAL:
        c->x = single(numbers[0]);
        c->y = single(numbers[1]);
        break;
    }
    return 0;
}

/* 34, 35, 36, the first bad command, 37, 20, 24. The list is made beside the room, as above. */
static struct placed restored(const uint8_t *stored, size_t size, uint8_t *room, size_t fits, struct stray *stray)
{
    const uint8_t *s = stored, *end = stored + size;
    uint8_t list[LIST];
    size_t made = 0;
    uint32_t first, count;
    bool too_long = false;
    uint8_t code = get_groups(&s, end, &first);
    if (code == 0 && first != STORED_FORM) code = 36;
    if (code == 0) code = get_groups(&s, end, &count);
    if (code != 0) return placed(code, 0, 0);
    for (uint32_t i = 0; i < count; i++) {
        struct command c;
        size_t n = 0;
        code = get_stored(&s, end, &c, stray);
        if (code == 0) code = write_command(&c, list + made, LIST - made, &n, stray);
        if (code == 24) too_long = true; /* a bad command further down still comes first */
        else if (code != 0) return placed(code, i + 1, 0);
        made += n;
    }
    if (s != end) return placed(37, 0, 0);
    if (too_long) return placed(20, 0, 0);
    if (made > fits) return placed(24, 0, 0);
    memcpy(room, list, made);
    return placed(0, 0, made);
}

/* A command as a part of its list. */
struct part {
    const uint8_t *start;
    size_t size;
};

/* How many bytes the command at the front takes: all of them where codes 1 to 3 end the list. */
static size_t reach_of(const uint8_t *s, size_t size)
{
    if (size < 8) return size;
    size_t length = get16(s + 2) & 0x7fff;
    if (length < 2 || length > 32 || 4 * length > size) return size;
    return 4 * length;
}

/* Do these offsets number 512 at most, start at 0, rise and lie in a list of so many bytes? None do. */
static bool offsets_fit(const uint16_t *offsets, size_t count, size_t size)
{
    if (count == 0) return true;
    if (count > INDEX || offsets[0] != 0) return false;
    for (size_t i = 1; i < count; i++) {
        if (offsets[i] <= offsets[i - 1]) return false;
    }
    return offsets[count - 1] < size; /* the highest, as they rise */
}

/* 20, 54, 24. All earlier offsets but the last stay, and the list is walked on from that one. What is found is put beside the room, so that a refusal
   leaves the room alone. */
static uint8_t build_index(const uint8_t *list, size_t size, const uint16_t *old, size_t olds, uint16_t *room, size_t fits, size_t *count)
{
    uint16_t found[INDEX]; /* no walk has more: every command but the last takes 8 bytes at least */
    size_t kept = olds == 0 ? 0 : olds - 1, n = 0;
    *count = 0;
    if (size > LIST) return 20;
    if (!offsets_fit(old, olds, size)) return 54;
    for (size_t at = olds == 0 ? 0 : old[kept]; at < size; at += reach_of(list + at, size - at)) found[n++] = (uint16_t)at;
    if (kept + n > INDEX || kept + n > fits) return 24;
    memcpy(room, old, kept * sizeof *room);
    memcpy(room + kept, found, n * sizeof *room);
    *count = kept + n;
    return 0;
}

static struct part part_at(const uint8_t *list, size_t size, size_t at)
{
    if (at >= size) return (struct part){ list, 0 };
    return (struct part){ list + at, reach_of(list + at, size - at) };
}

/* The command of a number, from 1, through an index of its list; empty where there is none. */
static struct part look_up(const uint8_t *list, size_t size, const uint16_t *offsets, size_t count, uint32_t number)
{
    if (size > LIST || number == 0 || number > count) return (struct part){ list, 0 };
    return part_at(list, size, offsets[number - 1]);
}

/* The command of a number by a walk from the list's start. */
static struct part walked_to(const uint8_t *list, size_t size, uint32_t number)
{
    size_t at = 0;
    if (number == 0) return (struct part){ list, 0 };
    for (uint32_t n = 1; n < number && at < size; n++) at += reach_of(list + at, size - at);
    return part_at(list, size, at);
}

/* The command of a sender's record; empty where there is none. */
static struct part shown(const uint8_t *kit, size_t kits, const uint8_t *pupil, size_t pupils, uint8_t sender, uint32_t number)
{
    if (kits <= LIST && pupils <= LIST) {
        if (sender == KIT) return walked_to(kit, kits, number);
        if (sender == PUPIL) return walked_to(pupil, pupils, number);
    }
    return (struct part){ kit, 0 };
}

/* What came of a rescue. */
struct rescued {
    uint8_t code;
    size_t kept, stretches;
};

/* Do codes 1 to 8 let the command at the front pass? *reach is how far it reaches. What would reach further than any command can need not be read. */
static bool passes(const uint8_t *s, size_t size, size_t *reach)
{
    struct command c;
    struct stray stray;
    if (reach_of(s, size) > LONGEST_COMMAND) return false;
    uint8_t code = read_command(s, size, &c, reach, &stray);
    return code == 0 || code == 9 || code == 10;
}

/* 20, 24. Only the stretches are noted on the way: what lies between them is copied at the end, when it is known that both rooms are large enough. */
static struct rescued rescue(const uint8_t *list, size_t size, uint8_t *room, size_t fits, uint8_t *table, size_t places)
{
    struct { uint16_t start, length; } skipped[STRETCHES];
    size_t stretches = 0, kept = 0, from = 0;
    if (size > LIST) return (struct rescued){ 20, 0, 0 };
    for (size_t at = 0; at < size;) {
        size_t start = at, reach = 0;
        while (at < size && !passes(list + at, size - at, &reach)) at++;
        if (at > start) {
            skipped[stretches].start = (uint16_t)start;
            skipped[stretches].length = (uint16_t)(at - start);
            stretches++;
        }
        if (at == size) break;
        kept += reach;
        at += reach;
    }
    if (kept > fits || STRETCH * stretches > places) return (struct rescued){ 24, 0, 0 };
    for (size_t i = 0; i < stretches; i++) {
        size_t n = skipped[i].start - from;
        memcpy(room, list + from, n);
        room += n;
        from = (size_t)skipped[i].start + skipped[i].length;
        put16(table + STRETCH * i, skipped[i].start);
        put16(table + STRETCH * i + 2, skipped[i].length);
    }
    memcpy(room, list + from, size - from);
    return (struct rescued){ 0, kept, stretches };
}

/* The measured jobs, as in crates/timing. */

static uint64_t mixed(uint64_t sum, uint64_t value)
{
    return (sum ^ sum / 8) + value;
}

static uint64_t with_command(uint64_t sum, const struct command *c)
{
    uint32_t first = 0, second = 0;
    switch (c->kind) {
    case IMG_PWR: case TRK_ALG: case TRK_LOOP: case FLUSH_AUTO: case OPEN: case RUN:
        first = c->mode;
        break;
    case WAIT:
        first = c->seconds;
        break;
    case IMG_REGION: case IMG_TRACK: case IMG_IMAGE:
        first = c->first;
        second = c->second;
        break;
    case TRK_GOAL:
        first = bits(c->x);
        second = bits(c->y);
        break;
    }
    sum = mixed(mixed(sum, first), second);
    return c->flag ? mixed(sum, 1) : sum;
}

static uint64_t with_group(uint64_t sum, const struct group *g)
{
    sum = mixed(sum, g->count);
    for (unsigned i = 0; i < g->count; i++) sum = mixed(with_command(sum, &g->entries[i]), g->codes[i]);
    return sum;
}

static uint64_t with_code(uint64_t sum, uint8_t code, const struct stray *stray)
{
    return mixed(mixed(mixed(mixed(mixed(sum, code), stray->par), stray->value), stray->low), stray->high);
}

static uint64_t with_placed(uint64_t sum, struct placed p, const struct stray *stray)
{
    return mixed(mixed(with_code(sum, p.code, stray), p.place), p.bytes);
}

static uint64_t with_frame(uint64_t sum, const struct frame *f)
{
    sum = mixed(mixed(sum, f->image_time), f->track_time);
    sum = mixed(mixed(sum, f->image_interval), f->track_interval);
    sum = mixed(mixed(sum, f->images), f->tracks);
    sum = mixed(mixed(sum, f->x), f->y);
    sum = mixed(mixed(sum, f->xgoal), f->ygoal);
    sum = mixed(mixed(mixed(sum, f->power), f->automatic), f->loop);
    sum = mixed(mixed(sum, f->algorithm), f->flushes);
    sum = mixed(mixed(sum, f->running), f->opened);
    return mixed(mixed(sum, f->left), f->closed);
}

static uint64_t with_status(uint64_t sum, const struct bench *b)
{
    struct frame f;
    struct span spans[MACROS];
    if (!sound(b, spans)) return mixed(sum, 27);
    status(b, &f);
    return with_frame(sum, &f);
}

static uint64_t with_housekeeping(uint64_t sum, const struct housekeeping *h)
{
    sum = mixed(mixed(sum, h->latest.received), h->latest.failed);
    return mixed(mixed(sum, h->latest.code), h->free);
}

static uint64_t with_valve_frame(uint64_t sum, const struct valve_frame *f)
{
    sum = mixed(mixed(mixed(sum, f->ocpl), f->quiet), f->fires);
    return f->fires ? mixed(sum, f->code) : sum;
}

static uint64_t with_housekept(uint64_t sum, const struct bench *b)
{
    struct housekeeping h;
    uint8_t code = housekeeping(b, &h);
    return code == 0 ? with_housekeeping(sum, &h) : mixed(sum, code);
}

static uint64_t with_bench(uint64_t sum, const struct bench *b)
{
    return with_housekept(with_status(sum, b), b);
}

uint64_t plain_read(const uint8_t *bytes, size_t size, uint32_t times)
{
    uint64_t sum = 0;
    if (size < 256) return 0;
    for (uint32_t i = 0; i < times; i++) {
        struct command c;
        size_t reach, at = i % 16 * 16;
        struct stray stray = { 0 };
        uint8_t code = read_command(bytes + at, size - at, &c, &reach, &stray);
        sum = code == 0 ? with_command(sum, &c) : with_code(sum, code, &stray);
    }
    return sum;
}

uint64_t plain_write(const uint8_t *bytes, size_t size, uint8_t *room, size_t fits, uint32_t times)
{
    struct command commands[16];
    size_t reach;
    uint64_t sum = 0;
    if (size < 256 || fits < 256) return 0;
    for (int i = 0; i < 16; i++) {
        struct stray stray;
        if (read_command(bytes + i * 16, size - i * 16, &commands[i], &reach, &stray) != 0) {
            commands[i].flag = false;
            commands[i].kind = TLM_FLUSH;
        }
    }
    for (uint32_t i = 0; i < times; i++) {
        size_t k = i % 16, n;
        struct stray stray = { 0 };
        uint8_t code = write_command(&commands[k], room + k * 16, fits - k * 16, &n, &stray);
        sum = code == 0 ? mixed(sum, n) : with_code(sum, code, &stray);
    }
    return sum;
}

uint64_t plain_frame_read(const uint8_t *bytes, size_t size, uint32_t times)
{
    uint64_t sum = 0;
    if (size < 256) return 0;
    for (uint32_t i = 0; i < times; i++) {
        struct frame f;
        uint8_t code = read_frame(bytes + i % 8 * 32, 32, &f);
        sum = code == 0 ? with_frame(sum, &f) : mixed(sum, code);
    }
    return sum;
}

uint64_t plain_frame_write(const uint8_t *bytes, size_t size, uint8_t *room, size_t fits, uint32_t times)
{
    struct frame frames[8];
    uint64_t sum = 0;
    if (size < 256 || fits < 256) return 0;
    for (int i = 0; i < 8; i++) {
        if (read_frame(bytes + i * 32, 32, &frames[i]) != 0) {
            struct bench idle;
            fresh(&idle);
            status(&idle, &frames[i]);
        }
    }
    for (uint32_t i = 0; i < times; i++) {
        size_t k = i % 8;
        sum = mixed(sum, write_frame(&frames[k], room + k * 32, fits - k * 32));
    }
    return sum;
}

uint64_t plain_housekeeping_read(const uint8_t *bytes, size_t size, uint32_t each, uint32_t times)
{
    uint64_t sum = 0;
    if (size < 256 || each > 32) return 0;
    for (uint32_t i = 0; i < times; i++) {
        struct housekeeping h;
        uint8_t code = read_housekeeping(bytes + i % 8 * 32, each, &h);
        sum = code == 0 ? with_housekeeping(sum, &h) : mixed(sum, code);
    }
    return sum;
}

uint64_t plain_housekeeping_write(const uint8_t *bytes, size_t size, uint8_t *room, size_t fits, uint32_t each, uint32_t times)
{
    struct housekeeping frames[8];
    uint64_t sum = 0;
    if (size < 256 || fits < 256 || each > 32) return 0;
    for (int i = 0; i < 8; i++) {
        if (read_housekeeping(bytes + i * 32, HOUSEKEEPING, &frames[i]) != 0) frames[i] = (struct housekeeping){ 0 };
    }
    for (uint32_t i = 0; i < times; i++) {
        size_t k = i % 8;
        sum = mixed(sum, write_housekeeping(&frames[k], room + k * 32, each));
    }
    return sum;
}

uint64_t plain_valve_read(const uint8_t *bytes, size_t size, uint32_t each, uint32_t times)
{
    uint64_t sum = 0;
    if (size < 640 || each > 80) return 0;
    for (uint32_t i = 0; i < times; i++) {
        struct valve_frame f;
        uint8_t code = read_valve_frame(bytes + i % 8 * 80, each, &f);
        sum = code == 0 ? with_valve_frame(sum, &f) : mixed(sum, code);
    }
    return sum;
}

uint64_t plain_valve_write(const uint8_t *bytes, size_t size, uint8_t *room, size_t fits, uint32_t each, uint32_t times)
{
    struct valve_frame frames[8];
    uint64_t sum = 0;
    if (size < 640 || fits < 640 || each > 80) return 0;
    for (int i = 0; i < 8; i++) {
        if (read_valve_frame(bytes + i * 80, VALVE_FRAME, &frames[i]) != 0) frames[i] = (struct valve_frame){ 0 };
    }
    for (uint32_t i = 0; i < times; i++) {
        size_t k = i % 8;
        uint8_t code = write_valve_frame(&frames[k], room + k * 80, each);
        sum = mixed(sum, code == 0 ? VALVE_FRAME : code);
    }
    return sum;
}

uint64_t plain_valve_carry_out(const uint8_t *bytes, size_t size, uint32_t each, uint32_t times)
{
    struct valve v = { 0 };
    uint64_t sum = 0;
    if (size < 640 || each > 80) return 0;
    for (uint32_t i = 0; i < times; i++) {
        sum = mixed(sum, carry_out(&v, bytes + i % 8 * 80, each));
        sum = mixed(sum, valve_status(&v));
    }
    return sum;
}

uint64_t plain_run(const uint8_t *kit, size_t kits, const uint8_t *pupil, size_t pupils, uint8_t *room, size_t fits, uint32_t times)
{
    struct bench b;
    uint64_t sum = 0;
    fresh(&b);
    for (uint32_t i = 0; i < times; i++) {
        uint32_t records[2];
        fresh(&b);
        run(&b, kit, kits, pupil, pupils, room, fits, records);
        sum = mixed(mixed(sum, records[0]), records[1]);
    }
    return with_bench(sum, &b);
}

uint64_t plain_seconds(const uint8_t *list, size_t size, uint8_t *room, size_t fits, uint32_t seconds, uint32_t times)
{
    struct bench start, b;
    uint32_t records[2];
    uint64_t sum = 0;
    fresh(&start);
    run(&start, list, 0, list, size, room, fits, records);
    b = start;
    for (uint32_t i = 0; i < times; i++) {
        b = start;
        for (uint32_t s = 0; s < seconds; s++) {
            struct group handed;
            second(&b, &handed);
            sum = with_group(sum, &handed);
        }
    }
    return with_bench(sum, &b);
}

uint64_t plain_assemble(const uint8_t *text, size_t size, uint8_t *room, size_t fits, uint32_t times)
{
    uint64_t sum = 0;
    for (uint32_t i = 0; i < times; i++) {
        struct stray stray = { 0 };
        struct placed p = assembled(text, size, room, fits, &stray);
        sum = with_placed(sum, p, &stray);
    }
    return sum;
}

uint64_t plain_list(const uint8_t *list, size_t size, uint8_t *room, size_t fits, uint32_t times)
{
    uint64_t sum = 0;
    for (uint32_t i = 0; i < times; i++) {
        struct stray stray = { 0 };
        struct placed p = listed(list, size, room, fits, &stray);
        sum = with_placed(sum, p, &stray);
    }
    return sum;
}

uint64_t plain_index(const uint8_t *list, size_t size, const uint16_t *old, size_t olds, uint16_t *room, size_t fits, uint32_t times)
{
    uint64_t sum = 0;
    for (uint32_t i = 0; i < times; i++) {
        size_t count;
        uint8_t code = build_index(list, size, old, olds, room, fits, &count);
        sum = mixed(mixed(sum, code), count);
    }
    for (size_t i = 0; i < fits; i++) sum = mixed(sum, room[i]);
    return sum;
}

/* Its size and one byte of it, in turn each of the first sixteen. */
static uint64_t with_part(uint64_t sum, struct part p, uint32_t turn)
{
    size_t at = turn % 16;
    sum = mixed(sum, p.size);
    return at < p.size ? mixed(sum, p.start[at]) : sum;
}

uint64_t plain_look_up(const uint8_t *list, size_t size, const uint16_t *offsets, size_t count, uint32_t number, uint32_t times)
{
    uint64_t sum = 0;
    for (uint32_t i = 0; i < times; i++) sum = with_part(sum, look_up(list, size, offsets, count, number ^ (uint32_t)(sum % 4)), i);
    return sum;
}

uint64_t plain_shown(const uint8_t *kit, size_t kits, const uint8_t *pupil, size_t pupils, uint8_t sender, uint32_t number, uint32_t times)
{
    uint64_t sum = 0;
    for (uint32_t i = 0; i < times; i++) sum = with_part(sum, shown(kit, kits, pupil, pupils, sender, number ^ (uint32_t)(sum % 4)), i);
    return sum;
}

uint64_t plain_to_card(const uint8_t *list, size_t size, uint8_t *room, size_t fits, uint32_t times)
{
    uint64_t sum = 0;
    for (uint32_t i = 0; i < times; i++) {
        struct stray stray = { 0 };
        struct placed p = stored(list, size, room, fits, &stray);
        sum = with_placed(sum, p, &stray);
    }
    return sum;
}

uint64_t plain_from_card(const uint8_t *stored, size_t size, uint8_t *room, size_t fits, uint32_t times)
{
    uint64_t sum = 0;
    for (uint32_t i = 0; i < times; i++) {
        struct stray stray = { 0 };
        struct placed p = restored(stored, size, room, fits, &stray);
        sum = with_placed(sum, p, &stray);
    }
    return sum;
}

uint64_t plain_rescue(const uint8_t *list, size_t size, uint8_t *room, size_t fits, uint8_t *table, size_t places, uint32_t times)
{
    uint64_t sum = 0;
    for (uint32_t i = 0; i < times; i++) {
        struct rescued r = rescue(list, size, room, fits, table, places);
        sum = mixed(mixed(mixed(sum, r.code), r.kept), r.stretches);
    }
    return sum;
}

/* How many wait, how many were queued so far, and each that waits: by its opcode too, as some kinds have no arguments. */
static uint64_t with_queue(uint64_t sum, const struct queue *q)
{
    sum = mixed(mixed(sum, q->count), q->queued);
    for (unsigned i = 0; i < q->count && i < WAITING; i++) sum = mixed(with_command(sum, &q->commands[i]), opcode_of(q->commands[i].kind));
    return sum;
}

static uint64_t with_seats(uint64_t sum, const struct seats *s)
{
    sum = mixed(sum, s->last);
    for (unsigned seat = 0; seat < SEATS; seat++) sum = with_queue(sum, &s->queues[seat]);
    return with_bench(sum, &s->bench);
}

static uint64_t with_turn(uint64_t sum, uint8_t code, bool served, const uint8_t *record)
{
    sum = mixed(mixed(sum, code), served);
    if (!served) return sum;
    for (unsigned i = 0; i < RECORD; i++) sum = mixed(sum, record[i]);
    return sum;
}

/* Four seats on a fresh bench, for which the commands of these events wait, in turn each seat's. */
static void seats_with(struct seats *s, const uint8_t *events, size_t size)
{
    fresh_seats(s);
    for (size_t i = 0; i < size / EVENT && i < SEATS * WAITING; i++) {
        struct queue *q = &s->queues[i % SEATS];
        struct command *c = &q->commands[q->count];
        struct stray stray;
        size_t reach;
        if (read_command(events + EVENT * i + BYTES_AT, EVENT - BYTES_AT, c, &reach, &stray) != 0) *c = (struct command){ .kind = TLM_FLUSH };
        q->count++;
        q->queued++;
    }
}

uint64_t plain_queue(const uint8_t *waiting, size_t waits, const uint8_t *events, size_t size, uint32_t times)
{
    struct seats start, s;
    uint64_t sum = 0;
    seats_with(&start, waiting, waits);
    s = start;
    for (uint32_t i = 0; i < times; i++) {
        s = start;
        for (size_t at = 0; at + EVENT <= size; at += EVENT) {
            struct stray stray = { 0 };
            uint8_t code = queue(&s, events[at + SEAT_AT], events + at + BYTES_AT, events[at + SIZE_AT], &stray);
            sum = with_code(sum, code, &stray);
        }
    }
    return with_seats(sum, &s);
}

uint64_t plain_turn(const uint8_t *waiting, size_t waits, uint32_t turns, uint32_t times)
{
    struct seats start, s;
    uint64_t sum = 0;
    seats_with(&start, waiting, waits);
    s = start;
    for (uint32_t i = 0; i < times; i++) {
        s = start;
        for (uint32_t t = 0; t < turns; t++) {
            uint8_t record[RECORD];
            bool served;
            uint8_t code = turn(&s, record, &served);
            sum = with_turn(sum, code, served, record);
        }
    }
    return with_seats(sum, &s);
}

/* A command of the kind with this opcode, which nothing has judged; a flush where there is none. */
static struct command unjudged(uint16_t opcode, bool flag, uint32_t first, uint32_t second)
{
    unsigned words;
    int kind = kind_of(opcode, &words);
    struct command c = { .flag = flag, .kind = (uint8_t)(kind < 0 ? TLM_FLUSH : kind) };
    switch (kind) {
    case IMG_PWR: case TRK_ALG: case TRK_LOOP: case FLUSH_AUTO: case OPEN: case RUN:
        c.mode = (uint8_t)first;
        break;
    case WAIT:
        c.seconds = (uint16_t)first;
        break;
    case IMG_REGION: case IMG_TRACK: case IMG_IMAGE:
        c.first = (uint16_t)first;
        c.second = (uint16_t)second;
        break;
    case TRK_GOAL:
        c.x = single(first);
        c.y = single(second);
        break;
    }
    return c;
}

static void change_queue(struct queue *q, const uint8_t *event)
{
    uint8_t place = event[PLACE_AT];
    if (place < WAITING) {
        q->commands[place] = unjudged(get16(event + OPCODE_AT), event[FLAG_AT] == 1, get32(event + FIRST_AT), get32(event + SECOND_AT));
    }
    q->count = event[SIZE_AT];
    q->queued = get32(event + QUEUED_AT);
}

static void change_bench(struct bench *b, const uint8_t *event)
{
    b->x = get16(event + X_AT);
    b->closed[0] = event[CLOSED_AT] == 1;
}

/* One event: a queueing, a turn, or a change of the state itself, as no call makes it. */
static uint64_t happened(struct seats *s, uint64_t sum, const uint8_t *event)
{
    struct stray stray = { 0 };
    uint8_t record[RECORD], code;
    bool served;
    switch (event[0]) {
    case QUEUE_EVENT:
        code = queue(s, event[SEAT_AT], event + BYTES_AT, event[SIZE_AT], &stray);
        return with_code(sum, code, &stray);
    case TURN_EVENT:
        code = turn(s, record, &served);
        return with_turn(sum, code, served, record);
    case QUEUE_CHANGE:
        change_queue(&s->queues[event[SEAT_AT] % SEATS], event);
        return sum;
    default:
        change_bench(&s->bench, event);
        s->last = event[SEAT_AT];
        return sum;
    }
}

uint64_t plain_seats(const uint8_t *events, size_t size)
{
    struct seats s;
    uint64_t sum = 0;
    fresh_seats(&s);
    for (size_t at = 0; at + EVENT <= size; at += EVENT) {
        sum = happened(&s, sum, events + at);
        sum = with_seats(sum, &s);
    }
    return sum;
}
