// The driver: calls the proved side and the plain side with the same input, compares all that they answer and leave, and measures.
//
//     driver compare     random sessions and sheets through both sides; fails on the first difference
//     driver time        best of 20 or more by the clock, a tenth of a second a row, the sides in turn; prints the table (x86-64)
//     driver marks       each measured call once, between two calls of getppid, for a count of instructions
//     driver table       reads the counts between the marks from standard input, and prints the table
//     driver stack       how deep the stack goes below the driver in each entry, in bytes
//
// PLAY is defined where the joined play is linked in. No header is used: the kit has none.

typedef unsigned char u8;
typedef unsigned short u16;
typedef unsigned int u32;
typedef unsigned long size;

struct timespec {
    long sec, nsec;
};

int printf(const char *, ...);
int scanf(const char *, ...);
int strcmp(const char *, const char *);
int memcmp(const void *, const void *, size);
void *memcpy(void *, const void *, size);
void *memset(void *, int, size);
int getppid(void);
int clock_gettime(int, struct timespec *);
void exit(int);

typedef size engine_fn(const u8 *, size, size, size, u8 *, u8 *, size, u8 *, size, u8 *, size);
typedef size player_fn(const u8 *, size, const u8 *, size, size, size, size, u8 *, size, u16 *, size);
typedef size play_fn(const u8 *, size, u8 *, u8 *, size, u8 *, size, u8 *, size, u8 *, size, u16 *, size, size *);

engine_fn rattle_engine, rattle_called, rattle_by_value, rattle_frames, plain_engine, plain_called, plain_frames;
player_fn rattle_player, plain_player;
play_fn rattle_play, rattle_play_large, plain_play;

enum { CODE_SIZE = 32768, DATA_SIZE = 2048, DATA_START = 0xF1000, PAGE = 256, LARGE_CODE = 131072, LARGE_DATA = 8192 };

// ---- what a call works on

struct lent {
    u8 held[260], code[CODE_SIZE], data[DATA_SIZE], reply[16], frame[260];
    u16 sums[64];
    size each[64];
    size answer;
};

static struct lent before, ours, plain;

static u8 input[70000], replies[46], sheet[66000];
static size input_n, replies_n, sheet_n;

#ifdef PLAY
static u8 large_code[LARGE_CODE], large_data[LARGE_DATA];
#endif

static void blank(struct lent *m)
{
    memset(m, 0, sizeof *m);
    memset(m->code, 0xFF, CODE_SIZE);
    memset(m->data, 0xFF, DATA_SIZE);
    memset(m->each, 0xFF, sizeof m->each);
}

// One call of either side. A call goes through a pointer that the compiler knows nothing about.

static engine_fn *volatile engine_called;
static player_fn *volatile player_called;
static play_fn *volatile play_called;

struct run {
    size shown;        // how many bytes of each answer or frame go into the digest
    size start;        // of an engine
    size calls, again; // of a player
    int less;          // 1 to 4: code flash, data flash, reply or frame buffer is lent a byte too short
};

__attribute__((noinline)) static void call_engine(struct lent *m, struct run r)
{
    m->answer = engine_called(input, input_n, r.start, r.shown, m->held, m->code, CODE_SIZE - (r.less == 1), m->data, DATA_SIZE - (r.less == 2), m->reply,
                               sizeof m->reply - (r.less == 3));
}

__attribute__((noinline)) static void call_player(struct lent *m, struct run r)
{
    m->answer = player_called(sheet, sheet_n, replies, replies_n, r.calls, r.again, r.shown, m->frame, sizeof m->frame, m->sums, 64);
}

__attribute__((noinline)) static void call_play(struct lent *m, struct run r)
{
    m->answer = play_called(sheet, sheet_n, m->held, m->code, CODE_SIZE - (r.less == 1), m->data, DATA_SIZE - (r.less == 2), m->reply,
                             sizeof m->reply - (r.less == 3), m->frame, sizeof m->frame - (r.less == 4), m->sums, 64, m->each);
}

#ifdef PLAY
static int on_large; // the flashes of the large chip are lent, blank

__attribute__((noinline)) static void call_play_large(struct lent *m)
{
    m->answer = play_called(sheet, sheet_n, m->held, large_code, LARGE_CODE, large_data, LARGE_DATA, m->reply, sizeof m->reply, m->frame, sizeof m->frame,
                             m->sums, 64, m->each);
}
#endif

// FRAMES is handed whole frames on both sides; AS_BYTES has our own engine, byte by byte, for its plain side; LARGE has our own play on the small chip.
enum kind { ENGINE, CALLED, BY_VALUE, PLAYER, PLAY_ALL, FRAMES, AS_BYTES, LARGE };

static void choose(enum kind kind, int proved)
{
    if (kind == ENGINE)
        engine_called = proved ? rattle_engine : plain_engine;
    if (kind == CALLED)
        engine_called = proved ? rattle_called : plain_called;
    if (kind == BY_VALUE)
        engine_called = proved ? rattle_by_value : plain_engine;
    if (kind == FRAMES)
        engine_called = proved ? rattle_frames : plain_frames;
    if (kind == AS_BYTES)
        engine_called = proved ? rattle_frames : rattle_engine;
    if (kind == PLAYER)
        player_called = proved ? rattle_player : plain_player;
#ifdef PLAY
    if (kind == PLAY_ALL)
        play_called = proved ? rattle_play : plain_play;
    on_large = kind == LARGE && proved;
    if (kind == LARGE) {
        play_called = proved ? rattle_play_large : rattle_play;
        sheet[2] = proved ? 2 : 1;
    }
    if (on_large) {
        memset(large_code, 0xFF, LARGE_CODE);
        memset(large_data, 0xFF, LARGE_DATA);
    }
#endif
}

static void call(enum kind kind, struct lent *m, struct run r)
{
    if (kind == PLAYER)
        call_player(m, r);
#ifdef PLAY
    else if (on_large)
        call_play_large(m);
#endif
    else if (kind == PLAY_ALL || kind == LARGE)
        call_play(m, r);
    else
        call_engine(m, r);
}

// Both sides on what `before` holds, with all that they answer in the digest. The frame in hand is the record's own in a call by value, so the buffer for it is not compared.
static void both(const char *what, enum kind kind, struct run r)
{
    r.shown = 260;
    memcpy(&ours, &before, sizeof before);
    memcpy(&plain, &before, sizeof before);
    choose(kind, 1);
    call(kind, &ours, r);
    choose(kind, 0);
    call(kind, &plain, r);
    const char *differs = 0;
#ifdef PLAY
    if (kind == LARGE) {
        memcpy(ours.code, large_code, CODE_SIZE);
        memcpy(ours.data, large_data, DATA_SIZE);
    }
#endif
    if (ours.answer != plain.answer)
        differs = "answers";
    else if (memcmp(ours.code, plain.code, CODE_SIZE) != 0)
        differs = "code flash";
    else if (memcmp(ours.data, plain.data, DATA_SIZE) != 0)
        differs = "data flash";
    else if (memcmp(ours.reply, plain.reply, sizeof ours.reply) != 0)
        differs = "reply buffer";
    else if (memcmp(ours.frame, plain.frame, sizeof ours.frame) != 0)
        differs = "frame buffer";
    else if (memcmp(ours.sums, plain.sums, sizeof ours.sums) != 0)
        differs = "sums";
    else if (memcmp(ours.each, plain.each, sizeof ours.each) != 0)
        differs = "frames of each step";
    if (differs) {
        printf("%s: the two sides differ in: %s\n", what, differs);
        exit(1);
    }
}

// ---- input

static void put(u8 byte)
{
    if (input_n < sizeof input)
        input[input_n++] = byte;
}

static void put_frame(u8 start, const u8 *body, size n, u8 end)
{
    u8 sum = n;
    put(start);
    put(n);
    for (size i = 0; i < n; i++) {
        put(body[i]);
        sum += body[i];
    }
    put(-sum);
    put(end);
}

static void put_address(u8 *p, u32 a)
{
    p[0] = a;
    p[1] = a >> 8;
    p[2] = a >> 16;
}

static void put_code(u8 code)
{
    put_frame(0x01, &code, 1, 0x03);
}

static void put_pair(u8 code, u32 sad, u32 ead)
{
    u8 body[7] = {code};
    put_address(body + 1, sad);
    put_address(body + 4, ead);
    put_frame(0x01, body, 7, 0x03);
}

static void put_blank_check(u32 sad, u32 ead, u8 tar)
{
    u8 body[8] = {0x32};
    put_address(body + 1, sad);
    put_address(body + 4, ead);
    body[7] = tar;
    put_frame(0x01, body, 8, 0x03);
}

static void put_erase(u32 sad)
{
    u8 body[4] = {0x22};
    put_address(body + 1, sad);
    put_frame(0x01, body, 4, 0x03);
}

static void put_pages(size pages, u8 first)
{
    u8 page[PAGE];
    for (size k = 0; k < pages; k++) {
        for (size i = 0; i < PAGE; i++)
            page[i] = first + k + i;
        put_frame(0x02, page, PAGE, k + 1 == pages ? 0x03 : 0x17);
    }
}

// where the entries begin: 2 in form 1, 6 in form 2
static size sheet_head = 2;

static void sheet_begin(size steps)
{
    sheet_head = 2;
    sheet[0] = steps;
    sheet[1] = 0;
    sheet_n = 2 + 12 * steps;
}

static void sheet_begin_two(size steps, u8 chip)
{
    static const u8 begins[4] = {0xFE, 0x02};
    sheet_head = 6;
    memcpy(sheet, begins, 4);
    sheet[2] = chip;
    sheet[4] = steps;
    sheet[5] = 0;
    sheet_n = 6 + 12 * steps;
}

static void sheet_step(size i, u8 kind, u32 sad, u32 ead)
{
    u8 *e = sheet + sheet_head + 12 * i;
    e[0] = kind;
    put_address(e + 1, sad);
    put_address(e + 4, ead);
    e[7] = 0;
    put_address(e + 8, sheet_n);
    e[11] = 0;
    if (kind == 2 || kind == 3)
        for (u32 a = sad; a <= ead && sheet_n < sizeof sheet; a++)
            sheet[sheet_n++] = a * 7 + a / 256;
}

static u32 code_at(size block)
{
    return block * 2048;
}

static u32 data_at(size block)
{
    return DATA_START + block * 256;
}

// ---- what is measured

static int scale; // 1 for a count of instructions, more for a time

static void in_data_frames(void)
{
    size pages = scale == 1 ? 16 : 128;
    put_pair(0x40, 0, pages * PAGE - 1);
    put_pages(pages, 0);
}

static void in_verify(void)
{
    size pages = scale == 1 ? 16 : 128;
    put_pair(0x13, 0, pages * PAGE - 1);
    put_pages(pages, 0);
}

static void in_reset(void)
{
    for (int i = 0; i < 100 * scale; i++)
        put_code(0x00);
}

static void in_security_get(void)
{
    for (int i = 0; i < 100 * scale; i++)
        put_code(0xA1);
}

static void in_window_get(void)
{
    for (int i = 0; i < 100 * scale; i++)
        put_code(0xAD);
}

static void in_window_set(void)
{
    static const u8 body[5] = {0xAC, 0x02, 0x80, 0x0D, 0x80};
    for (int i = 0; i < 100 * scale; i++)
        put_frame(0x01, body, 5, 0x03);
}

static void in_security_set(void)
{
    static const u8 body[4] = {0xA0, 0xFF, 0xFF, 0x00};
    for (int i = 0; i < 100 * scale; i++)
        put_frame(0x01, body, 4, 0x03);
}

static void in_checksum(void)
{
    for (int i = 0; i < 100 * scale; i++)
        put_pair(0xB0, data_at(i % 8), data_at(i % 8 + 1) - 1);
}

static void in_blank_check(void)
{
    for (int i = 0; i < scale; i++)
        put_blank_check(0, CODE_SIZE - 1, 0x01);
}

static void in_erase_data(void)
{
    for (int i = 0; i < 100 * scale; i++)
        put_erase(data_at(i % 8));
}

static void in_erase_code(void)
{
    for (int i = 0; i < 100 * scale; i++)
        put_erase(code_at(i % 16));
}

static void in_wrong_sum(void)
{
    for (int i = 0; i < 100 * scale; i++) {
        put_code(0x00);
        input[input_n - 2] ^= 1;
    }
}

static void sheet_small_1(void)
{
    sheet_begin(1);
    sheet_step(0, 2, 0, code_at(1) - 1);
}

static void sheet_large_1(void)
{
    sheet_begin(1);
    sheet_step(0, 2, 0, CODE_SIZE - 1);
}

static void sheet_small_8(void)
{
    sheet_begin(8);
    for (size i = 0; i < 8; i++)
        sheet_step(i, 2, code_at(i), code_at(i + 1) - 1);
}

static void sheet_large_8(void)
{
    sheet_begin(8);
    sheet_step(0, 2, 0, CODE_SIZE - 1);
    sheet_step(1, 1, 0, CODE_SIZE - 1);
    sheet_step(2, 2, 0, code_at(15) - 1);
    for (size i = 3; i < 8; i++)
        sheet_step(i, 4, code_at(i), code_at(i + 1) - 1);
}

// writes, each with an erase of its blocks behind it: no page is written twice (J13)
static void sheet_small_64(void)
{
    sheet_begin(64);
    for (size i = 0; i < 64; i++)
        sheet_step(i, i % 2 ? 1 : 2, data_at(i / 2 % 8), data_at(i / 2 % 8 + 1) - 1);
}

static void sheet_large_64(void)
{
    sheet_begin(64);
    for (size i = 0; i < 64; i++)
        sheet_step(i, i % 2 ? 1 : 2, data_at(i < 56 ? 0 : i / 2 % 8), data_at(i < 56 ? 8 : i / 2 % 8 + 1) - 1);
}

#ifdef PLAY
// 65,534 bytes: no accepted sheet has more, since 2 + 12 n is 254 modulo 256 only for n = 21, and then 255 pages have room.
static void sheet_largest(void)
{
    sheet_begin(21);
    sheet_step(0, 1, 0, CODE_SIZE - 1);
    sheet_step(1, 1, data_at(0), data_at(8) - 1);
    sheet_step(2, 2, 0, CODE_SIZE - 1);
    sheet_step(3, 2, data_at(0), data_at(8) - 1);
    sheet_step(4, 4, 0, CODE_SIZE - 1);
    sheet_step(5, 4, data_at(0), data_at(8) - 1);
    sheet_step(6, 3, 0, code_at(14) - 1);
    sheet_step(7, 3, data_at(0), data_at(7) - 1);
    for (size i = 8; i < 14; i++)
        sheet_step(i, 1, data_at(i - 6), data_at(i - 5) - 1);
    for (size i = 14; i < 21; i++)
        sheet_step(i, 4, code_at(i - 8), code_at(i - 7) - 1);
    // what is verified is what was written
    memcpy(sheet + 254 + 136 * PAGE, sheet + 254, 112 * PAGE);
    memcpy(sheet + 254 + 248 * PAGE, sheet + 254 + 128 * PAGE, 7 * PAGE);
}

// Code blocks erased, written and verified, from the first on: accepted on the chip that it names, and `choose` has it name the one it is played to.
static void sheet_both(size blocks)
{
    sheet_begin_two(3, 1);
    for (u8 kind = 1; kind < 4; kind++)
        sheet_step(kind - 1, kind, 0, code_at(blocks) - 1);
}

static void sheet_both_1(void)
{
    sheet_both(1);
}

static void sheet_both_15(void)
{
    sheet_both(15);
}
#endif

struct row {
    const char *name;
    enum kind kind;
    void (*prepare)(void);
    size again; // of a player: how many calls each play has
};

static const struct row rows[] = {
    {"Programming, frames of 260 bytes", ENGINE, in_data_frames, 0},
    {"Verify, frames of 260 bytes", ENGINE, in_verify, 0},
    {"Reset", ENGINE, in_reset, 0},
    {"Reset, wrong SUM", ENGINE, in_wrong_sum, 0},
    {"Security Get", ENGINE, in_security_get, 0},
    {"Security Set", ENGINE, in_security_set, 0},
    {"Window Get", ENGINE, in_window_get, 0},
    {"Window Set", ENGINE, in_window_set, 0},
    {"Checksum of a data block", ENGINE, in_checksum, 0},
    {"Blank Check of a blank code flash", ENGINE, in_blank_check, 0},
    {"Erase of a data block", ENGINE, in_erase_data, 0},
    {"Erase of a code block", ENGINE, in_erase_code, 0},
    {"kept a call: Programming", CALLED, in_data_frames, 0},
    {"kept a call: Reset", CALLED, in_reset, 0},
    {"kept a call: Checksum of a data block", CALLED, in_checksum, 0},
    {"by value: Programming", BY_VALUE, in_data_frames, 0},
    {"by value: Reset", BY_VALUE, in_reset, 0},
    {"whole frames: Programming", FRAMES, in_data_frames, 0},
    {"whole frames: Verify", FRAMES, in_verify, 0},
    {"whole frames: Reset", FRAMES, in_reset, 0},
    {"whole frames by our bytes: Programming", AS_BYTES, in_data_frames, 0},
    {"whole frames by our bytes: Verify", AS_BYTES, in_verify, 0},
    {"whole frames by our bytes: Reset", AS_BYTES, in_reset, 0},
    {"command frame, 1 step, 2048 bytes", PLAYER, sheet_small_1, 1},
    {"command frame, 1 step, 32768 bytes", PLAYER, sheet_large_1, 1},
    {"command frame, 8 steps, 16384 bytes", PLAYER, sheet_small_8, 1},
    {"command frame, 8 steps, 63488 bytes", PLAYER, sheet_large_8, 1},
    {"command frame, 64 steps, 8192 bytes", PLAYER, sheet_small_64, 1},
    {"command frame, 64 steps, 58368 bytes", PLAYER, sheet_large_64, 1},
    {"command and page, 1 step, 2048 bytes", PLAYER, sheet_small_1, 2},
    {"command and page, 1 step, 32768 bytes", PLAYER, sheet_large_1, 2},
    {"command and page, 64 steps, 8192 bytes", PLAYER, sheet_small_64, 2},
    {"command and page, 64 steps, 58368 bytes", PLAYER, sheet_large_64, 2},
#ifdef PLAY
    {"a whole play, 65534 bytes, 21 steps", PLAY_ALL, sheet_largest, 0},
    {"large chip by the small: 8 pages, twice", LARGE, sheet_both_1, 0},
    {"large chip by the small: 120 pages, twice", LARGE, sheet_both_15, 0},
#endif
};

enum { ROWS = sizeof rows / sizeof *rows };

static struct run prepare(const struct row *row)
{
    struct run r = {0, 0, 100 * scale, row->again, 0};
    input_n = 0;
    row->prepare();
    blank(&before);
    return r;
}

static size units(const struct row *row, struct run r)
{
    if (row->kind == PLAYER)
        return r.calls;
    return row->kind == PLAY_ALL || row->kind == LARGE ? 1 : input_n;
}

static void heading(const char *unit)
{
    printf("%-42s %-5s %12s %12s %7s\n", "measured", "a", "proved", "plain", "ratio");
    printf("(%s)\n", unit);
}

static void line(const struct row *row, struct run r, double proved, double base)
{
    static const char *const unit[] = {"byte", "byte", "byte", "call", "play", "byte", "byte", "play"};
    double n = units(row, r);
    printf("%-42s %-5s %12.2f %12.2f %7.2f\n", row->name, unit[row->kind], proved / n, base / n, proved / base);
}

static long now(void)
{
    struct timespec t;
    clock_gettime(1, &t);
    return t.sec * 1000000000 + t.nsec;
}

static void by_time(void)
{
    heading("nanoseconds, best of 20 or more");
    for (int i = 0; i < ROWS; i++) {
        long best[2] = {-1, -1};
        struct run r = prepare(rows + i);
        both(rows[i].name, rows[i].kind, r);
        long began = now();
        for (int k = 0; k < 20 || now() - began < 100000000; k++)
            for (int proved = 0; proved < 2; proved++) {
                memcpy(&ours, &before, sizeof before);
                choose(rows[i].kind, proved);
                long from = now();
                call(rows[i].kind, &ours, r);
                long took = now() - from;
                if (best[proved] < 0 || took < best[proved])
                    best[proved] = took;
            }
        line(rows + i, r, best[1], best[0]);
    }
}

static size nothing(const u8 *a, size b, size c, size k, u8 *d, u8 *e, size f, u8 *g, size h, u8 *i, size j)
{
    (void)a, (void)b, (void)c, (void)d, (void)e, (void)f, (void)g, (void)h, (void)i, (void)j, (void)k;
    return 0;
}

// First a call of nothing, then each row: the proved side, the plain side.
static void by_marks(void)
{
    prepare(rows);
    struct run none = {0, 0, 0, 0, 0};
    engine_called = nothing;
    getppid();
    call(ENGINE, &ours, none);
    getppid();
    for (int i = 0; i < ROWS; i++) {
        struct run r = prepare(rows + i);
        both(rows[i].name, rows[i].kind, r);
        for (int proved = 1; proved >= 0; proved--) {
            memcpy(&ours, &before, sizeof before);
            choose(rows[i].kind, proved);
            getppid();
            call(rows[i].kind, &ours, r);
            getppid();
        }
    }
}

static double count(void)
{
    double n;
    if (scanf("%lf", &n) != 1) {
        printf("a count is missing\n");
        exit(1);
    }
    return n;
}

static void table(void)
{
    double none = count();
    heading("instructions");
    for (int i = 0; i < ROWS; i++) {
        struct run r = prepare(rows + i);
        double proved = count() - none, base = count() - none;
        line(rows + i, r, proved, base);
    }
}

// ---- the stack

enum { DEEP = 192 * 1024 };

static u8 *volatile painted;

// Leaves a pattern in the stack below the caller.
__attribute__((noinline)) static void paint(void)
{
    volatile u8 area[DEEP];
    for (size i = 0; i < DEEP; i++)
        area[i] = 0xA5;
    painted = (u8 *)area;
}

// How much of the pattern the call after `paint` wrote over, from its upper end.
__attribute__((noinline)) static size depth(void)
{
    const volatile u8 *area = painted;
    size i = 0;
    while (i < DEEP && area[i] == 0xA5)
        i++;
    return DEEP - i;
}

static void stack(void)
{
    static const char *const entry[] = {"engine",     "engine, kept a call", "call by value",             "player call",
                                        "whole play", "whole frames",        "whole frames by our bytes", "large chip by the small"};
    printf("%-42s %12s %12s\n", "stack, bytes", "proved", "plain");
    for (int i = 0; i < ROWS; i++) {
        size used[2];
        if (i > 0 && rows[i].kind == rows[i - 1].kind)
            continue;
        struct run r = prepare(rows + i);
        for (int proved = 0; proved < 2; proved++) {
            memcpy(&ours, &before, sizeof before);
            choose(rows[i].kind, proved);
            paint();
            call(rows[i].kind, &ours, r);
            used[proved] = depth();
        }
        printf("%-42s %12lu %12lu\n", entry[rows[i].kind], used[1], used[0]);
    }
}

// ---- random sessions and sheets

static size random_state = 1;

static u32 any(u32 below)
{
    random_state ^= random_state << 13;
    random_state ^= random_state >> 7;
    random_state ^= random_state << 17;
    return (random_state >> 11) % below;
}

static int one_in(u32 n)
{
    return any(n) == 0;
}

// A pair of addresses that is valid mostly: 0 where it is in code flash.
static void random_pair(u32 *sad, u32 *ead, u32 most)
{
    u32 in_data = any(2), blocks = in_data ? 8 : 16, a = any(blocks), b = a + any(most);
    if (b >= blocks)
        b = blocks - 1;
    *sad = in_data ? data_at(a) : code_at(a);
    *ead = (in_data ? data_at(b + 1) : code_at(b + 1)) - 1;
    if (one_in(20))
        *sad ^= 1u << any(20);
    if (one_in(20))
        *ead ^= 1u << any(20);
}

static void random_damage(size from)
{
    if (one_in(8) && input_n > from)
        input[from + any(input_n - from)] = any(256);
    if (one_in(30) && input_n > from)
        input_n -= 1 + any(input_n - from);
    if (one_in(8))
        put(any(4));
}

static void random_pages(u32 sad, u32 ead)
{
    size pages = ead >= sad ? (ead - sad + 1) / PAGE : 1;
    for (size k = 0; k < pages && input_n + 300 < sizeof input; k++) {
        size from = input_n;
        u8 page[PAGE];
        for (size i = 0; i < PAGE; i++)
            page[i] = one_in(3) ? 0xFF : before.code[k];
        put_frame(0x02, page, one_in(40) ? any(PAGE) + 1 : PAGE, (k + 1 == pages) != one_in(40) ? 0x03 : 0x17);
        if (one_in(4))
            random_damage(from);
        if (one_in(60))
            return;
    }
}

static void random_command(void)
{
    static const u8 codes[] = {0x00, 0x13, 0x22, 0x32, 0x40, 0x9A, 0x9C, 0xA0, 0xA1, 0xA2, 0xAC, 0xAD, 0xB0, 0x55};
    u8 body[256], code = codes[any(sizeof codes)];
    u32 sad, ead;
    size from = input_n;
    random_pair(&sad, &ead, 3);
    for (size i = 0; i < sizeof body; i++)
        body[i] = one_in(2) ? 0xFF : any(256);
    body[0] = code;
    switch (code) {
    case 0x13:
    case 0x40:
    case 0xB0:
        put_pair(code, sad, ead);
        random_damage(from);
        if (code != 0xB0)
            random_pages(sad, ead);
        return;
    case 0x22:
        put_erase(sad);
        break;
    case 0x32:
        put_blank_check(sad, ead, any(3));
        break;
    case 0x9A:
        body[1] = any(5);
        body[2] = 0x0F + any(42);
        put_frame(0x01, body, 3, 0x03);
        break;
    case 0x9C:
        memcpy(body + 1, before.code + 0xC4, 10);
        put_frame(0x01, body, 11, 0x03);
        break;
    case 0xA0:
        if (!one_in(8))
            body[2] |= 0x04;
        put_frame(0x01, body, 4, 0x03);
        break;
    case 0xAC:
        put_frame(0x01, body, 5, 0x03);
        break;
    default:
        put_frame(0x01, body, one_in(20) ? any(256) + 1 : 1, 0x03);
        break;
    }
    random_damage(from);
}

static void random_flash(void)
{
    blank(&before);
    if (one_in(3))
        return;
    for (u32 k = any(6); k > 0; k--)
        before.code[any(CODE_SIZE)] = any(256);
    for (u32 k = any(4); k > 0; k--)
        before.data[any(DATA_SIZE)] = any(256);
    if (one_in(2))
        for (size i = 0xC4; i < 0xCE; i++)
            before.code[i] = any(256);
}

static struct run random_session(void)
{
    static const u8 speed[3] = {0x9A, 0x00, 0x21};
    struct run r = {0, 0, 0, 0, one_in(50) ? any(4) : 0};
    random_flash();
    input_n = 0;
    if (one_in(2)) {
        u8 ident[11] = {0x9C};
        r.start = 0x10000 + any(65536);
        if (!one_in(8))
            r.start |= 0x0400;
        put(one_in(8) ? any(256) : 0x3A);
        put_frame(0x01, speed, 3, 0x03);
        random_damage(1);
        memcpy(ident + 1, before.code + 0xC4, 10);
        if (one_in(3))
            ident[1 + any(10)] ^= 1;
        if (one_in(2))
            put_frame(0x01, ident, 11, 0x03);
    }
    for (u32 k = any(30); k > 0; k--)
        random_command();
    return r;
}

// form 2, for a chip with that number
// a lock, most of the time one that leaves IFPR as it is, with its filler
static void random_lock(size i)
{
    u32 keeps = one_in(6) ? 0 : 0x0400;
    sheet_step(i, 6, (any(65536) | keeps) + (one_in(20) ? 0x10000 : 0), one_in(20) ? 1 : 0);
}

static void random_sheet(void)
{
    u32 steps = one_in(10) ? any(65) : any(8), two = one_in(2);
    if (two)
        sheet_begin_two(steps, one_in(8) ? any(4) : 1);
    else
        sheet_begin(steps);
    for (u32 i = 0; i < steps; i++) {
        u32 sad, ead;
        if (two && one_in(6)) {
            random_lock(i);
            continue;
        }
        random_pair(&sad, &ead, 2);
        if (ead > 0xFFFFF || ead - sad > 4096)
            ead = sad;
        sheet_step(i, 1 + any(two ? 5 : 4), sad, ead);
    }
    if (one_in(4))
        for (u32 k = 1 + any(4), i = any(sheet_head + 12 * steps); k > 0; k--)
            sheet[one_in(2) ? i / 12 * 12 + any(12) : any(sheet_head + 12 * steps)] ^= 1u << any(8);
    if (one_in(12))
        sheet_n = any(sheet_n + 1);
    if (one_in(12))
        sheet_n += any(3);
}

static void set_replies(void)
{
    static const u8 well[22] = {0x02, 0x01, 0x06, 0xF9, 0x03, 0x02, 0x02, 0x06, 0x06, 0xF2, 0x03,
                                0x02, 0x01, 0x06, 0xF9, 0x03, 0x02, 0x02, 0x34, 0x12, 0xB8, 0x03};
    memcpy(replies, well, sizeof well);
    memcpy(replies + 22, well, sizeof well);
    replies_n = 44;
}

// A correct reply of other bytes, of n bytes from `at`.
static void other_reply(size at, u8 n)
{
    u8 sum = n;
    for (u8 i = 0; i < n; i++) {
        if (one_in(2))
            replies[at + 2 + i] = any(64);
        sum += replies[at + 2 + i];
    }
    replies[at + 2 + n] = -sum;
}

// The last call of a play has other replies, correct or not, and of another length for a sum.
static void random_replies(void)
{
    set_replies();
    if (one_in(3))
        return;
    other_reply(22, 1);
    other_reply(27, 2);
    if (one_in(2))
        other_reply(33, 1);
    other_reply(38, 2);
    if (one_in(3))
        replies[22 + any(22)] ^= 1u << any(8);
    if (one_in(4))
        replies_n = 33 + any(14);
}

static void compare(void)
{
    for (int k = 0; k < 4000; k++) {
        struct run r = random_session();
        both("a random session", ENGINE, r);
        if (k % 8 == 0) {
            both("a random session, kept a call", CALLED, r);
            both("a random session, by value", BY_VALUE, r);
        }
        both("a random session, by whole frames", FRAMES, r);
    }
    for (int k = 0; k < 4000; k++) {
        struct run r = {0, 0, any(60), 1 + any(30), one_in(50) ? any(5) : 0};
        random_sheet();
        random_replies();
        blank(&before);
        both("a random sheet", PLAYER, r);
#ifdef PLAY
        random_flash();
        both("a random play", PLAY_ALL, r);
#endif
    }
    printf("compared: 4000 sessions, 4000 sheets; no difference\n");
}

int main(int words, char **word)
{
    const char *what = words == 2 ? word[1] : "";
    set_replies();
    scale = 1;
    if (strcmp(what, "compare") == 0) {
        compare();
    } else if (strcmp(what, "time") == 0) {
        scale = 50;
        by_time();
    } else if (strcmp(what, "marks") == 0) {
        by_marks();
    } else if (strcmp(what, "table") == 0) {
        table();
    } else if (strcmp(what, "stack") == 0) {
        stack();
    } else {
        printf("usage: driver compare | time | marks | table | stack\n");
        return 2;
    }
    return 0;
}
