// The baseline: the whole device, the player and the two joined, in plain C, written by hand from document 01 (A0h with LEN 4).
// It is frozen. It is not changed to suit a ratio; only an answer that is wrong by the document is a reason to touch it.
//
// ENGINE, PLAYER or PLAY is defined when it is compiled: each entry stands in an object of its own, so that the compiler has the same freedom
// as with the proved entries. CALLED is ENGINE with the byte call kept a call. No header is used: the kit has none.

#ifdef CALLED
#define ENGINE
#define plain_engine plain_called
#define BYTE_CALL __attribute__((noinline)) static
#else
#define BYTE_CALL static
#endif

typedef unsigned char u8;
typedef unsigned short u16;
typedef unsigned int u32;
typedef unsigned long size;

void *memcpy(void *, const void *, size);
void *memset(void *, int, size);
int memcmp(const void *, const void *, size);

enum {
    CODE_SIZE = 32768,
    DATA_SIZE = 2048,
    CODE_BLOCK = 2048,
    DATA_BLOCK = 256,
    DATA_START = 0xF1000,
    PAGE = 256,
    LAST_CODE_BLOCK = 15,
    BOOT_SIZE = 8 * CODE_BLOCK,
};

// ---- a digest of what was answered, the same on both sides

static size mixed(size sum, size number)
{
    return sum % 0x10000000000 * 31 + number % 65536;
}

// A refusal by its letter and number: 1 to 10 is J1 to J10, 11 and 12 are P1 and P2, 13 to 15 are D1 to D3, 16 is E1, 17 to 20 are J11 to J14.
static size named(size refusal)
{
    if (refusal >= 17)
        return 'J' * 256 + refusal - 6;
    if (refusal <= 10)
        return 'J' * 256 + refusal;
    if (refusal <= 12)
        return 'P' * 256 + refusal - 10;
    return refusal <= 15 ? 'D' * 256 + refusal - 12 : 'E' * 256 + refusal - 15;
}

#ifndef PLAY
static size less_of(size a, size b)
{
    return a < b ? a : b;
}

static size mixed_bytes(size sum, const u8 *bytes, size n)
{
    for (size i = 0; i < n; i++)
        sum = mixed(sum, bytes[i]);
    return sum;
}
#endif

// ---- frames

static u8 sum_of(u8 len, const u8 *body, size n)
{
    u8 sum = len;
    for (size i = 0; i < n; i++)
        sum += body[i];
    return -sum;
}

static u32 address_at(const u8 *p)
{
    return p[0] | p[1] << 8 | p[2] << 16;
}

static u16 word_at(const u8 *p)
{
    return p[0] | p[1] << 8;
}

// ---- addresses

// What a pair of addresses names: bytes `from` up to `to` of one flash.
struct range {
    u8 in_data;
    u32 from, to;
};

// 1 if the pair is valid.
static int range_in(u32 code_size, u32 data_size, u32 sad, u32 ead, struct range *r)
{
    u32 block;
    if (sad > ead)
        return 0;
    if (ead < code_size) {
        r->in_data = 0;
        block = CODE_BLOCK;
    } else if (sad >= DATA_START && ead < DATA_START + data_size) {
        r->in_data = 1;
        block = DATA_BLOCK;
        sad -= DATA_START;
        ead -= DATA_START;
    } else {
        return 0;
    }
    r->from = sad;
    r->to = ead + 1;
    return r->from % block == 0 && r->to % block == 0;
}

#if defined(ENGINE) || defined(FRAMES) || defined(PLAY)

static int range_of(u32 sad, u32 ead, struct range *r)
{
    return range_in(CODE_SIZE, DATA_SIZE, sad, ead, r);
}

// ---- the device

enum { MODE, SPEED, IDENT, COMMAND, SILENT };
enum { IDLE, PROGRAMMING, VERIFYING };

enum {
    BTPR = 0x02, // SF1
    SEPR = 0x04,
    WRPR = 0x10,
    SF1_BITS = BTPR | SEPR | WRPR,
    IDEN = 0x01, // SF2
    IFPR = 0x04,
    SF2_BITS = 0x1D,
    SF2_BLANK = 0x19, // IDEN, SWPR, CMPR: those that a blank check counts in
    BLOCK_BITS = 0x01FF, // SWS, SWE
    FLAG = 0x8000,
    WINDOW_BITS = BLOCK_BITS | FLAG,
};

struct device {
    u8 phase, task;
    u8 sf1, sf2;
    u16 sws, swe;
    u8 in_data, status; // of the task: its flash, and what is known of the pages before
    u16 page, left;     // the next page, and how many are left with it
    u16 have, want;     // bytes of the frame received, and how many it has
};

struct lent {
    u8 *code, *data;
};

static const struct device waiting = {COMMAND, IDLE, 0xFF, 0xFF, 0xFFFF, 0xFFFF, 0, 0, 0, 0, 0, 0};

static const struct {
    u8 code, len, phase;
} commands[] = {
    {0x00, 1, COMMAND}, {0x13, 7, COMMAND}, {0x22, 4, COMMAND}, {0x32, 8, COMMAND},
    {0x40, 7, COMMAND}, {0x9A, 3, SPEED},   {0x9C, 11, IDENT},  {0xA0, 4, COMMAND},
    {0xA1, 1, COMMAND}, {0xA2, 1, COMMAND}, {0xAC, 5, COMMAND}, {0xAD, 1, COMMAND},
    {0xB0, 7, COMMAND},
};

static int put_frame(u8 *reply, const u8 *body, u8 n)
{
    reply[0] = 0x02;
    reply[1] = n;
    for (u8 i = 0; i < n; i++)
        reply[2 + i] = body[i];
    reply[2 + n] = sum_of(n, body, n);
    reply[3 + n] = 0x03;
    return n + 4;
}

static int put_one(u8 *reply, u8 status)
{
    return put_frame(reply, &status, 1);
}

static int put_pair(u8 *reply, u8 line, u8 status)
{
    u8 body[2] = {line, status};
    return put_frame(reply, body, 2);
}

static int put_ack_and(u8 *reply, const u8 *body, u8 n)
{
    int ack = put_one(reply, 0x06);
    return ack + put_frame(reply + ack, body, n);
}

static int is_blank(const u8 *p, size n)
{
    for (size i = 0; i < n; i++)
        if (p[i] != 0xFF)
            return 0;
    return 1;
}

static u16 checksum(const u8 *p, size n)
{
    u16 sum = 0;
    for (size i = 0; i < n; i++)
        sum -= p[i];
    return sum;
}

// A fault of a command. A LEN, parameter or ID fault in Speed or Ident is the last that the chip says.
static int fault(struct device *d, u8 *reply, u8 status, int silences)
{
    if (silences && d->phase != COMMAND)
        d->phase = SILENT;
    return put_one(reply, status);
}

static int begin_pages(struct device *d, u8 task, const struct range *r, u8 *reply)
{
    d->task = task;
    d->in_data = r->in_data;
    d->page = r->from / PAGE;
    d->left = (r->to - r->from) / PAGE;
    d->status = 0x06;
    return put_one(reply, 0x06);
}

static int erase(struct device *d, u32 address, struct lent m, u8 *reply)
{
    u8 *block;
    u32 n;
    int boot = 0;
    if (address < CODE_SIZE) {
        n = CODE_BLOCK;
        block = m.code + address;
        boot = address < BOOT_SIZE;
    } else if (address >= DATA_START && address < DATA_START + DATA_SIZE) {
        n = DATA_BLOCK;
        block = m.data + (address - DATA_START);
    } else {
        return put_one(reply, 0x05);
    }
    if (address % n != 0)
        return put_one(reply, 0x05);
    if (!(d->sf1 & SEPR) || (boot && !(d->sf1 & BTPR)))
        return put_one(reply, 0x10);
    memset(block, 0xFF, n);
    return put_one(reply, 0x06);
}

static int release(struct device *d, struct lent m, u8 *reply)
{
    if (!is_blank(m.code, CODE_SIZE) || !is_blank(m.data, DATA_SIZE))
        return put_one(reply, 0x1B);
    if (!(d->sf1 & SEPR) || !(d->sf1 & BTPR))
        return put_one(reply, 0x10);
    d->sf1 |= SF1_BITS;
    d->sf2 |= SF2_BITS & ~IDEN;
    d->sws |= WINDOW_BITS;
    d->swe |= WINDOW_BITS;
    return put_one(reply, 0x06);
}

// TAR 01h counts the option bits in.
static int blank_check(const struct device *d, const u8 *frame, struct lent m, u8 *reply)
{
    struct range r;
    if (frame[9] > 1 || !range_of(address_at(frame + 3), address_at(frame + 6), &r))
        return put_one(reply, 0x05);
    if (!is_blank((r.in_data ? m.data : m.code) + r.from, r.to - r.from))
        return put_one(reply, 0x1B);
    if (frame[9] == 1
        && (~d->sf1 & SF1_BITS || ~d->sf2 & SF2_BLANK || ~d->sws & WINDOW_BITS || ~d->swe & WINDOW_BITS))
        return put_one(reply, 0x1B);
    return put_one(reply, 0x06);
}

static int window_get(const struct device *d, u8 *reply)
{
    u16 sws = d->sws & WINDOW_BITS, swe = d->swe & WINDOW_BITS;
    if ((sws & BLOCK_BITS) == (swe & BLOCK_BITS)) {
        sws = sws & FLAG;
        swe = (swe & FLAG) | LAST_CODE_BLOCK;
    }
    u8 body[4] = {sws, sws >> 8, swe, swe >> 8};
    return put_ack_and(reply, body, 4);
}

// A command frame that is right in end byte, SUM, code, phase and LEN.
static int obey(struct device *d, const u8 *frame, struct lent m, u8 *reply)
{
    struct range r;
    switch (frame[2]) {
    case 0x13:
        if (!range_of(address_at(frame + 3), address_at(frame + 6), &r))
            return put_one(reply, 0x05);
        return begin_pages(d, VERIFYING, &r, reply);
    case 0x22:
        return erase(d, address_at(frame + 3), m, reply);
    case 0x32:
        return blank_check(d, frame, m, reply);
    case 0x40:
        if (!range_of(address_at(frame + 3), address_at(frame + 6), &r))
            return put_one(reply, 0x05);
        return begin_pages(d, PROGRAMMING, &r, reply);
    case 0x9A: {
        static const u8 set[3] = {0x06, 0x20, 0x00};
        if (frame[3] > 3 || frame[4] < 0x10 || frame[4] > 0x37)
            return fault(d, reply, 0x05, 1);
        d->phase = d->sf2 & IDEN ? COMMAND : IDENT;
        return put_frame(reply, set, 3);
    }
    case 0x9C:
        if (memcmp(frame + 3, m.code + 0xC4, 10) != 0)
            return fault(d, reply, 0x24, 1);
        d->phase = COMMAND;
        return put_one(reply, 0x06);
    case 0xA0:
        d->sf1 &= frame[3] | ~SF1_BITS;
        d->sf2 &= frame[4] | ~(IDEN | IFPR);
        if (!(d->sf2 & IFPR)) {
            d->phase = SILENT;
            return 0;
        }
        return put_one(reply, 0x06);
    case 0xA1: {
        u8 body[3] = {(d->sf1 & SF1_BITS) | 0x01, d->sf2 & SF2_BITS, 0x00};
        return put_ack_and(reply, body, 3);
    }
    case 0xA2:
        return release(d, m, reply);
    case 0xAC:
        if (!(d->sws & FLAG))
            return put_one(reply, 0x10);
        d->sws = (d->sws & ~WINDOW_BITS) | (word_at(frame + 3) & WINDOW_BITS);
        d->swe = (d->swe & ~WINDOW_BITS) | (word_at(frame + 5) & WINDOW_BITS);
        return put_one(reply, 0x06);
    case 0xAD:
        return window_get(d, reply);
    case 0xB0: {
        if (!range_of(address_at(frame + 3), address_at(frame + 6), &r))
            return put_one(reply, 0x05);
        u16 sum = checksum((r.in_data ? m.data : m.code) + r.from, r.to - r.from);
        u8 body[2] = {sum, sum >> 8};
        return put_ack_and(reply, body, 2);
    }
    default: // 00h
        return put_one(reply, 0x06);
    }
}

static int on_command(struct device *d, const u8 *frame, struct lent m, u8 *reply)
{
    u8 len = frame[1];
    size n = len ? len : 256;
    if (frame[n + 3] != 0x03)
        return put_one(reply, 0x15);
    if (sum_of(len, frame + 2, n) != frame[n + 2])
        return put_one(reply, 0x07);
    for (size i = 0; i < sizeof commands / sizeof *commands; i++) {
        if (commands[i].code != frame[2])
            continue;
        if (commands[i].phase != d->phase)
            break;
        if (commands[i].len != len)
            return fault(d, reply, 0x15, 1);
        return obey(d, frame, m, reply);
    }
    return put_one(reply, 0x04);
}

// 06h, or the fault of a data frame.
static u8 judge_data(const u8 *frame, int last)
{
    u8 len = frame[1];
    size n = len ? len : 256;
    if (frame[n + 3] != (last ? 0x03 : 0x17))
        return 0x15;
    if (sum_of(len, frame + 2, n) != frame[n + 2])
        return 0x07;
    if (len != 0x00)
        return 0x15;
    return 0x06;
}

static u8 write_page(const struct device *d, u8 *page, const u8 *body)
{
    if (!(d->sf1 & WRPR) || (!(d->sf1 & BTPR) && !d->in_data && d->page < BOOT_SIZE / PAGE))
        return 0x10;
    if (!is_blank(page, PAGE))
        return 0x1C;
    memcpy(page, body, PAGE);
    return 0x06;
}

static int on_data(struct device *d, const u8 *frame, struct lent m, u8 *reply)
{
    int last = d->left == 1;
    u8 line = judge_data(frame, last);
    u8 *page = (d->in_data ? m.data : m.code) + d->page * PAGE;
    u8 status = d->status;
    if (d->task == PROGRAMMING) {
        if (line != 0x06 || status != 0x06) {
            d->task = IDLE;
            return put_pair(reply, line, status);
        }
        status = write_page(d, page, frame + 2);
    } else {
        if (line != 0x06) {
            d->task = IDLE;
            return put_pair(reply, line, 0x06);
        }
        if (memcmp(page, frame + 2, PAGE) != 0)
            status = 0x0F;
    }
    if (last) {
        d->task = IDLE;
        return put_pair(reply, 0x06, status);
    }
    d->status = status;
    d->page++;
    d->left--;
    return put_pair(reply, 0x06, 0x06);
}

// 0, or -1 to -3 for D1 to D3, by the lengths of what is lent.
static int lent_fault(size code_n, size data_n, size reply_n)
{
    if (code_n != CODE_SIZE)
        return -1;
    if (data_n != DATA_SIZE)
        return -2;
    if (reply_n < 16)
        return -3;
    return 0;
}

#ifndef FRAMES
// One received byte: how many bytes are answered, or -1 to -3 for D1 to D3.
BYTE_CALL int take(struct device *d, u8 byte, u8 *frame, u8 *code, size code_n, u8 *data, size data_n, u8 *reply, size reply_n)
{
    int refused = lent_fault(code_n, data_n, reply_n);
    if (refused)
        return refused;
    if (d->phase == SILENT)
        return 0;
    if (d->phase == MODE) {
        d->phase = byte == 0x3A || byte == 0x00 ? SPEED : SILENT;
        return 0;
    }
    if (d->have == 0) {
        if (byte == (d->task == IDLE ? 0x01 : 0x02)) {
            frame[0] = byte;
            d->have = 1;
        }
        return 0;
    }
    frame[d->have++] = byte;
    if (d->have == 2)
        d->want = (byte ? byte : 256) + 4;
    if (d->have < d->want)
        return 0;
    d->have = 0;
    struct lent m = {code, data};
    if (d->task == IDLE)
        return on_command(d, frame, m, reply);
    return on_data(d, frame, m, reply);
}
#endif

#ifdef FRAMES
// One whole frame of the kind awaited, judged where it lies: how many bytes are answered, -1 to -3 for D1 to D3, or -4 for E1.
static int hand(struct device *d, const u8 *frame, size n, u8 *code, size code_n, u8 *data, size data_n, u8 *reply, size reply_n)
{
    int refused = lent_fault(code_n, data_n, reply_n);
    if (refused)
        return refused;
    if (d->phase == SILENT || d->phase == MODE || d->have != 0)
        return -4;
    if (n < 2 || n != (frame[1] ? frame[1] : 256) + 4u || frame[0] != (d->task == IDLE ? 0x01 : 0x02))
        return -4;
    struct lent m = {code, data};
    if (d->task == IDLE)
        return on_command(d, frame, m, reply);
    return on_data(d, frame, m, reply);
}
#endif

#endif

#if defined(PLAYER) || defined(PLAY)

// ---- the sheet

enum { ERASE = 1, WRITE, VERIFY, SUM, BLANK, LOCK };

enum { LARGE_CODE = 64 * CODE_BLOCK, LARGE_DATA = 32 * DATA_BLOCK };

struct step {
    u8 kind;
    u32 sad, ead, body;
    u32 blocks, pages;
};

static u32 offset_at(const u8 *p)
{
    return word_at(p) | (u32)word_at(p + 2) << 16;
}

// FEh 02h begins form 2; of a sheet of two bytes and more.
static int two_of(const u8 *s)
{
    return s[0] == 0xFE && s[1] == 0x02;
}

static size head_of(const u8 *s)
{
    return two_of(s) ? 6 : 2;
}

static size count_of(const u8 *s)
{
    return word_at(s + head_of(s) - 2);
}

// A lock whose flags clear IFPR.
static int clears(const u8 *e)
{
    return !(e[2] & 0x04);
}

// 1 if a step writes a block that stands written; of accepted entries.
static int writes_twice(const u8 *s, size count)
{
    u8 code[LARGE_CODE / CODE_BLOCK] = {0}, data[LARGE_DATA / DATA_BLOCK] = {0};
    for (size i = 0; i < count; i++) {
        const u8 *e = s + head_of(s) + 12 * i;
        struct range r;
        if (e[0] > WRITE || !range_in(LARGE_CODE, LARGE_DATA, address_at(e + 1), address_at(e + 4), &r))
            continue;
        u8 *written = r.in_data ? data : code;
        u32 block = r.in_data ? DATA_BLOCK : CODE_BLOCK;
        for (u32 b = r.from / block; b < r.to / block; b++) {
            if (e[0] == WRITE && written[b])
                return 1;
            written[b] = e[0] == WRITE;
        }
    }
    return 0;
}

// 0, or 1 to 10 for J1 to J10, 17 to 20 for J11 to J14; for the small chip.
static int judge(const u8 *s, size n, size room)
{
    if (n < 2)
        return 1;
    int two = two_of(s), large = two && s[2] == 2;
    size head = head_of(s);
    if (n < head || n > (two ? 65540 : 65536))
        return 1;
    size count = word_at(s + head - 2);
    if (count > 64)
        return 2;
    if (two && ((s[2] != 1 && s[2] != 2) || s[3] != 0))
        return 17;
    size due = head + 12 * count;
    if (n < due)
        return 3;
    for (size i = 0; i < count; i++) {
        const u8 *e = s + head + 12 * i;
        u32 sad = address_at(e + 1), ead = address_at(e + 4);
        struct range r;
        if (e[0] < ERASE || e[0] > (two ? LOCK : SUM))
            return 4;
        if (e[7] != 0)
            return 5;
        if (e[0] != LOCK && !range_in(large ? LARGE_CODE : CODE_SIZE, large ? LARGE_DATA : DATA_SIZE, sad, ead, &r))
            return 6;
        if (e[0] == LOCK && ((clears(e) && i + 1 != count) || e[3] != 0 || ead != 0))
            return 18;
        if (offset_at(e + 8) != due)
            return 7;
        if (e[0] == WRITE || e[0] == VERIFY)
            due += ead - sad + 1;
        if (n < due)
            return 8;
    }
    if (n != due)
        return 9;
    if (writes_twice(s, count))
        return 19;
    if (large)
        return 20;
    if (room < count)
        return 10;
    return 0;
}

// Step i of an accepted sheet.
static struct step step_at(const u8 *s, size i)
{
    const u8 *e = s + head_of(s) + 12 * i;
    struct step t;
    t.kind = e[0];
    t.sad = address_at(e + 1);
    t.ead = address_at(e + 4);
    t.body = offset_at(e + 8);
    t.blocks = (t.ead - t.sad + 1) / (t.sad < DATA_START ? CODE_BLOCK : DATA_BLOCK);
    t.pages = (t.ead - t.sad + 1) / PAGE;
    return t;
}

// ---- the player

// READY is at the beginning of a step; from its first frame on the record keeps the step's kind.
enum { NEW, READY, BLOCK, ERASED, OPENED, SUMMED, CHECKED, LOCKED, PAGES, PAGED, OVER };
enum { L1 = 0x100 };

struct player {
    u8 stage, kind;
    u16 status;
    u32 step, at, frames, pieces;
};

static const struct player new_player = {NEW, 0, 0x06, 0, 0, 0, 0};

static int framed(const u8 *r, size len, u8 n)
{
    return len == n + 4 && r[0] == 0x02 && r[1] == n && sum_of(n, r + 2, n) == r[n + 2] && r[n + 3] == 0x03;
}

static u16 command_reply(const u8 *r, size n)
{
    return framed(r, n, 1) ? r[2] : L1;
}

static u16 data_reply(const u8 *r, size n)
{
    if (!framed(r, n, 2))
        return L1;
    return r[2] != 0x06 ? r[2] : r[3];
}

static u16 sum_reply(const u8 *r, size n)
{
    if (n < 5 || !framed(r, 5, 1) || r[2] != 0x06)
        return command_reply(r, n);
    return framed(r + 5, n - 5, 2) ? 0x06 : L1;
}

static void stop(struct player *p, u16 status, u32 pieces)
{
    p->stage = OVER;
    p->status = status;
    p->pieces = pieces;
}

static void finish(const u8 *s, struct player *p, u16 sum, u16 *sums)
{
    sums[p->step++] = sum;
    p->at = 0;
    p->stage = p->step == count_of(s) ? OVER : READY;
}

// The reply is taken in.
static void absorb(const u8 *s, struct player *p, const u8 *reply, size n, u16 *sums)
{
    u16 status;
    struct step t;
    switch (p->stage) {
    case NEW:
        *p = new_player;
        p->stage = count_of(s) == 0 ? OVER : READY;
        break;
    case ERASED:
        status = command_reply(reply, n);
        t = step_at(s, p->step);
        if (status != 0x06)
            stop(p, status, p->at);
        else if (++p->at == t.blocks)
            finish(s, p, 0, sums);
        else
            p->stage = BLOCK;
        break;
    case OPENED:
        status = command_reply(reply, n);
        p->at = 0;
        p->stage = PAGES;
        if (status != 0x06)
            stop(p, status, 0);
        break;
    case SUMMED:
        status = sum_reply(reply, n);
        if (status != 0x06)
            stop(p, status, 0);
        else
            finish(s, p, word_at(reply + 7), sums);
        break;
    case CHECKED:
    case LOCKED:
        if (p->stage == LOCKED && clears(s + head_of(s) + 12 * p->step))
            status = n == 0 ? 0x06 : L1;
        else
            status = command_reply(reply, n);
        if (status != 0x06)
            stop(p, status, 0);
        else
            finish(s, p, 0, sums);
        break;
    case PAGED:
        status = data_reply(reply, n);
        t = step_at(s, p->step);
        if (status != 0x06)
            stop(p, status, p->kind == WRITE && p->at > 0 ? p->at - 1 : 0);
        else if (++p->at == t.pages)
            finish(s, p, 0, sums);
        else
            p->stage = PAGES;
        break;
    }
}

static void put_address(u8 *p, u32 a)
{
    p[0] = a;
    p[1] = a >> 8;
    p[2] = a >> 16;
}

static size end_frame(u8 *frame, u8 start, size n, u8 end)
{
    frame[0] = start;
    frame[1] = n;
    frame[n + 2] = sum_of(n, frame + 2, n);
    frame[n + 3] = end;
    return n + 4;
}

static size pair_command(u8 *frame, u8 code, const struct step *t)
{
    frame[2] = code;
    put_address(frame + 3, t->sad);
    put_address(frame + 6, t->ead);
    return end_frame(frame, 0x01, 7, 0x03);
}

// The next frame; 0 where there is none to send.
static size emit(const u8 *s, struct player *p, u8 *frame)
{
    struct step t;
    size n;
    if (p->stage == PAGES) {
        t = step_at(s, p->step);
        memcpy(frame + 2, s + t.body + p->at * PAGE, PAGE);
        p->stage = PAGED;
        p->frames++;
        return end_frame(frame, 0x02, PAGE, p->at + 1 == t.pages ? 0x03 : 0x17);
    }
    if (p->stage != READY && p->stage != BLOCK)
        return 0;
    t = step_at(s, p->step);
    p->kind = t.kind;
    switch (t.kind) {
    case ERASE:
        frame[2] = 0x22;
        put_address(frame + 3, t.sad + p->at * (t.sad < DATA_START ? CODE_BLOCK : DATA_BLOCK));
        n = end_frame(frame, 0x01, 4, 0x03);
        p->stage = ERASED;
        break;
    case WRITE:
        n = pair_command(frame, 0x40, &t);
        p->stage = OPENED;
        break;
    case VERIFY:
        n = pair_command(frame, 0x13, &t);
        p->stage = OPENED;
        break;
    case BLANK:
        pair_command(frame, 0x32, &t);
        frame[9] = 0x00;
        n = end_frame(frame, 0x01, 8, 0x03);
        p->stage = CHECKED;
        break;
    case LOCK:
        frame[2] = 0xA0;
        put_address(frame + 3, t.sad);
        n = end_frame(frame, 0x01, 4, 0x03);
        p->stage = LOCKED;
        break;
    default:
        n = pair_command(frame, 0xB0, &t);
        p->stage = SUMMED;
        break;
    }
    p->frames++;
    return n;
}

struct report {
    u16 status;
    u32 steps, frames, pieces;
};

static struct report report_of(const struct player *p)
{
    struct report r = {0x06, 0, 0, 0};
    if (p->stage == NEW)
        return r;
    r.steps = p->step;
    r.frames = p->frames;
    if (p->stage == OVER) {
        r.status = p->status;
        r.pieces = p->pieces;
    }
    return r;
}

static size reported(size sum, struct report r)
{
    return mixed(mixed(mixed(mixed(sum, r.status), r.steps), r.frames), r.pieces);
}

#endif

// ---- the entries, of the same shape as the proved ones

#ifdef ENGINE
// The chip takes each byte by one call: a fresh one in phase Command where `start` is 0, else one that was just powered on with SF1 and SF2
// in the low bytes of `start`. Of each answer the first `shown` bytes go into the digest.
size plain_engine(const u8 *bytes, size n, size start, size shown, u8 *held, u8 *code, size code_n, u8 *data, size data_n, u8 *reply, size reply_n)
{
    struct device d = waiting;
    size sum = 0;
    if (start != 0) {
        d.sf1 = start;
        d.sf2 = start >> 8;
        d.phase = d.sf2 & IFPR ? MODE : SILENT;
    }
    for (size i = 0; i < n; i++) {
        int answered = take(&d, bytes[i], held, code, code_n, data, data_n, reply, reply_n);
        if (answered < 0)
            sum = mixed(sum, named(12 - answered));
        else if (answered > 0)
            sum = mixed_bytes(mixed(sum, answered), reply, less_of(answered, shown));
    }
    return sum;
}
#endif

#ifdef FRAMES
// The same input, cut into frames by their own LEN, each handed over whole.
size plain_frames(const u8 *bytes, size n, size start, size shown, u8 *held, u8 *code, size code_n, u8 *data, size data_n, u8 *reply, size reply_n)
{
    struct device d = waiting;
    size sum = 0;
    (void)held;
    if (start != 0) {
        d.sf1 = start;
        d.sf2 = start >> 8;
        d.phase = d.sf2 & IFPR ? MODE : SILENT;
    }
    for (size at = 0; at < n;) {
        size left = n - at, frame = left;
        if (left >= 2 && (bytes[at + 1] ? bytes[at + 1] : 256) + 4u < left)
            frame = (bytes[at + 1] ? bytes[at + 1] : 256) + 4u;
        int answered = hand(&d, bytes + at, frame, code, code_n, data, data_n, reply, reply_n);
        if (answered < 0)
            sum = mixed(sum, named(12 - answered));
        else if (answered > 0)
            sum = mixed_bytes(mixed(sum, answered), reply, less_of(answered, shown));
        at += frame;
    }
    return sum;
}
#endif

#ifdef PLAYER
// P2: an unfinished play whose step, block or page is not in the sheet; a step of another kind than the one begun is not that step.
static int lost(const u8 *s, const struct player *p)
{
    if (p->stage == NEW || p->stage == OVER)
        return 0;
    if (p->step >= count_of(s))
        return 1;
    if (p->stage == READY)
        return 0;
    struct step t = step_at(s, p->step);
    if (t.kind != p->kind)
        return 1;
    switch (p->stage) {
    case BLOCK:
    case ERASED:
        return p->at >= t.blocks;
    case PAGES:
    case PAGED:
        return p->at >= t.pages;
    default:
        return 0;
    }
}

// A player call: the size of the next frame, 0 at the end, or minus 1 to 10 for J1 to J10, -11 for P1, -12 for P2, -17 to -20 for J11 to J14.
static long next(const u8 *s, size s_n, struct player *p, const u8 *reply, size reply_n, u8 *frame, size frame_n, u16 *sums, size sums_n)
{
    int refusal = judge(s, s_n, sums_n);
    if (refusal)
        return -refusal;
    if (frame_n < 260)
        return -11;
    if (lost(s, p))
        return -12;
    absorb(s, p, reply, reply_n, sums);
    return emit(s, p, frame);
}

// Calls with given replies: the ACK, a pair of 06h, the ACK and a sum, in 22 bytes; the last call of a play has its own behind them. A new
// play begins after each `again` calls. Of each frame the first `shown` bytes go into the digest.
size plain_player(const u8 *sheet, size sheet_n, const u8 *replies, size replies_n, size calls, size again, size shown, u8 *frame, size frame_n, u16 *sums, size sums_n)
{
    struct player p = new_player;
    size sum = 0, left = 0;
    if (frame_n < 260 || replies_n < 33)
        return 0;
    for (size k = 0; k < calls; k++) {
        if (left == 0) {
            p = new_player;
            left = again;
        }
        const u8 *reply = left == 1 ? replies + 22 : replies;
        size reply_n = 5;
        if (frame[0] == 0x02) {
            reply += 5;
            reply_n = 6;
        } else if (frame[2] == 0xB0) {
            reply += 11;
            reply_n = left == 1 ? replies_n - 33 : 11;
        }
        long n = next(sheet, sheet_n, &p, reply, reply_n, frame, frame_n, sums, sums_n);
        sum = reported(mixed(sum, n < 0 ? named(-n) : (size)n), report_of(&p));
        if (n > 0)
            sum = mixed_bytes(sum, frame, less_of(n, shown));
        if (left > 0)
            left--;
    }
    return sum;
}
#endif

#ifdef PLAY
// A new player plays the sheet to a fresh chip in phase Command. A refusal is 1 to 10 for J1 to J10, 11 for P1, 13 to 15 for D1 to D3, 17 to 20 for J11 to J14.
size plain_play(const u8 *sheet, size sheet_n, u8 *held, u8 *code, size code_n, u8 *data, size data_n, u8 *reply, size reply_n, u8 *frame, size frame_n, u16 *sums, size sums_n, size *each)
{
    struct device d = waiting;
    struct player p = new_player;
    size heard = 0, before = 0, n;
    int refusal = judge(sheet, sheet_n, sums_n);
    if (!refusal && frame_n < 260)
        refusal = 11;
    if (!refusal && code_n != CODE_SIZE)
        refusal = 13;
    if (!refusal && data_n != DATA_SIZE)
        refusal = 14;
    if (!refusal && reply_n < 16)
        refusal = 15;
    if (refusal)
        return mixed(0, named(refusal));
    absorb(sheet, &p, reply, 0, sums);
    while ((n = emit(sheet, &p, frame)) != 0) {
        size step = p.step;
        heard = 0;
        for (size i = 0; i < n; i++) {
            int answered = take(&d, frame[i], held, code, code_n, data, data_n, reply + heard, reply_n - heard);
            if (answered < 0)
                break;
            heard += answered;
        }
        absorb(sheet, &p, reply, heard, sums);
        if (p.step != step || p.stage == OVER) {
            each[step] = p.frames - before;
            before = p.frames;
        }
    }
    return mixed(reported(0, report_of(&p)), heard);
}
#endif
