/* Judge, prepare and restore made for speed alone: hand-tuned C for page 0, prepare by the strict way, with notes. tests/bench
   compiles it beside the desk, so that a ratio can be told. It is not the independent implementation, to which the calls are
   compared (that is plain.c), and nothing but the benchmark uses it. */
#include "fast.h"
#include <string.h>

#if __BYTE_ORDER__ != __ORDER_LITTLE_ENDIAN__
#error "the eight-at-once digit code is written for little-endian machines"
#endif

typedef unsigned char u8;
typedef uint32_t u32;
typedef uint64_t u64;

#define INLINE static inline __attribute__((always_inline))
#define NOINLINE static __attribute__((noinline))
#define likely(x) __builtin_expect(!!(x), 1)
#define unlikely(x) __builtin_expect(!!(x), 0)

enum { LEN_Q = 256, LEN_T = 768, LEN_Z = 256 };
enum { PIECE = 84 }; /* records copied at once */

/* ---------- character table ---------- */

/* the tables say first what holds of all bytes, then what of some */
#pragma GCC diagnostic ignored "-Woverride-init"

static const u8 replaced[256] = {
    [0 ... 255] = ' ',
    ['A'] = 'A', 'B', 'C', 'D', 'E', 'F', 'G', 'H', 'I', 'J', 'K', 'L', 'M',
    'N', 'O', 'P', 'Q', 'R', 'S', 'T', 'U', 'V', 'W', 'X', 'Y', 'Z',
    ['a'] = 'a', 'b', 'c', 'd', 'e', 'f', 'g', 'h', 'i', 'j', 'k', 'l', 'm',
    'n', 'o', 'p', 'q', 'r', 's', 't', 'u', 'v', 'w', 'x', 'y', 'z',
    ['0'] = '0', '1', '2', '3', '4', '5', '6', '7', '8', '9',
    ['.'] = '.', [','] = ',', ['-'] = '-', ['/'] = '/', ['+'] = '+', ['%'] = '%',
    ['&'] = '+', ['$'] = 'S', [0x5B] = 'A', [0x5C] = 'O', [0x5D] = 'U', [0x7E] = 'S',
};

/* What the replaced character is: 1 capital, 2 digit, 4 space, 8 anything else. */
enum { CAP = 1, DIG = 2, SPC = 4, OTH = 8 };
static const u8 kind[256] = {
    [0 ... 255] = SPC,
    ['A' ... 'Z'] = CAP, ['a' ... 'z'] = OTH, ['0' ... '9'] = DIG,
    ['.'] = OTH, [','] = OTH, ['-'] = OTH, ['/'] = OTH, ['+'] = OTH, ['%'] = OTH,
    ['&'] = OTH, ['$'] = CAP, [0x5B] = CAP, [0x5C] = CAP, [0x5D] = CAP, [0x7E] = CAP,
};

/* 255 when the table changes b, else 0. Written so that gcc vectorises loops over it (plain comparisons
   of one variable it would first fold into bit tests, which it cannot vectorise):
   letters; '+' to '9' is + , - . / 0-9 without a gap; space or percent.
   Not 1 or 0: gcc 12.2 -O3 on aarch64 adds sixteen truth values into a byte wrongly. */
INLINE u8 changed(u8 b)
{
    u8 letter = (u8)((u8)(b | 0x20) - 'a'), sign = (u8)(b - '+');
    u8 space = b ^ ' ', percent = b ^ '%', least = space < percent ? space : percent;
    return (letter < 26) | (sign < 15) | (least == 0) ? 0 : 255;
}

/* offsets in a T record that belong to a text field */
static const u8 t_text[LEN_T] = {
    [53 ... 63] = 1, [67 ... 206] = 1, [210 ... 349] = 1, [420 ... 454] = 1,
    [475 ... 614] = 1, [623 ... 647] = 1, [652 ... 678] = 1, [679 ... 713] = 1,
};
static const u8 q_text[LEN_Q] = { [23 ... 162] = 1 };

/* ---------- small tests ---------- */

INLINE u64 load8(const u8 *p) { u64 v; memcpy(&v, p, 8); return v; }

#define ONES 0x0101010101010101u
#define REP(c) (ONES * (u64)(c))

/* 0 exactly when the n bytes (n >= 8, constant) are all c */
INLINE u64 differ(const u8 *p, size_t n, u8 c)
{
    u64 d = load8(p + n - 8) ^ REP(c);
    for (size_t i = 0; i + 8 < n; i += 8) d |= load8(p + i) ^ REP(c);
    return d;
}

INLINE int digit(u8 b) { return (u8)(b - '0') < 10; }
INLINE int capital(u8 b) { return (u8)(b - 'A') < 26; }

/* eight ASCII digits? */
INLINE int digits8(u64 v)
{
    return ((v & REP(0xF0)) | (((v + REP(0x06)) & REP(0xF0)) >> 4)) == REP(0x33);
}
INLINE u64 value8(u64 v)
{
    v = (v & REP(0x0F)) * 2561 >> 8;
    v = (v & 0x00FF00FF00FF00FFu) * 6553601 >> 16;
    return (v & 0x0000FFFF0000FFFFu) * 42949672960001u >> 32;
}

static int digits(const u8 *p, size_t n)
{
    for (size_t i = 0; i < n; i++) if (!digit(p[i])) return 0;
    return 1;
}

/* all spaces after replacement */
static int blank(const u8 *p, size_t n)
{
    size_t i = 0;
    while (i + 8 <= n && load8(p + i) == REP(' ')) i += 8;
    for (; i < n; i++) if (kind[p[i]] != SPC) return 0;
    return 1;
}
/* the same where text is expected at the start */
INLINE int text_blank(const u8 *p, size_t n) { return kind[p[0]] == SPC && blank(p, n); }

INLINE int bic_shape(const u8 *p)
{
    unsigned bank = kind[p[0]] | kind[p[1]] | kind[p[2]] | kind[p[3]] | kind[p[4]] | kind[p[5]];
    unsigned place = kind[p[6]] | kind[p[7]];
    unsigned branch = kind[p[8]] | kind[p[9]] | kind[p[10]];
    return !((bank & ~CAP) | (place & ~(CAP | DIG))) && (branch == SPC || !(branch & ~(CAP | DIG)));
}

/* ---------- country lists: a bit per pair of bytes, made when first asked ---------- */

struct countries {
    const u8 *list;
    size_t n;
    int made;
    u64 bit[1024];
};

NOINLINE void make(struct countries *c)
{
    memset(c->bit, 0, sizeof c->bit);
    for (size_t i = 0; i + 2 <= c->n; i += 2) {
        unsigned k = c->list[i] << 8 | c->list[i + 1];
        c->bit[k >> 6] |= (u64)1 << (k & 63);
    }
    c->made = 1;
}
INLINE int listed(struct countries *c, const u8 *p) /* two bytes listed, then a space */
{
    if (unlikely(!c->made)) make(c);
    unsigned k = p[0] << 8 | p[1];
    return (c->bit[k >> 6] >> (k & 63) & 1) & (p[2] == ' ');
}

/* ---------- content ---------- */

struct totals { u64 payments, euros, cents, changes; };

NOINLINE unsigned check_q(const u8 *q)
{
    static const u8 month[13] = { 0, 31, 28, 31, 30, 31, 30, 31, 31, 30, 31, 30, 31 };
    if (memcmp(q + 5, "50400042", 8)) return 10;
    if (memcmp(q + 13, "00000000", 8) || !digits(q + 21, 2)) return 11;
    if (text_blank(q + 23, 35)) return 12;
    if (!digits(q + 163, 6)) return 13;
    unsigned y = (q[163] - '0') * 10 + q[164] - '0';
    unsigned m = (q[165] - '0') * 10 + q[166] - '0';
    unsigned d = (q[167] - '0') * 10 + q[168] - '0';
    if (m < 1 || m > 12 || d < 1 || d > month[m] + (unsigned)(m == 2 && y % 4 == 0)) return 13;
    if (!digits(q + 169, 8) || !digits(q + 178, 10)) return 14;
    if (q[177] != 'N') return 15;
    if (differ(q + 188, 68, ' ')) return 16;
    return 0;
}

/* rules 20 to 22 in order */
NOINLINE unsigned check_head(const u8 *t, const u8 *first)
{
    if (!digits(t + 5, 8) || !digits(t + 16, 10) || memcmp(t + 13, "EUR", 3)) return 20;
    if (memcmp(t + 5, first + 5, 8) || memcmp(t + 16, first + 16, 10)) return 21;
    if (memcmp(t + 26, "00000000000000", 14) || memcmp(t + 40, "   0000000000", 13)) return 22;
    return 0;
}

INLINE unsigned check_t(const u8 *t, const u8 *first, struct countries *transfer,
                        struct countries *cheque, struct totals *sum)
{
    /* 20-22: a record whose T3 to T7b equal those of record 1, already passed, passes */
    if (t == first || (load8(t + 5) ^ load8(first + 5)) | (load8(t + 13) ^ load8(first + 13)) |
                      (load8(t + 21) ^ load8(first + 21)) | (load8(t + 29) ^ load8(first + 29)) |
                      (load8(t + 37) ^ load8(first + 37)) | (load8(t + 45) ^ load8(first + 45))) {
        unsigned r = check_head(t, first);
        if (r) return r;
    }
    int is_transfer = !memcmp(t + 650, "00", 2);
    if (!is_transfer && (t[650] != '2' || (t[651] != '0' && t[651] != '2'))) return 23;
    if (t[648] != '0') return 24;
    if (likely(is_transfer)) {
        if ((u8)(t[649] - '0') > 2) return 24;
        if (bic_shape(t + 53)) {
            if (t[66] != ' ' || !((t[64] == ' ' && t[65] == ' ') || (capital(t[64]) && capital(t[65])))) return 26;
        } else {
            if (!listed(transfer, t + 64)) return 26;
            if (text_blank(t + 67, 140)) return 27;
        }
        if (!listed(transfer, t + 207)) return 28;
        if (text_blank(t + 210, 35)) return 29;
        if (differ(t + 350, 70, ' ')) return 30;
        if (t[420] != '/' || kind[t[421]] == SPC) return 31; /* only '/' becomes '/' */
    } else {
        if (t[649] != '0') return 24;
        if (!blank(t + 53, 11) || memcmp(t + 64, "   ", 3) || !blank(t + 67, 140)) return 25;
        if (!listed(cheque, t + 207)) return 28;
        if (text_blank(t + 210, 35) || text_blank(t + 280, 35) || text_blank(t + 315, 35)) return 29;
        if (differ(t + 350, 70, ' ')) return 30;
        if (!blank(t + 420, 35)) return 31;
    }
    if (memcmp(t + 455, "EUR", 3)) return 32;
    u64 hi = load8(t + 458), lo = load8(t + 466); /* lo: last six of T14a, first two of T14b */
    if (!digits8(hi) || !digits8(lo) || t[474] != '0' || ((hi ^ REP('0')) | (lo ^ REP('0'))) == 0) return 33;
    if (!digits8(load8(t + 615)) || !digit(t[714]) || memcmp(t + 766, "00", 2)) return 34;
    if (differ(t + 715, 51, ' ')) return 35;
    u64 low = value8(lo);
    sum->euros += value8(hi) * 1000000 + low / 100;
    sum->cents += low % 100;
    return 0;
}

NOINLINE unsigned check_z(const u8 *z, const struct totals *sum)
{
    if (!digits(z + 5, 30) || differ(z + 35, 221, ' ')) return 40;
    u64 euros = 0, count = 0;
    for (int i = 0; i < 15; i++) {
        euros = euros * 10 + (z[5 + i] - '0');
        count = count * 10 + (z[20 + i] - '0');
    }
    if (count != sum->payments) return 41;
    if (euros != sum->euros) return 42;
    return 0;
}

/* In a record found sound, the bytes between and shortly behind the text fields are capitals,
   digits or spaces, which the table leaves alone; so two straight stretches of 320 bytes
   (53-372 and 420-739) serve all T text fields, and 192 bytes (23-214) serve Q5.
   Exception: T9a and T10a may hold any bytes when the lent lists do. */
#define BLOCK 32
enum { STRETCH_A = 53, STRETCH_B = 420, STRETCH_T = 320, STRETCH_QAT = 23, STRETCH_Q = 192 };

/* Changes in a stretch; bit k of *dirty tells that its block k has some. */
INLINE unsigned count_blocks(const u8 *p, unsigned len, u64 *dirty)
{
    unsigned total = 0;
    u64 m = 0;
    for (unsigned k = 0; k < len / BLOCK; k++, p += BLOCK) {
        u8 c = 0;
        for (int i = 0; i < BLOCK; i++) c += changed(p[i]) & 1;
        total += c;
        m |= (u64)(c != 0) << k;
    }
    *dirty = m;
    return total;
}
/* first the blocks of the first stretch, then those of the second */
INLINE unsigned count_t(const u8 *t, u64 *dirty)
{
    static const u8 odd[4] = { 64, 65, 207, 208 };
    u64 a, b;
    unsigned c = count_blocks(t + STRETCH_A, STRETCH_T, &a) + count_blocks(t + STRETCH_B, STRETCH_T, &b);
    *dirty = a | b << STRETCH_T / BLOCK;
    for (int i = 0; i < 4; i++) c -= replaced[t[odd[i]]] != t[odd[i]];
    return c;
}
INLINE int any_changed(const u8 *p, size_t n)
{
    u8 same = 255;
    for (size_t i = 0; i < n; i++) { u8 c = changed(p[i]) ^ 255; same = same < c ? same : c; }
    return same == 0;
}
/* text the table would still change; the record is otherwise sound */
INLINE int unreplaced_t(const u8 *t)
{
    if (any_changed(t + STRETCH_B, STRETCH_T)) return 1;
    if (likely(!any_changed(t + STRETCH_A, STRETCH_T))) return 0;
    return any_changed(t + 53, 11) || any_changed(t + 67, 140) || any_changed(t + 210, 140);
}

/* A reading of the lent notes, record by record. */
struct notes { const u32 *at, *end; size_t next; };

/* 1 when the notes up to `limit` don't stand for changes in the record r at place `from` */
INLINE int bad_notes(struct notes *s, const u8 *r, const u8 *text, size_t from, size_t limit)
{
    for (; s->at < s->end; s->at++) {
        size_t place = *s->at >> 8;
        u8 b = (u8)*s->at;
        if (place >= limit) return 0;
        if (place < s->next || !text[place - from]) return 1;
        if (replaced[b] != r[place - from] || b == r[place - from]) return 1;
        s->next = place + 1;
    }
    return 0;
}

/* ---------- structure ---------- */

INLINE int whole_t(const u8 *p, size_t left) { return left >= LEN_T && !memcmp(p, "0768T", 5); }

/* where whole T records end: the walk's number, 0 for a closing Z */
NOINLINE unsigned walk_end(const u8 *p, size_t left, size_t record)
{
    if (left < 5) return 2;
    if (p[4] == 'T') return memcmp(p, "0768", 4) ? 3 : 2;
    if (p[4] != 'Z' || record < 2) return 4;
    if (memcmp(p, "0256", 4)) return 3;
    return left < LEN_Z ? 2 : left > LEN_Z ? 5 : 0;
}
INLINE unsigned walk_q(const u8 *f, size_t n)
{
    if (n > FAST_MAX_FILE) return 1;
    if (n < 5) return 2;
    if (f[4] != 'Q') return 4;
    if (memcmp(f, "0256", 4)) return 3;
    return n < LEN_Q ? 2 : 0;
}
/* walk on from a record; number of Z in *z */
NOINLINE unsigned long walk_on(const u8 *p, size_t left, size_t record, size_t *z)
{
    while (whole_t(p, left)) { p += LEN_T; left -= LEN_T; record++; }
    unsigned r = walk_end(p, left, record);
    *z = record;
    return r ? record * 100ul + r : 0;
}

/* Structure and content in one pass: a content fault is kept while the structure is walked to its end.
   COUNT (prepare) counts the changes and marks where they are; dirty[0] is for Q.
   FIXED (restore) wants any refusal, also for text the table would still change and for wrong notes. */
enum mode { JUDGE, COUNT, FIXED };

INLINE unsigned long scan(const u8 *f, size_t n, const u8 *transfer, size_t nt, const u8 *cheque, size_t nc,
                          enum mode mode, struct totals *sum, u64 *dirty, struct notes *notes)
{
    struct countries tr, ch;
    tr.list = transfer; tr.n = nt; tr.made = 0;
    ch.list = cheque; ch.n = nc; ch.made = 0;
    sum->payments = sum->euros = sum->cents = sum->changes = 0;

    unsigned r = walk_q(f, n);
    if (r) return r;
    const u8 *first = f + LEN_Q, *p = first;
    size_t left = n - LEN_Q, record = 1;
    r = check_q(f);
    if (unlikely(r)) {
        unsigned long w = walk_on(p, left, record, &record);
        return w ? w : r;
    }
    if (mode == COUNT) sum->changes = count_blocks(f + STRETCH_QAT, STRETCH_Q, dirty);
    if (mode == FIXED && (any_changed(f + STRETCH_QAT, STRETCH_Q) || bad_notes(notes, f, q_text, 0, LEN_Q))) return 70;

    for (; likely(whole_t(p, left)); p += LEN_T, left -= LEN_T, record++) {
        r = check_t(p, first, &tr, &ch, sum);
        if (unlikely(r)) {
            if (mode == FIXED) return 70;
            size_t z;
            unsigned long w = walk_on(p + LEN_T, left - LEN_T, record + 1, &z);
            return w ? w : record * 100ul + r;
        }
        if (mode == COUNT) sum->changes += count_t(p, &dirty[record]);
        if (mode == FIXED) {
            size_t from = (size_t)(p - f);
            if (unreplaced_t(p) || bad_notes(notes, p, t_text, from, from + LEN_T)) return 70;
        }
    }
    r = walk_end(p, left, record);
    if (!r) {
        sum->payments = record - 1;
        r = check_z(p, sum);
    }
    if (mode == FIXED && notes->at != notes->end) return 70;
    return r ? record * 100ul + r : 0;
}

/* ---------- the calls ---------- */

unsigned long fast_judge(const u8 *file, size_t n, const u8 *transfer, size_t nt, const u8 *cheque, size_t nc)
{
    struct totals sum;
    return scan(file, n, transfer, nt, cheque, nc, JUDGE, &sum, NULL, NULL);
}

/* Replace in a block of the output (already copied), noting each change; text tells which bytes are text. */
INLINE u32 *replace_block(const u8 *p, u8 *o, size_t at, const u8 *text, u32 *note)
{
    u8 mark[BLOCK];
    u64 w = 0;
    for (int i = 0; i < BLOCK; i++) mark[i] = changed(p[i]) & 1;
    for (int i = 0; i < BLOCK; i += 8) w |= (load8(mark + i) * 0x0102040810204080u >> 56) << i; /* a bit for each byte */
    for (; w; w &= w - 1) {
        unsigned k = (unsigned)__builtin_ctzll(w);
        if (unlikely(!text[k])) continue;
        *note++ = (u32)((at + k) << 8 | p[k]);
        o[k] = replaced[p[k]];
    }
    return note;
}

fast_prepared fast_prepare(const u8 *file, size_t n, const u8 *transfer, size_t nt, const u8 *cheque, size_t nc,
                           u8 *restrict out, size_t nout, u32 *restrict notes, size_t nnotes)
{
    struct totals sum;
    u64 dirty[10000]; /* the first pass marks the pieces that the second has to change */
    fast_prepared a = { 0, 0, 0 };
    unsigned long c = scan(file, n, transfer, nt, cheque, nc, COUNT, &sum, dirty, NULL);
    if (c) { a.number = c % 100; a.record = c / 100; return a; }
    if (nout < n) { a.number = 60; return a; }
    if (sum.changes > nnotes) { a.number = 61; return a; }

    memcpy(out, file, LEN_Q);
    for (u64 m = dirty[0]; m; m &= m - 1) {
        size_t at = STRETCH_QAT + BLOCK * (size_t)__builtin_ctzll(m);
        notes = replace_block(file + at, out + at, at, q_text + at, notes);
    }
    for (size_t r = 1; r <= sum.payments;) { /* copy some records, then change what has to change in them */
        size_t end = r + PIECE <= sum.payments ? r + PIECE : sum.payments + 1;
        size_t from = LEN_Q + (r - 1) * LEN_T;
        memcpy(out + from, file + from, (end - r) * LEN_T);
        for (; r < end; r++, from += LEN_T)
            for (u64 m = dirty[r]; m; m &= m - 1) {
                size_t k = (size_t)__builtin_ctzll(m);
                size_t off = BLOCK * k + (k < STRETCH_T / BLOCK ? STRETCH_A : STRETCH_B - STRETCH_T);
                notes = replace_block(file + from + off, out + from + off, from + off, t_text + off, notes);
            }
    }
    memcpy(out + n - LEN_Z, file + n - LEN_Z, LEN_Z);
    a.notes = sum.changes;
    return a;
}

fast_restored fast_restore(const u8 *fwd, size_t n, const u32 *notes, size_t nnotes,
                           const u8 *transfer, size_t nt, const u8 *cheque, size_t nc,
                           u8 *restrict out, size_t nout)
{
    struct totals sum;
    struct notes reading = { notes, notes + nnotes, 0 };
    fast_restored ok = { 0, 0 }, no = { 70, 0 };
    if (nout < n) { no.number = 60; return no; }
    /* The rules read replaced text, so original and forwarded file are sound together. */
    if (scan(fwd, n, transfer, nt, cheque, nc, FIXED, &sum, NULL, &reading)) return no;
    /* copy a piece, put its originals back while it is near */
    size_t i = 0;
    for (size_t at = 0; at < n;) {
        size_t len = n - at < PIECE * LEN_T ? n - at : PIECE * LEN_T;
        memcpy(out + at, fwd + at, len);
        at += len;
        for (; i < nnotes && notes[i] >> 8 < at; i++) out[notes[i] >> 8] = (u8)notes[i];
    }
    return ok;
}
