// The plain program: the same player as `hmtx`, in plain C, written from document 01 and request 2026-01. It is what the proved program is measured against.
//
// The machine is changed in place: whatever refuses a step is looked at before anything changes. The kit has no C headers, so what is used of the C library is declared here.
typedef unsigned char u8;
typedef unsigned long u64;
typedef u64 size_t;

long read(int fd, void *to, size_t count);
long write(int fd, const void *from, size_t count);
void *memcpy(void *restrict to, const void *restrict from, size_t count);
int memcmp(const void *a, const void *b, size_t count);

enum { SLOTS = 16, CACHES = 4, ADDRESSES = 64, VIDS = 64, TEXT = 65536, REPORT = 131072 };

enum state { I, M, O, E, S, SM, SO, SE, SS };
struct line {
    u8 state, address, m, h;
    u64 word;
};
struct cache { struct line lines[SLOTS]; };

struct machine {
    struct cache caches[CACHES];
    int count;
    u8 lcvid;
    u64 memory[ADDRESSES];
};

enum op { LOAD, STORE, COMMIT, ABORT, RESET, EVICT };
struct step { enum op op; u64 cache, vid, at, data; };

enum answer { VALUE, DONE, MISSPEC, OVERFLOW, REFUSED };
struct answered { enum answer answer; u64 data; }; // the loaded value, or the number of the refusal

// ---- lines

static int is_plain(const struct line *l) { return l->state >= M && l->state <= S; }
static int is_ranged(const struct line *l) { return l->state == SO || l->state == SS; }
static int is_top(const struct line *l) { return l->state == SM || l->state == SE; }
static int is_owning(const struct line *l) { return is_top(l) || l->state == SO; }
static int is_free(const struct line *l, u8 lcvid) { return l->state == I || (is_ranged(l) && l->h <= lcvid); }

static int hits(const struct line *l, u8 a) {
    return l->m <= a && (is_top(l) || (is_ranged(l) && a < l->h));
}

static void empty(struct line *l) { *l = (struct line){0}; }
static void settle(struct line *l) { l->state = l->state == SE ? E : M, l->m = l->h = 0; }

// ---- searches, drops and placing

static struct line *find_owner(struct machine *k, u8 x, u8 a, int *cache) {
    for (int c = 0; c < k->count; c++)
        for (struct line *l = k->caches[c].lines; l < k->caches[c].lines + SLOTS; l++)
            if (l->address == x && is_owning(l) && hits(l, a)) {
                *cache = c;
                return l;
            }
    return 0;
}

static struct line *find_plain(struct cache *c, u8 x) {
    for (struct line *l = c->lines; l < c->lines + SLOTS; l++)
        if (l->address == x && is_plain(l)) return l;
    return 0;
}

static struct line *find_plain_anywhere(struct machine *k, u8 x) {
    struct line *l = 0;
    for (int c = 0; c < k->count && !l; c++) l = find_plain(&k->caches[c], x);
    return l;
}

static struct line *find_share(struct cache *c, u8 x, u8 a) {
    for (struct line *l = c->lines; l < c->lines + SLOTS; l++)
        if (l->address == x && l->state == SS && hits(l, a)) return l;
    return 0;
}

// What a step drops at an address: its S-S lines with that m; or all its lines (ALL); or none (NONE, which is no VID).
enum { NONE = 64, ALL = 65 };

static int is_dropped(const struct line *l, u8 x, u8 m) {
    return l->address == x && (m == ALL || (l->state == SS && l->m == m));
}

static void drop_in(struct cache *c, u8 x, u8 m) {
    for (struct line *l = c->lines; l < c->lines + SLOTS; l++)
        if (is_dropped(l, x, m)) empty(l);
}

static void drop(struct machine *k, u8 x, u8 m) {
    for (int c = 0; c < k->count; c++) drop_in(&k->caches[c], x, m);
}

// How many slots of a cache are free, or will be when that has dropped.
static int room(const struct machine *k, int cache, u8 x, u8 m) {
    int free = 0;
    const struct line *l = k->caches[cache].lines;
    for (int s = 0; s < SLOTS; s++) free += is_free(&l[s], k->lcvid) || is_dropped(&l[s], x, m);
    return free;
}

// In the lowest free slot; the caller knows that there is one.
static void place(struct machine *k, int cache, enum state state, u8 x, u8 m, u8 h, u64 word) {
    struct line *l = k->caches[cache].lines;
    while (!is_free(l, k->lcvid)) l++;
    *l = (struct line){.state = state, .address = x, .m = m, .h = h, .word = word};
}

// ---- answers

static struct answered refused(u64 number) { return (struct answered){REFUSED, number}; }
static struct answered value(u64 word) { return (struct answered){VALUE, word}; }
static struct answered said(enum answer answer) { return (struct answered){answer, 0}; }

// ---- load

static void was_read(struct line *owner, int plain, u8 a) {
    if (!plain && is_top(owner) && owner->h < a) owner->h = a;
}

static struct answered load_owned(struct machine *k, int cache, int plain, u8 a, u8 x, struct line *owner, int at) {
    u64 word = owner->word;
    if (at == cache) {
        was_read(owner, plain, a);
        return value(word);
    }
    struct line *share = find_share(&k->caches[cache], x, a);
    if (share) return value(share->word);
    u8 m = owner->m;
    if (room(k, cache, x, m) < 1) return refused(11);
    was_read(owner, plain, a);
    drop_in(&k->caches[cache], x, m);
    place(k, cache, SS, x, m, a + 1, word);
    return value(word);
}

static struct answered load_plain(struct machine *k, int cache, u8 x) {
    struct line *own = find_plain(&k->caches[cache], x);
    if (own) return value(own->word);
    if (room(k, cache, x, NONE) < 1) return refused(11);
    struct line *other = find_plain_anywhere(k, x);
    if (!other) {
        place(k, cache, E, x, 0, 0, k->memory[x]);
        return value(k->memory[x]);
    }
    u64 word = other->word;
    for (int c = 0; c < k->count; c++) {
        struct line *l = find_plain(&k->caches[c], x);
        if (l && l->state == M) l->state = O;
        if (l && l->state == E) l->state = S;
    }
    place(k, cache, S, x, 0, 0, word);
    return value(word);
}

static struct answered load_first(struct machine *k, int cache, u8 a, u8 x) {
    if (room(k, cache, x, ALL) < 1) return refused(11);
    u64 word = k->memory[x];
    enum state state = SE;
    for (int c = 0; c < k->count; c++) {
        struct line *l = find_plain(&k->caches[c], x);
        if (l) word = l->word;
        if (l && (l->state == M || l->state == O)) state = SM;
    }
    drop(k, x, ALL);
    place(k, cache, state, x, 0, a, word);
    return value(word);
}

static struct answered load(struct machine *k, int cache, u8 vid, u8 x) {
    u8 a = vid ? vid : k->lcvid;
    int at;
    struct line *owner = find_owner(k, x, a, &at);
    if (owner) return load_owned(k, cache, !vid, a, x, owner, at);
    return vid ? load_first(k, cache, a, x) : load_plain(k, cache, x);
}

// ---- abort

static void abort_line(struct line *l, u8 lcvid) {
    if (l->state < SM) return;
    if (l->state == SS || !hits(l, lcvid)) empty(l);
    else settle(l);
}

static struct answered abort_all(struct machine *k, enum answer why) {
    for (int c = 0; c < k->count; c++)
        for (int s = 0; s < SLOTS; s++) abort_line(&k->caches[c].lines[s], k->lcvid);
    return said(why);
}

// ---- store

static struct answered store_plain(struct machine *k, int cache, u8 x, u64 word) {
    if (room(k, cache, x, ALL) < 1) return refused(11);
    drop(k, x, ALL);
    place(k, cache, M, x, 0, 0, word);
    return said(DONE);
}

static struct answered store_first(struct machine *k, int cache, u8 a, u8 x, u64 word) {
    if (room(k, cache, x, ALL) < 2) return refused(11);
    struct line *l = find_plain_anywhere(k, x);
    u64 old = l ? l->word : k->memory[x];
    drop(k, x, ALL);
    place(k, cache, SO, x, 0, a, old);
    place(k, cache, SM, x, a, a, word);
    return said(DONE);
}

static struct answered store_owned(struct machine *k, int cache, u8 a, u8 x, u64 word, struct line *owner, int at) {
    u8 m = owner->m;
    int over = owner->state == SM && m == a;
    if (room(k, cache, x, m) + (over && at == cache) < 1) return refused(11);
    if (over) empty(owner);
    else owner->state = SO, owner->h = a;
    drop(k, x, m);
    place(k, cache, SM, x, a, a, word);
    return said(DONE);
}

static struct answered store(struct machine *k, int cache, u8 vid, u8 x, u64 word) {
    u8 a = vid ? vid : k->lcvid;
    int at;
    struct line *owner = find_owner(k, x, a, &at);
    if (owner && (owner->state == SO || a < owner->h)) return abort_all(k, MISSPEC);
    if (!vid) return store_plain(k, cache, x, word);
    if (!owner) return store_first(k, cache, a, x, word);
    return store_owned(k, cache, a, x, word, owner, at);
}

// ---- commit, reset, evict

static struct answered commit(struct machine *k, u64 vid) {
    if (vid >= VIDS) return refused(6);
    if (vid != k->lcvid + 1ul) return refused(8);
    k->lcvid = vid;
    return said(DONE);
}

static struct answered reset(struct machine *k) {
    for (int c = 0; c < k->count; c++)
        for (int s = 0; s < SLOTS; s++) {
            struct line *l = &k->caches[c].lines[s];
            if (is_top(l) && l->h > k->lcvid) return refused(9);
        }
    for (int c = 0; c < k->count; c++)
        for (int s = 0; s < SLOTS; s++) {
            struct line *l = &k->caches[c].lines[s];
            if (is_ranged(l)) empty(l);
            else if (is_top(l)) settle(l);
        }
    k->lcvid = 0;
    return said(DONE);
}

static struct answered evict(struct machine *k, u64 cache, u64 slot) {
    if (cache >= (u64)k->count) return refused(3);
    if (slot >= SLOTS) return refused(5);
    struct line *l = &k->caches[cache].lines[slot];
    if (l->state == I) return refused(10);
    int live = !is_free(l, k->lcvid);
    if (live && (l->state == SO || (is_top(l) && l->h > k->lcvid))) return abort_all(k, OVERFLOW);
    if (l->state == M || l->state == O || l->state == SM) k->memory[l->address] = l->word;
    if (is_top(l)) drop(k, l->address, l->m);
    empty(l);
    return said(DONE);
}

// ---- one step

static struct answered play_step(struct machine *k, const struct step *s) {
    switch (s->op) {
    case COMMIT: return commit(k, s->vid);
    case ABORT: return abort_all(k, DONE);
    case RESET: return reset(k);
    case EVICT: return evict(k, s->cache, s->at);
    default: break;
    }
    if (s->cache >= (u64)k->count) return refused(3);
    if (s->at >= ADDRESSES) return refused(4);
    if (s->vid >= VIDS) return refused(6);
    if (s->vid && s->vid <= k->lcvid) return refused(7);
    if (s->op == LOAD) return load(k, s->cache, s->vid, s->at);
    return store(k, s->cache, s->vid, s->at, s->data);
}

// ---- trace text

#include "text.c"

// Reads until the input ends or the room is full.
static size_t read_all(u8 *to, size_t room) {
    size_t n = 0;
    for (long got; n < room && (got = read(0, to + n, room - n)) > 0;) n += got;
    return n;
}

#ifndef MEASURED // bench/measured.c has its own main, and prints no report

// ---- report text

static u8 out[REPORT];
static size_t end;

static void put(const void *s, size_t n) {
    memcpy(out + end, s, n);
    end += n;
}
#define PUT(s) put(s, sizeof s - 1)

static void put_number(u64 n) {
    u8 digits[20];
    int at = 20;
    do digits[--at] = '0' + n % 10;
    while (n /= 10);
    put(digits + at, 20 - at);
}

static void put_line(u64 n, struct answered a, u8 lcvid, char fault, u64 column) {
    PUT("step="), put_number(n), PUT(" answer=");
    switch (a.answer) {
    case VALUE: PUT("value"); break;
    case DONE: PUT("done"); break;
    case MISSPEC: PUT("misspec"); break;
    case OVERFLOW: PUT("overflow"); break;
    case REFUSED: PUT("refused-"), put_number(a.data), put(&fault, fault != 0); break;
    }
    PUT(" data="), put_number(a.answer == VALUE ? a.data : 0), PUT(" lcvid="), put_number(lcvid);
    if (fault) PUT(" col="), put_number(column);
    PUT("\n");
}

static void play(struct text t) {
    static struct machine k;
    u64 caches, n = 0;
    const u8 *line = t.at;
    if (t.end - t.at > TEXT) return put_line(0, refused(14), 0, 0, 0);
    if (!take_first(&t, &caches)) return put_line(0, refused(12), 0, t.fault, t.at - line + 1);
    if (caches < 1 || caches > CACHES) return put_line(0, refused(1), 0, 0, 0);
    k.count = caches;
    while (line = t.at, t.at < t.end) {
        struct step s;
        if (!take_step(&t, &s)) return put_line(n + 1, refused(12), k.lcvid, t.fault, t.at - line + 1);
        struct answered a = play_step(&k, &s);
        put_line(++n, a, k.lcvid, 0, 0);
    }
}

int main(void) {
    static u8 text[TEXT + 1];
    play((struct text){text, text + read_all(text, sizeof text), 0});
    return write(1, out, end) == (long)end ? 0 : 1;
}
#endif
