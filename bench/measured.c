// The rule and the soundness check of the plain program without text: standard input and standard output are those of crates/measured.
#define MEASURED
#include "plain.c"

enum { STEPS = 2048, ALL_SLOTS = CACHES * SLOTS };

// ---- the house rules

// Which states may stand together at an address.
static const u8 stands[9][9] = {
    [O] = {[S] = 1},
    [S] = {[O] = 1, [S] = 1},
    [SM] = {[SO] = 1, [SS] = 1},
    [SO] = {[SM] = 1, [SO] = 1, [SS] = 1},
    [SE] = {[SS] = 1},
    [SS] = {[SM] = 1, [SO] = 1, [SE] = 1, [SS] = 1},
};

static int line_fits(const struct line *l) {
    switch (l->state) {
    case I: return !l->address && !l->m && !l->h && !l->word;
    case SE: return l->m == 0 && l->h >= 1 && l->h < VIDS;
    case SM: return l->m <= l->h && l->h >= 1 && l->h < VIDS;
    case SO: return l->m < l->h && l->h < VIDS;
    case SS: return l->m < l->h && l->h <= VIDS;
    default: return !l->m && !l->h;
    }
}

// The live lines of one address, and the cache that each stands in.
struct crowd {
    int n;
    const struct line *lines[ALL_SLOTS];
    u8 caches[ALL_SLOTS];
};

// What the others at its address are to a line.
struct seen { int tops, owners, low, join, dirty_owner; };

// Two lines of an address, `l` as `k` sees it; whether they may stand together.
static int see(const struct line *k, const struct line *l, int same_cache, u8 lcvid, struct seen *s) {
    if (!stands[k->state][l->state]) return 0;
    if (is_plain(k) && is_plain(l) && same_cache) return 0;
    if (is_owning(k) && is_owning(l) && (l->m == k->m || l->h == k->h) && l->state == k->state) return 0;
    if (k->state == S && l->state == O) {
        s->dirty_owner = 1;
        if (l->word != k->word) return 0;
    }
    s->join += is_owning(l) && l->m == k->h;
    if (k->state != SS) return 1;
    if (l->state == SS) return !(same_cache && l->m == k->m);
    if (l->m != k->m) return 1;
    s->owners++;
    int most = (l->h > lcvid ? l->h : lcvid) + 1;
    return !same_cache && l->word == k->word && k->h <= most && (l->state != SO || k->h <= l->h);
}

static int stands_in(const struct crowd *c, int i, u8 lcvid, u64 memory) {
    const struct line *k = c->lines[i];
    struct seen s = {.tops = is_top(k), .low = is_owning(k) && k->m <= lcvid};
    for (int j = 0; j < c->n; j++) {
        const struct line *l = c->lines[j];
        if (j == i) continue;
        if (!see(k, l, c->caches[j] == c->caches[i], lcvid, &s)) return 0;
        s.tops += is_top(l);
        s.low |= is_owning(l) && l->m <= lcvid;
    }
    if (k->state == E || k->state == SE || (k->state == S && !s.dirty_owner))
        if (k->word != memory) return 0;
    if (k->state < SM) return 1;
    if (s.tops != 1 || !s.low) return 0;
    if (k->state == SO) return s.join == 1;
    return k->state != SS || s.owners == 1;
}

static int is_sound(const struct machine *k) {
    struct crowd crowds[ADDRESSES];
    if (k->count < 1 || k->count > CACHES || k->lcvid >= VIDS) return 0;
    for (int x = 0; x < ADDRESSES; x++) crowds[x].n = 0;
    for (int c = 0; c < CACHES; c++)
        for (int s = 0; s < SLOTS; s++) {
            const struct line *l = &k->caches[c].lines[s];
            if (l->address >= ADDRESSES || !line_fits(l) || (c >= k->count && l->state != I)) return 0;
            if (is_free(l, k->lcvid)) continue;
            struct crowd *of = &crowds[l->address];
            of->lines[of->n] = l;
            of->caches[of->n++] = c;
        }
    for (int x = 0; x < ADDRESSES; x++)
        for (int i = 0; i < crowds[x].n; i++)
            if (!stands_in(&crowds[x], i, k->lcvid, k->memory[x])) return 0;
    return 1;
}

// ---- what is measured

static struct machine machine;
static struct step steps[STEPS];

// The steps from a fresh machine; the loaded values, each xored in.
static u64 run(int caches, int count) {
    u64 sum = 0;
    machine = (struct machine){.count = caches};
    for (int n = 0; n < count; n++) {
        struct answered a = play_step(&machine, &steps[n]);
        if (a.answer == VALUE) sum ^= a.data;
    }
    return sum;
}

static u64 rules_alone(int caches, int count, int times) {
    u64 sum = 0;
    while (times--) sum ^= run(caches, count);
    return sum;
}

// Each time another word stands in memory at address 63, so that no check can stand for the next.
static u64 checks_alone(int times) {
    int all = 1;
    for (int n = 0; n < times; n++) {
        machine.memory[ADDRESSES - 1] = n;
        all &= is_sound(&machine);
    }
    return all;
}

static void print(u64 sum) {
    static const char front[] = "step=0 answer=value data=", back[] = " lcvid=0\n";
    char line[64];
    int at = 20, n = sizeof front - 1;
    char digits[20];
    do digits[--at] = '0' + sum % 10;
    while (sum /= 10);
    memcpy(line, front, n);
    memcpy(line + n, digits + at, 20 - at);
    n += 20 - at;
    memcpy(line + n, back, sizeof back - 1);
    write(1, line, n + sizeof back - 1);
}

int main(void) {
    static u8 text[TEXT + 3];
    size_t got = read_all(text, sizeof text);
    if (got < 3) return 1;
    struct text t = {text + 3, text + got, 0};
    u64 caches;
    int count = 0, times = text[1] - '0';
    if (!take_first(&t, &caches)) return 1;
    while (count < STEPS && t.at < t.end && take_step(&t, &steps[count])) count++;
    if (text[0] == 'r') {
        print(rules_alone(caches, count, times));
    } else {
        run(caches, count);
        print(checks_alone(times));
    }
}
