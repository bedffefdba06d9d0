// Trace text of the plain program, taken piece by piece. Included by plain.c, which has the types.

// The text from a place on; where a line breaks, the letter behind the 12, and the place is that of the byte that can't stand there.
struct text { const u8 *at, *end; char fault; };

static int broken(struct text *t, char fault) {
    t->fault = t->at < t->end ? fault : 'e';
    return 0;
}

static int take(struct text *t, const char *key, size_t n) {
    if ((size_t)(t->end - t->at) >= n && !memcmp(t->at, key, n)) return t->at += n, 1;
    while (t->at < t->end && *t->at == (u8)*key) t->at++, key++;
    return broken(t, 'a');
}
#define TAKE(t, key) take(t, key, sizeof key - 1)

static int at_digit(const struct text *t) { return t->at < t->end && *t->at >= '0' && *t->at <= '9'; }

static int take_number(struct text *t, int used, u64 *n) {
    if (!at_digit(t)) return broken(t, 'b');
    if (*t->at == '0') {
        *n = 0, t->at++;
        return at_digit(t) ? broken(t, 'b') : 1;
    }
    if (!used) return broken(t, 'd');
    for (*n = 0; at_digit(t); t->at++)
        if (__builtin_mul_overflow(*n, 10, n) || __builtin_add_overflow(*n, *t->at - '0', n)) return broken(t, 'c');
    return 1;
}

static int take_end(struct text *t) {
    if (t->at == t->end || *t->at != '\n') return broken(t, 'e');
    return t->at++, 1;
}

// The op by its first letter, which is another for each.
static int take_op(struct text *t, enum op *op) {
    if (!TAKE(t, "op=")) return 0;
    switch (t->at < t->end ? *t->at : 0) {
    case 's': return *op = STORE, TAKE(t, "store");
    case 'c': return *op = COMMIT, TAKE(t, "commit");
    case 'a': return *op = ABORT, TAKE(t, "abort");
    case 'r': return *op = RESET, TAKE(t, "reset");
    case 'e': return *op = EVICT, TAKE(t, "evict");
    default: return *op = LOAD, TAKE(t, "load");
    }
}

static int take_first(struct text *t, u64 *caches) {
    return TAKE(t, "caches=") && take_number(t, 1, caches) && take_end(t);
}

// A step's line; a key that its op doesn't use is 0.
static int take_step(struct text *t, struct step *s) {
    static const struct { u8 cache, vid, at, data; } uses[EVICT + 1] = {[LOAD] = {1, 1, 1, 0}, [STORE] = {1, 1, 1, 1}, [COMMIT] = {0, 1, 0, 0}, [EVICT] = {1, 0, 1, 0}};
    if (!take_op(t, &s->op) || !TAKE(t, " cache=") || !take_number(t, uses[s->op].cache, &s->cache)) return 0;
    if (!TAKE(t, " vid=") || !take_number(t, uses[s->op].vid, &s->vid)) return 0;
    if (!TAKE(t, " at=") || !take_number(t, uses[s->op].at, &s->at)) return 0;
    return TAKE(t, " data=") && take_number(t, uses[s->op].data, &s->data) && take_end(t);
}
