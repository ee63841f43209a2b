/* Inputs to measure with. Same words, same bytes, on every machine. */

static u64 walker;

/* A number below n: splitmix64, upper half. */
static u64 pick(u64 n) {
    u64 z = walker += 0x9E3779B97F4A7C15;
    z = (z ^ z >> 30) * 0xBF58476D1CE4E5B9;
    z = (z ^ z >> 27) * 0x94D049BB133111EB;
    return ((z ^ z >> 31) >> 32) % n;
}

static bool names_child(int kind) {
    return kind == 7 || kind == 8 || kind == 11 || kind == 17;
}

static bool accepts(const struct config *c, const struct event *e) {
    return event_ok(c, e) && place_ok(c, e) && needs_hold(c, e);
}

/* How often a kind is drawn where it is accepted: evictions are rarer than the rest. */
static int weight(int kind) {
    return kind == 5 ? 1 : 4;
}

/* One of the events that the model accepts now, by weight. There always is one. */
static struct event accepted_event(const struct config *c) {
    struct event e = {0, 0, 0, 0}, drawn = e;
    u64 total = 0;
    for (e.kind = 1; e.kind <= 19; e.kind++)
        for (e.node = 0; e.node < c->count; e.node++)
            for (e.other = 0; e.other < (names_child(e.kind) ? c->count : e.kind == 14 ? 2 : 1); e.other++)
                if (accepts(c, &e)) {
                    total += weight(e.kind);
                    if (pick(total) < (u64)weight(e.kind))
                        drawn = e;
                }
    return drawn;
}

/* Any kind at any node, which may be refused. */
static struct event any_event(const struct config *c) {
    struct event e = {1 + pick(19), pick(c->count), 0, 0};
    if (names_child(e.kind))
        e.other = pick(c->count);
    else if (e.kind == 14)
        e.other = pick(2);
    return e;
}

/* A trail: node x hangs on (x - 1) / 2; one event in eight is drawn from all, the others from those accepted. */
static u8 *make_trail(u8 *p, int count, int events, u64 seed) {
    struct config c = {0};
    u64 value;
    walker = seed;
    c.count = count;
    *p++ = 1;
    *p++ = 0;
    *p++ = 7 + count;
    p = put_u64(p, 7);
    for (int x = 1; x < count; x++)
        *p++ = c.nodes[x].parent = (x - 1) / 2;
    reset(&c, 7);
    for (int i = 0; i < events; i++) {
        struct event e = pick(8) == 0 ? any_event(&c) : accepted_event(&c);
        if (e.kind == 2)
            e.value = pick(1ul << 32) << 32 | pick(1ul << 32);
        step(&c, &e, &value);
        *p++ = 0;
        *p++ = EVENT_BYTES;
        p = put_event(p, &e);
    }
    return p;
}
