/* Configurations and events as bytes (docs/FORMAT.md). Each function answers the place after what it read or wrote. */
void *memcpy(void *to, const void *from, u64 length);

enum { CONFIG_BYTES = 1 + 2 * NODES + 3 * NODES * NODES + 15 * NODES + 22 * NODES, EVENT_BYTES = 11 };

static u64 get_u64(const u8 *p) {
    u64 v = 0;
    for (int i = 0; i < 8; i++)
        v = v << 8 | p[i];
    return v;
}

static u8 *put_u64(u8 *p, u64 v) {
    for (int i = 0; i < 8; i++)
        p[i] = v >> (56 - 8 * i);
    return p + 8;
}

static struct event get_event(const u8 *p) {
    struct event e = {p[0], p[1], p[2], get_u64(p + 3)};
    return e;
}

static u8 *put_event(u8 *p, const struct event *e) {
    *p++ = e->kind;
    *p++ = e->node;
    *p++ = e->other;
    return put_u64(p, e->value);
}

static const u8 *get_node(const u8 *p, struct node *n) {
    n->dirty = p[0];
    n->value = get_u64(p + 1);
    n->phase = p[9];
    n->purpose = p[10];
    n->requester = p[11];
    n->probe = p[12];
    n->cap = p[13];
    n->release = p[14];
    return p + 15;
}

static u8 *put_node(u8 *p, const struct node *n) {
    *p++ = n->dirty;
    p = put_u64(p, n->value);
    *p++ = n->phase;
    *p++ = n->purpose;
    *p++ = n->requester;
    *p++ = n->probe;
    *p++ = n->cap;
    *p++ = n->release;
    return p;
}

static const u8 *get_link(const u8 *p, struct link *l) {
    l->a = p[0];
    l->b = p[1];
    l->c = p[2];
    l->kept = p[3];
    l->up = get_u64(p + 4);
    l->d = p[12];
    l->down = get_u64(p + 13);
    l->e = p[21];
    return p + 22;
}

static u8 *put_link(u8 *p, const struct link *l) {
    *p++ = l->a;
    *p++ = l->b;
    *p++ = l->c;
    *p++ = l->kept;
    p = put_u64(p, l->up);
    *p++ = l->d;
    p = put_u64(p, l->down);
    *p++ = l->e;
    return p;
}

static void get_config(const u8 *p, struct config *c) {
    c->count = *p++;
    for (int x = 0; x < NODES; x++)
        c->nodes[x].parent = *p++;
    for (int x = 0; x < NODES; x++)
        c->nodes[x].rights = *p++;
    for (int x = 0; x < NODES; x++, p += NODES)
        memcpy(c->nodes[x].entries, p, NODES);
    for (int x = 0; x < NODES; x++, p += NODES)
        memcpy(c->nodes[x].to_probe, p, NODES);
    for (int x = 0; x < NODES; x++, p += NODES)
        memcpy(c->nodes[x].pending, p, NODES);
    for (int x = 0; x < NODES; x++)
        p = get_node(p, &c->nodes[x]);
    for (int x = 0; x < NODES; x++)
        p = get_link(p, &c->nodes[x].link);
}

static u8 *put_config(u8 *p, const struct config *c) {
    *p++ = c->count;
    for (int x = 0; x < NODES; x++)
        *p++ = c->nodes[x].parent;
    for (int x = 0; x < NODES; x++)
        *p++ = c->nodes[x].rights;
    for (int x = 0; x < NODES; x++, p += NODES)
        memcpy(p, c->nodes[x].entries, NODES);
    for (int x = 0; x < NODES; x++, p += NODES)
        memcpy(p, c->nodes[x].to_probe, NODES);
    for (int x = 0; x < NODES; x++, p += NODES)
        memcpy(p, c->nodes[x].pending, NODES);
    for (int x = 0; x < NODES; x++)
        p = put_node(p, &c->nodes[x]);
    for (int x = 0; x < NODES; x++)
        p = put_link(p, &c->nodes[x].link);
    return p;
}
