/* What a configuration and an event are (document 01, "What a configuration holds" and "Events"). The codes are those of
   docs/FORMAT.md. No header of the C library is used: the kit's clang comes without them. */
typedef unsigned char u8;
typedef unsigned long u64;
typedef _Bool bool;

enum { NODES = 16 };

enum rights { N, B, TIP };
enum entry { NONE, BRANCH, TRUNK };
enum phase { IDLE, CLEAR, ASK, WAIT, CONFIRM, GIVE, AWAIT, LET_GO, LEAVING };
enum purpose { NO_PURPOSE, LOAD, STORE, EVICT };
enum cap { NO_CAP, CAP_B, CAP_N };
enum slot_a { A_EMPTY, ACQUIRE_B, ACQUIRE_T, ACQUIRE_U };
enum slot_b { B_EMPTY, PROBE_B, PROBE_N };
enum slot_c { C_EMPTY, PROBE_ACK, PROBE_ACK_DATA, RELEASE, RELEASE_DATA };
enum slot_d { D_EMPTY, GRANT_T, GRANT_DATA_T, GRANT_DATA_B, RELEASE_ACK };
enum slot_e { E_EMPTY, GRANT_ACK };
enum name { NAME_N, NAME_B, NAME_TT, NAME_TB, NAME_T };
enum number { ACCEPTED, BAD_TREE, NOT_A_CONFIGURATION, BAD_EVENT, WRONG_PLACE, OUT_OF_TURN };

/* The link between a node and its parent. */
struct link {
    u8 a, b, c, kept, d, e;
    u64 up, down;
};

struct node {
    u8 parent, rights;
    bool leaf, dirty;
    u8 phase, purpose, requester;
    bool probe;
    u8 cap, release;
    u64 value;
    u8 entries[NODES];
    bool to_probe[NODES], pending[NODES];
    struct link link;
};

struct config {
    u8 count;
    struct node nodes[NODES];
};

struct event {
    u8 kind, node, other;
    u64 value;
};

/* Number 1. */
static bool tree_ok(const struct config *c) {
    if (c->count < 2 || c->count > NODES)
        return 0;
    for (int x = 1; x < c->count; x++)
        if (c->nodes[x].parent >= x)
            return 0;
    return 1;
}

/* Notes which nodes have no child; the tree is good. */
static void find_leaves(struct config *c) {
    for (int x = 0; x < c->count; x++)
        c->nodes[x].leaf = 1;
    for (int x = 1; x < c->count; x++)
        c->nodes[c->nodes[x].parent].leaf = 0;
}

/* The configuration at reset, into a zeroed record that has its tree. */
static void reset(struct config *c, u64 first) {
    find_leaves(c);
    c->nodes[0].rights = TIP;
    c->nodes[0].value = first;
}

static bool is_child(const struct config *c, int x, int k) {
    return k > 0 && k < c->count && c->nodes[k].parent == x;
}

static bool any_entry(const struct config *c, const struct node *n, int entry) {
    for (int k = 0; k < c->count; k++)
        if (n->entries[k] == entry)
            return 1;
    return 0;
}

static bool entries_none(const struct config *c, const struct node *n) {
    for (int k = 0; k < c->count; k++)
        if (n->entries[k] != NONE)
            return 0;
    return 1;
}

static bool sets_empty(const struct config *c, const struct node *n) {
    for (int k = 0; k < c->count; k++)
        if (n->to_probe[k] || n->pending[k])
            return 0;
    return 1;
}

static enum name name_of(const struct config *c, const struct node *n) {
    if (n->rights != TIP)
        return n->rights == N ? NAME_N : NAME_B;
    if (any_entry(c, n, TRUNK))
        return NAME_T;
    return any_entry(c, n, BRANCH) ? NAME_TB : NAME_TT;
}
