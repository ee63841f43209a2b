/* What an event has to meet: numbers 3, 4 and 5 (document 01, "Numbers a caller may get", and "Events", column "needs"). */

/* Number 3. */
static bool event_ok(const struct config *c, const struct event *e) {
    if (e->kind < 1 || e->kind > 19 || e->node >= c->count)
        return 0;
    if (e->value != 0 && e->kind != 2)
        return 0;
    switch (e->kind) {
    case 7: case 8: case 11: case 17:
        return is_child(c, e->node, e->other);
    case 14:
        return e->other <= 1;
    default:
        return e->other == 0;
    }
}

/* Number 4. */
static bool place_ok(const struct config *c, const struct event *e) {
    switch (e->kind) {
    case 1: case 2: case 3: case 4:
        return c->nodes[e->node].leaf;
    case 5: case 6: case 9: case 10: case 12: case 13: case 16: case 19:
        return e->node != 0;
    case 14: case 15: case 18:
        return !c->nodes[e->node].leaf;
    default:
        return 1;
    }
}

static bool all_idle(const struct node *n) {
    return n->phase == IDLE && !n->probe && n->release == 0;
}

static bool may_grant(const struct config *c, const struct node *n, int sole) {
    enum name name = name_of(c, n);
    if (n->purpose == LOAD)
        return sole ? name == NAME_TT : name == NAME_B || name == NAME_TT || name == NAME_TB;
    if (!sole || n->rights != TIP || n->entries[n->requester] == TRUNK)
        return 0;
    for (int k = 0; k < c->count; k++)
        if (k != n->requester && n->entries[k] != NONE)
            return 0;
    return 1;
}

/* Number 5: the needs of the kind. */
static bool needs_hold(const struct config *c, const struct event *e) {
    const struct node *n = &c->nodes[e->node];
    const struct link *up = &n->link, *down = &c->nodes[e->other].link;
    int entry = n->entries[e->other];
    switch (e->kind) {
    case 1:
        return all_idle(n) && (n->rights == B || name_of(c, n) == NAME_TT);
    case 2:
        return all_idle(n) && name_of(c, n) == NAME_TT;
    case 3:
        return all_idle(n) && n->rights == N;
    case 4:
        return all_idle(n) && (n->rights == N || n->rights == B);
    case 5:
        return all_idle(n) && n->rights != N && sets_empty(c, n);
    case 6:
        return n->phase == ASK && up->a == A_EMPTY && (n->rights == N || (n->purpose == STORE && n->rights == B));
    case 7:
        return down->a != A_EMPTY && n->phase == IDLE && !n->probe && sets_empty(c, n) &&
               (down->a == ACQUIRE_U ? entry != TRUNK : entry == NONE);
    case 8:
        return n->to_probe[e->other] && down->b == B_EMPTY;
    case 9:
        return up->b != B_EMPTY && !n->probe && sets_empty(c, n) &&
               (n->phase == IDLE || n->phase == WAIT || n->phase == LEAVING);
    case 10:
        return n->probe && sets_empty(c, n) && n->release == 0 && n->phase != LEAVING && up->c == C_EMPTY &&
               (n->cap == CAP_N ? entries_none(c, n) : !any_entry(c, n, TRUNK));
    case 11:
        return (down->c == PROBE_ACK || down->c == PROBE_ACK_DATA) && n->pending[e->other] && down->kept <= entry &&
               (down->c == PROBE_ACK || entry == TRUNK);
    case 12:
        if (n->phase != WAIT || n->probe)
            return 0;
        if (n->purpose == LOAD)
            return n->rights == N && (up->d == GRANT_DATA_B || up->d == GRANT_DATA_T);
        return (n->rights == B && up->d == GRANT_T) || (n->rights == N && up->d == GRANT_DATA_T);
    case 13:
        return n->phase == CONFIRM && up->e == E_EMPTY;
    case 14:
        return n->phase == GIVE && c->nodes[n->requester].link.d == D_EMPTY && may_grant(c, n, e->other);
    case 15:
        return n->phase == AWAIT && c->nodes[n->requester].link.e == GRANT_ACK;
    case 16:
        return n->phase == LET_GO && n->release == 0 && up->c == C_EMPTY && entries_none(c, n) && n->rights != N;
    case 17:
        return (down->c == RELEASE || down->c == RELEASE_DATA) && n->release == 0 && entry != NONE &&
               !(n->phase == AWAIT && n->requester == e->other) && (down->c == RELEASE || entry == TRUNK);
    case 18:
        return n->release != 0 && c->nodes[n->release].link.d == D_EMPTY;
    default:
        return n->phase == LEAVING && up->d == RELEASE_ACK;
    }
}
