/* The step, in place (document 01, "Events", column "does"). */

static void set_rights(struct node *n, int rights) {
    n->rights = rights;
    if (rights == N) {
        n->value = 0;
        n->dirty = 0;
    }
}

static void go_idle(struct node *n) {
    n->phase = IDLE;
    n->purpose = NO_PURPOSE;
    n->requester = 0;
}

static void settle(const struct config *c, struct node *n, bool new_purpose) {
    if (!new_purpose && n->phase != CLEAR)
        return;
    if (!sets_empty(c, n))
        n->phase = CLEAR;
    else if (n->purpose == LOAD)
        n->phase = n->rights == N ? ASK : GIVE;
    else if (n->purpose == STORE)
        n->phase = n->rights == TIP ? GIVE : ASK;
    else
        n->phase = LET_GO;
}

/* To-probe becomes the children whose entry is at least `least`, but one. */
static void to_probe_from(const struct config *c, struct node *n, int least, int but) {
    for (int k = 0; k < c->count; k++)
        n->to_probe[k] = n->entries[k] >= least && k != but;
}

static void empty_c(struct link *l) {
    l->c = C_EMPTY;
    l->kept = 0;
    l->up = 0;
}

static void empty_d(struct link *l) {
    l->d = D_EMPTY;
    l->down = 0;
}

static void take_data(struct node *n, const struct link *l) {
    n->value = l->up;
    n->dirty = 1;
}

static void send_c(struct node *n, int plain, int with_data, int rights) {
    n->link.c = n->dirty ? with_data : plain;
    n->link.up = n->dirty ? n->value : 0;
    n->dirty = 0;
    set_rights(n, rights);
}

static void send_grant(struct config *c, struct node *n, bool sole) {
    struct link *to = &c->nodes[n->requester].link;
    u8 *entry = &n->entries[n->requester];
    if (!sole)
        to->d = GRANT_DATA_B;
    else if (n->purpose == STORE && *entry == BRANCH)
        to->d = GRANT_T;
    else
        to->d = GRANT_DATA_T;
    to->down = to->d == GRANT_T ? 0 : n->value;
    *entry = sole ? TRUNK : BRANCH;
    n->phase = AWAIT;
}

/* What the kind does, where its needs hold. */
static void apply(struct config *c, const struct event *e) {
    struct node *n = &c->nodes[e->node];
    struct link *up = &n->link, *down = &c->nodes[e->other].link;
    int k = e->other;
    switch (e->kind) {
    case 1:
        break;
    case 2:
        n->value = e->value;
        n->dirty = 1;
        break;
    case 3:
        n->phase = ASK;
        n->purpose = LOAD;
        break;
    case 4:
        n->phase = ASK;
        n->purpose = STORE;
        break;
    case 5:
        n->purpose = EVICT;
        to_probe_from(c, n, BRANCH, 0);
        settle(c, n, 1);
        break;
    case 6:
        up->a = n->purpose == LOAD ? ACQUIRE_B : n->rights == N ? ACQUIRE_T : ACQUIRE_U;
        n->phase = WAIT;
        break;
    case 7:
        n->purpose = down->a == ACQUIRE_B ? LOAD : STORE;
        n->requester = k;
        down->a = A_EMPTY;
        to_probe_from(c, n, n->purpose == LOAD ? TRUNK : BRANCH, n->purpose == LOAD ? 0 : k);
        settle(c, n, 1);
        break;
    case 8:
        down->b = n->probe ? (n->cap == CAP_B ? PROBE_B : PROBE_N) : n->purpose == LOAD ? PROBE_B : PROBE_N;
        n->to_probe[k] = 0;
        n->pending[k] = 1;
        break;
    case 9:
        n->probe = 1;
        n->cap = up->b == PROBE_B ? CAP_B : CAP_N;
        up->b = B_EMPTY;
        to_probe_from(c, n, n->cap == CAP_B ? TRUNK : BRANCH, 0);
        break;
    case 10: {
        int highest = n->cap == CAP_B ? B : N;
        send_c(n, PROBE_ACK, PROBE_ACK_DATA, n->rights > highest ? highest : n->rights);
        up->kept = n->rights;
        n->probe = 0;
        n->cap = NO_CAP;
        break;
    }
    case 11:
        if (down->c == PROBE_ACK_DATA)
            take_data(n, down);
        n->entries[k] = down->kept;
        empty_c(down);
        n->pending[k] = 0;
        settle(c, n, 0);
        break;
    case 12:
        if (up->d != GRANT_T)
            n->value = up->down;
        n->rights = up->d == GRANT_DATA_B ? B : TIP;
        n->dirty = 0;
        empty_d(up);
        n->phase = CONFIRM;
        break;
    case 13:
        up->e = GRANT_ACK;
        if (n->leaf)
            go_idle(n);
        else
            n->phase = GIVE;
        break;
    case 14:
        send_grant(c, n, k);
        break;
    case 15:
        c->nodes[n->requester].link.e = E_EMPTY;
        go_idle(n);
        break;
    case 16:
        send_c(n, RELEASE, RELEASE_DATA, N);
        n->phase = LEAVING;
        break;
    case 17:
        if (down->c == RELEASE_DATA)
            take_data(n, down);
        empty_c(down);
        n->entries[k] = NONE;
        n->to_probe[k] = 0;
        n->release = k;
        settle(c, n, 0);
        break;
    case 18:
        c->nodes[n->release].link.d = RELEASE_ACK;
        n->release = 0;
        break;
    case 19:
        empty_d(up);
        go_idle(n);
        break;
    }
}

/* Numbers 3 to 5 and the effect: the tree is good and the record a configuration. The value is the load's, else 0. */
static int step(struct config *c, const struct event *e, u64 *value) {
    *value = 0;
    if (!event_ok(c, e))
        return BAD_EVENT;
    if (!place_ok(c, e))
        return WRONG_PLACE;
    if (!needs_hold(c, e))
        return OUT_OF_TURN;
    if (e->kind == 1)
        *value = c->nodes[e->node].value;
    apply(c, e);
    return ACCEPTED;
}
