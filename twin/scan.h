/* Number 2 (document 01, "Not a configuration"). The tree is good. */

static bool slots_empty(const struct link *l) {
    return !(l->a | l->b | l->c | l->kept | l->d | l->e) && l->up == 0 && l->down == 0;
}

static bool link_ok(const struct link *l) {
    if (l->a > ACQUIRE_U || l->b > PROBE_N || l->c > RELEASE_DATA || l->d > RELEASE_ACK || l->e > GRANT_ACK)
        return 0;
    if (l->kept > B || (l->kept != 0 && l->c != PROBE_ACK && l->c != PROBE_ACK_DATA))
        return 0;
    if (l->up != 0 && l->c != PROBE_ACK_DATA && l->c != RELEASE_DATA)
        return 0;
    return l->down == 0 || l->d == GRANT_DATA_T || l->d == GRANT_DATA_B;
}

static bool beyond_ok(const struct node *n) {
    if (n->parent | n->rights | n->dirty | n->phase | n->purpose | n->requester | n->probe | n->cap | n->release)
        return 0;
    for (int k = 0; k < NODES; k++)
        if (n->entries[k] | n->to_probe[k] | n->pending[k])
            return 0;
    return n->value == 0 && slots_empty(&n->link);
}

static bool row_ok(const struct config *c, int x) {
    const struct node *n = &c->nodes[x];
    int highest = n->rights == TIP ? TRUNK : n->rights == B ? BRANCH : NONE;
    for (int k = 0; k < NODES; k++) {
        if (n->entries[k] > highest)
            return 0;
        if ((n->entries[k] | n->to_probe[k] | n->pending[k]) && !is_child(c, x, k))
            return 0;
    }
    return 1;
}

static bool main_ok(const struct config *c, int x) {
    const struct node *n = &c->nodes[x];
    if (n->phase > LEAVING || n->purpose > EVICT)
        return 0;
    if ((n->phase == IDLE) != (n->purpose == NO_PURPOSE))
        return 0;
    if (n->purpose == EVICT && n->phase != CLEAR && n->phase != LET_GO && n->phase != LEAVING)
        return 0;
    bool asked = n->purpose == LOAD || n->purpose == STORE;
    if (asked && (n->phase == LET_GO || n->phase == LEAVING))
        return 0;
    if (n->leaf && (n->phase == GIVE || n->phase == AWAIT))
        return 0;
    return asked && !n->leaf ? is_child(c, x, n->requester) : n->requester == 0;
}

static bool node_ok(const struct config *c, int x) {
    const struct node *n = &c->nodes[x];
    if (n->rights > TIP || (n->rights != TIP && n->dirty) || (n->rights == N && n->value != 0))
        return 0;
    if (n->probe ? n->cap != CAP_B && n->cap != CAP_N : n->cap != NO_CAP)
        return 0;
    if (n->release != 0 && !is_child(c, x, n->release))
        return 0;
    return main_ok(c, x) && row_ok(c, x);
}

static bool configuration_ok(const struct config *c) {
    if (c->nodes[0].parent != 0 || !slots_empty(&c->nodes[0].link))
        return 0;
    for (int x = 0; x < c->count; x++)
        if (!node_ok(c, x) || !link_ok(&c->nodes[x].link))
            return 0;
    for (int x = c->count; x < NODES; x++)
        if (!beyond_ok(&c->nodes[x]))
            return 0;
    return 1;
}
