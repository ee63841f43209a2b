/* A plain C program for the jobs of the proved programs `trail` and `answer`, from document 01 and docs/FORMAT.md.
   ./bench builds it and measures it beside them. */
#include "model.h"
#include "needs.h"
#include "step.h"
#include "scan.h"
#include "bytes.h"
#include "walk.h"

long read(int file, void *to, u64 length);
long write(int file, const void *from, u64 length);
int strcmp(const char *a, const char *b);
int atoi(const char *text);

enum { WINDOW = 65536, RECORD = 13, OUT = 1 << 18 };

static u8 input[WINDOW + 1], output[OUT];

static u64 read_full(void *to, u64 length) {
    u64 n = 0;
    while (n < length) {
        long got = read(0, (u8 *)to + n, length - n);
        if (got <= 0)
            break;
        n += got;
    }
    return n;
}

static bool write_all(const void *from, u64 length) {
    for (u64 n = 0; n < length;) {
        long put = write(1, (const u8 *)from + n, length - n);
        if (put <= 0)
            return 0;
        n += put;
    }
    return 1;
}

static u8 *put_text(u8 *p, const char *text) {
    while (*text)
        *p++ = *text++;
    return p;
}

static u8 *put_number(u8 *p, u64 v) {
    u8 digits[20];
    int n = 0;
    do {
        digits[n++] = '0' + v % 10;
        v /= 10;
    } while (v != 0);
    while (n > 0)
        *p++ = digits[--n];
    return p;
}

static u8 *put_line(u8 *p, u64 index, const struct event *e, int number, u64 value) {
    p = put_number(p, index);
    *p++ = ' ';
    p = put_number(p, e->kind);
    *p++ = ' ';
    p = put_number(p, e->node);
    *p++ = ' ';
    p = put_number(p, number);
    *p++ = ' ';
    p = put_number(p, value);
    *p++ = '\n';
    return p;
}

static u8 *put_end(u8 *p, const struct config *c) {
    static const char *const names[] = {" N", " B", " TT", " TB", " T"};
    p = put_text(p, "end");
    for (int x = 0; x < c->count; x++)
        p = put_text(p, names[name_of(c, &c->nodes[x])]);
    *p++ = '\n';
    return p;
}

static u8 *put_bad(u8 *p, u64 offset) {
    p = put_text(p, "bad ");
    p = put_number(p, offset);
    *p++ = '\n';
    return p;
}

/* Reads the first record and resets; answers the offset after it, or 0 where it is bad. */
static u64 start(struct config *c, u64 limit) {
    u64 length = limit < 3 ? 0 : input[1] << 8 | input[2];
    if (length < 9 || length > 23 || 3 + length > limit)
        return 0;
    c->count = length - 7;
    for (int x = 1; x < c->count; x++)
        c->nodes[x].parent = input[10 + x];
    if (!tree_ok(c))
        return 0;
    reset(c, get_u64(input + 3));
    return 3 + length;
}

/* The text of the trail in `input`, into `output`. Answers its end. */
static u8 *trail(u64 n) {
    struct config c = {0};
    u64 limit = n < WINDOW ? n : WINDOW, value;
    u8 *p = output;
    if (n == 0 || input[0] != 1)
        return put_bad(p, 0);
    u64 at = start(&c, limit);
    if (at == 0)
        return put_bad(p, 1);
    for (u64 index = 1; at < n; index++, at += RECORD) {
        if (at + RECORD > limit || input[at] != 0 || input[at + 1] != EVENT_BYTES)
            return put_bad(p, at);
        struct event e = get_event(input + at + 2);
        int number = step(&c, &e, &value);
        p = put_line(p, index, &e, number, value);
    }
    return put_end(p, &c);
}

static int answer_to(struct config *c, const struct event *e, bool scan, u64 *value) {
    *value = 0;
    if (!tree_ok(c))
        return BAD_TREE;
    find_leaves(c);
    if (scan && !configuration_ok(c))
        return NOT_A_CONFIGURATION;
    return step(c, e, value);
}

/* Requests 2 and 3 of docs/FORMAT.md, read and written in the pieces in which `answer` reads and writes them. */
static int answer(void) {
    static struct config c;
    u8 request, before[CONFIG_BYTES], event[EVENT_BYTES], after[9 + CONFIG_BYTES];
    u64 value;
    while (read_full(&request, 1) == 1) {
        if (request != 2 && request != 3)
            return 0;
        if (read_full(before, CONFIG_BYTES) < CONFIG_BYTES || read_full(event, EVENT_BYTES) < EVENT_BYTES)
            return 0;
        get_config(before, &c);
        struct event e = get_event(event);
        after[0] = answer_to(&c, &e, request == 2, &value);
        put_config(put_u64(after + 1, value), &c);
        if (!write_all(after, sizeof after))
            return 1;
    }
    return 0;
}

/* The requests that ask for each event of the trail in `input`, each on the configuration before it. */
static int requests(u64 n, int request) {
    struct config c = {0};
    u64 value;
    u8 out[1 + CONFIG_BYTES + EVENT_BYTES];
    u64 at = start(&c, n);
    if (at == 0)
        return 1;
    for (; at + RECORD <= n; at += RECORD) {
        struct event e = get_event(input + at + 2);
        out[0] = request;
        put_event(put_config(out + 1, &c), &e);
        if (!write_all(out, sizeof out))
            return 1;
        step(&c, &e, &value);
    }
    return 0;
}

static int usage(void) {
    static const char text[] = "usage: twin trail < TRAIL               the job of trail\n"
                               "       twin answer < REQUESTS           the job of answer, requests 2 and 3\n"
                               "       twin make COUNT EVENTS SEED      writes a trail\n"
                               "       twin requests 2|3 < TRAIL        writes a request for each event\n";
    write(2, text, sizeof text - 1);
    return 2;
}

int main(int argc, char **argv) {
    const char *mode = argc < 2 ? "" : argv[1];
    if (strcmp(mode, "trail") == 0 && argc == 2)
        return !write_all(output, trail(read_full(input, sizeof input)) - output);
    if (strcmp(mode, "answer") == 0 && argc == 2)
        return answer();
    if (strcmp(mode, "make") == 0 && argc == 5) {
        int count = atoi(argv[2]), events = atoi(argv[3]);
        if (count < 2 || count > NODES || events < 0 || events > 5000)
            return usage();
        return !write_all(input, make_trail(input, count, events, atoi(argv[4])) - input);
    }
    if (strcmp(mode, "requests") == 0 && argc == 3)
        return requests(read_full(input, sizeof input), atoi(argv[2]));
    return usage();
}
