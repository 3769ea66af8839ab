/* Steps through calls of the entry points, instruction by instruction, and sees in which order they store the bytes of VarUInts: document 02, Item 4.
 * With `show`, prints each call's first stores in its fields, PLACE=BYTE. Answers 0 if every field is stored from its last byte to its first, each byte
 * once and by itself.
 *
 * Each instruction raises SIGTRAP while the processor's trap flag is set, and the handler looks which watched bytes have altered. It then alters them
 * itself, so that a second store of the same byte is seen too; a store of just what it puts there is not, so each call is made twice, with other bytes. */
#define _GNU_SOURCE
#include "goatminute.h"

#include <signal.h>
#include <stdio.h>
#include <stdlib.h>
#include <string.h>
#include <ucontext.h>

#if !defined(__x86_64__)
#error "the trap flag is that of x86-64"
#endif

enum { TRAP_FLAG = 0x100, START = 4, MOST_FIELDS = 80, MOST_STORES = 1024, SIDS = 64, ROOM = 40000, SHOWN = 12 };

struct store {
    size_t place;
    uint8_t byte;
};

struct field {
    size_t place;
    size_t size;
};

enum entry {
    WRITE_NULL,
    WRITE_BOOL,
    WRITE_I64,
    WRITE_INT,
    WRITE_F32,
    WRITE_F64,
    WRITE_DECIMAL,
    WRITE_TIMESTAMP,
    WRITE_SYMBOL,
    WRITE_STRING,
    WRITE_CLOB,
    WRITE_BLOB,
    OPEN_LIST,
    OPEN_SEXP,
    OPEN_STRUCT,
    FIELD_NAME,
    CLOSE,
    FORWARDS,
    FLAG_LAST,
    TWICE,
    TOGETHER,
    LEFT_OUT
};

static const char *const names[] = {
    "gm_write_null", "gm_write_bool", "gm_write_i64", "gm_write_int", "gm_write_f32", "gm_write_f64",
    "gm_write_decimal", "gm_write_timestamp", "gm_write_symbol", "gm_write_string", "gm_write_clob", "gm_write_blob",
    "gm_open_list", "gm_open_sexp", "gm_open_struct", "gm_field_name", "gm_close",
    "forwards", "flag last", "twice", "together", "left out"};

/* A field that is stored wrongly on purpose. */
static const uint8_t three[] = {0x01, 0x00, 0x80};

/* A call: what it is lent beside state and buffer, and the VarUInts that it stores. */
struct call {
    enum entry entry;
    size_t annotations;
    size_t bytes;
    uint64_t sid;
    size_t fields;
    struct field field[MOST_FIELDS];
};

static uint8_t state[GM_STATE_SIZE];
static uint8_t buf[ROOM];
static uint8_t annotations[8 * SIDS];
static uint8_t text[20000];
static uint8_t closed[12];

static volatile sig_atomic_t stepping;
static uint8_t mask;
static uint8_t watched[ROOM];
static uint8_t left[ROOM];
static size_t from;
static size_t to;
static struct store trace[MOST_STORES];
static size_t stores;

static void print_trace(const char *name) {
    printf("%s:", name);
    for (size_t i = 0; i < stores && i < SHOWN; ++i)
        printf(" %zu=%02X", trace[i].place, trace[i].byte);
    printf(stores > SHOWN ? " ..\n" : "\n");
}

static void require(int ok, const char *name, const char *what) {
    if (ok)
        return;
    print_trace(name);
    printf("%s: not so: %s\n", name, what);
    exit(1);
}

static void stepped(int number, siginfo_t *info, void *context) {
    greg_t *flags = &((ucontext_t *)context)->uc_mcontext.gregs[REG_EFL];
    (void)number;
    (void)info;
    if (!stepping) {
        *flags &= ~(greg_t)TRAP_FLAG;
        return;
    }
    *flags |= TRAP_FLAG;
    for (size_t i = from; i < to; ++i) {
        if (!watched[i] || buf[i] == left[i])
            continue;
        if (stores < MOST_STORES)
            trace[stores++] = (struct store){i, buf[i]};
        buf[i] ^= mask;
        left[i] = buf[i];
    }
}

static void store(size_t i, uint8_t byte) { ((volatile uint8_t *)buf)[START + 1 + i] = byte; }

/* The second is how fields were stored before Item 4. */
static uint8_t made_wrongly(enum entry entry) {
    if (entry == FORWARDS) {
        store(0, three[0]);
        store(1, three[1]);
    }
    if (entry == TOGETHER)
        memcpy(buf + START + 2, three + 1, 2);
    else
        store(2, entry == FLAG_LAST ? three[2] & 0x7F : three[2]);
    if (entry == FLAG_LAST || entry == TWICE || entry == LEFT_OUT)
        store(1, three[1]);
    if (entry != FORWARDS && entry != LEFT_OUT)
        store(0, three[0]);
    if (entry == FLAG_LAST || entry == TWICE)
        store(2, three[2]);
    return GM_ACCEPTED;
}

static uint8_t made(const struct call *c) {
    size_t n = 8 * c->annotations;
    uint8_t *s = state;
    size_t sl = sizeof state;
    const uint8_t *a = annotations;
    switch (c->entry) {
    case WRITE_NULL:
        return gm_write_null(s, sl, buf, ROOM, a, n, 0);
    case WRITE_BOOL:
        return gm_write_bool(s, sl, buf, ROOM, a, n, 1);
    case WRITE_I64:
        return gm_write_i64(s, sl, buf, ROOM, a, n, -5);
    case WRITE_INT:
        return gm_write_int(s, sl, buf, ROOM, a, n, 0, text, c->bytes);
    case WRITE_F32:
        return gm_write_f32(s, sl, buf, ROOM, a, n, UINT32_C(0x3FC00000));
    case WRITE_F64:
        return gm_write_f64(s, sl, buf, ROOM, a, n, UINT64_C(0x3FF199999999999A));
    case WRITE_DECIMAL:
        return gm_write_decimal(s, sl, buf, ROOM, a, n, 0, text, c->bytes, -1);
    case WRITE_TIMESTAMP:
        return gm_write_timestamp(s, sl, buf, ROOM, a, n, 4, 2026, 3, 14, 20, 30, 0, 1, 60, 0, 0, 0);
    case WRITE_SYMBOL:
        return gm_write_symbol(s, sl, buf, ROOM, a, n, 300);
    case WRITE_STRING:
        return gm_write_string(s, sl, buf, ROOM, a, n, text, c->bytes);
    case WRITE_CLOB:
        return gm_write_clob(s, sl, buf, ROOM, a, n, text, c->bytes);
    case WRITE_BLOB:
        return gm_write_blob(s, sl, buf, ROOM, a, n, text, c->bytes);
    case OPEN_LIST:
        return gm_open_list(s, sl, buf, ROOM, a, n);
    case OPEN_SEXP:
        return gm_open_sexp(s, sl, buf, ROOM, a, n);
    case OPEN_STRUCT:
        return gm_open_struct(s, sl, buf, ROOM, a, n);
    case FIELD_NAME:
        return gm_field_name(s, sl, buf, ROOM, c->sid);
    case CLOSE:
        return gm_close(s, sl, buf, ROOM, closed, sizeof closed);
    default:
        return made_wrongly(c->entry);
    }
}

/* A start and what has to stand before the call: a struct around a name; a list, annotated as the call is, with a blob of so many bytes in it. */
static void prepare(const struct call *c) {
    memset(state, 0, sizeof state);
    memset(buf, 0, ROOM);
    require(gm_start(state, sizeof state, buf, ROOM) == GM_ACCEPTED, "gm_start", "accepted");
    if (c->entry == FIELD_NAME)
        require(gm_open_struct(state, sizeof state, buf, ROOM, annotations, 0) == GM_ACCEPTED, "gm_open_struct", "accepted before a name");
    if (c->entry != CLOSE)
        return;
    require(gm_open_list(state, sizeof state, buf, ROOM, annotations, 8 * c->annotations) == GM_ACCEPTED, "gm_open_list",
            "accepted before a closing");
    require(gm_write_blob(state, sizeof state, buf, ROOM, annotations, 0, text, c->bytes) == GM_ACCEPTED, "gm_write_blob",
            "accepted before a closing");
}

/* The call once more, now step by step. Each watched byte is another one before than it has to be afterwards. */
static void follow(const struct call *c, const uint8_t *expected) {
    prepare(c);
    from = ROOM;
    to = 0;
    stores = 0;
    memset(watched, 0, sizeof watched);
    for (size_t i = 0; i < c->fields; ++i) {
        for (size_t p = c->field[i].place; p < c->field[i].place + c->field[i].size; ++p) {
            watched[p] = 1;
            buf[p] = expected[p] ^ mask;
            left[p] = buf[p];
            from = p < from ? p : from;
            to = p < to ? to : p + 1;
        }
    }
    stepping = 1;
    raise(SIGTRAP);
    uint8_t answer = made(c);
    stepping = 0;
    raise(SIGTRAP);
    require(answer == GM_ACCEPTED, names[c->entry], "accepted step by step");
    require(stores > 0, names[c->entry], "a store is seen, so this machine steps");
}

/* Whether the stores at the field's places go to the last of them first, to each once. Bytes that one instruction stores stand in the trace with the
 * first place first, so two of a field are out of order. */
static int is_end_first(const struct field *f) {
    size_t found = 0;
    for (size_t i = 0; i < stores; ++i) {
        if (trace[i].place < f->place || trace[i].place >= f->place + f->size)
            continue;
        if (trace[i].place != f->place + f->size - 1 - found)
            return 0;
        ++found;
    }
    return found == f->size;
}

static size_t seen;
static int show;

static void check(const struct call *c) {
    static const uint8_t masks[] = {0xFF, 0x55};
    static uint8_t expected[ROOM];
    const char *name = names[c->entry];

    prepare(c);
    require(made(c) == GM_ACCEPTED, name, "accepted");
    memcpy(expected, buf, ROOM);
    /* that the fields lie where they are said to: the end flag is on the last byte of each, and on no other */
    for (size_t i = 0; i < c->fields; ++i)
        for (size_t k = 0; k < c->field[i].size; ++k)
            require((expected[c->field[i].place + k] >= 0x80) == (k == c->field[i].size - 1), name, "the end flag is on a field's last byte alone");
    for (size_t m = 0; m < sizeof masks; ++m) {
        mask = masks[m];
        follow(c, expected);
        for (size_t i = 0; i < c->fields; ++i)
            require(is_end_first(&c->field[i]), name, "a field is stored from its last byte to its first, each byte once and by itself");
    }
    seen += c->fields;
    if (show)
        print_trace(name);
}

/* That a wrong order is seen as such. */
static void check_wrong(enum entry entry) {
    static uint8_t expected[ROOM];
    struct call c = {entry, 0, 0, 0, 1, {{START + 1, sizeof three}}};

    memcpy(expected + START + 1, three, sizeof three);
    mask = 0xFF;
    follow(&c, expected);
    require(!is_end_first(&c.field[0]), names[entry], "a wrong order is seen");
}

static void add(struct call *c, size_t place, size_t size) { c->field[c->fields++] = (struct field){place, size}; }

/* 64 sids of two bytes each, and their sum, 128, in two bytes */
static void add_sids(struct call *c, size_t place) {
    add(c, place, 2);
    for (size_t i = 0; i < SIDS; ++i)
        add(c, place + 2 + 2 * i, 2);
}

/* A value or an opening with annotations: the wrapper's length, the sum, the sids. An opening reserves two bytes for the wrapper's header. */
static void annotated(enum entry entry) {
    struct call c = {entry, SIDS, 20, 0, 0, {{0, 0}}};
    if (entry < OPEN_LIST)
        add(&c, START + 1, 2);
    add_sids(&c, entry < OPEN_LIST ? START + 3 : START + 2);
    check(&c);
}

/* A length behind the type byte. */
static void length(enum entry entry, size_t bytes, size_t size) {
    struct call c = {entry, 0, bytes, 0, 0, {{0, 0}}};
    add(&c, START + 1, size);
    check(&c);
}

/* A name in a struct, whose header is reserved in two bytes. */
static void name(uint64_t sid, size_t size) {
    struct call c = {FIELD_NAME, 0, 0, sid, 0, {{0, 0}}};
    add(&c, START + 2, size);
    check(&c);
}

/* The lengths of an annotated list of 200 bytes and its wrapper; sum and sid have one byte each, and move. */
static void close_annotated(void) {
    struct call c = {CLOSE, 1, 197, 0, 0, {{0, 0}}};
    annotations[0] = 20;
    annotations[1] = 0;
    add(&c, START + 1, 2);
    add(&c, START + 6, 2);
    check(&c);
}

/* A timestamp behind its type byte and offset: the year takes two bytes, the other fields one each. */
static void timestamp(void) {
    struct call c = {WRITE_TIMESTAMP, 0, 0, 0, 0, {{0, 0}}};
    add(&c, START + 2, 2);
    for (size_t i = 0; i < 5; ++i)
        add(&c, START + 4 + i, 1);
    check(&c);
}

int main(int count, char **arguments) {
    struct sigaction action;
    show = count > 1 && strcmp(arguments[1], "show") == 0;
    memset(&action, 0, sizeof action);
    action.sa_sigaction = stepped;
    action.sa_flags = SA_SIGINFO;
    require(sigaction(SIGTRAP, &action, NULL) == 0, "sigaction", "SIGTRAP has a handler");

    for (size_t i = 0; i < SIDS; ++i) {
        annotations[8 * i] = 300 % 256;
        annotations[8 * i + 1] = 300 / 256;
    }
    memset(text, 'a', sizeof text);

    for (int entry = FORWARDS; entry <= LEFT_OUT; ++entry)
        check_wrong(entry);
    for (size_t size = 1; size <= 10; ++size) {
        uint64_t least = size == 1 ? 0 : UINT64_C(1) << 7 * (size - 1);
        name(least, size);
        name(size == 10 ? UINT64_MAX : (UINT64_C(1) << 7 * size) - 1, size);
    }
    for (int entry = WRITE_NULL; entry <= OPEN_STRUCT; ++entry)
        annotated(entry);
    for (int entry = WRITE_STRING; entry <= WRITE_BLOB; ++entry) {
        length(entry, 14, 1);
        length(entry, 200, 2);
        length(entry, 16384, 3);
    }
    length(WRITE_INT, 200, 2);
    length(WRITE_DECIMAL, 20, 1);
    length(CLOSE, 20, 1);
    length(CLOSE, 200, 2);
    length(CLOSE, 16384, 3);
    timestamp();
    close_annotated();
    printf("end byte first: %zu VarUInts, seen instruction by instruction\n", seen);
    return 0;
}
