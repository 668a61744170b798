/* Calls of the library from C, each held to documents 01 and 02. Prints every failure and the
   counts. */
#include "nimbohaza.h"

#include <pthread.h>
#include <stdio.h>
#include <stdlib.h>

/* The layout that the library was compiled for; a wrong one doesn't compile. */
#define LAID_OUT(name, fact) typedef char name[(fact) ? 1 : -1]
LAID_OUT(terms_are_32_bytes, sizeof(nimbohaza_terms) == 32);
LAID_OUT(step_limit_at_8, offsetof(nimbohaza_terms, step_limit) == 8);
LAID_OUT(has_step_limit_at_16, offsetof(nimbohaza_terms, has_step_limit) == 16);
LAID_OUT(has_loop_limit_at_17, offsetof(nimbohaza_terms, has_loop_limit) == 17);
LAID_OUT(has_house_limit_at_18, offsetof(nimbohaza_terms, has_house_limit) == 18);
LAID_OUT(house_limit_at_24, offsetof(nimbohaza_terms, house_limit) == 24);
LAID_OUT(conversion_is_8_bytes, sizeof(nimbohaza_conversion) == 8);
LAID_OUT(records_at_4, offsetof(nimbohaza_conversion, records) == 4);
LAID_OUT(reply_is_152_bytes, sizeof(nimbohaza_reply) == 152);
LAID_OUT(account_at_8, offsetof(nimbohaza_reply, account) == 8);
LAID_OUT(charges_at_16, offsetof(nimbohaza_end, charges) == 16);
LAID_OUT(depths_at_32, offsetof(nimbohaza_end, depths) == 32);
LAID_OUT(empty_pops_at_80, offsetof(nimbohaza_end, empty_pops) == 80);
LAID_OUT(temps_are_last, offsetof(nimbohaza_end, temps) + 40 == sizeof(nimbohaza_end));
LAID_OUT(remainders_at_128, offsetof(nimbohaza_account, remainders) == 128);
LAID_OUT(house_at_8, offsetof(nimbohaza_remainders, house) == 8);
LAID_OUT(remainders_are_last, sizeof(nimbohaza_account) == 128 + sizeof(nimbohaza_remainders));

/* ---- counts */

static int passed, failed;

static void expect(int right, const char *name)
{
    if (right) {
        passed++;
    } else {
        failed++;
        printf("failed: %s\n", name);
    }
}

/* ---- stores: exactly as long as they say, so that valgrind sees a step beyond */

typedef struct {
    void *at;
    size_t length;
    size_t width;
} store;

static store lend(size_t length, size_t width)
{
    store s = {malloc(length * width), length, width};
    if (s.at == NULL)
        abort();
    return s;
}

static store filled(size_t length, size_t width, int byte)
{
    store s = lend(length, width);
    memset(s.at, byte, length * width);
    return s;
}

static store copied(store from)
{
    store s = lend(from.length, from.width);
    memcpy(s.at, from.at, from.length * from.width);
    return s;
}

static void replace(store *s, store by)
{
    free(s->at);
    *s = by;
}

static int same(store a, store b)
{
    return a.length == b.length && memcmp(a.at, b.at, a.length * a.width) == 0;
}

static int all_zero(store s)
{
    const unsigned char *bytes = s.at;
    for (size_t i = 0; i < s.length * s.width; i++)
        if (bytes[i] != 0)
            return 0;
    return 1;
}

/* ---- files, written as hexadecimal digits */

static size_t digits_in(const char *hex)
{
    size_t n = 0;
    for (; *hex; hex++)
        n += *hex != ' ';
    return n;
}

static unsigned digit(char c)
{
    return (unsigned)(c <= '9' ? c - '0' : c - 'A' + 10);
}

static size_t put_hex(uint8_t *to, const char *hex)
{
    size_t n = 0;
    for (; *hex; hex++)
        if (*hex != ' ') {
            to[n / 2] = (uint8_t)(n % 2 ? to[n / 2] * 16 + digit(*hex) : digit(*hex));
            n++;
        }
    return n / 2;
}

static store from_hex(const char *hex)
{
    store s = lend(digits_in(hex) / 2, 1);
    put_hex(s.at, hex);
    return s;
}

static size_t put_field(uint8_t *to, uint8_t tag, const char *body)
{
    size_t length = digits_in(body) / 2;
    to[0] = tag;
    to[1] = (uint8_t)(length % 256);
    to[2] = (uint8_t)(length / 256);
    return 3 + put_hex(to + 3, body);
}

#define POST_0 "0000803F 00000000 "
#define POST_1 "00000040 0000003F "

/* One name, three temps, post 0 and post 1 (times 2, plus 0.5), one hash. */
static store program(const char *constants, const char *records)
{
    uint8_t bytes[1024];
    size_t n = put_field(bytes, 1, "0100 0300");
    n += put_field(bytes + n, 2, constants);
    n += put_field(bytes + n, 3, POST_0 POST_1);
    n += put_field(bytes + n, 4, "0000000000000000");
    n += put_field(bytes + n, 5, records);
    store s = lend(n, 1);
    memcpy(s.at, bytes, n);
    return s;
}

#define OP(opcode, post, argument) opcode " 00 " post " 00 " argument " 000000 "
#define CONST(c) OP("01", "00", c)
#define HASH OP("02", "00", "00")
#define THIS OP("04", "00", "00")
#define LOAD_VAR(post) OP("05", post, "00")
#define LOAD_CTX OP("07", "00", "00")
#define MEMBER OP("08", "00", "00")
#define STORE_VAR OP("09", "00", "00")
#define STORE_TEMP(t) OP("0A", "00", t)
#define PUSH OP("0B", "00", "00")
#define PUSH_CONST(c) OP("0C", "00", c)
#define ADD_LAST OP("10", "00", "00")
#define MUL OP("11", "00", "00")
#define MOD_CONST(c) OP("15", "00", c)
#define HOST_MATH(n) "16 " n " 0000 00000000 "
#define POINTER_ENTER(j) OP("25", "00", j)
#define JUMP(j) OP("20", "00", j)
#define POST OP("22", "00", "00")
#define HANDLER_PUSH(j) OP("23", "00", j)
#define POINTER_LEAVE OP("26", "00", "00")
#define LOOP_BEGIN(j) OP("28", "00", j)
#define LOOP_CHECK(j) OP("29", "00", j)
#define LOOP_END OP("2A", "00", "00")
#define END OP("30", "00", "00")
#define FLOOR OP("31", "00", "00")
#define CEIL OP("32", "00", "00")
#define TRUNC OP("33", "00", "00")
#define ABS(post) OP("34", post, "00")
#define LOOP CONST("00") LOOP_BEGIN("05") POST LOOP_CHECK("02") LOOP_END END

/* ---- calls */

static const nimbohaza_terms none = {0};

typedef struct {
    store file, kinds, values, context_kinds, context_values, stack, loops, handlers;
    nimbohaza_terms terms;
} call;

/* Missing cells; the working stores come as malloc left them. */
static call call_of(store file, size_t names, nimbohaza_terms terms)
{
    call c = {
        file, filled(names, 1, 0), filled(names, 8, 0), filled(names, 1, 0), filled(names, 8, 0),
        lend(4, 4), lend(2, 4), lend(2, 8), terms,
    };
    return c;
}

static nimbohaza_reply run(call *c)
{
    return nimbohaza_run(c->file.at, c->file.length, c->kinds.at, c->kinds.length, c->values.at,
                         c->values.length, c->context_kinds.at, c->context_kinds.length,
                         c->context_values.at, c->context_values.length, c->terms, c->stack.at,
                         c->stack.length, c->loops.at, c->loops.length, c->handlers.at,
                         c->handlers.length);
}

static void end_call(call *c)
{
    store *all[] = {&c->file, &c->kinds, &c->values, &c->context_kinds, &c->context_values,
                    &c->stack, &c->loops, &c->handlers};
    for (size_t i = 0; i < sizeof all / sizeof *all; i++)
        free(all[i]->at);
}

static int same_number(const char *name, const char *field, uint64_t got, uint64_t wanted)
{
    if (got != wanted)
        printf("%s: %s is %llX, not %llX\n", name, field, (unsigned long long)got,
               (unsigned long long)wanted);
    return got == wanted;
}

#define SAME(field) same_number(name, #field, got->field, wanted->field)

/* Of a part that has no padding. */
#define SAME_PART(part) same_bytes(name, #part, &got->part, &wanted->part, sizeof got->part)

static int same_bytes(const char *name, const char *part, const void *got, const void *wanted,
                      size_t size)
{
    int right = memcmp(got, wanted, size) == 0;
    if (!right)
        printf("%s: the %s differ\n", name, part);
    return right;
}

static int same_end(const char *name, const nimbohaza_end *got, const nimbohaza_end *wanted)
{
    return SAME(outcome) & SAME(value) & SAME(position) & SAME(charges) & SAME(accumulator)
           & SAME_PART(depths) & SAME_PART(notices) & SAME(empty_pops) & SAME_PART(temps);
}

static int same_reply(const char *name, const nimbohaza_reply *got, const nimbohaza_reply *wanted)
{
    return SAME(refusal) & same_end(name, &got->account.end, &wanted->account.end)
           & SAME(account.remainders.guest) & SAME(account.remainders.house);
}

/* What remains of both step limits after so many charges. */
static nimbohaza_remainders less(nimbohaza_terms terms, uint64_t charges)
{
    nimbohaza_remainders left = {
        (terms.has_step_limit ? terms.step_limit : UINT64_MAX) - charges,
        (terms.has_house_limit ? terms.house_limit : UINT64_MAX) - charges,
    };
    return left;
}

/* Whether a call under these terms runs, and its run ends so. */
static int ends_as(const char *name, const nimbohaza_reply *got, nimbohaza_terms terms,
                   nimbohaza_end end)
{
    nimbohaza_reply wanted = {0, {end, less(terms, end.charges)}};
    return same_reply(name, got, &wanted);
}

/* ---- refusals */

#define COUNTS "01 0400 0000 0000 "
#define TABLES COUNTS "02 0000  03 0800 " POST_0 " 04 0000 "
#define E TABLES "05 0000 "
#define RECORD(r) TABLES "05 0800 " r

typedef struct {
    uint32_t number;
    const char *file;
} refused_file;

static const refused_file refused_files[] = {
    {NIMBOHAZA_REFUSED_END, ""},
    {NIMBOHAZA_REFUSED_END, "01"},
    {NIMBOHAZA_REFUSED_END, "01 04"},
    {NIMBOHAZA_REFUSED_END, "01 0400 0000 00"},
    {NIMBOHAZA_REFUSED_END, TABLES},
    {NIMBOHAZA_REFUSED_TAG, "02"},
    {NIMBOHAZA_REFUSED_LENGTH, "01 0500"},
    {NIMBOHAZA_REFUSED_LENGTH, COUNTS "02 0300"},
    {NIMBOHAZA_REFUSED_LENGTH, COUNTS "02 0440"},
    {NIMBOHAZA_REFUSED_AFTER, E "00"},
    {NIMBOHAZA_REFUSED_COUNTS, "01 0400 0000 0900"},
    {NIMBOHAZA_REFUSED_COUNTS, "01 0400 0101 0000"},
    {NIMBOHAZA_REFUSED_POST_0, COUNTS "02 0000 03 0000 04 0000 05 0000"},
    {NIMBOHAZA_REFUSED_POST_0, COUNTS "02 0000 03 0800 0000803F 00000080"},
    {NIMBOHAZA_REFUSED_OPCODE, RECORD("00 00 0000 00000000")},
    {NIMBOHAZA_REFUSED_OPCODE, RECORD("35 00 0000 00000000")},
    {NIMBOHAZA_REFUSED_OPCODE, RECORD("FF 00 0000 00000000")},
    {NIMBOHAZA_REFUSED_PART, RECORD("30 01 0000 00000000")},
    {NIMBOHAZA_REFUSED_PART, RECORD("17 04 0000 00000000")},
    {NIMBOHAZA_REFUSED_PART, RECORD("31 01 0000 00000000")},
    {NIMBOHAZA_REFUSED_PART, RECORD("34 00 0000 01000000")},
    {NIMBOHAZA_REFUSED_INDEX, RECORD("01 00 0000 00000000")},
    {NIMBOHAZA_REFUSED_INDEX, RECORD("0D 00 0100 00000000")},
    {NIMBOHAZA_REFUSED_INDEX, RECORD("33 00 0100 00000000")},
    {NIMBOHAZA_REFUSED_WITHDRAWN, RECORD(HOST_MATH("00"))},
    {NIMBOHAZA_REFUSED_WITHDRAWN, RECORD(HOST_MATH("FF"))},
    {NIMBOHAZA_REFUSED_WITHDRAWN, RECORD("16 00 0100 01000000")},
};

static int unchanged(const call *a, const call *b)
{
    return same(a->kinds, b->kinds) && same(a->values, b->values) && same(a->stack, b->stack)
           && same(a->loops, b->loops) && same(a->handlers, b->handlers);
}

/* A call that is sent back with this number, both limits and every lent store as they were. */
static void expect_refused(call *c, uint32_t number, const char *name)
{
    nimbohaza_reply wanted = {.refusal = number, .account = {.remainders = less(c->terms, 0)}};
    memset(c->stack.at, 0xA5, c->stack.length * 4);
    memset(c->loops.at, 0xA5, c->loops.length * 4);
    memset(c->handlers.at, 0xA5, c->handlers.length * 8);
    call before = {copied(c->file), copied(c->kinds), copied(c->values),
                   copied(c->context_kinds), copied(c->context_values), copied(c->stack),
                   copied(c->loops), copied(c->handlers), none};
    nimbohaza_reply got = run(c);
    expect(same_reply(name, &got, &wanted) && unchanged(c, &before), name);
    end_call(&before);
    end_call(c);
}

static void test_refused_files(void)
{
    for (size_t i = 0; i < sizeof refused_files / sizeof *refused_files; i++) {
        const refused_file *f = &refused_files[i];
        char name[64];
        snprintf(name, sizeof name, "refused file %u, number %u", (unsigned)i, (unsigned)f->number);
        call c = call_of(from_hex(f->file), 1, none);
        expect(nimbohaza_check(c.file.at, c.file.length) == f->number, name);
        expect_refused(&c, f->number, name);
    }
}

static void test_accepted_files(void)
{
    store files[] = {from_hex(E), program("", ""), program("00004040", LOOP)};
    for (size_t i = 0; i < sizeof files / sizeof *files; i++) {
        expect(nimbohaza_check(files[i].at, files[i].length) == NIMBOHAZA_ACCEPTED, "accepted");
        free(files[i].at);
    }
}

static call wrong_call(void)
{
    return call_of(program("", END), 1, none);
}

static void test_refused_cells(void)
{
    call c = call_of(from_hex(E), 1, none);
    expect_refused(&c, NIMBOHAZA_REFUSED_CALL, "E with one cell");
    c = call_of(program("", END), 0, none);
    expect_refused(&c, NIMBOHAZA_REFUSED_CALL, "a cell too few");
    c = wrong_call();
    replace(&c.values, filled(2, 8, 0));
    expect_refused(&c, NIMBOHAZA_REFUSED_CALL, "a value without a kind");
    c = wrong_call();
    replace(&c.context_kinds, filled(0, 1, 0));
    expect_refused(&c, NIMBOHAZA_REFUSED_CALL, "a context cell too few");
    c = wrong_call();
    replace(&c.kinds, filled(1, 1, 4));
    expect_refused(&c, NIMBOHAZA_REFUSED_CALL, "a kind over 3");
    c = wrong_call();
    replace(&c.kinds, filled(1, 1, NIMBOHAZA_FLOAT));
    replace(&c.values, filled(1, 8, 1));
    expect_refused(&c, NIMBOHAZA_REFUSED_CALL, "a float of 2^32 or more");
    c = wrong_call();
    replace(&c.context_kinds, filled(1, 1, 255));
    expect_refused(&c, NIMBOHAZA_REFUSED_CALL, "a context kind over 3");
}

static void test_refused_stores(void)
{
    call c = wrong_call();
    replace(&c.stack, lend(NIMBOHAZA_MOST_STACK + 1, 4));
    expect_refused(&c, NIMBOHAZA_REFUSED_CALL, "a stack over the most");
    c = wrong_call();
    replace(&c.loops, lend(NIMBOHAZA_MOST_LOOPS + 1, 4));
    expect_refused(&c, NIMBOHAZA_REFUSED_CALL, "loop counts over the most");
    c = wrong_call();
    replace(&c.handlers, lend(NIMBOHAZA_MOST_HANDLERS + 1, 8));
    expect_refused(&c, NIMBOHAZA_REFUSED_CALL, "handlers over the most");
}

#define STEP_LIMIT(n) {.has_step_limit = 1, .step_limit = (n)}
#define HOUSE_LIMIT(n) {.has_house_limit = 1, .house_limit = (n)}
#define LIMITS(guest, house)                                                                       \
    {.has_step_limit = 1, .step_limit = (guest), .has_house_limit = 1, .house_limit = (house)}

/* Refused under limits, where the calls above bring none. */
static void test_refused_limits(void)
{
    static const nimbohaza_terms terms[] = {
        LIMITS(3, 5), LIMITS(5, 3), LIMITS(0, 0), LIMITS(UINT64_MAX, 1),
        STEP_LIMIT(0), HOUSE_LIMIT(0), HOUSE_LIMIT(7),
    };
    for (size_t i = 0; i < sizeof terms / sizeof *terms; i++) {
        call c = call_of(from_hex("02"), 1, terms[i]);
        expect_refused(&c, NIMBOHAZA_REFUSED_TAG, "a refused file under limits");
        c = call_of(program("", END), 0, terms[i]);
        expect_refused(&c, NIMBOHAZA_REFUSED_CALL, "a refused call under limits");
    }
}

/* ---- document 01's twelve runs set out */

typedef struct {
    const char *name, *constants, *records;
    nimbohaza_terms terms;
    nimbohaza_end wanted;
} set_out;

#define LOOP_LIMIT(n) {.has_loop_limit = 1, .loop_limit = (n)}
#define NUMBER(bits) .value = (bits), .accumulator = (bits)
#define STOPPED(name) .outcome = NIMBOHAZA_##name
#define CUT_SHORT .notices = {.loop_limit = 1}
#define SUM PUSH_CONST("00") ADD_LAST END
#define HANDLED HANDLER_PUSH("03") PUSH LOAD_VAR("00") END
#define REMAINDER CONST("00") MOD_CONST("01") END

static const set_out runs[12] = {
    {"run 1", "", "", STEP_LIMIT(0), {STOPPED(STEPS)}},
    {"run 2", "", "", STEP_LIMIT(1), {.charges = 1}},
    {"run 3", "00000040", SUM, {0}, {NUMBER(0x40000000), .charges = 4}},
    {"run 4", "00000040", SUM, STEP_LIMIT(1), {STOPPED(STEPS), .charges = 1, .depths = {1, 0, 0}}},
    {"run 5", "00004040", LOOP, {0}, {NUMBER(0x40400000), .charges = 10}},
    {"run 6", "00004040", LOOP, LOOP_LIMIT(0), {NUMBER(0x40400000), .charges = 6, CUT_SHORT}},
    {"run 7", "00000000", LOOP, {0}, {.charges = 3}},
    {"run 8", "0000C07F", LOOP, LOOP_LIMIT(2), {NUMBER(0x7FC00000), .charges = 8, CUT_SHORT}},
    {"run 9", "", HANDLED, {0}, {.charges = 4}},
    {"run 10", "", LOAD_VAR("00"), {0}, {STOPPED(MISSING_VALUE), .charges = 1}},
    {"run 11", "000080C0 00000040", REMAINDER, {0}, {.charges = 3}},
    {"run 12", "", HASH, {0}, {STOPPED(HANDED_OVER), .charges = 1}},
};

/* Whether a run answers as set out, with its cell still missing and its working stores cleared. */
static int as_set_out(const set_out *s)
{
    call c = call_of(program(s->constants, s->records), 1, s->terms);
    nimbohaza_reply got = run(&c);
    int right = ends_as(s->name, &got, s->terms, s->wanted) && all_zero(c.kinds)
                && all_zero(c.values) && all_zero(c.stack) && all_zero(c.loops)
                && all_zero(c.handlers);
    end_call(&c);
    return right;
}

static void test_runs_set_out(void)
{
    for (int i = 0; i < 12; i++)
        expect(as_set_out(&runs[i]), runs[i].name);
}

/* ---- two step limits */

/* A run of SUM, which charges 4, 2 of them for PushConst. */
typedef struct {
    const char *name;
    nimbohaza_terms terms;
    uint32_t outcome;
    uint64_t charges, depth;
    nimbohaza_remainders left;
} limited;

#define NONE_LESS(n) (UINT64_MAX - (n))

static const limited limited_runs[] = {
    {"guest 0", LIMITS(0, 9), NIMBOHAZA_STEPS, 0, 0, {0, 9}},
    {"house 0", LIMITS(9, 0), NIMBOHAZA_STEPS, 0, 0, {9, 0}},
    {"both 0", LIMITS(0, 0), NIMBOHAZA_STEPS, 0, 0, {0, 0}},
    {"guest 1: the fetch of a PushConst alone", LIMITS(1, 9), NIMBOHAZA_STEPS, 1, 1, {0, 8}},
    {"house 1: the fetch of a PushConst alone", LIMITS(9, 1), NIMBOHAZA_STEPS, 1, 1, {8, 0}},
    {"guest 2: its constant too", LIMITS(2, 9), NIMBOHAZA_STEPS, 2, 1, {0, 7}},
    {"house 2: its constant too", LIMITS(9, 2), NIMBOHAZA_STEPS, 2, 1, {7, 0}},
    {"guest one too few", LIMITS(3, 4), NIMBOHAZA_STEPS, 3, 0, {0, 1}},
    {"house one too few", LIMITS(4, 3), NIMBOHAZA_STEPS, 3, 0, {1, 0}},
    {"guest just enough", LIMITS(4, 9), NIMBOHAZA_DONE, 4, 0, {0, 5}},
    {"house just enough", LIMITS(9, 4), NIMBOHAZA_DONE, 4, 0, {5, 0}},
    {"both just enough", LIMITS(4, 4), NIMBOHAZA_DONE, 4, 0, {0, 0}},
    {"both enough", LIMITS(9, 5), NIMBOHAZA_DONE, 4, 0, {5, 1}},
    {"no guest limit", HOUSE_LIMIT(3), NIMBOHAZA_STEPS, 3, 0, {NONE_LESS(3), 0}},
    {"no house limit", STEP_LIMIT(3), NIMBOHAZA_STEPS, 3, 0, {0, NONE_LESS(3)}},
    {"no limit", {0}, NIMBOHAZA_DONE, 4, 0, {NONE_LESS(4), NONE_LESS(4)}},
    {"the largest", LIMITS(UINT64_MAX, UINT64_MAX), NIMBOHAZA_DONE, 4, 0,
     {NONE_LESS(4), NONE_LESS(4)}},
    {"numbers without flags", {.step_limit = 1, .house_limit = 1}, NIMBOHAZA_DONE, 4, 0,
     {NONE_LESS(4), NONE_LESS(4)}},
};

static void test_limited_runs(void)
{
    for (size_t i = 0; i < sizeof limited_runs / sizeof *limited_runs; i++) {
        const limited *l = &limited_runs[i];
        call c = call_of(program("00000040", SUM), 1, l->terms);
        nimbohaza_account got = run(&c).account;
        expect(same_number(l->name, "outcome", got.end.outcome, l->outcome)
                   & same_number(l->name, "charges", got.end.charges, l->charges)
                   & same_number(l->name, "depth", got.end.depths.stack, l->depth)
                   & same_number(l->name, "guest", got.remainders.guest, l->left.guest)
                   & same_number(l->name, "house", got.remainders.house, l->left.house), l->name);
        end_call(&c);
    }
}

/* Whether the run under both limits ends as the one under the smaller of them alone. */
static int as_the_smaller(const char *records, nimbohaza_terms both)
{
    nimbohaza_remainders brought = less(both, 0);
    uint64_t smaller = brought.guest < brought.house ? brought.guest : brought.house;
    call c = call_of(program("00000040", records), 1, both);
    call alone = call_of(program("00000040", records), 1, (nimbohaza_terms)STEP_LIMIT(smaller));
    nimbohaza_reply got = run(&c);
    int right = ends_as("under the smaller", &got, both, run(&alone).account.end)
                && unchanged(&c, &alone);
    end_call(&alone);
    end_call(&c);
    return right;
}

/* All pairs of limits about the run's charges, at most 9, with the largest ones and none. */
static void test_pairs_of_limits(void)
{
    static const char *const codes[] = {SUM, LOOP, HANDLED, PUSH JUMP("00")};
    static const uint64_t limits[] = {0, 1, 2, 3, 4, 5, 6, 7, 8, 9, 10, UINT64_MAX - 1, UINT64_MAX};
    const int numbers = sizeof limits / sizeof *limits; /* and one more for none */
    for (size_t i = 0; i < sizeof codes / sizeof *codes; i++) {
        int right = 1;
        for (int pair = 0; pair < (numbers + 1) * (numbers + 1); pair++) {
            int guest = pair / (numbers + 1), house = pair % (numbers + 1);
            nimbohaza_terms both = {
                .has_step_limit = guest < numbers,
                .step_limit = guest < numbers ? limits[guest] : 0,
                .has_house_limit = house < numbers,
                .house_limit = house < numbers ? limits[house] : 0,
            };
            right &= as_the_smaller(codes[i], both);
        }
        expect(right, "every pair of limits is one run under the smaller");
    }
}

/* A partner's call: its code, cells and own limit, and its answer in a day that begins with 15 and
   in one without a house limit. */
typedef struct {
    const char *name, *records;
    size_t cells;
    uint64_t step_limit;
    uint32_t refusal;
    uint64_t charges, charges_without;
} days_call;

static const days_call day[] = {
    {"a day's first call, refused", SUM, 0, 9, NIMBOHAZA_REFUSED_CALL, 0, 0},
    {"a day's first run", SUM, 1, 9, NIMBOHAZA_ACCEPTED, 4, 4},
    {"one that its own limit stops", SUM, 1, 3, NIMBOHAZA_ACCEPTED, 3, 3},
    {"a refused file in a day", OP("00", "00", "00"), 1, 9, NIMBOHAZA_REFUSED_OPCODE, 0, 0},
    {"one after a refused file", SUM, 1, 4, NIMBOHAZA_ACCEPTED, 4, 4},
    {"a refused call in a day", SUM, 0, 9, NIMBOHAZA_REFUSED_CALL, 0, 0},
    {"one that uses up the day", LOOP, 1, 9, NIMBOHAZA_ACCEPTED, 4, 8},
    {"one too many", SUM, 1, 9, NIMBOHAZA_ACCEPTED, 0, 4},
    {"a refused call after all", SUM, 0, 9, NIMBOHAZA_REFUSED_CALL, 0, 0},
};

/* The terms go from call to call. After each, what was charged and what remains make what the day
   began with. */
static void test_day(nimbohaza_terms terms)
{
    const int without = !terms.has_house_limit;
    const uint64_t begun = less(terms, 0).house;
    uint64_t spent = 0;
    terms.has_step_limit = 1;
    for (size_t i = 0; i < sizeof day / sizeof *day; i++) {
        const days_call *d = &day[i];
        terms.step_limit = d->step_limit;
        call c = call_of(program("00000040", d->records), d->cells, terms);
        nimbohaza_reply got = run(&c);
        uint64_t charges = got.account.end.charges;
        nimbohaza_pass_on(&terms, &got);
        spent += charges;
        expect(same_number(d->name, "refusal", got.refusal, d->refusal)
                   & same_number(d->name, "charges", charges,
                                 without ? d->charges_without : d->charges)
                   & same_number(d->name, "flag", terms.has_house_limit, 1)
                   & same_number(d->name, "sum", terms.house_limit + spent, begun), d->name);
        end_call(&c);
    }
}

static void test_days(void)
{
    test_day((nimbohaza_terms)HOUSE_LIMIT(15));
    test_day(none);
}

/* ---- what else a run leaves */

/* A run that is held to the outcome and the charges. */
static void expect_run(call *c, uint32_t outcome, uint64_t charges, const char *name)
{
    nimbohaza_reply got = run(c);
    expect(same_number(name, "refusal", got.refusal, 0)
               & same_number(name, "outcome", got.account.end.outcome, outcome)
               & same_number(name, "charges", got.account.end.charges, charges), name);
    end_call(c);
}

static void test_working_stores(void)
{
    const char *code = CONST("00") PUSH LOOP_BEGIN("09") HANDLER_PUSH("07") END;
    call c = call_of(program("00004040", code), 1, none);
    nimbohaza_end wanted = {NUMBER(0x40400000), .charges = 5, .depths = {2, 1, 1}};
    nimbohaza_reply got = run(&c);
    const uint32_t *stack = c.stack.at, *loops = c.loops.at;
    const uint64_t *handlers = c.handlers.at;
    expect(ends_as("depths", &got, none, wanted), "depths");
    expect(stack[0] == 0x40400000 && stack[1] == 0x40000000 && stack[2] == 0 && stack[3] == 0,
           "the operand stack as left");
    expect(loops[0] == 1 && loops[1] == 0, "the loop counts as left");
    expect(handlers[0] == 0x700002001 && handlers[1] == 0, "the handlers as left");
    expect(NIMBOHAZA_HANDLER_TARGET(handlers[0]) == 7
               && NIMBOHAZA_HANDLER_STACK_MARK(handlers[0]) == 2
               && NIMBOHAZA_HANDLER_LOOP_MARK(handlers[0]) == 1, "the parts of a handler");
    end_call(&c);
}

static void test_temps_and_notices(void)
{
    const char *code = CONST("00") STORE_TEMP("02") POINTER_LEAVE MEMBER;
    call c = call_of(program("0000C03F", code), 1, none);
    nimbohaza_end wanted = {
        STOPPED(MISSING_VALUE), .accumulator = 0x3FC00000, .charges = 4,
        .notices = {.missing_member = 1, .access_underflow = 1},
        .temps = {.numbers = {0, 0, 0x3FC00000}, .given = {0, 0, 1}},
    };
    nimbohaza_reply got = run(&c);
    expect(ends_as("temps and notices", &got, none, wanted), "temps and notices");
    end_call(&c);
}

/* AddLast and Mul take one operand, which is there once; LoopEnd with no loop open takes none. */
static void test_empty_pops(void)
{
    call c = call_of(program("", ADD_LAST PUSH MUL MUL LOOP_END END), 1, none);
    nimbohaza_end wanted = {.charges = 6, .empty_pops = 2};
    nimbohaza_reply got = run(&c);
    expect(ends_as("empty pops", &got, none, wanted), "empty pops");
    end_call(&c);
    c = call_of(program("", PUSH ADD_LAST END), 1, none);
    wanted = (nimbohaza_end){.charges = 3};
    got = run(&c);
    expect(ends_as("+0.0 on the stack", &got, none, wanted), "+0.0 on the stack is there");
    end_call(&c);
}

/* A number, its Floor, Ceil and Trunc, and its Abs times 2, plus 0.5: twice 2^23 - 0.5, plus 0.5,
   lies half way between 2^24 - 1 and 2^24, which is even. */
typedef struct {
    const char *name;
    uint32_t number, floor, ceil, trunc, posted;
} whole;

static const whole whole_numbers[] = {
    {"-2.5", 0xC0200000, 0xC0400000, 0xC0000000, 0xC0000000, 0x40B00000},
    {"-0.5", 0xBF000000, 0xBF800000, 0x80000000, 0x80000000, 0x3FC00000},
    {"0.5", 0x3F000000, 0, 0x3F800000, 0, 0x3FC00000},
    {"2^23 - 0.5", 0x4AFFFFFF, 0x4AFFFFFE, 0x4B000000, 0x4AFFFFFE, 0x4B800000},
    {"-infinity", 0xFF800000, 0xFF800000, 0xFF800000, 0xFF800000, 0x7F800000},
    {"a NaN", 0xFF800001, 0x7FC00000, 0x7FC00000, 0x7FC00000, 0x7FC00000},
};

static void test_whole_numbers(void)
{
    for (size_t i = 0; i < sizeof whole_numbers / sizeof *whole_numbers; i++) {
        const whole *w = &whole_numbers[i];
        const char *code = LOAD_VAR("00") FLOOR STORE_TEMP("00") LOAD_VAR("00") CEIL
            STORE_TEMP("01") LOAD_VAR("00") TRUNC STORE_TEMP("02") LOAD_VAR("00") ABS("01") END;
        call c = call_of(program("", code), 1, none);
        nimbohaza_end wanted = {
            NUMBER(w->posted), .charges = 12,
            .temps = {.numbers = {w->floor, w->ceil, w->trunc}, .given = {1, 1, 1}},
        };
        ((uint8_t *)c.kinds.at)[0] = NIMBOHAZA_FLOAT;
        ((uint64_t *)c.values.at)[0] = w->number;
        nimbohaza_reply got = run(&c);
        expect(ends_as(w->name, &got, none, wanted), w->name);
        end_call(&c);
    }
}

static void test_other_outcomes(void)
{
    call c = call_of(program("", PUSH LOOP_CHECK("00") JUMP("00")), 1, none);
    replace(&c.stack, lend(NIMBOHAZA_MOST_STACK, 4));
    expect_run(&c, NIMBOHAZA_STACK_CAP, 196610, "the stack cap");
    c = call_of(program("", PUSH JUMP("00")), 1, none);
    expect_run(&c, NIMBOHAZA_FULL_STORE, 9, "a full stack");
    c = call_of(program("", HANDLER_PUSH("00") JUMP("00")), 1, none);
    expect_run(&c, NIMBOHAZA_FULL_STORE, 5, "full handlers");
    c = call_of(program("", POST HASH), 1, none);
    nimbohaza_reply got = run(&c);
    expect(ends_as("handed over at 1", &got, none,
                   (nimbohaza_end){STOPPED(HANDED_OVER), .position = 1, .charges = 2}),
           "handed over at 1");
    end_call(&c);
}

static void test_cells_meet_the_next_run(void)
{
    call c = call_of(program("", LOAD_VAR("01") STORE_VAR END), 1, none);
    uint8_t *kinds = c.kinds.at;
    uint64_t *values = c.values.at;
    const float wanted[] = {3.5f, 7.5f, 15.5f};
    kinds[0] = NIMBOHAZA_FLOAT;
    values[0] = nimbohaza_bits(1.5f);
    for (int i = 0; i < 3; i++) {
        uint32_t value = run(&c).account.end.value;
        expect(nimbohaza_float(value) == wanted[i] && kinds[0] == NIMBOHAZA_FLOAT
                   && values[0] == value, "a cell left by the run before");
    }
    end_call(&c);
}

/* A context cell goes to the variable and `this` to the value, each NaN as 7FC00000; the context
   keeps its bits. */
static void test_context_and_this(void)
{
    call c = call_of(program("", LOAD_CTX STORE_VAR THIS), 1, none);
    ((uint8_t *)c.context_kinds.at)[0] = NIMBOHAZA_FLOAT;
    ((uint64_t *)c.context_values.at)[0] = 0xFF800001;
    c.terms.this_bits = 0x7F800002;
    nimbohaza_end wanted = {NUMBER(0x7FC00000), .charges = 4};
    nimbohaza_reply got = run(&c);
    expect(ends_as("this", &got, c.terms, wanted), "this");
    expect(same(c.kinds, c.context_kinds) && ((uint64_t *)c.values.at)[0] == 0x7FC00000, "context");
    expect(((uint64_t *)c.context_values.at)[0] == 0xFF800001, "a context cell's own NaN");
    end_call(&c);
}

static void test_other_cells(void)
{
    call c = call_of(program("", LOAD_VAR("00")), 1, none);
    replace(&c.kinds, filled(1, 1, NIMBOHAZA_HASH));
    expect_run(&c, NIMBOHAZA_HANDED_OVER, 1, "a hash hands over");
    c = call_of(program("", LOAD_VAR("01")), 1, none);
    replace(&c.kinds, filled(1, 1, NIMBOHAZA_OTHER));
    replace(&c.values, filled(1, 8, 0xFF));
    expect_run(&c, NIMBOHAZA_DONE, 2, "another cell under a post counts as 0");
}

/* No names and no room at all, at addresses that nobody may read. */
static void test_empty_stores(void)
{
    store file = from_hex(E);
    nimbohaza_end wanted = {.charges = 1};
    nimbohaza_reply got = nimbohaza_run(
        file.at, file.length, (uint8_t *)1, 0, (uint64_t *)8, 0, (const uint8_t *)1, 0,
        (const uint64_t *)8, 0, none, (uint32_t *)4, 0, (uint32_t *)4, 0, (uint64_t *)8, 0);
    expect(ends_as("empty stores", &got, none, wanted), "empty stores");
    expect(nimbohaza_check((const uint8_t *)1, 0) == NIMBOHAZA_REFUSED_END, "empty file");
    free(file.at);
    call c = call_of(program("", PUSH), 1, none);
    replace(&c.stack, lend(0, 4));
    expect_run(&c, NIMBOHAZA_FULL_STORE, 1, "a push onto an empty stack store");
}

/* ---- stored files */

/* Whether the file is converted so, and then holds these bytes. */
static int converts(store file, nimbohaza_conversion wanted, store after)
{
    nimbohaza_conversion got = nimbohaza_convert(file.at, file.length);
    return got.refusal == wanted.refusal && got.records == wanted.records && same(file, after);
}

/* Records, and those that they become. */
typedef struct {
    const char *name, *before, *after;
    uint32_t records;
} stored;

static const stored stored_files[] = {
    {"a count of 0", HOST_MATH("00"), POINTER_ENTER("01"), 1},
    {"a count of 1", HOST_MATH("01"), POINTER_ENTER("01"), 1},
    {"a post", "16 01 0100 00000000", POINTER_ENTER("01"), 1},
    {"the first record", HOST_MATH("01") PUSH END, POINTER_ENTER("01") PUSH END, 1},
    {"the last record", PUSH END HOST_MATH("01"), PUSH END POINTER_ENTER("03"), 1},
    {"three records", HOST_MATH("00") HOST_MATH("01") PUSH HOST_MATH("00"),
     POINTER_ENTER("01") POINTER_ENTER("02") PUSH POINTER_ENTER("04"), 3},
    {"no such record", PUSH POINTER_ENTER("00") END, PUSH POINTER_ENTER("00") END, 0},
    {"no record", "", "", 0},
};

/* The converted file is accepted, and converting it again converts nothing. */
static void test_stored_files(void)
{
    for (size_t i = 0; i < sizeof stored_files / sizeof *stored_files; i++) {
        const stored *s = &stored_files[i];
        store file = program("", s->before), after = program("", s->after);
        expect(converts(file, (nimbohaza_conversion){0, s->records}, after), s->name);
        expect(nimbohaza_check(file.at, file.length) == NIMBOHAZA_ACCEPTED, s->name);
        expect(converts(file, (nimbohaza_conversion){0, 0}, after), s->name);
        free(file.at);
        free(after.at);
    }
}

static const refused_file refused_stored_files[] = {
    {NIMBOHAZA_REFUSED_ARGUMENTS, RECORD(HOST_MATH("02"))},
    {NIMBOHAZA_REFUSED_ARGUMENTS, RECORD(HOST_MATH("08"))},
    {NIMBOHAZA_REFUSED_ARGUMENTS, RECORD(HOST_MATH("FF"))},
    {NIMBOHAZA_REFUSED_ARGUMENTS, TABLES "05 1000" HOST_MATH("01") HOST_MATH("02")},
    {NIMBOHAZA_REFUSED_ARGUMENTS, TABLES "05 1000" HOST_MATH("02") OP("00", "00", "00")},
    {NIMBOHAZA_REFUSED_OPCODE, TABLES "05 1000" OP("00", "00", "00") HOST_MATH("02")},
    {NIMBOHAZA_REFUSED_PART, RECORD("16 02 0000 01000000")},
    {NIMBOHAZA_REFUSED_INDEX, RECORD("16 02 0100 00000000")},
};

/* A file that the converter sends back with this number, its bytes as they were. */
static void expect_unconverted(const refused_file *f)
{
    store file = from_hex(f->file), before = copied(file);
    char name[64];
    snprintf(name, sizeof name, "a stored file of %u bytes, number %u", (unsigned)file.length,
             (unsigned)f->number);
    expect(converts(file, (nimbohaza_conversion){f->number, 0}, before), name);
    free(file.at);
    free(before.at);
}

static void test_refused_stored_files(void)
{
    for (size_t i = 0; i < sizeof refused_files / sizeof *refused_files; i++)
        if (refused_files[i].number != NIMBOHAZA_REFUSED_WITHDRAWN)
            expect_unconverted(&refused_files[i]);
    for (size_t i = 0; i < sizeof refused_stored_files / sizeof *refused_stored_files; i++)
        expect_unconverted(&refused_stored_files[i]);
}

/* 3.0 is loaded, the record gives +0.0 without its post, and that is stored. */
static void test_run_of_a_converted_file(void)
{
    call c = call_of(program("00004040", CONST("00") "16 01 0100 00000000" STORE_VAR END), 1, none);
    nimbohaza_end wanted = {.charges = 4};
    expect(nimbohaza_convert(c.file.at, c.file.length).records == 1, "one is converted");
    nimbohaza_reply got = run(&c);
    expect(ends_as("a converted file", &got, none, wanted), "a converted file");
    expect(((uint8_t *)c.kinds.at)[0] == NIMBOHAZA_FLOAT && ((uint64_t *)c.values.at)[0] == 0,
           "the cell of a converted file");
    end_call(&c);
}

/* ---- two threads at once */

static void *many_runs(void *wrong)
{
    for (int i = 0; i < 600; i++)
        *(int *)wrong += !as_set_out(&runs[i % 12]);
    return NULL;
}

static void test_two_threads(void)
{
    pthread_t threads[2];
    int wrong[2] = {0, 0};
    for (int i = 0; i < 2; i++)
        if (pthread_create(&threads[i], NULL, many_runs, &wrong[i]) != 0)
            abort();
    for (int i = 0; i < 2; i++) {
        pthread_join(threads[i], NULL);
        expect(wrong[i] == 0, "600 runs in a thread beside another");
    }
}

int main(void)
{
    test_accepted_files();
    test_refused_files();
    test_refused_cells();
    test_refused_stores();
    test_refused_limits();
    test_runs_set_out();
    test_limited_runs();
    test_pairs_of_limits();
    test_days();
    test_working_stores();
    test_temps_and_notices();
    test_empty_pops();
    test_whole_numbers();
    test_other_outcomes();
    test_cells_meet_the_next_run();
    test_context_and_this();
    test_other_cells();
    test_empty_stores();
    test_stored_files();
    test_refused_stored_files();
    test_run_of_a_converted_file();
    test_two_threads();
    printf("%d passed, %d failed\n", passed, failed);
    return failed != 0;
}
