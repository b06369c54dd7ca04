/* Every exported call, at 512 sites, in either edition, and in edition 2 also with litres that edition 1 has and with a roll, on a stack of the bytes
 * that the header states: valid calls, calls that each row refuses, and calls on a damaged desk. Each runs on a thread whose stack is memory of this
 * program, with pages below it that cannot be touched; what the stack has above the stated bytes is passed over before the call, so that a call that
 * needs more faults, and is named. Prints the most that each call was seen to write: its own stack alone where the program is linked with -z now, so
 * that nothing is looked up within a call. */
#define _GNU_SOURCE
#include <alloca.h>
#include <pthread.h>
#include <signal.h>
#include <stdio.h>
#include <stdlib.h>
#include <string.h>
#include <sys/mman.h>
#include <unistd.h>

#include "sulgheti.h"

/* What the calls are given; the buffers stand at odd addresses, since no alignment is asked of them. */
static uint64_t rooms[8][800];
static uint8_t *const store = (uint8_t *)rooms[0] + 1, *const table = (uint8_t *)rooms[1] + 1, *const list = (uint8_t *)rooms[2] + 1;
static uint8_t *const plan = (uint8_t *)rooms[3] + 1, *const out = (uint8_t *)rooms[4] + 1, *const plan_out = (uint8_t *)rooms[5] + 1;
static uint8_t *const store2 = (uint8_t *)rooms[6] + 1, *const table2 = (uint8_t *)rooms[7] + 1;
static size_t store_len, table_len, out_len, plan_out_len, written_len, list_len, plan_len, site, store2_len = SULGHETI_STORE2_BYTES, table2_len;
static uint8_t first, second;
static uint32_t litres, mark;
static uint64_t x, y;
static int64_t d;

#define DESK store, store_len, table, table_len
static int64_t check(void) { return sulgheti_check(list, list_len, plan, plan_len); }
static int64_t make(void) { return sulgheti_make(list, list_len, out, out_len); }
#define BOTH list, list_len, plan, plan_len, out, out_len, plan_out, plan_out_len, &written_len
static int64_t upgrade_list(void) { return sulgheti_upgrade_list(list, list_len, out, out_len); }
static int64_t upgrade_plan(void) { return sulgheti_upgrade_plan(BOTH); }
static int64_t downgrade_list(void) { return sulgheti_downgrade_list(list, list_len, out, out_len); }
static int64_t downgrade_plan(void) { return sulgheti_downgrade_plan(BOTH); }
static int64_t fresh(void) { return sulgheti_fresh(store, store_len); }
static int64_t load(void) { return sulgheti_load(DESK, list, list_len); }
static int64_t change(void) { return sulgheti_change(DESK, site, (uint16_t)litres); }
static int64_t add(void) { return sulgheti_add(DESK, first, second, (uint16_t)litres); }
static int64_t fresh2(void) { return sulgheti_fresh2(store, store_len); }
static int64_t change2(void) { return sulgheti_change2(DESK, site, litres); }
static int64_t add2(void) { return sulgheti_add2(DESK, first, second, litres); }
static int64_t propose(void) { return sulgheti_propose(DESK, plan, plan_len); }
static int64_t share(void) { return sulgheti_share(DESK, site, &x, &y); }
static int64_t depot(void) { return sulgheti_depot(DESK, first, &x, &y); }
static int64_t difference(void) { return sulgheti_difference(DESK, first, second, &d, &y); }
static int64_t written(void) { return sulgheti_written(DESK, out, out_len); }
static int64_t at_least(void) { return sulgheti_at_least(DESK, mark, &x); }
static int64_t list_out(void) { return sulgheti_list(DESK, out, out_len); }
static int64_t migrate(void) { return sulgheti_migrate(DESK, store2, store2_len, table2, table2_len); }

/* Those that serve either edition, beside the two that convert from edition 1 and the two from edition 2; then the three of edition 1 and the three
 * of edition 2. Those of the editions stand in one order. Then the step from edition 1 to edition 2. */
enum { CHECK, MAKE, UPGRADE_LIST, UPGRADE_PLAN, DOWNGRADE_LIST, DOWNGRADE_PLAN, LOAD, PROPOSE, SHARE, DEPOT, DIFFERENCE, WRITTEN, AT_LEAST, LIST,
       FRESH, CHANGE, ADD, FRESH2, CHANGE2, ADD2, MIGRATE, CALLS };
enum { EACH = FRESH2 - FRESH, WAY = DOWNGRADE_LIST - UPGRADE_LIST };
static struct {
    const char *name;
    int64_t (*call)(void);
    size_t stated, seen[2];
} calls[CALLS] = {
    {"check", check, SULGHETI_STACK_CHECK, {0}}, {"make", make, SULGHETI_STACK_MAKE, {0}},
    {"upgrade_list", upgrade_list, SULGHETI_STACK_CONVERT, {0}}, {"upgrade_plan", upgrade_plan, SULGHETI_STACK_CONVERT, {0}},
    {"downgrade_list", downgrade_list, SULGHETI_STACK_CONVERT, {0}}, {"downgrade_plan", downgrade_plan, SULGHETI_STACK_CONVERT, {0}},
    {"load", load, SULGHETI_STACK_DESK, {0}},
    {"propose", propose, SULGHETI_STACK_DESK, {0}}, {"share", share, SULGHETI_STACK_QUESTION, {0}}, {"depot", depot, SULGHETI_STACK_QUESTION, {0}},
    {"difference", difference, SULGHETI_STACK_QUESTION, {0}}, {"written", written, SULGHETI_STACK_QUESTION, {0}},
    {"at_least", at_least, SULGHETI_STACK_QUESTION, {0}}, {"list", list_out, SULGHETI_STACK_QUESTION, {0}},
    {"fresh", fresh, SULGHETI_STACK_FRESH, {0}}, {"change", change, SULGHETI_STACK_DESK, {0}}, {"add", add, SULGHETI_STACK_DESK, {0}},
    {"fresh2", fresh2, SULGHETI_STACK_FRESH, {0}}, {"change2", change2, SULGHETI_STACK_DESK, {0}}, {"add2", add2, SULGHETI_STACK_DESK, {0}},
    {"migrate", migrate, SULGHETI_STACK_DESK, {0}},
};

/* The editions: marks of list, site, plan and share, bytes of litres and of s, sizes; the most litres, and litres of 64 figures that fall
 * by a step, eight times the first of which is a mark that can be asked for; the crews of each depot by a roll, or 0 for no roll. The last two are
 * edition 2 with litres that edition 1 has, so that its lists can be downgraded, and with a roll. */
static const struct edition {
    const char *list, *site, *plan, *share;
    unsigned litres, s;
    size_t store, place, plan_max;
    uint32_t most, top, step, spread;
    uint8_t crews;
} editions[4] = {
    {"LS", "ST", "PL", "SH", 2, 4, SULGHETI_STORE_BYTES, SULGHETI_PLACE_BYTES, SULGHETI_PLAN_MAX, 65535, 65535, 1000, 7919, 0},
    {"L2", "S2", "P2", "S3", 4, 8, SULGHETI_STORE2_BYTES, SULGHETI_PLACE2_BYTES, SULGHETI_PLAN2_MAX, 4294967295, 536870911, 8000000, 518998849, 0},
    {"L2", "S2", "P2", "S3", 4, 8, SULGHETI_STORE2_BYTES, SULGHETI_PLACE2_BYTES, SULGHETI_PLAN2_MAX, 65535, 65535, 1000, 7919, 0},
    {"L2", "S2", "P2", "S3", 4, 8, SULGHETI_STORE2_BYTES, SULGHETI_PLACE2_BYTES, SULGHETI_PLAN2_MAX, 4294967295, 536870911, 8000000, 518998849, 9},
};
/* Where the shares of a store begin. In edition 2 its roll stands behind them. */
enum { SHARES = 24 + 8 * 64 };
/* Whether the calls are in edition 2, and whether edition 1 has all litres of the list, and no roll is there. */
static int two, fits;
static const struct edition *e, *other;

/* Pages that cannot be touched, and above them a stack with room for a stated figure and for what a thread needs itself. */
enum { GUARD = 1 << 20, STACK = 1 << 18, PAINT = 0xA5 };
static uint8_t *bottom, signals[1 << 16];
static int now;
static int64_t answer;

static void faulted(int signal) {
    (void)signal;
    fprintf(stderr, "stack_t: sulgheti_%s needs more than the %zu bytes that the header states\n", calls[now].name, calls[now].stated);
    _exit(1);
}

static void *on_thread(void *unused) {
    stack_t other = {.ss_sp = signals, .ss_size = sizeof signals};
    if (sigaltstack(&other, 0) != 0) abort();
    const size_t stated = calls[now].stated;
    uint8_t *here = alloca(64);
    memset(bottom, PAINT, stated);
    uint8_t *passed = alloca((size_t)(here - bottom) - stated);
    __asm__ volatile("" : : "r"(here), "r"(passed) : "memory");
    answer = calls[now].call();
    return unused;
}

/* The call's answer, made on the stack that is stated for it. */
static int64_t run(int call) {
    pthread_attr_t attributes;
    pthread_t thread;
    now = call;
    if (pthread_attr_init(&attributes) != 0 || pthread_attr_setstack(&attributes, bottom, STACK) != 0) abort();
    if (pthread_create(&thread, &attributes, on_thread, 0) != 0 || pthread_join(thread, 0) != 0) abort();
    pthread_attr_destroy(&attributes);
    size_t kept = 0;
    while (kept < calls[call].stated && bottom[kept] == PAINT) kept++;
    if (calls[call].stated - kept > calls[call].seen[two]) calls[call].seen[two] = calls[call].stated - kept;
    return answer;
}

static void expect(int call, int64_t got, int64_t wanted, int line) {
    if (got == wanted) return;
    fprintf(stderr, "stack_t.c:%d: edition %d: sulgheti_%s answers %lld, not %lld\n", line, two + 1, calls[call].name, (long long)got, (long long)wanted);
    exit(1);
}
#define EXPECT(call, wanted) do { int64_t got = run(call); expect(call, got, wanted, __LINE__); } while (0)
/* The same of fresh, change or add in the store's edition, and in the other. */
#define EXPECT_OWN(call, wanted) EXPECT((call) + EACH * two, wanted)
#define EXPECT_OTHER(call, wanted) EXPECT((call) + EACH * (1 - two), wanted)
/* The same of a conversion, given as an upgrade, that takes the list's edition, and that takes the other. */
#define EXPECT_AWAY(call, wanted) EXPECT((call) + WAY * two, wanted)
#define EXPECT_BACK(call, wanted) EXPECT((call) + WAY * (1 - two), wanted)

/* Low byte first. */
static void put(uint8_t *to, uint64_t value, int width) {
    for (; width > 0; width--, value >>= 8) *to++ = (uint8_t)value;
}

/* n sites: own sites of one figure; own sites of 64 figures; a ring; pairs of every kind. */
enum { EQUAL, FALLING, RING, MIXED, LISTS };
static void write_list(int kind, unsigned n) {
    memcpy(list, e->list, 2);
    put(list + 2, n, 2);
    for (unsigned i = 0; i < n; i++) {
        uint8_t *at = list + 4 + (4 + e->litres) * i;
        memcpy(at, e->site, 2);
        at[2] = (uint8_t)(i % 64);
        at[3] = (uint8_t)(kind == RING ? (i + 1) % 64 : kind == MIXED ? (5 * i + 1 + i / 64) % 64 : i % 64);
        put(at + 4, kind == EQUAL ? e->most : kind == FALLING ? e->top - e->step * (i % 64) : kind == RING ? 10 : 1 + (uint64_t)i * e->spread % e->most, (int)e->litres);
    }
    list_len = 4 + (4 + e->litres) * n;
    fits = !e->crews && (kind == RING || e->most == editions[0].most);
    if (!e->crews) return;
    memcpy(list + list_len, "DR", 2);
    memset(list + list_len + 2, e->crews, 64);
    list_len += 66;
}

static void lists_refused(int row) {
    EXPECT(CHECK, -row);
    EXPECT(MAKE, -row);
    EXPECT(LOAD, -row);
    EXPECT_AWAY(UPGRADE_LIST, -row);
    EXPECT_AWAY(UPGRADE_PLAN, -row);
    EXPECT_BACK(UPGRADE_LIST, -1);
    EXPECT_BACK(UPGRADE_PLAN, -1);
}

static void plans_refused(int row) {
    EXPECT(CHECK, -row);
    EXPECT(PROPOSE, -row);
    EXPECT_AWAY(UPGRADE_PLAN, fits ? -row : -21);
    EXPECT_BACK(UPGRADE_PLAN, -1);
}

/* The byte has another value while the calls are refused by the row. */
static void damaged(uint8_t *byte, uint8_t value, void (*refused)(int), int row) {
    const uint8_t before = *byte;
    *byte = value;
    refused(row);
    *byte = before;
}

static void desk_refused(int code) {
    for (int call = PROPOSE; call < FRESH; call++) EXPECT(call, code);
    EXPECT_OWN(CHANGE, code);
    EXPECT_OWN(ADD, code);
    EXPECT(MIGRATE, two ? SULGHETI_NO_STORE : code);
}

/* Fresh, change and add of the other edition, whatever the store holds. */
static void others_refused(void) {
    for (int call = FRESH; call < FRESH2; call++) EXPECT_OTHER(call, SULGHETI_NO_STORE);
}

/* The questions that need a plan; the list is written out without one. */
static void questions_refused(int row) {
    for (int call = SHARE; call < LIST; call++) EXPECT(call, -row);
}

static void listed(void) {
    memset(out, 0, e->plan_max);
    EXPECT(LIST, (int64_t)list_len);
    if (memcmp(out, list, list_len) != 0) exit(5);
    out_len = list_len;
    EXPECT(LIST, (int64_t)list_len);
    out_len = list_len - 1;
    EXPECT(LIST, -20);
    out_len = 0;
    EXPECT(LIST, -20);
    out_len = e->plan_max;
}

/* The list, alone and with its plan, in the other edition, and back; into buffers of which either or both are a byte short. */
static void converted(void) {
    const size_t to_list = 4 + (4 + other->litres) * 512, to_plan = 5 + 10u * plan[2] + (2 + other->s) * 512;
    const size_t back_list = list_len, back_plan = plan_len;
    out_len = plan_out_len = SULGHETI_PLAN2_MAX;
    EXPECT_BACK(UPGRADE_LIST, -1);
    EXPECT_BACK(UPGRADE_PLAN, -1);
    written_len = 7;
    for (int less = 1; less < 4; less++) {
        out_len = to_list - (less & 1), plan_out_len = to_plan - (less >> 1);
        EXPECT_AWAY(UPGRADE_LIST, !fits ? -21 : less & 1 ? -20 : (int64_t)to_list);
        EXPECT_AWAY(UPGRADE_PLAN, fits ? -20 : -21);
        if (written_len != 7) exit(7);
    }
    out_len = to_list, plan_out_len = to_plan;
    EXPECT_AWAY(UPGRADE_LIST, fits ? (int64_t)to_list : -21);
    EXPECT_AWAY(UPGRADE_PLAN, fits ? (int64_t)to_list : -21);
    if (fits) {
        static uint8_t kept[2][SULGHETI_PLAN2_MAX];
        if (written_len != to_plan) exit(8);
        memcpy(kept[0], list, list_len);
        memcpy(kept[1], plan, plan_len);
        memcpy(list, out, list_len = to_list);
        memcpy(plan, plan_out, plan_len = to_plan);
        out_len = back_list, plan_out_len = back_plan;
        EXPECT(CHECK, 0);
        EXPECT_BACK(UPGRADE_LIST, (int64_t)back_list);
        EXPECT_BACK(UPGRADE_PLAN, (int64_t)back_list);
        if (written_len != back_plan || memcmp(out, kept[0], back_list) != 0 || memcmp(plan_out, kept[1], back_plan) != 0) exit(9);
        EXPECT_AWAY(UPGRADE_LIST, -1);
        memcpy(list, kept[0], list_len = back_list);
        memcpy(plan, kept[1], plan_len = back_plan);
    }
    out_len = e->plan_max, plan_out_len = SULGHETI_PLAN2_MAX;
}

/* From edition 1 the desk goes over, with the plan that it holds or without one, into 512 places; 511 are too few, and a new store has its length. */
static void goes_over(void) {
    table2_len = 512 * SULGHETI_PLACE2_BYTES;
    if (two) {
        EXPECT(MIGRATE, SULGHETI_NO_STORE);
        return;
    }
    memset(store2, 0x77, store2_len);
    table2_len -= 1;
    EXPECT(MIGRATE, -2);
    table2_len += 1, store2_len -= 1;
    EXPECT(MIGRATE, SULGHETI_NO_STORE);
    store2_len = SULGHETI_STORE_BYTES;
    EXPECT(MIGRATE, SULGHETI_NO_STORE);
    store2_len = SULGHETI_STORE2_BYTES;
    if (store2[0] != 0x77 || memcmp(store2, store2 + 1, store2_len - 1) != 0) exit(10);
    EXPECT(MIGRATE, 0);
    if (memcmp(store2, store, SHARES) != 0) exit(11);
    for (unsigned i = 0; i < 512; i++) {
        if (memcmp(store2 + SHARES + 8 * i, store + SHARES + 4 * i, 4) != 0 || memcmp(store2 + SHARES + 8 * i + 4, "\0\0\0", 4) != 0) exit(12);
        if (memcmp(table2 + SULGHETI_PLACE2_BYTES * i, table + SULGHETI_PLACE_BYTES * i, 4) != 0 || memcmp(table2 + SULGHETI_PLACE2_BYTES * i + 4, "\0", 2) != 0) exit(13);
    }
    for (unsigned i = SHARES + 8 * 512; i < store2_len; i++) if (store2[i] != 0) exit(14);
}

static void edition(const struct edition *of) {
    e = of, two = of != editions, other = &editions[1 - two];
    plan_out_len = SULGHETI_PLAN2_MAX;
    store_len = e->store, table_len = 512 * e->place, out_len = e->plan_max;
    const unsigned site_len = 4 + e->litres, share_len = 2 + e->s, crews = e->crews ? e->crews : 1, roll_len = e->crews ? 66 : 0;

    for (int kind = 0; kind < LISTS; kind++) {
        /* a list, its plan made, checked, held, asked for and written out */
        write_list(kind, 512);
        uint8_t *last = list + 4 + site_len * 511;
        EXPECT(MAKE, 5 + 10 * out[2] + share_len * 512);
        memcpy(plan, out, plan_len = (size_t)answer);
        EXPECT(CHECK, 0);
        converted();
        EXPECT_OWN(FRESH, 0);
        EXPECT(LIST, 4);
        EXPECT(LOAD, 0);
        questions_refused(17);
        listed();
        goes_over();
        EXPECT(PROPOSE, 0);
        goes_over();
        for (first = 0; first < 64; first++) {
            site = 8 * first + 7u;
            second = (uint8_t)(63 - first);
            EXPECT(SHARE, 0);
            EXPECT(DEPOT, 0);
            if (kind == EQUAL && (x != (uint64_t)512 * e->most || y != 64 * crews)) exit(3);
            EXPECT(DIFFERENCE, 0);
            /* where the figures fall, the mark is the depot's own W / q; where they are equal, it is not above that of all depots */
            mark = 8 * (e->top - e->step * first) / crews;
            EXPECT(AT_LEAST, 0);
            if (kind == EQUAL && x != ~(uint64_t)0) exit(3);
            if (kind == FALLING && x != ((uint64_t)2 << first) - 1) exit(3);
        }
        memset(out, 0, e->plan_max);
        EXPECT(WRITTEN, (int64_t)plan_len);
        if (memcmp(out, plan, plan_len) != 0) exit(4);
        listed();

        /* each row of the list; the other edition's head */
        damaged(list, 0, lists_refused, 1);
        damaged(list + 1, '3', lists_refused, 1);
        list[1] = (uint8_t)other->list[1];
        EXPECT(CHECK, -3);
        EXPECT(MAKE, -3);
        EXPECT(LOAD, -1);
        EXPECT_AWAY(UPGRADE_PLAN, -1);
        EXPECT_BACK(UPGRADE_PLAN, -3);
        list[1] = (uint8_t)e->list[1];
        damaged(list + 3, 3, lists_refused, 2);
        list_len--;
        lists_refused(3);
        list_len++;
        damaged(last, 0, lists_refused, 4);
        damaged(last + 3, 64, lists_refused, 5);
        uint8_t litres_before[4];
        memcpy(litres_before, last + 4, e->litres);
        memset(last + 4, 0, e->litres);
        lists_refused(6);
        memcpy(last + 4, litres_before, e->litres);
        if (roll_len != 0) {
            uint8_t *roll = last + site_len;
            damaged(roll + 1, 'S', lists_refused, 4);
            damaged(roll + 65, 10, lists_refused, 22);
            damaged(roll + 65, 0, lists_refused, 23);
        }

        /* each row of the plan that the list can have; the other edition's head */
        uint8_t *share_at = plan + plan_len - share_len;
        damaged(plan, 0, plans_refused, 7);
        damaged(plan + 1, (uint8_t)other->plan[1], plans_refused, 7);
        damaged(plan + 2, 65, plans_refused, 8);
        damaged(plan + 3, 1, plans_refused, 9);
        plan_len++;
        plans_refused(10);
        plan_len--;
        damaged(share_at, 0, plans_refused, 11);
        if (kind == FALLING) damaged(plan + 7, 0, plans_refused, 12);
        if (kind == EQUAL || kind == RING) damaged(plan + 7, 0xFE, plans_refused, 13);
        damaged(share_at + share_len - 1, 0xFF, plans_refused, 14);
        if (kind == RING) damaged(share_at + 2, share_at[2] == 0 ? 1 : (uint8_t)(share_at[2] - 1), plans_refused, 15);

        /* rows 2, 5, 6 and 18 to 20 */
        site = 512, first = 64, second = 0, litres = 1;
        EXPECT_OWN(CHANGE, -18);
        EXPECT_OWN(ADD, -2);
        EXPECT(SHARE, -18);
        EXPECT(DEPOT, -19);
        EXPECT(DIFFERENCE, -19);
        out_len = plan_len - 1;
        EXPECT(WRITTEN, -20);
        EXPECT(MAKE, -20);
        out_len = e->plan_max;
        site = 511, litres = 0;
        EXPECT_OWN(CHANGE, -6);

        /* row 0: the count of sites, the groups, a share, a site of the table; whether there is a roll, its crews */
        damaged(store + 1, 3, desk_refused, SULGHETI_CORRUPT);
        damaged(store + 16, 65, desk_refused, SULGHETI_CORRUPT);
        damaged(store + 24, (uint8_t)(store[24] ^ 1), desk_refused, SULGHETI_CORRUPT);
        damaged(store + SHARES + e->s * 512 - 1, 0xFF, desk_refused, SULGHETI_CORRUPT);
        damaged(table + e->place * 511, 64, desk_refused, SULGHETI_CORRUPT);
        if (two) damaged(store + SHARES + e->s * 512, 2, desk_refused, SULGHETI_CORRUPT);
        if (roll_len != 0) damaged(store + e->store - 1, 10, desk_refused, SULGHETI_CORRUPT);
        if (roll_len != 0) damaged(store + e->store - 1, 0, desk_refused, SULGHETI_CORRUPT);

        /* a store of no edition's length, and of the other's */
        others_refused();
        const size_t lengths[] = {0, 1, SULGHETI_STORE_BYTES - 1, SULGHETI_STORE_BYTES + 1, SULGHETI_STORE2_BYTES - 1, SULGHETI_STORE2_BYTES + 1};
        for (size_t i = 0; i < sizeof lengths / sizeof *lengths; i++) {
            store_len = lengths[i];
            for (int call = LOAD; call < CALLS; call++) EXPECT(call, SULGHETI_NO_STORE);
        }
        store_len = other->store;
        for (int call = FRESH; call < FRESH2; call++) EXPECT_OWN(call, SULGHETI_NO_STORE);
        store_len = e->store;

        /* a change, and a last site added */
        litres = e->most;
        EXPECT_OWN(CHANGE, 0);
        questions_refused(17);
        write_list(kind, 511);
        EXPECT(LOAD, 0);
        EXPECT_OWN(ADD, -5);
        first = 63, litres = 0;
        EXPECT_OWN(ADD, -6);
        litres = e->most;
        EXPECT_OWN(ADD, 0);
        EXPECT(LIST, 4 + site_len * 512 + roll_len);
        if (memcmp(out + 4, list + 4, last - list - 4) != 0) exit(6);
        const uint8_t *at = out + (last - list);
        uint8_t added[4];
        put(added, e->most, (int)e->litres);
        if (memcmp(at, e->site, 2) != 0 || memcmp(at + 2, "\77\0", 2) != 0 || memcmp(at + 4, added, e->litres) != 0) exit(6);
        /* the roll behind it, where there is one */
        if (memcmp(at + site_len, last, roll_len) != 0) exit(6);
    }

    /* row 16: depots 0 and the others in two groups, as heavy as each other */
    write_list(EQUAL, 512);
    EXPECT(LOAD, 0);
    memcpy(plan, e->plan, 2);
    memcpy(plan + 2, "\2\0\2GR", 5);
    put(plan + 7, 1, 8);
    memcpy(plan + 15, "GR", 2);
    put(plan + 17, ~(uint64_t)1, 8);
    for (unsigned i = 0; i < 512; i++) {
        memcpy(plan + 25 + share_len * i, e->share, 2);
        put(plan + 27 + share_len * i, (uint64_t)e->most * (i % 64 == 0 ? 1 : 63) * crews, (int)e->s);
    }
    plan_len = 25 + share_len * 512;
    plans_refused(16);
}

int main(void) {
    uint8_t *memory = mmap(0, GUARD + STACK, PROT_READ | PROT_WRITE, MAP_PRIVATE | MAP_ANONYMOUS, -1, 0);
    if (memory == MAP_FAILED || mprotect(memory, GUARD, PROT_NONE) != 0) return 2;
    bottom = memory + GUARD;
    struct sigaction action = {.sa_handler = faulted, .sa_flags = SA_ONSTACK};
    if (sigaction(SIGSEGV, &action, 0) != 0) return 2;

    for (int of = 0; of < 4; of++) edition(&editions[of]);

    printf("stack_t: bytes of stack written in edition 1 and in edition 2, of those stated:");
    for (int call = 0; call < CALLS; call++) printf(" %s %zu and %zu of %zu%c", calls[call].name, calls[call].seen[0], calls[call].seen[1], calls[call].stated, call + 1 < CALLS ? ',' : '\n');
    /* the room that the header promises above what is written */
    for (int call = 0; call < CALLS; call++) for (int of = 0; of < 2; of++) {
        const size_t room = call == CHECK || call == MAKE || call == UPGRADE_PLAN || call == DOWNGRADE_PLAN ? 3600 : 8000;
        if (calls[call].stated - calls[call].seen[of] >= room) continue;
        fprintf(stderr, "stack_t: edition %d: sulgheti_%s leaves less than %zu of the %zu bytes that the header states\n", of + 1, calls[call].name, room, calls[call].stated);
        return 3;
    }
    return 0;
}
