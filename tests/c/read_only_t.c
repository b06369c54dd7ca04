/* A desk of each edition in memory that cannot be written: questions and refused calls are answered and the list is written out, with and without
 * a plan held, for they write neither store nor table. And in memory that cannot be read either, a store of another length: every call is refused,
 * and by fresh, change and add a store of the other edition. Then a desk of edition 1 in memory that cannot be written: it goes over to edition 2, and
 * where that is refused nothing is written. Then a list and a plan in memory that cannot be written: they are converted, and where
 * that is refused nothing is written; where the list is refused the plan is not read. */
#define _DEFAULT_SOURCE
#include <string.h>
#include <sys/mman.h>

#include "sulgheti.h"

/* The functions of an edition: 0 for edition 1, 1 for edition 2. */
static int64_t fresh(int of, uint8_t *store, size_t n) {
    return of ? sulgheti_fresh2(store, n) : sulgheti_fresh(store, n);
}
static int64_t change(int of, uint8_t *store, size_t n, uint8_t *table, size_t m, size_t site, uint16_t litres) {
    return of ? sulgheti_change2(store, n, table, m, site, litres) : sulgheti_change(store, n, table, m, site, litres);
}
static int64_t add(int of, uint8_t *store, size_t n, uint8_t *table, size_t m, uint8_t first, uint8_t second, uint16_t litres) {
    return of ? sulgheti_add2(store, n, table, m, first, second, litres) : sulgheti_add(store, n, table, m, first, second, litres);
}

/* T and its plan in each edition, the bytes of a store and of a place. */
static const struct {
    uint8_t list[12];
    size_t list_len;
    uint8_t plan[25];
    size_t plan_len, store, place;
} editions[2] = {
    {{0x4C, 0x53, 1, 0, 0x53, 0x54, 0, 1, 10, 0}, 10, {0x50, 0x4C, 1, 1, 0, 0x47, 0x52, 3, 0, 0, 0, 0, 0, 0, 0, 0x53, 0x48, 10}, 21, SULGHETI_STORE_BYTES, SULGHETI_PLACE_BYTES},
    {{0x4C, 0x32, 1, 0, 0x53, 0x32, 0, 1, 10, 0}, 12, {0x50, 0x32, 1, 1, 0, 0x47, 0x52, 3, 0, 0, 0, 0, 0, 0, 0, 0x53, 0x33, 10}, 25, SULGHETI_STORE2_BYTES, SULGHETI_PLACE2_BYTES},
};

/* 0, or which answer of edition `of` is another. */
static int edition(int of) {
    const uint8_t *list = editions[of].list;
    const size_t list_len = editions[of].list_len, plan_len = editions[of].plan_len;
    uint8_t plan[25], out[25];
    memcpy(plan, editions[of].plan, plan_len);
    enum { PART = 8192, PARTS = 4 * PART };
    uint8_t *parts = mmap(0, PARTS, PROT_READ | PROT_WRITE, MAP_PRIVATE | MAP_ANONYMOUS, -1, 0);
    uint64_t x = 0, y = 0, set = 99;
    int64_t d = 1;
    if (parts == MAP_FAILED) return 1;
    /* as they are lent to be written, and to be read */
    uint8_t *own = parts, *places = parts + PART;
    const uint8_t *store = own, *table = places;
    const size_t n = editions[of].store, m = 2 * editions[of].place;
    if (fresh(of, own, n) != 0 || sulgheti_load(own, n, places, m, list, list_len) != 0) return 2;
    if (mprotect(places, PART, PROT_READ) != 0 || sulgheti_propose(own, n, table, m, plan, plan_len) != 0) return 3;
    if (mprotect(parts, PARTS, PROT_READ) != 0) return 4;
    if (sulgheti_depot(store, n, table, m, 0, &x, &y) != 0 || x != 10 || y != 2) return 5;
    if (sulgheti_share(store, n, table, m, 0, &x, &y) != 0 || x != 10 || y != 20) return 6;
    if (sulgheti_difference(store, n, table, m, 0, 1, &d, &y) != 0 || d != 0 || y != 4) return 7;
    if (sulgheti_written(store, n, table, m, out, sizeof out) != (int64_t)plan_len || memcmp(out, plan, plan_len) != 0) return 8;
    if (sulgheti_at_least(store, n, table, m, 6, &set) != 0 || set != 0 || sulgheti_at_least(store, n, table, m, 5, &set) != 0 || set != 3) return 9;
    memset(out, 0xA5, sizeof out);
    if (sulgheti_list(store, n, table, m, out, list_len) != (int64_t)list_len || memcmp(out, list, list_len) != 0 || out[list_len] != 0xA5) return 10;
    if (sulgheti_list(store, n, table, m, out, sizeof out) != (int64_t)list_len || memcmp(out, list, list_len) != 0 || out[list_len] != 0xA5) return 11;
    if (sulgheti_share(store, n, table, m, 1, &x, &y) != -18 || sulgheti_depot(store, n, table, m, 2, &x, &y) != -19) return 12;
    if (sulgheti_difference(store, n, table, m, 0, 2, &d, &y) != -19) return 13;
    memset(out, 0xA5, sizeof out);
    if (sulgheti_written(store, n, table, m, out, plan_len - 1) != -20 || out[0] != 0xA5 || memcmp(out, out + 1, sizeof out - 1) != 0) return 14;
    if (sulgheti_list(store, n, table, m, out, list_len - 1) != -20 || out[0] != 0xA5 || memcmp(out, out + 1, sizeof out - 1) != 0) return 15;
    /* a buffer that cannot be written: nothing of it is, where the call is refused */
    if (sulgheti_list(store, n, table, m, parts + 3 * PART, list_len - 1) != -20 || sulgheti_written(store, n, table, m, parts + 3 * PART, plan_len - 1) != -20) return 16;
    if (change(of, own, n, places, m, 1, 5) != -18 || change(of, own, n, places, m, 0, 0) != -6) return 17;
    if (add(of, own, n, places, m, 0, 64, 5) != -5 || add(of, own, n, places, m, 0, 1, 0) != -6) return 18;
    if (add(of, own, n, places, editions[of].place, 0, 1, 5) != -2) return 19;
    if (sulgheti_load(own, n, places, m, list, 3) != -1 || sulgheti_load(own, n, places, 0, list, list_len) != -2) return 20;
    if (sulgheti_propose(own, n, table, m, plan, 4) != -7) return 21;
    plan[17] = 11;
    if (sulgheti_propose(own, n, table, m, plan, plan_len) != -15) return 22;
    /* row 0: a table of no place, and of fewer bytes than a place has, which are none either */
    for (size_t k = 0; k < editions[of].place; k += editions[of].place - 1) {
        if (sulgheti_depot(store, n, table, k, 0, &x, &y) != SULGHETI_CORRUPT || sulgheti_share(store, n, table, k, 0, &x, &y) != SULGHETI_CORRUPT) return 23;
        if (sulgheti_difference(store, n, table, k, 0, 1, &d, &y) != SULGHETI_CORRUPT) return 23;
        if (sulgheti_at_least(store, n, table, k, 0, &set) != SULGHETI_CORRUPT || set != 3) return 23;
        if (sulgheti_written(store, n, table, k, out, sizeof out) != SULGHETI_CORRUPT || out[0] != 0xA5) return 23;
        if (sulgheti_list(store, n, table, k, out, sizeof out) != SULGHETI_CORRUPT || out[0] != 0xA5) return 23;
        if (sulgheti_list(store, n, table, k, parts + 3 * PART, 0) != SULGHETI_CORRUPT) return 23;
        if (change(of, own, n, places, k, 0, 5) != SULGHETI_CORRUPT || add(of, own, n, places, k, 0, 1, 5) != SULGHETI_CORRUPT) return 23;
        if (sulgheti_propose(own, n, table, k, plan, plan_len) != SULGHETI_CORRUPT) return 23;
    }

    if (mprotect(parts, PARTS, PROT_READ | PROT_WRITE) != 0 || change(of, own, n, places, m, 0, 10) != 0) return 24;
    if (mprotect(parts, PARTS, PROT_READ) != 0) return 25;
    if (sulgheti_depot(store, n, table, m, 0, &x, &y) != -17 || sulgheti_share(store, n, table, m, 0, &x, &y) != -17) return 26;
    if (sulgheti_difference(store, n, table, m, 0, 1, &d, &y) != -17) return 27;
    if (sulgheti_at_least(store, n, table, m, 0, &set) != -17 || set != 3) return 28;
    if (sulgheti_written(store, n, table, m, out, sizeof out) != -17 || out[0] != 0xA5) return 29;
    /* the list needs no plan */
    if (sulgheti_list(store, n, table, m, out, list_len - 1) != -20 || out[0] != 0xA5 || memcmp(out, out + 1, sizeof out - 1) != 0) return 30;
    if (sulgheti_list(store, n, table, m, out, list_len) != (int64_t)list_len || memcmp(out, list, list_len) != 0 || out[list_len] != 0xA5) return 31;

    /* all that is lent but the figures: store, table, a list or a plan, a buffer */
    if (mprotect(parts, PARTS, PROT_NONE) != 0) return 32;
    const uint8_t *given = parts + 2 * PART;
    uint8_t *buffer = parts + 3 * PART;
    const size_t lengths[] = {0, 1, SULGHETI_STORE_BYTES - 1, SULGHETI_STORE_BYTES + 1, SULGHETI_STORE2_BYTES - 1, SULGHETI_STORE2_BYTES + 1, PART};
    x = 5, y = 6, d = 7;
    for (size_t i = 0; i < sizeof lengths / sizeof *lengths; i++) {
        const size_t k = lengths[i];
        if (fresh(0, own, k) != SULGHETI_NO_STORE || fresh(1, own, k) != SULGHETI_NO_STORE) return 33;
        if (sulgheti_load(own, k, places, m, given, list_len) != SULGHETI_NO_STORE) return 34;
        if (change(0, own, k, places, m, 0, 10) != SULGHETI_NO_STORE || change(1, own, k, places, m, 0, 10) != SULGHETI_NO_STORE) return 35;
        if (add(0, own, k, places, m, 0, 1, 5) != SULGHETI_NO_STORE || add(1, own, k, places, m, 0, 1, 5) != SULGHETI_NO_STORE) return 36;
        if (sulgheti_propose(own, k, table, m, given, plan_len) != SULGHETI_NO_STORE) return 37;
        if (sulgheti_share(store, k, table, m, 0, &x, &y) != SULGHETI_NO_STORE) return 38;
        if (sulgheti_depot(store, k, table, m, 0, &x, &y) != SULGHETI_NO_STORE) return 39;
        if (sulgheti_difference(store, k, table, m, 0, 1, &d, &y) != SULGHETI_NO_STORE) return 40;
        if (sulgheti_written(store, k, table, m, buffer, PART) != SULGHETI_NO_STORE) return 41;
        if (sulgheti_at_least(store, k, table, m, 0, &set) != SULGHETI_NO_STORE) return 42;
        if (sulgheti_list(store, k, table, m, buffer, PART) != SULGHETI_NO_STORE || sulgheti_list(store, k, table, m, buffer, 0) != SULGHETI_NO_STORE) return 43;
        if (x != 5 || y != 6 || d != 7 || set != 3) return 44;
    }
    /* the other edition's functions on this store */
    if (fresh(!of, own, n) != SULGHETI_NO_STORE || change(!of, own, n, places, m, 0, 10) != SULGHETI_NO_STORE) return 45;
    return add(!of, own, n, places, m, 0, 1, 5) == SULGHETI_NO_STORE ? 0 : 46;
}

/* The function that takes lists of edition `of`, for a list alone and with its plan. */
static int64_t convert_list(int of, const uint8_t *list, size_t n, uint8_t *out, size_t room) {
    return of ? sulgheti_downgrade_list(list, n, out, room) : sulgheti_upgrade_list(list, n, out, room);
}
static int64_t convert(int of, const uint8_t *list, size_t n, const uint8_t *plan, size_t m, uint8_t *list_out, size_t list_room, uint8_t *plan_out, size_t plan_room, size_t *length) {
    return of ? sulgheti_downgrade_plan(list, n, plan, m, list_out, list_room, plan_out, plan_room, length)
              : sulgheti_upgrade_plan(list, n, plan, m, list_out, list_room, plan_out, plan_room, length);
}

/* 0, or which answer of the way from edition `of` is another. */
static int conversions(int of) {
    enum { PART = 4096, PARTS = 5 * PART };
    uint8_t *parts = mmap(0, PARTS, PROT_READ | PROT_WRITE, MAP_PRIVATE | MAP_ANONYMOUS, -1, 0);
    if (parts == MAP_FAILED) return 1;
    uint8_t *list = parts, *plan = parts + PART, *list_out = parts + 2 * PART, *plan_out = parts + 3 * PART;
    size_t *length = (size_t *)(void *)(parts + 4 * PART);
    const size_t n = editions[of].list_len, m = editions[of].plan_len, to_n = editions[!of].list_len, to_m = editions[!of].plan_len;
    memcpy(list, editions[of].list, n);
    memcpy(plan, editions[of].plan, m);
    *length = 7;
    /* list and plan are only read */
    if (mprotect(list, 2 * PART, PROT_READ) != 0) return 2;
    if (convert_list(of, list, n, list_out, to_n) != (int64_t)to_n || memcmp(list_out, editions[!of].list, to_n) != 0) return 3;
    memset(list_out, 0, to_n);
    if (convert(of, list, n, plan, m, list_out, to_n, plan_out, to_m, length) != (int64_t)to_n || *length != to_m) return 4;
    if (memcmp(list_out, editions[!of].list, to_n) != 0 || memcmp(plan_out, editions[!of].plan, to_m) != 0) return 5;
    /* refused: nothing is written; the list's buffer short, the plan's, both; a row of the list, of the plan */
    if (mprotect(parts, PARTS, PROT_READ) != 0) return 6;
    if (convert_list(of, list, n, list_out, to_n - 1) != -20 || convert_list(of, list, n, list_out, 0) != -20) return 7;
    if (convert(of, list, n, plan, m, list_out, to_n - 1, plan_out, to_m, length) != -20) return 8;
    if (convert(of, list, n, plan, m, list_out, to_n, plan_out, to_m - 1, length) != -20) return 9;
    if (convert(of, list, n, plan, m, list_out, 0, plan_out, 0, length) != -20) return 10;
    if (convert(of, list, n, plan, m - 1, list_out, PART, plan_out, PART, length) != -10) return 11;
    if (convert(of, list, n, plan_out, to_m, list_out, PART, plan, PART, length) != -7) return 12;
    if (convert_list(of, list, n - 1, list_out, PART) != -3 || convert_list(!of, list, n, list_out, PART) != -1) return 13;
    if (*length != to_m) return 14;
    /* a list that is refused: plan, buffers and length are not even read */
    if (mprotect(plan, PARTS - PART, PROT_NONE) != 0) return 15;
    if (convert(of, list, n - 1, plan, m, list_out, PART, plan_out, PART, length) != -3) return 16;
    if (convert(!of, list, n, plan, m, list_out, PART, plan_out, PART, length) != -1) return 17;
    if (mprotect(list, PART, PROT_READ | PROT_WRITE) != 0) return 18;
    list[9] = 1;
    if (of) list[10] = 1;
    if (mprotect(list, PART, PROT_READ) != 0) return 19;
    /* 266 litres in edition 1; 65,802 in edition 2 */
    if (of && convert_list(of, list, n, list_out, PART) != -21) return 20;
    if (of && convert(of, list, n, plan, m, list_out, PART, plan_out, PART, length) != -21) return 21;
    return convert_list(of, list, n, list_out, to_n - 1) == (of ? -21 : -20) ? 0 : 22;
}

/* 0, or which answer of a step to edition 2 is another. */
static int goes_over(void) {
    enum { PART = 8192, PARTS = 4 * PART };
    uint8_t *parts = mmap(0, PARTS, PROT_READ | PROT_WRITE, MAP_PRIVATE | MAP_ANONYMOUS, -1, 0);
    if (parts == MAP_FAILED) return 1;
    uint8_t *store = parts, *table = parts + PART, *store2 = parts + 2 * PART, *table2 = parts + 3 * PART;
    const size_t n = SULGHETI_STORE_BYTES, m = 2 * SULGHETI_PLACE_BYTES, k = SULGHETI_STORE2_BYTES, l = SULGHETI_PLACE2_BYTES;
    uint64_t x = 0, y = 0;
    if (sulgheti_fresh(store, n) != 0 || sulgheti_load(store, n, table, m, editions[0].list, editions[0].list_len) != 0) return 2;
    /* the old desk is only read, without a plan and with one */
    if (mprotect(parts, 2 * PART, PROT_READ) != 0 || sulgheti_migrate(store, n, table, m, store2, k, table2, l) != 0) return 3;
    if (sulgheti_share(store2, k, table2, l, 0, &x, &y) != -17) return 4;
    if (mprotect(store, PART, PROT_READ | PROT_WRITE) != 0 || sulgheti_propose(store, n, table, m, editions[0].plan, editions[0].plan_len) != 0) return 5;
    if (mprotect(store, PART, PROT_READ) != 0 || sulgheti_migrate(store, n, table, m, store2, k, table2, l) != 0) return 6;
    if (sulgheti_share(store2, k, table2, l, 0, &x, &y) != 0 || x != 10 || y != 20) return 7;
    /* refused: nothing is written; too few places, a table of no place, the two together */
    if (mprotect(parts, PARTS, PROT_READ) != 0) return 8;
    if (sulgheti_migrate(store, n, table, m, store2, k, table2, l - 1) != -2 || sulgheti_migrate(store, n, table, m, store2, k, table2, 0) != -2) return 9;
    if (sulgheti_migrate(store, n, table, 0, store2, k, table2, l) != SULGHETI_CORRUPT || sulgheti_migrate(store, n, table, 3, store2, k, table2, 0) != SULGHETI_CORRUPT) return 10;
    /* an old store that is none of edition 1, a new one that is none of edition 2: nothing is even read */
    if (mprotect(parts, PARTS, PROT_NONE) != 0) return 11;
    const size_t lengths[] = {0, 1, n - 1, n + 1, k - 1, k + 1, PART};
    for (size_t i = 0; i < sizeof lengths / sizeof *lengths; i++) {
        if (sulgheti_migrate(store, lengths[i], table, m, store2, k, table2, l) != SULGHETI_NO_STORE) return 12;
        if (sulgheti_migrate(store, n, table, m, store2, lengths[i], table2, l) != SULGHETI_NO_STORE) return 13;
    }
    if (sulgheti_migrate(store, k, table, m, store2, k, table2, l) != SULGHETI_NO_STORE) return 14;
    if (sulgheti_migrate(store, k, table, m, store2, n, table2, l) != SULGHETI_NO_STORE) return 15;
    return sulgheti_migrate(store, n, table, m, store2, n, table2, l) == SULGHETI_NO_STORE ? 0 : 16;
}

int main(void) {
    const int stayed = goes_over();
    if (stayed != 0) return 200 + stayed;
    for (int of = 0; of < 2; of++) {
        const int failed = edition(of);
        if (failed != 0) return 100 * of + failed;
        const int unconverted = conversions(of);
        if (unconverted != 0) return 100 * of + 50 + unconverted;
    }
    return 0;
}
