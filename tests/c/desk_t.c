/* A desk with T: its list is written out, its plan is held, its figures are answered, and an added site drops it; the list goes into another desk and out again.
 * And a desk of edition 2 with a site of 70,000 litres, beside one of edition 1. And a desk of edition 1 that goes over to edition 2 with its plan.
 * And a desk with a roll: crews count, a depot with crews and no site is answered, and it is kept and written out with the list. */
#include <string.h>

#include "sulgheti.h"

static int edition1(void) {
    const uint8_t list[] = {0x4C, 0x53, 1, 0, 0x53, 0x54, 0, 1, 10, 0};
    const uint8_t plan[] = {0x50, 0x4C, 1, 1, 0, 0x47, 0x52, 3, 0, 0, 0, 0, 0, 0, 0, 0x53, 0x48, 10, 0, 0, 0};
    uint8_t store[SULGHETI_STORE_BYTES], table[8 * SULGHETI_PLACE_BYTES], out[SULGHETI_PLAN_MAX];
    uint64_t x = 0, y = 0, set = 99;
    int64_t d = 1;
    memset(table, 0xA5, sizeof table);
    memset(out, 0xA5, sizeof out);
    if (sulgheti_fresh(store, sizeof store) != 0) return 1;
    if (sulgheti_fresh(store, sizeof store - 1) != SULGHETI_NO_STORE) return 2;
    if (sulgheti_list(store, sizeof store, table, sizeof table, out, 3) != -20 || out[0] != 0xA5) return 3;
    if (sulgheti_list(store, sizeof store, table, sizeof table, out, 4) != 4 || memcmp(out, "LS\0\0\xA5", 5) != 0) return 4;
    if (sulgheti_load(store, sizeof store, table, sizeof table, list, sizeof list) != 0) return 5;
    if (memcmp(table, "\x00\x01\x0A\x00\xA5", 5) != 0) return 6;
    if (sulgheti_depot(store, sizeof store, table, sizeof table, 0, &x, &y) != -17) return 7;
    if (sulgheti_at_least(store, sizeof store, table, sizeof table, 0, &set) != -17 || set != 99) return 8;
    if (sulgheti_list(store, sizeof store, table, sizeof table, out, sizeof list - 1) != -20 || memcmp(out, "LS\0\0\xA5", 5) != 0) return 9;
    if (sulgheti_list(store, sizeof store, table, sizeof table, out, sizeof out) != (int64_t)sizeof list) return 10;
    if (memcmp(out, list, sizeof list) != 0 || out[sizeof list] != 0xA5) return 11;
    if (sulgheti_propose(store, sizeof store, table, sizeof table, plan, sizeof plan) != 0) return 12;
    if (sulgheti_depot(store, sizeof store, table, sizeof table, 0, &x, &y) != 0 || x != 10 || y != 2) return 13;
    if (sulgheti_share(store, sizeof store, table, sizeof table, 0, &x, &y) != 0 || x != 10 || y != 20) return 14;
    if (sulgheti_difference(store, sizeof store, table, sizeof table, 0, 1, &d, &y) != 0 || d != 0 || y != 4) return 15;
    if (sulgheti_at_least(store, sizeof store, table, sizeof table, 5, &set) != 0 || set != 3) return 16;
    if (sulgheti_at_least(store, sizeof store, table, sizeof table, 6, &set) != 0 || set != 0) return 17;
    if (sulgheti_written(store, sizeof store, table, sizeof table, out, sizeof plan - 1) != -20) return 18;
    if (sulgheti_written(store, sizeof store, table, sizeof table, out, sizeof out) != (int64_t)sizeof plan) return 19;
    if (memcmp(out, plan, sizeof plan) != 0) return 20;
    if (sulgheti_list(store, sizeof store, table, sizeof table, out, sizeof list) != (int64_t)sizeof list) return 21;
    if (memcmp(out, list, sizeof list) != 0 || memcmp(out + sizeof list, plan + sizeof list, sizeof plan - sizeof list) != 0) return 22;
    if (sulgheti_list(store, sizeof store - 1, table, sizeof table, out, sizeof out) != SULGHETI_NO_STORE || memcmp(out, list, sizeof list) != 0) return 23;
    if (sulgheti_add(store, sizeof store, table, sizeof table, 1, 2, 1) != 0) return 24;
    if (sulgheti_change(store, sizeof store, table, sizeof table, 1, 0) != -6) return 25;
    if (sulgheti_depot(store, sizeof store, table, sizeof table, 0, &x, &y) != -17) return 26;
    if (sulgheti_at_least(store, sizeof store, table, sizeof table, 5, &set) != -17 || set != 0) return 27;
    /* the list of two sites, into another desk and out again */
    const uint8_t both[] = {0x4C, 0x53, 2, 0, 0x53, 0x54, 0, 1, 10, 0, 0x53, 0x54, 1, 2, 1, 0};
    uint8_t other[SULGHETI_STORE_BYTES], places[2 * SULGHETI_PLACE_BYTES], again[sizeof both + 1];
    memset(again, 0xA5, sizeof again);
    if (sulgheti_list(store, sizeof store, table, sizeof table, out, sizeof out) != (int64_t)sizeof both) return 28;
    if (memcmp(out, both, sizeof both) != 0 || sulgheti_fresh(other, sizeof other) != 0) return 29;
    if (sulgheti_load(other, sizeof other, places, sizeof places, out, sizeof both) != 0) return 30;
    if (sulgheti_list(other, sizeof other, places, sizeof places, again, sizeof again) != (int64_t)sizeof both) return 31;
    if (memcmp(again, both, sizeof both) != 0 || again[sizeof both] != 0xA5) return 32;
    table[0] = 64;
    if (sulgheti_list(store, sizeof store, table, sizeof table, out, 0) != SULGHETI_CORRUPT) return 33;
    if (sulgheti_list(store, sizeof store, table, sizeof table, out, sizeof out) != SULGHETI_CORRUPT || memcmp(out, both, sizeof both) != 0) return 34;
    if (sulgheti_at_least(store, sizeof store, table, sizeof table, 5, &set) != SULGHETI_CORRUPT || set != 0) return 35;
    return sulgheti_depot(store, sizeof store, table, sizeof table, 0, &x, &y) == SULGHETI_CORRUPT ? 0 : 36;
}

static int edition2(void) {
    const uint8_t list1[] = {0x4C, 0x53, 1, 0, 0x53, 0x54, 0, 1, 10, 0};
    const uint8_t plan1[] = {0x50, 0x4C, 1, 1, 0, 0x47, 0x52, 3, 0, 0, 0, 0, 0, 0, 0, 0x53, 0x48, 10, 0, 0, 0};
    const uint8_t list[] = {0x4C, 0x32, 1, 0, 0x53, 0x32, 0, 1, 0x70, 0x11, 1, 0};
    const uint8_t plan[] = {0x50, 0x32, 1, 1, 0, 0x47, 0x52, 3, 0, 0, 0, 0, 0, 0, 0, 0x53, 0x33, 0x70, 0x11, 1, 0, 0, 0, 0, 0};
    uint8_t store[SULGHETI_STORE2_BYTES], table[8 * SULGHETI_PLACE2_BYTES], out[SULGHETI_PLAN2_MAX], kept[SULGHETI_STORE2_BYTES];
    uint64_t x = 0, y = 0, set = 99;
    int64_t d = 1;
    memset(store, 0x77, sizeof store);
    memset(table, 0xA5, sizeof table);
    memset(out, 0xA5, sizeof out);
    /* a store of the other edition is no store of fresh, change, add or their "2" forms */
    if (sulgheti_fresh(store, sizeof store) != SULGHETI_NO_STORE || store[0] != 0x77 || memcmp(store, store + 1, sizeof store - 1) != 0) return 1;
    if (sulgheti_fresh2(store, SULGHETI_STORE_BYTES) != SULGHETI_NO_STORE || memcmp(store, store + 1, sizeof store - 1) != 0) return 2;
    if (sulgheti_fresh2(store, sizeof store - 1) != SULGHETI_NO_STORE || sulgheti_fresh2(store, sizeof store) != 0) return 3;
    if (sulgheti_list(store, sizeof store, table, sizeof table, out, 4) != 4 || memcmp(out, "L2\0\0\xA5", 5) != 0) return 4;
    /* its own edition's lists and plans only */
    if (sulgheti_load(store, sizeof store, table, sizeof table, list1, sizeof list1) != -1) return 5;
    if (sulgheti_load(store, sizeof store, table, sizeof table, list, sizeof list) != 0 || memcmp(table, "\x00\x01\x70\x11\x01\x00\xA5", 7) != 0) return 6;
    if (sulgheti_propose(store, sizeof store, table, sizeof table, plan1, sizeof plan1) != -7) return 7;
    if (sulgheti_make(list, sizeof list, out, sizeof out) != (int64_t)sizeof plan || memcmp(out, plan, sizeof plan) != 0) return 8;
    if (sulgheti_propose(store, sizeof store, table, sizeof table, out, sizeof plan) != 0) return 9;
    if (sulgheti_depot(store, sizeof store, table, sizeof table, 0, &x, &y) != 0 || x != 70000 || y != 2) return 10;
    if (sulgheti_share(store, sizeof store, table, sizeof table, 0, &x, &y) != 0 || x != 70000 || y != 140000) return 11;
    if (sulgheti_difference(store, sizeof store, table, sizeof table, 0, 1, &d, &y) != 0 || d != 0 || y != 4) return 12;
    if (sulgheti_at_least(store, sizeof store, table, sizeof table, 35000, &set) != 0 || set != 3) return 13;
    if (sulgheti_at_least(store, sizeof store, table, sizeof table, 35001, &set) != 0 || set != 0) return 14;
    memset(out, 0xA5, sizeof out);
    if (sulgheti_written(store, sizeof store, table, sizeof table, out, sizeof plan - 1) != -20 || out[0] != 0xA5) return 15;
    if (sulgheti_written(store, sizeof store, table, sizeof table, out, sizeof out) != (int64_t)sizeof plan) return 16;
    if (memcmp(out, plan, sizeof plan) != 0 || out[sizeof plan] != 0xA5) return 17;
    memcpy(kept, store, sizeof store);
    if (sulgheti_change(store, sizeof store, table, sizeof table, 0, 11) != SULGHETI_NO_STORE) return 18;
    if (sulgheti_add(store, sizeof store, table, sizeof table, 1, 2, 1) != SULGHETI_NO_STORE) return 19;
    if (sulgheti_change2(store, sizeof store, table, sizeof table, 0, 0) != -6 || sulgheti_change2(store, sizeof store, table, sizeof table, 1, 1) != -18) return 20;
    if (sulgheti_add2(store, sizeof store, table, sizeof table, 64, 2, 1) != -5 || memcmp(kept, store, sizeof store) != 0) return 21;
    if (sulgheti_change2(store, sizeof store, table, sizeof table, 0, 4294967295) != 0) return 22;
    if (sulgheti_add2(store, sizeof store, table, sizeof table, 1, 2, 65536) != 0) return 23;
    if (sulgheti_depot(store, sizeof store, table, sizeof table, 0, &x, &y) != -17) return 24;
    /* the list of two sites, into another desk of edition 2 and out again; a desk of edition 1 does not take it, nor change2 and add2 that desk */
    const uint8_t both[] = {0x4C, 0x32, 2, 0, 0x53, 0x32, 0, 1, 255, 255, 255, 255, 0x53, 0x32, 1, 2, 0, 0, 1, 0};
    uint8_t other[SULGHETI_STORE2_BYTES], places[2 * SULGHETI_PLACE2_BYTES], again[sizeof both + 1], old[SULGHETI_STORE_BYTES];
    memset(again, 0xA5, sizeof again);
    if (sulgheti_list(store, sizeof store, table, sizeof table, out, sizeof out) != (int64_t)sizeof both) return 25;
    if (memcmp(out, both, sizeof both) != 0 || sulgheti_fresh2(other, sizeof other) != 0 || sulgheti_fresh(old, sizeof old) != 0) return 26;
    if (sulgheti_load(other, sizeof other, places, sizeof places, out, sizeof both) != 0) return 27;
    if (sulgheti_list(other, sizeof other, places, sizeof places, again, sizeof again) != (int64_t)sizeof both) return 28;
    if (memcmp(again, both, sizeof both) != 0 || again[sizeof both] != 0xA5) return 29;
    if (sulgheti_load(old, sizeof old, places, sizeof places, both, sizeof both) != -1) return 30;
    if (sulgheti_add2(old, sizeof old, places, sizeof places, 0, 1, 10) != SULGHETI_NO_STORE) return 31;
    if (sulgheti_load(old, sizeof old, places, sizeof places, list1, sizeof list1) != 0) return 32;
    if (sulgheti_change2(old, sizeof old, places, sizeof places, 0, 10) != SULGHETI_NO_STORE) return 33;
    if (sulgheti_propose(old, sizeof old, places, sizeof places, plan, sizeof plan) != -7) return 34;
    if (sulgheti_propose(old, sizeof old, places, sizeof places, plan1, sizeof plan1) != 0) return 35;
    table[0] = 64;
    if (sulgheti_list(store, sizeof store, table, sizeof table, out, sizeof out) != SULGHETI_CORRUPT || memcmp(out, both, sizeof both) != 0) return 36;
    return sulgheti_depot(store, sizeof store, table, sizeof table, 0, &x, &y) == SULGHETI_CORRUPT ? 0 : 37;
}

static int goes_over(void) {
    const uint8_t list[] = {0x4C, 0x53, 1, 0, 0x53, 0x54, 0, 1, 10, 0};
    const uint8_t plan[] = {0x50, 0x4C, 1, 1, 0, 0x47, 0x52, 3, 0, 0, 0, 0, 0, 0, 0, 0x53, 0x48, 10, 0, 0, 0};
    const uint8_t list2[] = {0x4C, 0x32, 1, 0, 0x53, 0x32, 0, 1, 10, 0, 0, 0};
    const uint8_t plan2[] = {0x50, 0x32, 1, 1, 0, 0x47, 0x52, 3, 0, 0, 0, 0, 0, 0, 0, 0x53, 0x33, 10, 0, 0, 0, 0, 0, 0, 0};
    uint8_t old[SULGHETI_STORE_BYTES], places[4 * SULGHETI_PLACE_BYTES], kept[SULGHETI_STORE_BYTES], kept_places[sizeof places];
    uint8_t store[SULGHETI_STORE2_BYTES], table[2 * SULGHETI_PLACE2_BYTES + 1], out[SULGHETI_PLAN2_MAX];
    uint64_t x = 0, y = 0, set = 99;
    int64_t d = 1;
    memset(places, 0xA5, sizeof places);
    if (sulgheti_fresh(old, sizeof old) != 0 || sulgheti_load(old, sizeof old, places, sizeof places, list, sizeof list) != 0) return 1;
    if (sulgheti_propose(old, sizeof old, places, sizeof places, plan, sizeof plan) != 0) return 2;
    memcpy(kept, old, sizeof old);
    memcpy(kept_places, places, sizeof places);
    memset(store, 0x77, sizeof store);
    memset(table, 0x78, sizeof table);
    /* too few places; a store of another length, or of the other edition */
    if (sulgheti_migrate(old, sizeof old, places, sizeof places, store, sizeof store, table, 0) != -2) return 3;
    if (sulgheti_migrate(old, sizeof old, places, sizeof places, store, sizeof store, table, SULGHETI_PLACE2_BYTES - 1) != -2) return 4;
    if (sulgheti_migrate(old, sizeof old - 1, places, sizeof places, store, sizeof store, table, sizeof table) != SULGHETI_NO_STORE) return 5;
    if (sulgheti_migrate(old, sizeof old, places, sizeof places, store, sizeof store - 1, table, sizeof table) != SULGHETI_NO_STORE) return 6;
    if (sulgheti_migrate(old, sizeof old, places, sizeof places, store, SULGHETI_STORE_BYTES, table, sizeof table) != SULGHETI_NO_STORE) return 7;
    if (store[0] != 0x77 || memcmp(store, store + 1, sizeof store - 1) != 0 || table[0] != 0x78 || memcmp(table, table + 1, sizeof table - 1) != 0) return 8;
    /* the step: the site in front of the table, the other place and the byte behind it as they were */
    if (sulgheti_migrate(old, sizeof old, places, sizeof places, store, sizeof store, table, sizeof table) != 0) return 9;
    if (memcmp(table, "\x00\x01\x0A\x00\x00\x00\x78\x78\x78\x78\x78\x78\x78", sizeof table) != 0) return 10;
    if (memcmp(kept, old, sizeof old) != 0 || memcmp(kept_places, places, sizeof places) != 0) return 11;
    if (sulgheti_depot(store, sizeof store, table, sizeof table, 0, &x, &y) != 0 || x != 10 || y != 2) return 12;
    if (sulgheti_share(store, sizeof store, table, sizeof table, 0, &x, &y) != 0 || x != 10 || y != 20) return 13;
    if (sulgheti_difference(store, sizeof store, table, sizeof table, 0, 1, &d, &y) != 0 || d != 0 || y != 4) return 14;
    if (sulgheti_at_least(store, sizeof store, table, sizeof table, 5, &set) != 0 || set != 3) return 15;
    memset(out, 0xA5, sizeof out);
    if (sulgheti_written(store, sizeof store, table, sizeof table, out, sizeof plan2 - 1) != -20 || out[0] != 0xA5) return 16;
    if (sulgheti_written(store, sizeof store, table, sizeof table, out, sizeof plan2) != (int64_t)sizeof plan2 || memcmp(out, plan2, sizeof plan2) != 0) return 17;
    if (sulgheti_list(store, sizeof store, table, sizeof table, out, sizeof list2 - 1) != -20 || memcmp(out, plan2, sizeof plan2) != 0) return 18;
    if (sulgheti_list(store, sizeof store, table, sizeof table, out, sizeof list2) != (int64_t)sizeof list2 || memcmp(out, list2, sizeof list2) != 0) return 19;
    /* from there on edition 2; it does not go over again */
    uint8_t again[SULGHETI_STORE2_BYTES];
    if (sulgheti_migrate(store, sizeof store, table, sizeof table, again, sizeof again, out, sizeof out) != SULGHETI_NO_STORE) return 20;
    if (sulgheti_load(store, sizeof store, table, sizeof table, list, sizeof list) != -1) return 21;
    if (sulgheti_propose(store, sizeof store, table, sizeof table, plan, sizeof plan) != -7) return 22;
    if (sulgheti_add(store, sizeof store, table, sizeof table, 1, 2, 1) != SULGHETI_NO_STORE) return 23;
    if (sulgheti_propose(store, sizeof store, table, sizeof table, plan2, sizeof plan2) != 0) return 24;
    if (sulgheti_add2(store, sizeof store, table, sizeof table, 1, 2, 70000) != 0 || sulgheti_add2(store, sizeof store, table, sizeof table, 1, 2, 1) != -2) return 25;
    if (sulgheti_depot(store, sizeof store, table, sizeof table, 0, &x, &y) != -17 || table[sizeof table - 1] != 0x78) return 26;
    /* the old desk goes on as it was, and may go over once more, without a plan; then it is corrupt, whatever the places */
    if (sulgheti_share(old, sizeof old, places, sizeof places, 0, &x, &y) != 0 || x != 10 || y != 20) return 27;
    if (sulgheti_change(old, sizeof old, places, sizeof places, 0, 11) != 0) return 28;
    if (sulgheti_migrate(old, sizeof old, places, sizeof places, store, sizeof store, table, SULGHETI_PLACE2_BYTES) != 0) return 29;
    if (store[0] != 1 || store[1] != 0 || memcmp(store + 1, store + 2, sizeof store - 2) != 0) return 30;
    if (memcmp(table, "\x00\x01\x0B\x00\x00\x00\x01\x02\x70\x11\x01\x00\x78", sizeof table) != 0) return 31;
    if (sulgheti_depot(store, sizeof store, table, SULGHETI_PLACE2_BYTES, 0, &x, &y) != -17) return 32;
    memcpy(again, store, sizeof store);
    places[0] = 64;
    if (sulgheti_migrate(old, sizeof old, places, sizeof places, store, sizeof store, table, sizeof table) != SULGHETI_CORRUPT) return 33;
    if (sulgheti_migrate(old, sizeof old, places, sizeof places, store, sizeof store, table, 0) != SULGHETI_CORRUPT) return 34;
    return memcmp(again, store, sizeof store) == 0 && table[2] == 11 ? 0 : 35;
}

/* A roll: three crews at depot 0, one at depot 1, nine at depot 5, which no site names: it is the last group. */
static int crews(void) {
    uint8_t list[12 + 66] = {0x4C, 0x32, 1, 0, 0x53, 0x32, 0, 1, 12, 0, 0, 0, 0x44, 0x52, 3, 1, 0, 0, 0, 9};
    const uint8_t plan[] = {0x50, 0x32, 2, 1, 0, 0x47, 0x52, 3, 0, 0, 0, 0, 0, 0, 0, 0x47, 0x52, 32, 0, 0, 0, 0, 0, 0, 0, 0x53, 0x33, 36, 0, 0, 0, 0, 0, 0, 0};
    /* without it */
    const uint8_t fewer[] = {0x50, 0x32, 1, 1, 0, 0x47, 0x52, 3, 0, 0, 0, 0, 0, 0, 0, 0x53, 0x33, 36, 0, 0, 0, 0, 0, 0, 0};
    uint8_t store[SULGHETI_STORE2_BYTES], table[3 * SULGHETI_PLACE2_BYTES], out[SULGHETI_LIST2_MAX];
    uint64_t x = 0, y = 0, set = 99;
    int64_t d = 1;
    /* the plan that is made, into so many bytes; one byte fewer is too few */
    if (sulgheti_make(list, sizeof list, out, sizeof plan) != (int64_t)sizeof plan || memcmp(out, plan, sizeof plan) != 0) return 1;
    if (sulgheti_make(list, sizeof list, out, sizeof plan - 1) != -20 || sulgheti_check(list, sizeof list, plan, sizeof plan) != 0) return 2;
    if (sulgheti_fresh2(store, sizeof store) != 0 || sulgheti_load(store, sizeof store, table, sizeof table, list, sizeof list) != 0) return 3;
    if (sulgheti_propose(store, sizeof store, table, sizeof table, fewer, sizeof fewer) != -13 || sulgheti_check(list, sizeof list, fewer, sizeof fewer) != -13) return 27;
    if (sulgheti_propose(store, sizeof store, table, sizeof table, plan, sizeof plan) != 0) return 4;
    if (sulgheti_depot(store, sizeof store, table, sizeof table, 0, &x, &y) != 0 || x != 12 || y != 4) return 5;
    if (sulgheti_share(store, sizeof store, table, sizeof table, 0, &x, &y) != 0 || x != 36 || y != 48) return 6;
    if (sulgheti_difference(store, sizeof store, table, sizeof table, 0, 1, &d, &y) != 0 || d != 0 || y != 16) return 7;
    if (sulgheti_at_least(store, sizeof store, table, sizeof table, 3, &set) != 0 || set != 3) return 8;
    if (sulgheti_at_least(store, sizeof store, table, sizeof table, 4, &set) != 0 || set != 0) return 9;
    if (sulgheti_depot(store, sizeof store, table, sizeof table, 5, &x, &y) != 0 || x != 0 || y != 9) return 10;
    if (sulgheti_depot(store, sizeof store, table, sizeof table, 6, &x, &y) != -19) return 28;
    if (sulgheti_difference(store, sizeof store, table, sizeof table, 5, 0, &d, &y) != 0 || d != -108 || y != 36) return 29;
    if (sulgheti_at_least(store, sizeof store, table, sizeof table, 0, &set) != 0 || set != 35) return 30;
    /* a depot without crews; the plan is still held */
    if (sulgheti_add2(store, sizeof store, table, sizeof table, 0, 2, 1) != -23 || sulgheti_add2(store, sizeof store, table, sizeof table, 2, 2, 0) != -6) return 11;
    if (sulgheti_depot(store, sizeof store, table, sizeof table, 1, &x, &y) != 0 || x != 12 || y != 4) return 12;
    /* the list written out has its roll; the sites alone are too few bytes */
    memset(out, 0xA5, sizeof out);
    if (sulgheti_list(store, sizeof store, table, sizeof table, out, 12) != -20 || out[0] != 0xA5) return 13;
    if (sulgheti_list(store, sizeof store, table, sizeof table, out, sizeof out) != (int64_t)sizeof list) return 14;
    if (memcmp(out, list, sizeof list) != 0 || out[sizeof list] != 0xA5) return 15;
    /* a change and an added site keep it */
    if (sulgheti_change2(store, sizeof store, table, sizeof table, 0, 13) != 0 || sulgheti_add2(store, sizeof store, table, sizeof table, 5, 0, 90) != 0) return 16;
    if (sulgheti_list(store, sizeof store, table, sizeof table, out, sizeof out) != (int64_t)sizeof list + 8) return 17;
    if (memcmp(out + 4, "S2\0\1\15\0\0\0S2\5\0\132\0\0\0", 16) != 0 || memcmp(out + 20, list + 12, 66) != 0) return 18;
    /* rolls that are refused leave all as it was */
    list[14] = 10;
    if (sulgheti_load(store, sizeof store, table, sizeof table, list, sizeof list) != -22) return 19;
    list[14] = 0;
    if (sulgheti_load(store, sizeof store, table, sizeof table, list, sizeof list) != -23 || sulgheti_check(list, sizeof list, plan, sizeof plan) != -23) return 20;
    if (sulgheti_list(store, sizeof store, table, sizeof table, out, 0) != -20 || store[SULGHETI_STORE2_BYTES - 64] != 3) return 21;
    /* a list without one: the desk has none */
    if (sulgheti_load(store, sizeof store, table, sizeof table, list, 12) != 0 || sulgheti_add2(store, sizeof store, table, sizeof table, 0, 2, 1) != 0) return 22;
    if (sulgheti_list(store, sizeof store, table, sizeof table, out, sizeof out) != 20) return 23;
    /* held bytes that say 2, or that have 10 crews, are no roll */
    store[SULGHETI_STORE2_BYTES - 72] = 2;
    if (sulgheti_list(store, sizeof store, table, sizeof table, out, sizeof out) != SULGHETI_CORRUPT) return 24;
    store[SULGHETI_STORE2_BYTES - 72] = 1;
    memset(store + SULGHETI_STORE2_BYTES - 64, 1, 64);
    if (sulgheti_list(store, sizeof store, table, sizeof table, out, sizeof out) != 20 + 66) return 25;
    store[SULGHETI_STORE2_BYTES - 1] = 10;
    return sulgheti_list(store, sizeof store, table, sizeof table, out, sizeof out) == SULGHETI_CORRUPT ? 0 : 26;
}

int main(void) {
    const int failed = edition1();
    if (failed != 0) return failed;
    const int failed2 = edition2();
    if (failed2 != 0) return 100 + failed2;
    const int stayed = goes_over();
    if (stayed != 0) return 200 + stayed;
    const int uncrewed = crews();
    return uncrewed == 0 ? 0 : 150 + uncrewed;
}
