/* T and its plan go from edition 1 to edition 2 and back, with what each way refuses; and a desk of edition 1, by the files of its list and its plan, into one of edition 2 and back. */
#include <string.h>

#include "sulgheti.h"

static const uint8_t list1[] = {0x4C, 0x53, 1, 0, 0x53, 0x54, 0, 1, 10, 0};
static const uint8_t plan1[] = {0x50, 0x4C, 1, 1, 0, 0x47, 0x52, 3, 0, 0, 0, 0, 0, 0, 0, 0x53, 0x48, 10, 0, 0, 0};
static const uint8_t list2[] = {0x4C, 0x32, 1, 0, 0x53, 0x32, 0, 1, 10, 0, 0, 0};
static const uint8_t plan2[] = {0x50, 0x32, 1, 1, 0, 0x47, 0x52, 3, 0, 0, 0, 0, 0, 0, 0, 0x53, 0x33, 10, 0, 0, 0, 0, 0, 0, 0};

static uint8_t list[SULGHETI_LIST2_MAX], plan[SULGHETI_PLAN2_MAX];
static size_t length;

static void clear(void) {
    memset(list, 0xA5, sizeof list);
    memset(plan, 0xA5, sizeof plan);
    length = 99;
}

/* Whether the last call, which was refused, wrote nothing. */
static int kept(void) {
    for (size_t i = 0; i < sizeof list; i++) if (list[i] != 0xA5) return 0;
    for (size_t i = 0; i < sizeof plan; i++) if (plan[i] != 0xA5) return 0;
    return length == 99;
}

static int t(void) {
    clear();
    if (sulgheti_upgrade_list(list1, sizeof list1, list, sizeof list2) != (int64_t)sizeof list2) return 1;
    if (memcmp(list, list2, sizeof list2) != 0 || list[sizeof list2] != 0xA5) return 2;
    clear();
    if (sulgheti_downgrade_list(list2, sizeof list2, list, sizeof list) != (int64_t)sizeof list1) return 3;
    if (memcmp(list, list1, sizeof list1) != 0 || list[sizeof list1] != 0xA5) return 4;
    clear();
    if (sulgheti_upgrade_plan(list1, sizeof list1, plan1, sizeof plan1, list, sizeof list, plan, sizeof plan, &length) != (int64_t)sizeof list2) return 5;
    if (length != sizeof plan2 || memcmp(list, list2, sizeof list2) != 0 || memcmp(plan, plan2, sizeof plan2) != 0) return 6;
    if (list[sizeof list2] != 0xA5 || plan[sizeof plan2] != 0xA5) return 7;
    if (sulgheti_check(list, sizeof list2, plan, length) != 0) return 8;
    clear();
    if (sulgheti_downgrade_plan(list2, sizeof list2, plan2, sizeof plan2, list, sizeof list1, plan, sizeof plan1, &length) != (int64_t)sizeof list1) return 9;
    if (length != sizeof plan1 || memcmp(list, list1, sizeof list1) != 0 || memcmp(plan, plan1, sizeof plan1) != 0) return 10;
    if (list[sizeof list1] != 0xA5 || plan[sizeof plan1] != 0xA5) return 11;

    /* each way takes one edition only; the list is read first, then the plan; a buffer that is too short comes last */
    clear();
    if (sulgheti_upgrade_list(list2, sizeof list2, list, sizeof list) != -1 || sulgheti_downgrade_list(list1, sizeof list1, list, sizeof list) != -1) return 12;
    if (sulgheti_upgrade_plan(list2, sizeof list2, plan2, sizeof plan2, list, sizeof list, plan, sizeof plan, &length) != -1) return 13;
    if (sulgheti_downgrade_plan(list1, sizeof list1, plan1, sizeof plan1, list, sizeof list, plan, sizeof plan, &length) != -1) return 14;
    if (sulgheti_upgrade_plan(list1, sizeof list1, plan2, sizeof plan2, list, 0, plan, 0, &length) != -7) return 15;
    if (sulgheti_downgrade_plan(list2, sizeof list2, plan1, sizeof plan1, list, 0, plan, 0, &length) != -7) return 16;
    if (sulgheti_upgrade_list(list1, sizeof list1, list, sizeof list2 - 1) != -20 || sulgheti_downgrade_list(list2, sizeof list2, list, sizeof list1 - 1) != -20) return 17;
    if (sulgheti_upgrade_plan(list1, sizeof list1, plan1, sizeof plan1, list, sizeof list2 - 1, plan, sizeof plan2, &length) != -20) return 18;
    if (sulgheti_upgrade_plan(list1, sizeof list1, plan1, sizeof plan1, list, sizeof list2, plan, sizeof plan2 - 1, &length) != -20) return 19;
    if (sulgheti_downgrade_plan(list2, sizeof list2, plan2, sizeof plan2, list, sizeof list1 - 1, plan, sizeof plan1, &length) != -20) return 20;
    if (sulgheti_downgrade_plan(list2, sizeof list2, plan2, sizeof plan2, list, sizeof list1, plan, sizeof plan1 - 1, &length) != -20) return 21;
    /* 65,546 litres, of which edition 1 would have 10: before the plan, which is of the other edition, is read */
    uint8_t big[sizeof list2];
    memcpy(big, list2, sizeof list2);
    big[10] = 1;
    if (sulgheti_downgrade_list(big, sizeof big, list, sizeof list) != -21) return 22;
    if (sulgheti_downgrade_plan(big, sizeof big, plan1, sizeof plan1, list, 0, plan, 0, &length) != -21) return 23;
    big[2] = 2;
    if (sulgheti_downgrade_list(big, sizeof big, list, sizeof list) != -3) return 24;
    /* a roll of ones, which edition 1 does not have; a depot without crews comes before that. Nor does upgrade take one behind a list of edition 1 */
    uint8_t rolled[sizeof list2 + 66] = {0};
    memcpy(rolled, list2, sizeof list2);
    memcpy(rolled + sizeof list2, "DR\1\1", 4);
    if (sulgheti_check(rolled, sizeof rolled, plan2, sizeof plan2) != 0 || sulgheti_downgrade_list(rolled, sizeof rolled, list, sizeof list) != -21) return 25;
    if (sulgheti_downgrade_plan(rolled, sizeof rolled, plan1, sizeof plan1, list, 0, plan, 0, &length) != -21) return 26;
    rolled[sizeof list2 + 3] = 0;
    if (sulgheti_downgrade_list(rolled, sizeof rolled, list, sizeof list) != -23) return 27;
    memcpy(rolled, list1, sizeof list1);
    if (sulgheti_upgrade_list(rolled, sizeof list1 + 66, list, sizeof list) != -3) return 28;
    return kept() ? 0 : 29;
}

/* Whether both desks, of edition 1 and of edition 2, have the same s and w x q of both sites. */
static int same_shares(const uint8_t *old, const uint8_t *old_table, const uint8_t *next, const uint8_t *table) {
    for (size_t site = 0; site < 2; site++) {
        uint64_t share = 0, whole = 0, share2 = 1, whole2 = 1;
        if (sulgheti_share(old, SULGHETI_STORE_BYTES, old_table, 2 * SULGHETI_PLACE_BYTES, site, &share, &whole) != 0) return 0;
        if (sulgheti_share(next, SULGHETI_STORE2_BYTES, table, 2 * SULGHETI_PLACE2_BYTES, site, &share2, &whole2) != 0) return 0;
        if (share != share2 || whole != whole2) return 0;
    }
    return 1;
}

static int desks(void) {
    uint8_t old[SULGHETI_STORE_BYTES], old_table[2 * SULGHETI_PLACE_BYTES], next[SULGHETI_STORE2_BYTES], table[2 * SULGHETI_PLACE2_BYTES];
    uint8_t old_list[SULGHETI_LIST_MAX], old_plan[SULGHETI_PLAN_MAX], again[SULGHETI_PLAN_MAX];
    clear();
    /* 9 litres between depots 0 and 1, 65,535 between 1 and 2 */
    if (sulgheti_fresh(old, sizeof old) != 0 || sulgheti_fresh2(next, sizeof next) != 0) return 1;
    if (sulgheti_add(old, sizeof old, old_table, sizeof old_table, 0, 1, 9) != 0 || sulgheti_add(old, sizeof old, old_table, sizeof old_table, 1, 2, 65535) != 0) return 2;
    const int64_t n = sulgheti_list(old, sizeof old, old_table, sizeof old_table, old_list, sizeof old_list);
    if (n != 16) return 3;
    const int64_t made = sulgheti_make(old_list, 16, again, sizeof again);
    if (made < 0 || sulgheti_propose(old, sizeof old, old_table, sizeof old_table, again, (size_t)made) != 0) return 4;
    const int64_t m = sulgheti_written(old, sizeof old, old_table, sizeof old_table, old_plan, sizeof old_plan);
    if (m != made) return 5;
    const int64_t n2 = sulgheti_upgrade_plan(old_list, 16, old_plan, (size_t)m, list, sizeof list, plan, sizeof plan, &length);
    if (n2 != 20 || length != (size_t)m + 8) return 6;
    if (sulgheti_load(next, sizeof next, table, sizeof table, list, (size_t)n2) != 0) return 7;
    if (sulgheti_propose(next, sizeof next, table, sizeof table, plan, length) != 0) return 8;
    if (!same_shares(old, old_table, next, table)) return 9;
    /* what the new desk holds goes back, as long as the litres fit, and the old one takes it again */
    uint8_t back[16];
    clear();
    if (sulgheti_list(next, sizeof next, table, sizeof table, list, sizeof list) != n2) return 10;
    const int64_t m2 = sulgheti_written(next, sizeof next, table, sizeof table, plan, sizeof plan);
    if (m2 != m + 8) return 11;
    if (sulgheti_downgrade_plan(list, (size_t)n2, plan, (size_t)m2, back, sizeof back, again, sizeof again, &length) != 16) return 12;
    if (length != (size_t)m || memcmp(back, old_list, 16) != 0 || memcmp(again, old_plan, length) != 0) return 13;
    if (sulgheti_fresh(old, sizeof old) != 0 || sulgheti_load(old, sizeof old, old_table, sizeof old_table, back, 16) != 0) return 14;
    if (sulgheti_propose(old, sizeof old, old_table, sizeof old_table, again, length) != 0) return 15;
    if (!same_shares(old, old_table, next, table)) return 16;
    if (sulgheti_change2(next, sizeof next, table, sizeof table, 1, 65536) != 0) return 17;
    if (sulgheti_list(next, sizeof next, table, sizeof table, list, sizeof list) != 20) return 18;
    return sulgheti_downgrade_list(list, 20, old_list, sizeof old_list) == -21 ? 0 : 19;
}

int main(void) {
    const int failed = t();
    if (failed != 0) return failed;
    const int failed2 = desks();
    return failed2 == 0 ? 0 : 100 + failed2;
}
