/* Checks T's plan against T, in either edition, and one with a share too many, which row 15 refuses; row 7 refuses the other edition's plan,
 * row 1 a list of neither edition. */
#include "sulgheti.h"

int main(void) {
    uint8_t list[] = {0x4C, 0x53, 1, 0, 0x53, 0x54, 0, 1, 10, 0};
    uint8_t plan[] = {0x50, 0x4C, 1, 1, 0, 0x47, 0x52, 3, 0, 0, 0, 0, 0, 0, 0, 0x53, 0x48, 10, 0, 0, 0};
    uint8_t list2[] = {0x4C, 0x32, 1, 0, 0x53, 0x32, 0, 1, 10, 0, 0, 0};
    uint8_t plan2[] = {0x50, 0x32, 1, 1, 0, 0x47, 0x52, 3, 0, 0, 0, 0, 0, 0, 0, 0x53, 0x33, 10, 0, 0, 0, 0, 0, 0, 0};
    if (sulgheti_check(list, sizeof list, plan, sizeof plan) != 0) return 1;
    if (sulgheti_check(list2, sizeof list2, plan2, sizeof plan2) != 0) return 2;
    if (sulgheti_check(list, sizeof list, plan2, sizeof plan2) != -7) return 3;
    if (sulgheti_check(list2, sizeof list2, plan, sizeof plan) != -7) return 4;
    plan[17] = plan2[17] = 11;
    if (sulgheti_check(list, sizeof list, plan, sizeof plan) != -15) return 5;
    if (sulgheti_check(list2, sizeof list2, plan2, sizeof plan2) != -15) return 6;
    list[1] = list2[1] = 0x33;
    if (sulgheti_check(list, sizeof list, plan, sizeof plan) != -1) return 7;
    return sulgheti_check(list2, sizeof list2, plan2, sizeof plan2) == -1 ? 0 : 8;
}
