/* Sulgheti: fair-load plans for two-depot supply. The proved engine as static libraries for x86-64 Linux
 * (System V calling convention): Check, Make and the converter in libengine.a, the desk in libdesk.a.
 *
 * Every pointer must be valid for its length and must not be NULL, also where the length is 0. Buffers of
 * bytes may stand anywhere: no alignment is asked of them. What a function writes must not overlap
 * anything else that it is given. The functions keep nothing between calls and allocate nothing; they call
 * memcpy and memset and no other function. They may be called from several threads at once. On one desk only
 * questions (share, depot, difference, written, at_least), list and migrate may: a load, a change or an added site that
 * succeeds writes store and table, a proposal that succeeds the store; migrate writes a new store and table and reads
 * the old ones. What a function takes as const it has no right to write: the proved function has it as a slice that is
 * only read (&[u8]). A refused call leaves every byte as it was; tests/c/read_only_t.c asks questions, has the list
 * written out, a desk go over to edition 2, lists and plans converted and calls refused on pages that cannot be
 * written.
 *
 * A function that writes a list or a plan (make, written, list, upgrade_list, downgrade_list) writes it to the front of
 * the buffer, answers the length that it wrote, and leaves the bytes behind it as they were. One that writes both, each
 * into a buffer of its own (upgrade_plan, downgrade_plan), answers the list's length.
 *
 * A refusal is the negated number of the first row that applies (README.md, "What a refusal means"), and
 * SULGHETI_CORRUPT for row 0. SULGHETI_NO_STORE is no row: the store's length is that of no store that the call
 * serves.
 *
 * Records. Numbers are unsigned, low byte first; bytes of the marks are hexadecimal, widths in brackets. Lists and
 * plans are of edition 1 or 2, which differ in marks and widths, and in the roll that a list of edition 2 may end in:
 *                                                                                     edition 1    edition 2
 *   List: mark, number of sites (2);                                                  4C 53        4C 32
 *         then for each site: mark, first depot (1), second depot (1), litres         53 54, (2)   53 32, (4)
 *         then a roll, or nothing: mark, crews of each depot, 0 to 63 (1 each)        none         44 52
 *   Plan: mark, number of groups (1), number of sites (2);                            50 4C        50 32
 *         then for each group, heaviest first: mark, its set (8), in which            47 52        47 52
 *         bit n, worth 2 to the n, stands for depot n;
 *         then for each site, in the list's order: mark, s                            53 48, (4)   53 33, (8)
 * Depots are 0 to 63, sites at most 512 and counted from 0; litres 1 to 65,535 in edition 1 and 1 to 4,294,967,295
 * in edition 2. A site with one depot twice is an own site. A list that does not begin 4C 32 is read as one of
 * edition 1, whose row 1 refuses it where it does not begin 4C 53. A roll has 0 to 9 crews for a depot, and 1 or more
 * for each depot that a site names; without a roll every depot has one crew. A depot is listed if a site names it or
 * the roll has crews for it. The listed depots that no site names are together the last group of a plan, with W 0. A
 * roll with 1 for each depot that a site names and 0 for every other says the same as none.
 *
 * Which calls serve which edition. Check and Make take a list of either edition; a plan passes only with a list of
 * its own edition, and row 7 refuses the other; Make writes in the list's edition. Upgrade takes edition 1 and writes
 * edition 2, downgrade takes edition 2 and writes edition 1: row 1 or row 7 refuses the other. A store is of edition 1
 * or 2 too, told by its length, and takes lists and plans of its own edition only: row 1 or row 7 refuses the other.
 * All calls of the desk but fresh, change, add and migrate have one function for either edition. Fresh, change and add
 * serve edition 1, and fresh2, change2 and add2 serve edition 2: litres are 16 bits in the one and 32 in the other.
 * Migrate turns a desk of edition 1, with the plan that it holds or without one, into a desk of edition 2.
 *
 * Figures. A site is carried by the later of its two depots' groups. Of a group:
 *   q  its size, the crews of its depots added up: without a roll the number of its depots
 *   W  the litres of all sites that it carries: each of its depots brings W / q litres of them for each of its crews
 * and of a site of w litres, with the q of the group that carries it:
 *   w x q  the site's litres in q-ths of a litre
 *   s      what the first depot brings, in q-ths of a litre; the second brings w x q - s */
#ifndef SULGHETI_H
#define SULGHETI_H

#include <stddef.h>
#include <stdint.h>

/* The longest list (512 sites, in edition 2 with a roll) and the longest plan (64 groups, 512 sites), in bytes: of
 * edition 1, and of edition 2. */
#define SULGHETI_LIST_MAX 3076
#define SULGHETI_PLAN_MAX 3717
#define SULGHETI_LIST2_MAX 4166
#define SULGHETI_PLAN2_MAX 5765

/* A desk is a store of exactly so many bytes, and a table of so many bytes for each place, of any length;
 * bytes behind the last whole place are never changed. All numbers are low byte first. Store: number of
 * sites (8), whether a plan is held (8; 0 or 1), number of groups (8), 64 sets (8 each), 512 shares (4
 * each; 8 in edition 2); in edition 2 also whether the list has a roll (8; 0 or 1) and the crews of each
 * depot (64; not looked at where there is no roll). Place: first depot (1), second depot (1), litres (2;
 * 4 in edition 2). The bytes may be kept, moved and used again, store and table together: neither is of
 * use without the other. Layout and length are those of this version: they are the library's own and no
 * file format, and a later version may make a store of edition 2 longer. A list and a plan are kept in a
 * file as list and written write them out. */
#define SULGHETI_STORE_BYTES 2584
#define SULGHETI_PLACE_BYTES 4
#define SULGHETI_STORE2_BYTES 4704
#define SULGHETI_PLACE2_BYTES 6

/* The stack in bytes that suffices, in either edition, for sulgheti_check, for sulgheti_make, for each of the four
 * functions that convert (upgrade_list, upgrade_plan, downgrade_list, downgrade_plan), for sulgheti_fresh and
 * sulgheti_fresh2, for a question (share, depot, difference, written, at_least) and for list, and for any other call
 * of the desk (load, change, change2, add, add2, propose, migrate). Measured at 512 sites and rounded up; the
 * frames have fixed sizes, and nothing recurses. Under lazy binding the program's first call of memcpy or memset
 * may take more, since the dynamic linker looks the function up on the same stack: some 3 KB where it was
 * measured. The stated figures have room for that: 3,600 bytes or more for check, make, upgrade_plan and
 * downgrade_plan, 8,000 or more for each other call. tests/c/stack_t.c makes every call on so
 * much and no more, and prints what each wrote. A thread with 128 KB of stack can make every call. */
#define SULGHETI_STACK_CHECK 49152
#define SULGHETI_STACK_MAKE 73728
#define SULGHETI_STACK_CONVERT 65536
#define SULGHETI_STACK_FRESH 8192
#define SULGHETI_STACK_QUESTION 45056
#define SULGHETI_STACK_DESK 65536

/* Row 0: the store or its table does not hold what a desk can hold. */
#define SULGHETI_CORRUPT (-256)

/* No row: store_len is neither SULGHETI_STORE_BYTES nor SULGHETI_STORE2_BYTES; for fresh, change and add that it is not
 * the first, for fresh2, change2 and add2 that it is not the second; for migrate that store_len is not the first or
 * store2_len not the second. */
#define SULGHETI_NO_STORE (-257)

#ifdef __cplusplus
extern "C" {
#endif

/* 0 where the plan is true of the list, otherwise -row: rows 1 to 6 of the list, then 22 where its roll has
 * more than 9 crews for a depot and 23 where a site names a depot without crews; 7 to 16 of the plan. Where
 * the list is refused the plan is not read. A list of either edition; a plan of the other is refused by row
 * 7. */
int64_t sulgheti_check(const uint8_t *list, size_t list_len, const uint8_t *plan, size_t plan_len);

/* Writes a plan that passes, in the edition of the list, to the front of out and answers its length,
 * 5 + 10 x groups + 6 x sites in edition 1 and 5 + 10 x groups + 10 x sites in edition 2; otherwise -row: rows 1
 * to 6, 22 and 23 of the list, 20 where out is too short. The bytes behind the plan are unchanged.
 * SULGHETI_PLAN2_MAX bytes always suffice. */
int64_t sulgheti_make(const uint8_t *list, size_t list_len, uint8_t *out, size_t out_len);

/* The converter: files between editions. Upgrade turns a list of edition 1, and with it its plan, into edition 2;
 * downgrade turns them from edition 2 into edition 1. The same sites, groups and shares in the same order are written
 * in the other edition's records, so that a plan that passes with its list passes after too, and what went there and
 * back has the same bytes. Nothing is converted in place: list_out, plan_out and what plan_written points to overlap
 * neither each other nor list or plan. */

/* Writes the list in the other edition to the front of out and answers its length, 4 + 8 x sites by upgrade and
 * 4 + 6 x sites by downgrade; otherwise -row: rows 1 to 6 of the list in the edition that the function takes; by downgrade
 * 22 and 23 of its roll, then 21 where a site's litres are not 1 to 65,535 or the list has a roll (edition 1 has
 * neither); 20 where out is too short. The bytes behind the list are unchanged, and all of out where a row refuses.
 * SULGHETI_LIST2_MAX bytes always suffice, and by downgrade SULGHETI_LIST_MAX. */
int64_t sulgheti_upgrade_list(const uint8_t *list, size_t list_len, uint8_t *out, size_t out_len);
int64_t sulgheti_downgrade_list(const uint8_t *list, size_t list_len, uint8_t *out, size_t out_len);

/* Writes the list so to the front of list_out and its plan to the front of plan_out, answers the list's length and
 * puts the plan's, 5 + 10 x groups + 10 x sites by upgrade and 5 + 10 x groups + 6 x sites by downgrade, into
 * *plan_written; otherwise -row: rows 1 to 6 of the list; by downgrade 22, 23 and 21; rows 7 to 16 of the plan, tried
 * in the edition that the function takes, as sulgheti_check tries them; 20 where list_out is too short for the list,
 * then 20 where plan_out is too short for the plan. Where the list is refused, by row 21 too, the plan is not read.
 * The bytes behind list and plan are unchanged, and where a row refuses all of list_out and plan_out, and
 * *plan_written. SULGHETI_LIST2_MAX and SULGHETI_PLAN2_MAX bytes always suffice, and by downgrade SULGHETI_LIST_MAX
 * and SULGHETI_PLAN_MAX. */
int64_t sulgheti_upgrade_plan(const uint8_t *list, size_t list_len, const uint8_t *plan, size_t plan_len,
                              uint8_t *list_out, size_t list_out_len, uint8_t *plan_out, size_t plan_out_len,
                              size_t *plan_written);
int64_t sulgheti_downgrade_plan(const uint8_t *list, size_t list_len, const uint8_t *plan, size_t plan_len,
                                uint8_t *list_out, size_t list_out_len, uint8_t *plan_out, size_t plan_out_len,
                                size_t *plan_written);

/* The desk. Each call but sulgheti_fresh and sulgheti_fresh2 gets the store and the table as the one before left
 * them. A store whose length is that of no edition is refused by SULGHETI_NO_STORE by every call, load too, and a
 * store of the other edition by fresh, change, add, fresh2, change2, add2 and migrate, before any row is tried: nothing
 * that was lent is then changed. Store, table, list, plan and buffer are not even read, as tests/c/read_only_t.c tests
 * on pages that cannot be. */

/* An empty desk of edition 1, and of edition 2, without a roll: 0. */
int64_t sulgheti_fresh(uint8_t *store, size_t store_len);
int64_t sulgheti_fresh2(uint8_t *store, size_t store_len);

/* The list becomes the desk's, in edition 2 with its roll or without one, and no plan is held: 0, or rows 1 to 6, 22,
 * 23; row 1 also where the list is of the other edition than the store, row 2 also where the table has fewer places
 * than the list has sites. The roll, or the lack of one, stays until the next load. */
int64_t sulgheti_load(uint8_t *store, size_t store_len, uint8_t *table, size_t table_len,
                      const uint8_t *list, size_t list_len);

/* A site gets other litres, and no plan is held: 0, or rows 0, 6, 18. On a store of edition 1, and of edition 2. */
int64_t sulgheti_change(uint8_t *store, size_t store_len, uint8_t *table, size_t table_len,
                        size_t site, uint16_t litres);
int64_t sulgheti_change2(uint8_t *store, size_t store_len, uint8_t *table, size_t table_len,
                         size_t site, uint32_t litres);

/* A site joins the end, and no plan is held: 0, or rows 0, 2, 5, 6; by add2 also 23 where there is a roll and the site
 * names a depot without crews. On a store of edition 1, and of edition 2. */
int64_t sulgheti_add(uint8_t *store, size_t store_len, uint8_t *table, size_t table_len,
                     uint8_t first, uint8_t second, uint16_t litres);
int64_t sulgheti_add2(uint8_t *store, size_t store_len, uint8_t *table, size_t table_len,
                      uint8_t first, uint8_t second, uint32_t litres);

/* A plan that is true of the list held becomes the plan held: 0, or rows 0, 7 to 16; row 7 also where the plan is
 * of the other edition than the store. */
int64_t sulgheti_propose(uint8_t *store, size_t store_len, const uint8_t *table, size_t table_len,
                         const uint8_t *plan, size_t plan_len);

/* A site's s by the plan held, and its w x q: 0, or rows 0, 17, 18. Here and below the figures stay as
 * they were unless 0 is answered. */
int64_t sulgheti_share(const uint8_t *store, size_t store_len, const uint8_t *table, size_t table_len,
                       size_t site, uint64_t *share, uint64_t *whole);

/* W and q of a depot's group, not reduced: 0, or rows 0, 17, 19. */
int64_t sulgheti_depot(const uint8_t *store, size_t store_len, const uint8_t *table, size_t table_len,
                       uint8_t depot, uint64_t *litres, uint64_t *size);

/* How many litres more depot a brings than depot b for each of their crews, as a fraction: W of a x q of b
 * less W of b x q of a, and the divisor q of a x q of b: 0, or rows 0, 17, 19. */
int64_t sulgheti_difference(const uint8_t *store, size_t store_len, const uint8_t *table, size_t table_len,
                            uint8_t a, uint8_t b, int64_t *difference, uint64_t *divisor);

/* The plan held is written in the store's edition to the front of buffer, whose other bytes are unchanged: its
 * length, or rows 0, 17, 20. */
int64_t sulgheti_written(const uint8_t *store, size_t store_len, const uint8_t *table, size_t table_len,
                         uint8_t *buffer, size_t buffer_len);

/* The listed depots whose W / q, litres per crew, is at least so many litres (0 to 4,294,967,295), as a set, in
 * which bit n stands for depot n: 0, or rows 0, 17. W is compared with litres x q, and nothing is divided; 0
 * litres give all listed depots. The groups held are read in order up to the first that is below so many litres,
 * and the set is the union of those before it. On a desk that began fresh, was lent one table and was written by
 * these functions alone, W / q falls from group to group, so that no later group reaches the litres asked for. In
 * bytes that were written otherwise and that row 0 lets through it may rise: a later group that reaches them is
 * then not in the set. */
int64_t sulgheti_at_least(const uint8_t *store, size_t store_len, const uint8_t *table, size_t table_len,
                          uint32_t litres, uint64_t *depots);

/* The list held is written in the store's edition to the front of buffer, whose other bytes are unchanged: its
 * length, 4 + 6 x sites in edition 1 and 4 + 8 x sites in edition 2, 66 more with a roll, or rows 0, 20. No plan need
 * be held. SULGHETI_LIST2_MAX bytes always suffice. What is written, sulgheti_load takes into a store of the same
 * edition wherever the table has a place for each site, and the list held is then the same. A list that was loaded is
 * written out, until it is changed or added to, as the bytes that it was loaded from. */
int64_t sulgheti_list(const uint8_t *store, size_t store_len, const uint8_t *table, size_t table_len,
                      uint8_t *buffer, size_t buffer_len);

/* A desk of edition 1, store and table, goes over to edition 2, store2 and table2: 0, or rows 0, 2; row 2 where table2
 * has fewer places than the desk has sites. The sites, the plan held and the lack of one carry over, and each question
 * to the new desk gets the figures that it gets from the old one; list and written write in edition 2, the same figures
 * in the longer records. On a desk that its own calls alone wrote, that is what sulgheti_upgrade_list and
 * sulgheti_upgrade_plan make of what they wrote before.
 * The old desk is only read: it may go on as it is, apart from the new one. What store2 and table2 held before does not
 * matter: all of store2 is written, its sets and shares beyond those held are zero, and it has no roll; table2 gets
 * the sites in front, and its other places and the bytes behind the last whole place keep their content. Where a row
 * refuses, store2 and table2 stay as they were, and so they do with SULGHETI_NO_STORE: store_len is not
 * SULGHETI_STORE_BYTES, or store2_len not SULGHETI_STORE2_BYTES. */
int64_t sulgheti_migrate(const uint8_t *store, size_t store_len, const uint8_t *table, size_t table_len,
                         uint8_t *store2, size_t store2_len, uint8_t *table2, size_t table2_len);

#ifdef __cplusplus
}
#endif

#endif
