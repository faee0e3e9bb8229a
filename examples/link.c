/* A plan of eight actions run on two workers through the library for C, as it stands, by stealing and from a pool, and
   then with costs, turned into form 2 and back, and put under one root with the plan that has costs:
     (cd crates/cabi && rt lib) && gcc examples/link.c -Iinclude crates/cabi/out/libcabi.a -o link && ./link */
#include "dorewhanga.h"
#include <stdio.h>

/* job 0, frame 4, five actions, spawns job 1 at 0 and job 2 at 2; job 1, frame 3, two actions; job 2, frame 2, one;
   both last actions join position 4 */
static const uint8_t plan[] = {0x01, 0x01, 0x80, 0x02, 0x02, 0xC0, 0x44, 0x08, 0x00,
                               0x00, 0x60, 0x42, 0x08, 0x00, 0x04, 0x02, 0x82, 0x00};
/* the rounds that each of the eight actions is to take */
static const uint16_t costs[] = {2, 1, 3, 1, 2, 4, 1, 5};
static const uint8_t choices[] = {0, 1};
static uint16_t rows[DW_ROWS_LENGTH];
static uint8_t with_costs[DW_PLAN_LENGTH];
static uint8_t in_form_2[DW_PLAN_LENGTH];
static uint8_t in_form_1[DW_PLAN_LENGTH];
static uint8_t together[DW_PLAN_LENGTH];
static uint8_t schedule[DW_SCHEDULE_LENGTH];

/* the number in so many bits from place `at` on, the most significant first */
static unsigned field(const uint8_t *bytes, size_t at, size_t width) {
    unsigned number = 0;
    for (size_t end = at + width; at < end; at++)
        number = number * 2 + (bytes[at / 8] >> (7 - at % 8) & 1u);
    return number;
}

/* prints the rows of the schedule of a plan of either form and checks it: 0, or the number of the refusal */
static uint32_t check(const uint8_t *bytes, size_t len, uint32_t total) {
    size_t width = bytes[0] == 1 ? 12 : 16;
    for (uint32_t k = 0; k < total; k++) {
        size_t at = 32 + (width + 4) * k;
        printf("action %u: last round %u, worker %u\n", (unsigned)k, field(schedule, at, width),
               field(schedule, at + width, 4));
    }
    uint32_t refused = dw_check(bytes, len, schedule, 4 + ((width + 4) * total + 7) / 8);
    if (!refused)
        printf("the schedule keeps the rules\n");
    return refused;
}

/* runs a plan of either form by stealing and checks its schedule: 0, or the number of the refusal */
static uint32_t build(const uint8_t *bytes, size_t len) {
    dw_measures m = dw_measure(bytes, len);
    dw_tally t = dw_run(bytes, len, 2, choices, sizeof choices, schedule, sizeof schedule);
    if (m.refused || t.refused)
        return m.refused ? m.refused : t.refused;
    printf("total %u\nwork %u\n", (unsigned)m.total, (unsigned)m.work);
    printf("rounds %u\nactions %u\nlongest %u\npath %u\n", (unsigned)t.rounds, (unsigned)t.actions,
           (unsigned)m.longest, (unsigned)m.path);
    printf("parallel %u\nrest %u\npeak %u\n", (unsigned)m.parallel, (unsigned)m.rest, (unsigned)t.peak);
    printf("idle %u\nrequests %u\nsteals %u\nbare %u\nidle-victim %u\n", (unsigned)t.idle, (unsigned)t.requests,
           (unsigned)t.steals, (unsigned)t.bare, (unsigned)t.idle_victim);
    return check(bytes, len, m.total);
}

/* runs a plan from a pool, where nobody asks for jobs, and checks its schedule: 0, or the number of the refusal */
static uint32_t build_from_pool(const uint8_t *bytes, size_t len) {
    dw_measures m = dw_measure(bytes, len);
    dw_tally t = dw_pool(bytes, len, 2, schedule, sizeof schedule);
    if (m.refused || t.refused)
        return m.refused ? m.refused : t.refused;
    printf("from a pool: rounds %u, actions %u, peak %u, idle %u\n", (unsigned)t.rounds, (unsigned)t.actions,
           (unsigned)t.peak, (unsigned)t.idle);
    return check(bytes, len, m.total);
}

/* the same plan in form 2: its table is opened, gets the costs, and is closed again */
static dw_count add_costs(void) {
    dw_count opened = dw_plan_to_table(plan, sizeof plan, rows, DW_ROWS_LENGTH);
    if (opened.refused)
        return opened;
    for (uint32_t k = 0; k < opened.count; k++)
        rows[5 * k + 4] = costs[k];
    return dw_table_to_plan(2, rows, 5 * (size_t)opened.count, with_costs, sizeof with_costs);
}

static void print(const uint8_t *bytes, uint32_t len) {
    printf("form %u, %u bytes:", (unsigned)bytes[0], (unsigned)len);
    for (uint32_t k = 0; k < len; k++)
        printf(" %02X", (unsigned)bytes[k]);
    printf("\n");
}

/* turns a plan of form 1, as an archive has it, into form 2, where all its costs are 1, and back: 0, or the number of
   the refusal */
static uint32_t convert(void) {
    dw_count there = dw_to_form_2(plan, sizeof plan, in_form_2, sizeof in_form_2);
    if (there.refused)
        return there.refused;
    print(in_form_2, there.count);
    dw_count back = dw_to_form_1(in_form_2, there.count, in_form_1, sizeof in_form_1);
    if (back.refused)
        return back.refused;
    print(in_form_1, back.count);
    return 0;
}

/* puts the plan and the one with costs under a new root with frame 6, to be built together: 0, or the number of the
   refusal */
static uint32_t pair(size_t with_costs_len) {
    dw_count both = dw_pair(plan, sizeof plan, with_costs, with_costs_len, 6, together, sizeof together);
    if (both.refused)
        return both.refused;
    print(together, both.count);
    dw_measures m = dw_measure(together, both.count);
    printf("total %u, work %u, longest %u, path %u\n", (unsigned)m.total, (unsigned)m.work, (unsigned)m.longest,
           (unsigned)m.path);
    return m.refused;
}

int main(void) {
    uint32_t refused = build(plan, sizeof plan);
    dw_count closed = {0, 0};
    if (!refused)
        refused = build_from_pool(plan, sizeof plan);
    if (!refused) {
        closed = add_costs();
        refused = closed.refused ? closed.refused : build(with_costs, closed.count);
    }
    if (!refused)
        refused = convert();
    if (!refused)
        refused = pair(closed.count);
    if (refused) {
        printf("refused %u\n", (unsigned)refused);
        return 1;
    }
    return 0;
}
