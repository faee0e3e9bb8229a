/*
 * Dorewhanga for C and Rust: family build plans, their measures, and their runs by work stealing.
 *
 *     (cd crates/cabi && rt lib)    proves the library and writes crates/cabi/out/libcabi.a
 *     gcc examples/link.c -Iinclude crates/cabi/out/libcabi.a
 *
 * A plan is cut into jobs (threads), and each job is a row of actions (instructions). An action takes as many rounds as
 * its cost says, 1 to 15. It may spawn a job, and may send a join to an action of its job's parent. A job has a frame, a
 * weight in units of 64 KiB that is held while the job lives. Up to 16 workers run a plan: they steal jobs from one
 * another, or take them from one pool. It is proved, in crates/cabi, that each function answers and writes, for every
 * input, what the definitions in crates/NAME/specs give.
 *
 * Plan bytes, bits taken most significant first: form 8 bits (1 or 2), jobs 9; then for each job its frame 16 and action
 * count 8, and for each of its actions a spawn bit, the child's number 8 if it is 1, a join bit, the target's position 8
 * if it is 1, and in form 2 its cost 4. In form 1 every cost is 1. Zero bits fill the last byte; nothing follows.
 *
 * What is lent. A buffer is lent as a pointer and a length, which counts elements: 16-bit numbers for `rows`, bytes for
 * all others. A pointer is aligned for its type and never NULL, not even where the length is 0: with nothing to lend,
 * lend the address of anything, such as a local variable of that type. All that the length covers must be readable, and
 * writable where it is not `const`. A buffer that is not `const` must not overlap another one of the call. No pointer
 * is kept after the call.
 *
 * What is left as it was. On a refusal nothing is written. On success, bytes or numbers beyond the output keep what
 * they held.
 *
 * The functions use no heap and no global state, and of the C library memcpy and memset alone, so they may be called
 * from several threads at once. The stack that a call takes does not grow with its input;
 * measured, it is below 64 KiB.
 *
 * `refused` is 0 where the input is accepted, else the number of the cause, and all that stands beside it is then 0.
 *
 *      1  bits run out in a plan
 *      2  form is neither 1 nor 2, or not the one expected of a plan that is to be turned into the other form
 *      3  job count, frame, action count, sum or cost outside its range (1 to 256 jobs, frame 1 to 65,535, 1 to 255
 *         actions in a job, 1 to 2,048 in all, cost 1 to 15), or the cost in a table for form 1 is not 1
 *      4  a spawn rule is broken: every job but 0 is spawned exactly once, by a job of smaller number
 *      5  a join rule is broken: a join goes to a position of the parent later than the sender's spawn and not right
 *         after any spawn; at most 8 enter one action; the last action of every job but 0 sends one; job 0 sends none
 *      6  fill bit not 0, or bytes left over
 *      7  worker count 0 or above 16
 *      8  choice not below the worker count, over 4,096 choices, or none with more than one worker
 *      9  output buffer too short
 *     10  open table empty, not whole rows, or breaks its row rules: the job column starts at 0 and rises by 0 or 1, a
 *         job's frame is equal in its rows, the third and the fourth number are at most 256
 *     11  schedule length, form (another than the plan's), worker count, action count, zero bits or a round of 0
 *     12  a schedule rule is broken
 *     15  a plan of form 2 that is to be turned into form 1 has a cost other than 1
 *     17  of two plans that are to be built together: the new root's frame is 0 or above 65,535, or the result would have
 *         more than 256 jobs or 2,048 actions
 *
 * From Rust, declare the functions in an `extern "C"` block and the structs with `#[repr(C)]`: `const uint8_t *` is
 * `*const u8`, `size_t` is `usize`, and `as_ptr()`, `as_mut_ptr()` and `len()` of a slice meet what is asked above.
 * Link with `-L native=crates/cabi/out -l static=cabi`.
 */
#ifndef DOREWHANGA_H
#define DOREWHANGA_H

#include <stddef.h>
#include <stdint.h>

#ifdef __cplusplus
extern "C" {
#endif

/* Lengths of output buffers that suffice for every input. */
#define DW_ROWS_LENGTH 10240    /* an open table: 5 numbers a row, 2,048 rows */
#define DW_PLAN_LENGTH 6403     /* plan bytes: 17 + 24 x 256 jobs + 22 x 2,048 actions = 51,217 bits */
#define DW_SCHEDULE_LENGTH 5124 /* a schedule: 4 bytes, and 20 bits for each of 2,048 actions */

typedef struct {
    uint32_t refused;
    uint32_t count;
} dw_count;

typedef struct {
    uint32_t refused;
    uint32_t total;    /* the plan's number of actions, which is the number of rows of its table and of a schedule */
    uint32_t work;     /* the sum of the costs of all actions (T1) */
    uint32_t longest;  /* the largest sum of costs of a chain of actions, each of which must follow the one before it
                          (T-infinity) */
    uint32_t path;     /* the largest sum of frames on the way from job 0 down to a job (S1), in units of 64 KiB */
    uint32_t parallel; /* how many whole times longest goes into work. More workers than that cannot all be kept busy */
    uint32_t rest;     /* what remains: parallel x longest + rest = work, and rest < longest. No plan that is accepted
                          has a longest of 0 */
} dw_measures;

/* Of dw_run and of dw_pool, for every list of choices: longest <= rounds <= work and peak <= workers x path. With one
   worker rounds is work and peak is path. With more workers than parallel, (workers - parallel) x longest <= idle + rest.
   Of the requests, steals + bare + idle_victim were answered, and the others still wait as the run ends. Of dw_pool
   alone: workers x rounds <= work + (workers - 1) x longest, so idle <= (workers - 1) x longest; and requests, steals,
   bare and idle_victim are 0. */
typedef struct {
    uint32_t refused;
    uint32_t rounds;      /* the last round */
    uint32_t actions;     /* turns in which a worker worked on an action: the plan's work */
    uint32_t idle;        /* turns of workers that held nothing when the round began (from a pool: when the taking before
                             it was over): workers x rounds - actions */
    uint32_t requests;    /* requests laid by workers that hold nothing */
    uint32_t steals;      /* requests answered with a job */
    uint32_t bare;        /* misses, requests answered with none, whose victim held a job as it answered */
    uint32_t idle_victim; /* misses whose victim held none */
    uint32_t peak;        /* the largest weight of living frames at the start or after any turn, in units of 64 KiB */
} dw_tally;

/* Writes the open table of a plan. `plan` is the whole plan and nothing more. The table has one row an action, in job
   then position order, of five numbers: the job, its frame, the child's number plus 1 or 0 for none, the position that
   the join is sent to plus 1 or 0 for none, and the cost, which is 1 where the plan is of form 1.
   count: the rows written; they are 5 x count numbers.
   Refusals, in this order: 1, 2 and 3 as the fields are read, 6, 4, 5, 9. */
dw_count dw_plan_to_table(const uint8_t *plan, size_t plan_len, uint16_t *rows, size_t rows_len);

/* Writes the plan bytes of an open table in the form that is asked for, 1 or 2: what dw_plan_to_table did of a plan of
   that form is undone, and the other way round. `rows` is the whole table and nothing more: rows_len is five times its
   number of rows.
   count: the bytes written.
   Refusals, in this order: 2, 10, 3, 4, 5, 9. */
dw_count dw_table_to_plan(uint32_t form, const uint16_t *rows, size_t rows_len, uint8_t *plan, size_t plan_len);

/* Turns a plan of form 1 into form 2: writes the bytes, in form 2, of the plan that `plan` holds, with all costs 1.
   `plan` is the whole plan and nothing more. What is written is accepted, has the same measures, runs to the same
   tallies, rounds and workers, and dw_to_form_1 turns it back into the same bytes.
   count: the bytes written.
   Refusals, in this order: 1, 2 and 3 as the fields are read, where any form but 1 is 2; 6, 4, 5, 9. */
dw_count dw_to_form_2(const uint8_t *plan, size_t plan_len, uint8_t *bytes, size_t bytes_len);

/* Turns a plan of form 2 whose costs are all 1 into form 1: what dw_to_form_2 did is undone, and the other way round.
   `plan` is the whole plan and nothing more.
   count: the bytes written.
   Refusals, in this order: 1, 2 and 3 as the fields are read, where any form but 2 is 2; 6, 4, 5, 15, 9. */
dw_count dw_to_form_1(const uint8_t *plan, size_t plan_len, uint8_t *bytes, size_t bytes_len);

/* Puts two plans under a new root, to be built together, as a roman and its italic are: writes the bytes of that plan.
   `first` and `second` are whole plans and nothing more; they may be the same bytes. The new root, job 0, has the frame
   `frame` and five actions of cost 1: it spawns the first plan's root at position 0 and the second's at 2, and waits for
   both at 4, to which the last action of each old root now sends a join. Job numbers of the first plan rise by 1, of the
   second by 1 plus the first's number of jobs; all else stays. Two plans of form 1 give form 1, otherwise the result is
   of form 2. What is written is accepted, and of its measures work is the sum of both and 5, path is frame plus the
   greater one, and longest is the greater of the first's + 2 and the second's + 4.
   count: the bytes written.
   Refusals, in this order: 1, 2 and 3 as the fields are read, 6, 4, 5 of the first plan; the same of the second; 17, 9. */
dw_count dw_pair(const uint8_t *first, size_t first_len, const uint8_t *second, size_t second_len, uint32_t frame,
                 uint8_t *plan, size_t plan_len);

/* Measures a plan. `plan` is the whole plan and nothing more.
   Refusals, in this order: 1, 2 and 3 as the fields are read, 6, 4, 5. */
dw_measures dw_measure(const uint8_t *plan, size_t plan_len);

/* Runs a plan on `workers` workers, 1 to 16, and writes its schedule. Request number k, from 0, goes to the worker that
   byte k modulo choices_len of `choices` names; a worker may choose itself. With one worker choices_len may be 0.
   The schedule has the plan's form, bits taken most significant first: form 8 bits, workers 5, the plan's number of
   actions 12, 7 zero bits; then for each action, in job then position order, its last round, 12 bits in form 1 and 16 in
   form 2, and its worker 4; in form 2 zero bits fill the last byte. So it is 4 + 2 x total bytes in form 1, and
   4 + (20 x total + 7) / 8 in form 2, where total is that of dw_measures.
   Refusals, in this order: 1, 2 and 3 as the fields are read, 6, 4, 5, 7, 8, 9. */
dw_tally dw_run(const uint8_t *plan, size_t plan_len, uint32_t workers, const uint8_t *choices, size_t choices_len,
                uint8_t *schedule, size_t schedule_len);

/* Runs a plan on `workers` workers, 1 to 16, from one pool (the Busy-Leaves Algorithm), and writes its schedule, which is
   as dw_run has it. Ready and stalled jobs that nobody holds wait in the pool. Before each round the idle workers, in
   rising number, each take the ready job of lowest number. A worker whose action spawned keeps the child, and the spawner
   goes to the pool, as does a job that stalls. A worker whose job ended takes its parent, if no child of that lives and
   nobody holds it.
   Refusals, in this order: 1, 2 and 3 as the fields are read, 6, 4, 5, 7, 9. */
dw_tally dw_pool(const uint8_t *plan, size_t plan_len, uint32_t workers, uint8_t *schedule, size_t schedule_len);

/* Checks a schedule, whoever made it, against a plan: no worker works on two actions in one round, each action begins
   after the last round of everything it must follow and not before round 1, and each worker is below the schedule's
   worker count. An action takes up the rounds that its cost says, up to its last round. `schedule` is the whole schedule
   and nothing more: schedule_len is as dw_run has it.
   Gives 0 where the schedule is accepted, else the number of the refusal, in this order: 1, 2 and 3 as the fields are
   read, 6, 4, 5, 11, 12. */
uint32_t dw_check(const uint8_t *plan, size_t plan_len, const uint8_t *schedule, size_t schedule_len);

#ifdef __cplusplus
}
#endif

#endif
