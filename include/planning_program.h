/* Checks and writes plans of planning programs: the C interface of the proved library, for C11 and C++11 or later.
 *
 * Link target/staticlib/libcapi.a, which `./build-library` makes. docs/FORMATS.md fixes the files, the questions and the places;
 * examples/c/check_and_write.c uses every function but pp_check_task.
 */
#ifndef PLANNING_PROGRAM_H
#define PLANNING_PROGRAM_H

#include <stddef.h>
#include <stdint.h>

#ifdef __cplusplus
#define PP_STATIC_ASSERT static_assert
extern "C" {
#else
#define PP_STATIC_ASSERT _Static_assert
#endif

/* The most bytes that a program has, and the most that a plan has that was accepted or written; and the bytes that one more case adds to a
 * task. */
enum { PP_MAX_PROGRAM_LEN = 768, PP_MAX_PLAN_LEN = 36868, PP_CASE_LEN = 28 };

/* The number of an answer: PP_OK, or the first question, in the order of asking, whose answer is no. Beside each question stands what a no
 * says; the value is then the place, and the headings say what it counts. */
enum pp_question {
    PP_OK = 0,                   /* no question says no */

    /* A task. The place is the offset of the record, for PP_TASK_NOT_ENDED that of the byte behind the closing record. From pp_add_case
     * PP_TASK_FACTS may be about the new case, which is no record yet; the place is then 0, where no record has sets. */
    PP_TASK_RECORD_CUT = 1,      /* a record's head or body is cut off */
    PP_TASK_RECORD_KIND = 2,     /* a record of this kind may not stand here */
    PP_TASK_RECORD_LENGTH = 3,   /* the record's length is not its kind's */
    PP_TASK_TOO_MANY = 4,        /* there are more than 64 actions or 32 cases */
    PP_TASK_BOUNDS = 5,          /* a bound is out of its range */
    PP_TASK_FACTS = 6,           /* a set has a fact beyond the task's, or a pair names a fact twice */
    PP_TASK_PRESET = 7,          /* no such procedure or line, or an instruction that is empty or not allowed there */
    PP_TASK_PRESET_TWICE = 8,    /* the line is preset twice */
    PP_TASK_NOT_ENDED = 9,       /* something follows the closing record */

    /* The checker. The place is the offset of the plan's record; for PP_PROGRAM_NO_ROOM it is 0. */
    PP_PROGRAM_NO_ROOM = 10,     /* the buffer has no room for the program */
    PP_PLAN_RECORD_CUT = 11,     /* a record's head or body is cut off */
    PP_PLAN_RECORD_KIND = 12,    /* the record is neither a step nor the closing record */
    PP_PLAN_RECORD_LENGTH = 13,  /* the record's length is not its kind's */

    /* Checker, writer, pp_step and pp_steps. From the checker the place is the offset of the plan's record, from the others the steps that
     * the run has made. */
    PP_STEP_BOUND = 14,          /* as many steps as the task allows are made already */

    /* The checker, at a step. The place is the offset of the plan's record. */
    PP_STEP_INSTRUCTION = 15,    /* no such procedure or line, or an instruction that is empty or not allowed there */
    PP_STEP_AFTER_FINISH = 16,   /* all cases are finished already */
    PP_STEP_ELSEWHERE = 17,      /* the step is not at the line where the run is */
    PP_STEP_LINE = 18,           /* a write of a line that is not empty, or a repeat of what the line does not hold */

    /* Checker, writer, pp_step and pp_steps, running an instruction. The place is as for PP_STEP_BOUND. */
    PP_PRECONDITION = 19,        /* the action's precondition does not hold */
    PP_CLASH = 20,               /* never answered: a fact both raised and lowered is true */
    PP_STACK_FULL = 21,          /* the call stack is full */
    PP_GOAL = 22,                /* the case ends, and its goal does not hold */

    /* The checker, at the closing record. The place is its offset, for PP_PLAN_NOT_ENDED that of the byte behind it. */
    PP_CASE_OPEN = 23,           /* some case is not finished */
    PP_PLAN_NOT_ENDED = 24,      /* something follows the closing record */

    /* A program, for writer, pp_step and pp_steps. The place is the offset of the lowest line at fault; for PP_PROGRAM_LENGTH it is 0. */
    PP_PROGRAM_LENGTH = 25,      /* it has not exactly three bytes for each line */
    PP_PROGRAM_INSTRUCTION = 26, /* the instruction is not allowed on its line */
    PP_PROGRAM_PRESET = 27,      /* a preset line does not hold its preset */

    PP_LINE_EMPTY = 28,          /* writer, pp_step and pp_steps: the run is at an empty line; the place is as for PP_STEP_BOUND */
    PP_PLAN_NO_ROOM = 29,        /* writer: the buffer has no room for the plan; the place is the bytes needed */
    PP_FILE_TOO_LONG = 30,       /* the program check_plan alone: a file has more than 65,536 bytes; the place is 65536 */
    PP_RUN_IMPOSSIBLE = 31,      /* pp_step, pp_steps and pp_add_case: the record cannot be a position of the task; the place is 0 */

    /* pp_add_case. The place is 0. */
    PP_RUN_FINISHED = 32,        /* the run is finished */
    PP_CASES_FULL = 33,          /* there are 32 cases already */
    PP_CASE_NO_ROOM = 34         /* the buffer has no room for the case: fewer than PP_CASE_LEN bytes behind the task */
};

/* A run record, which the caller keeps. A fresh one has the facts of the first case's start, depth 1 and 0 in every other field. */
typedef struct {
    uint64_t facts;        /* the facts that are true: fact f is bit f */
    uint16_t steps;        /* the steps made */
    uint8_t case_number;   /* the case at hand, or the number of cases when the run is finished */
    uint8_t depth;         /* the frames in use; 0 when the run is finished */
    uint8_t frames[16][2]; /* {procedure, line} of each frame, the lowest first, and {0, 0} beyond depth */
} pp_run;

PP_STATIC_ASSERT(sizeof(pp_run) == 48, "a run record has 48 bytes, the last four of them padding");
PP_STATIC_ASSERT(offsetof(pp_run, facts) == 0, "facts are first");
PP_STATIC_ASSERT(offsetof(pp_run, steps) == 8, "steps are at 8");
PP_STATIC_ASSERT(offsetof(pp_run, case_number) == 10, "the case is at 10");
PP_STATIC_ASSERT(offsetof(pp_run, depth) == 11, "the depth is at 11");
PP_STATIC_ASSERT(offsetof(pp_run, frames) == 12, "the frames are at 12");

/* Every function but pp_steps answers number * 2^32 + value: PP_OK and a value, or the question that says no and its place. */
static inline uint32_t pp_number(uint64_t answer) { return (uint32_t)(answer >> 32); }
static inline uint32_t pp_value(uint64_t answer) { return (uint32_t)answer; }

/* pp_steps answers number * 2^48 + steps made * 2^32 + place: PP_OK and place 0, or the question that says no and its place; and in either
 * case the steps that the call made. */
static inline uint32_t pp_steps_number(uint64_t answer) { return (uint32_t)(answer >> 48); }
static inline uint32_t pp_steps_made(uint64_t answer) { return (uint32_t)(answer >> 32) & 0xffff; }
static inline uint32_t pp_steps_place(uint64_t answer) { return (uint32_t)answer; }

/* What the caller owes every function: as many bytes of valid memory at each pointer as the length behind it says, and a whole record at
 * `run`, aligned as the struct is; and that a buffer or record lent for writing, the one pointer without const, overlaps none of the others.
 * A pointer with a length of 0 may be null; `run` may not. The bytes themselves may be anything. Nothing is kept after the call, and nothing
 * is allocated; calls on several threads do not meet. */

/* Asks whether the bytes are a task: questions 1 to 9. The value is 0. */
uint64_t pp_check_task(const uint8_t *task, size_t task_len);

/* Asks whether the plan writes a program and runs it on every case of the task: questions 1 to 24. On acceptance the value is the number of
 * steps, and the first bytes of `program` are the program's: three for each line 0 to n of each procedure, 3 * b * (n + 1) together. Its
 * other bytes keep their value; a refusal changes none. */
uint64_t pp_check_plan(const uint8_t *task, size_t task_len, const uint8_t *plan, size_t plan_len, uint8_t *program, size_t program_len);

/* Runs the program on every case of the task and writes its plan: questions 1 to 9 and 25 to 27, then 14, 28 and 19 to 22 before each step,
 * and 29. On acceptance the value is the number of steps k, and the first 9 * k + 4 bytes of `plan` are the plan's. Its other bytes keep
 * their value; a refusal changes none. */
uint64_t pp_write_plan(const uint8_t *task, size_t task_len, const uint8_t *program, size_t program_len, uint8_t *plan, size_t plan_len);

/* Runs one instruction of the program: questions 1 to 9, 25 to 27 and 31, then 14, 28 and 19 to 22. The value is 1, and the record has the
 * next position; or it is 0, and the run was finished already. That and a refusal leave the record as it was. */
uint64_t pp_step(const uint8_t *task, size_t task_len, const uint8_t *program, size_t program_len, pp_run *run);

/* Does what `count` single steps do, and reads task and program once; a count above 4,096 counts as 4,096. Questions 1 to 9, 25 to 27 and
 * 31 come first, even when the count is 0; then 14, 28 and 19 to 22 before each step that is still wanted. It stops early at the finish or
 * at a refusal; of a finished run it makes no step. The record then has the position after the last good step, after a refusal too: here
 * alone, and for the record alone, a refusal may change what was lent. */
uint64_t pp_steps(const uint8_t *task, size_t task_len, const uint8_t *program, size_t program_len, uint64_t count, pp_run *run);

/* Adds a case to the task under an open run. The task is the first `task_len` bytes of the buffer, or the whole buffer if it has fewer. The
 * case is given by the facts that are true at its start, and those that have to be true and to be false at its end. Questions 1 to 9 and 31,
 * then 32 to 34, then 6 for the new case. On acceptance the value is the task's new length, PP_CASE_LEN more: the case's record stands in
 * front of the closing one. The buffer's bytes behind the longer task keep their value; a refusal changes none. The record is only read, and
 * the run goes on with the longer task: one that was reached by steps from the start is where the same steps lead there. The step bound
 * stays the task's. */
uint64_t pp_add_case(uint8_t *buffer, size_t buffer_len, size_t task_len, uint64_t start, uint64_t goal_true, uint64_t goal_false,
                     const pp_run *run);

#ifdef __cplusplus
}
#endif
#undef PP_STATIC_ASSERT

#endif
