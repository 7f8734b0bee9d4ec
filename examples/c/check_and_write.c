/* Checks the plan in a folder, prints its program, writes the program back to a plan and runs it, by single steps and by forty in a call, and
 * once more with a case added while it runs.
 *
 * Build it from the root of the repository, once `./build-library` has made the library:
 *
 *     cc -std=c11 -Wall -Wextra -Werror -I include -o target/check_and_write examples/c/check_and_write.c target/staticlib/libcapi.a
 *
 * `target/check_and_write FOLDER` reads task.bin and plan.bin in the folder, samples/double-click if none is named. The exit status is 0 when
 * the plan is accepted, comes back byte for byte and its program runs to the finish in as many steps, both ways, and with the case added too.
 */
#include "planning_program.h"

#include <stdbool.h>
#include <stdio.h>
#include <string.h>

/* A file's bytes. A file with more of them is turned away, as by the program check_plan. */
typedef struct {
    uint8_t bytes[65536];
    size_t len;
} file;

static bool read_file(const char *folder, const char *name, file *into) {
    char path[4096];
    int length = snprintf(path, sizeof path, "%s/%s", folder, name);
    if (length < 0 || (size_t)length >= sizeof path) {
        fprintf(stderr, "the folder's name is too long\n");
        return false;
    }
    FILE *in = fopen(path, "rb");
    if (in == NULL) {
        perror(path);
        return false;
    }
    into->len = fread(into->bytes, 1, sizeof into->bytes, in);
    bool whole = fgetc(in) == EOF && !ferror(in);
    fclose(in);
    if (!whole) {
        fprintf(stderr, "%s: cannot be read, or has more than 65536 bytes\n", path);
    }
    return whole;
}

static bool accepted(const char *what, uint32_t number, uint32_t place) {
    if (number == PP_OK) {
        return true;
    }
    printf("%s: refused %u %u\n", what, (unsigned)number, (unsigned)place);
    return false;
}

/* A number of so many bytes, the lowest first. */
static uint64_t number_at(const uint8_t *bytes, size_t len) {
    uint64_t number = 0;
    while (len > 0) {
        number = number << 8 | bytes[--len];
    }
    return number;
}

/* A case: the facts at its start, and those that have to be true and to be false at its end. */
typedef struct {
    uint64_t start, goal_true, goal_false;
} case_sets;

/* The first case. The task has passed, so there is a record of kind 4. */
static case_sets first_case(const uint8_t *task) {
    size_t at = 0;
    while (number_at(task + at + 2, 2) != 4) {
        at += 4 + number_at(task + at, 2);
    }
    case_sets sets = {number_at(task + at + 4, 8), number_at(task + at + 12, 8), number_at(task + at + 20, 8)};
    return sets;
}

/* Prints a line's number and what its three bytes op, p and q say. */
static void print_line(unsigned line, const uint8_t *instruction) {
    unsigned p = instruction[1], q = instruction[2];
    switch (instruction[0]) {
    case 1:
        printf("%u act %u\n", line, p);
        break;
    case 2:
        printf("%u goto %u %u\n", line, p, q);
        break;
    case 3:
        printf("%u call %u\n", line, p);
        break;
    case 4:
        printf("%u end\n", line);
        break;
    default:
        printf("%u empty\n", line);
    }
}

/* Prints each line 0 to n of each of the b procedures. */
static void print_program(const uint8_t *program, unsigned b, unsigned n) {
    for (unsigned procedure = 0; procedure < b; procedure++) {
        printf("procedure %u\n", procedure);
        for (unsigned line = 0; line <= n; line++, program += 3) {
            print_line(line, program);
        }
    }
}

/* Writes the program's plan, and says whether it is the one that was read. */
static bool write_back(const file *task, const uint8_t *program, size_t program_len, const file *plan) {
    static uint8_t written[PP_MAX_PLAN_LEN];
    uint64_t answer = pp_write_plan(task->bytes, task->len, program, program_len, written, sizeof written);
    if (!accepted("written back", pp_number(answer), pp_value(answer))) {
        return false;
    }
    size_t written_len = 9 * (size_t)pp_value(answer) + 4;
    bool same = written_len == plan->len && memcmp(written, plan->bytes, written_len) == 0;
    printf("written back: %zu bytes, %s\n", written_len, same ? "the same" : "not the same");
    return same;
}

/* A fresh record, at the first case's start. */
static pp_run first_position(const file *task) {
    pp_run run = {.facts = first_case(task->bytes).start, .depth = 1};
    return run;
}

/* Runs the program by single steps, and says whether it finishes with this number of them. */
static bool run_by_steps(const file *task, const uint8_t *program, size_t program_len, uint32_t steps) {
    pp_run run = first_position(task);
    uint64_t answer;
    do {
        answer = pp_step(task->bytes, task->len, program, program_len, &run);
    } while (pp_number(answer) == PP_OK && pp_value(answer) == 1);
    if (!accepted("by single steps", pp_number(answer), pp_value(answer))) {
        return false;
    }
    printf("by single steps: finished after %u\n", (unsigned)run.steps);
    return run.steps == steps;
}

/* Runs on to the finish by forty steps in a call. A call that makes fewer, and is not refused, is at the finish. */
static bool finish_by_forty(const char *what, const file *task, const uint8_t *program, size_t program_len, pp_run *run) {
    uint64_t answer;
    do {
        answer = pp_steps(task->bytes, task->len, program, program_len, 40, run);
    } while (pp_steps_number(answer) == PP_OK && pp_steps_made(answer) == 40);
    if (!accepted(what, pp_steps_number(answer), pp_steps_place(answer))) {
        return false;
    }
    printf("%s: finished after %u\n", what, (unsigned)run->steps);
    return true;
}

/* Runs the program so from the start, and says whether it finishes with this number of steps. */
static bool run_by_forty(const file *task, const uint8_t *program, size_t program_len, uint32_t steps) {
    pp_run run = first_position(task);
    return finish_by_forty("by forty steps in a call", task, program, program_len, &run) && run.steps == steps;
}

/* Makes a step, adds the first case once more behind the last one, and goes on with the same record. The new case takes steps too, so the
 * task gets the greatest step bound before. */
static bool run_with_late_case(file *task, const uint8_t *program, size_t program_len) {
    task->bytes[8] = 4096 & 0xff;
    task->bytes[9] = 4096 >> 8;
    pp_run run = first_position(task);
    uint64_t answer = pp_step(task->bytes, task->len, program, program_len, &run);
    if (!accepted("before the late case", pp_number(answer), pp_value(answer))) {
        return false;
    }
    case_sets late = first_case(task->bytes);
    answer = pp_add_case(task->bytes, sizeof task->bytes, task->len, late.start, late.goal_true, late.goal_false, &run);
    if (!accepted("the late case", pp_number(answer), pp_value(answer))) {
        return false;
    }
    task->len = pp_value(answer);
    return finish_by_forty("with a late case", task, program, program_len, &run);
}

int main(int count, char **words) {
    static file task, plan;
    const char *folder = count > 1 ? words[1] : "samples/double-click";
    if (!read_file(folder, "task.bin", &task) || !read_file(folder, "plan.bin", &plan)) {
        return 2;
    }
    uint8_t program[PP_MAX_PROGRAM_LEN];
    uint64_t answer = pp_check_plan(task.bytes, task.len, plan.bytes, plan.len, program, sizeof program);
    if (!accepted("checked", pp_number(answer), pp_value(answer))) {
        return 1;
    }
    /* The task has passed with the plan: its bounds b and n are at 5 and 6. */
    unsigned b = task.bytes[5], n = task.bytes[6];
    size_t program_len = 3 * (size_t)b * (n + 1);
    printf("checked: accepted %u\n", (unsigned)pp_value(answer));
    print_program(program, b, n);
    bool same = write_back(&task, program, program_len, &plan);
    bool finished = run_by_steps(&task, program, program_len, pp_value(answer));
    bool finished_too = run_by_forty(&task, program, program_len, pp_value(answer));
    bool longer_too = run_with_late_case(&task, program, program_len);
    return same && finished && finished_too && longer_too ? 0 : 1;
}
