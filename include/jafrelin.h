/* Jafrelin: planning tasks with decision-diagram costs, compiled to probe files; every function is proved to meet its contract (crates/jafrelin).
 * libjafrelin.a is for x86-64 and the System V calling convention. It calls memcpy and memset, and nothing else.
 *
 * A file is bytes; a state has one byte for each variable; a relaxed state too, with bit d for value d; a list is a row of numbers, one an action or a
 * step. Nothing is kept between calls, so that threads may call at the same time. Only the output buffers are written, and by a refusal not even these.
 * A task file of zero bytes is the blank task: one variable of 2 values at 0, an empty goal, no actions. An empty probe file is refused.
 * Slices of one call must not overlap: the proofs are about memory that no two of them share. An empty slice may come with any pointer.
 *
 * The result of every function:
 *   bits 63 to 56   the refusal's number, 1 to 12 or 17; 0 for success
 *   bits 55 to 32   for success: the length written, of a state the number of variables; of a cost or a run on a task the nodes passed; of an estimate 0 exact, 1 over, 2 never; else 0
 *   bits 31 to 0    for success: the sum, the cost, the exact estimate or the charge; for a refusal: its place
 */
#ifndef JAFRELIN_H
#define JAFRELIN_H

#include <stddef.h>
#include <stdint.h>

#ifdef __cplusplus
extern "C" {
#endif

#define JAFRELIN_VERSION "1.0"

/* The parts of a result. */
#define JAFRELIN_REFUSAL(result) ((unsigned)((result) >> 56))
#define JAFRELIN_LENGTH(result) ((uint32_t)((result) >> 32 & 0xffffff))
#define JAFRELIN_NODES(result) JAFRELIN_LENGTH(result)
#define JAFRELIN_SUM(result) ((uint32_t)(result))
#define JAFRELIN_CENTS(result) JAFRELIN_SUM(result)
#define JAFRELIN_PLACE(result) ((uint32_t)(result))

/* The refusals, each with its place. */
enum jafrelin_refusal {
    JAFRELIN_ENDS = 1,     /* the file ends before or inside a field: the field's first byte */
    JAFRELIN_TRAILING = 2, /* bytes follow the last field: the first of them */
    JAFRELIN_RANGE = 3,    /* a count or a domain size is outside its range, or there are too many nodes: its byte */
    JAFRELIN_OUTSIDE = 4,  /* a value is outside its domain; a relaxed set is empty or has a stray bit: its byte, in a state the variable */
    JAFRELIN_STRAY = 5,    /* a map has a bit for no variable: the map's first byte */
    JAFRELIN_DIAGRAM = 6,  /* a node's variable or target is against the rules: its byte */
    JAFRELIN_SHORT = 7,    /* the output buffer is shorter than the result: the length needed */
    JAFRELIN_LONG = 8,     /* a list is over its limit, or contracting would give too many actions: the limit, or the first start too many */
    JAFRELIN_BLOCKED = 9,  /* a step does not apply: its index */
    JAFRELIN_UNMET = 10,   /* the goal is not met at the end: the list's length */
    JAFRELIN_MISSING = 11, /* there is no such action or step: its index, 0 for an action number */
    JAFRELIN_WIDTH = 12,   /* a state's length is not the number of variables: 0 */
    JAFRELIN_LACKING = 17  /* a relaxed set lacks the value that the action's precondition has for its variable: the variable */
};

/* What an estimate's JAFRELIN_LENGTH says of its number. */
#define JAFRELIN_EXACT 0
#define JAFRELIN_OVER 1
#define JAFRELIN_NEVER 2

/* The limits of a task file, and of a list of actions. */
#define JAFRELIN_TASK_MAX_VARIABLES 24
#define JAFRELIN_TASK_MAX_VALUES 8
#define JAFRELIN_TASK_MAX_ACTIONS 32
#define JAFRELIN_TASK_MAX_NODES 64
#define JAFRELIN_TASK_MAX_BYTES 3826
#define JAFRELIN_TASK_MAX_LIST 256

/* The limits of a probe file, and of a list of steps; the most bytes that are written for a task. */
#define JAFRELIN_PROBE_MAX_VARIABLES 57
#define JAFRELIN_PROBE_MAX_VALUES 66
#define JAFRELIN_PROBE_MAX_STEPS 576
#define JAFRELIN_PROBE_MAX_BYTES 76214
#define JAFRELIN_PROBE_MAX_LIST 6656
#define JAFRELIN_PROBE_MAX_WRITTEN 13846

/* The most bytes of a task in words or its drawings, of the trace of a list, of a sentence, and of the sheet of a plan, 25 a line. No text ends with a zero byte. */
#define JAFRELIN_TEXT_MAX_BYTES 65536
#define JAFRELIN_TRACE_MAX_BYTES 3145728
#define JAFRELIN_SENTENCE_MAX_BYTES 256
#define JAFRELIN_SHEET_LINE_BYTES 25
#define JAFRELIN_SHEET_MAX_BYTES (JAFRELIN_SHEET_LINE_BYTES * (JAFRELIN_TASK_MAX_LIST + 1))

/* The stack that a function needs at most, in bytes, beside what memcpy and memset need; docs/PERFORMANCE.md says how it was measured. */
#define JAFRELIN_STACK_CHECK_TASK 4096
#define JAFRELIN_STACK_CHECK_PROBE 8192
#define JAFRELIN_STACK_COST 4096
#define JAFRELIN_STACK_RELAXED_COST 4096
#define JAFRELIN_STACK_DEAREST 4096
#define JAFRELIN_STACK_RUN_TASK 4096
#define JAFRELIN_STACK_RUN_PROBE 8192
#define JAFRELIN_STACK_ESTIMATE_TASK 49152
#define JAFRELIN_STACK_ESTIMATE_PROBE 69632
#define JAFRELIN_STACK_COMPILE 4096
#define JAFRELIN_STACK_EXPAND 24576
#define JAFRELIN_STACK_CONTRACT 24576
#define JAFRELIN_STACK_SHEET 4096
#define JAFRELIN_STACK_CHARGE 256
#define JAFRELIN_STACK_SHOW 4096
#define JAFRELIN_STACK_DRAW 4096
#define JAFRELIN_STACK_DRAW_ACTION 4096
#define JAFRELIN_STACK_TRACE 24576
#define JAFRELIN_STACK_EXPLAIN 4096

/* Whether a file is accepted. */
uint64_t jafrelin_check_task(const uint8_t *file, size_t file_len);
uint64_t jafrelin_check_probe(const uint8_t *file, size_t file_len);

/* The cost of an action in a state, with the nodes that are passed on its path; and its least cost over all states in a relaxed state that meet its precondition. */
uint64_t jafrelin_cost(const uint8_t *file, size_t file_len, uint64_t action, const uint8_t *state, size_t state_len);
uint64_t jafrelin_relaxed_cost(const uint8_t *file, size_t file_len, uint64_t action, const uint8_t *sets, size_t sets_len);

/* The greatest cost of an action over all states of the task, also those in which it does not apply, and the state that has it, written to the front of a buffer of out_len bytes: among several the smallest,
 * read from variable 0. The number of variables, at most JAFRELIN_TASK_MAX_VARIABLES, is returned with the cost. */
uint64_t jafrelin_dearest(const uint8_t *file, size_t file_len, uint64_t action, uint8_t *out, size_t out_len);

/* The sum of a list of actions, with the nodes that they pass; and that of a list of steps. The probe list of a plan has 2 * list_len + JAFRELIN_NODES(result) entries, with the result of
 * its run: at most 26 for each action. */
uint64_t jafrelin_run_task(const uint8_t *file, size_t file_len, const uint16_t *list, size_t list_len);
uint64_t jafrelin_run_probe(const uint8_t *file, size_t file_len, const uint16_t *list, size_t list_len);

/* The additive estimate from a state. */
uint64_t jafrelin_estimate_task(const uint8_t *file, size_t file_len, const uint8_t *state, size_t state_len);
uint64_t jafrelin_estimate_probe(const uint8_t *file, size_t file_len, const uint8_t *state, size_t state_len);

/* The probe file of a task, written to the front of a buffer of out_len bytes. */
uint64_t jafrelin_compile(const uint8_t *file, size_t file_len, uint8_t *out, size_t out_len);

/* The probe list of a plan, and the plan of a probe list, written to the front of a buffer of out_len entries; the sum is returned with the length. */
uint64_t jafrelin_expand(const uint8_t *file, size_t file_len, const uint16_t *list, size_t list_len, uint16_t *out, size_t out_len);
uint64_t jafrelin_contract(const uint8_t *file, size_t file_len, const uint16_t *list, size_t list_len, uint16_t *out, size_t out_len);

/* The sheet of a plan, written to the front of a buffer of out_len bytes: for each action a line of 24 characters and a newline with its index from 0, its number, its cost and the sum up to it and with it,
 * and a last line with the sum. It has JAFRELIN_SHEET_LINE_BYTES * (plan_len + 1) bytes; the sum is returned with the length, and a list is refused as in a run. */
uint64_t jafrelin_sheet(const uint8_t *file, size_t file_len, const uint16_t *plan, size_t plan_len, uint8_t *out, size_t out_len);

/* What a shop bills for a run of this sum, in cents: 150, and for each started 1,000 of the sum 12 for the first 20 thousands, 9 for the next 80, 5 beyond. Every sum has a
 * charge, at most 21,475,450, and none is refused. */
uint64_t jafrelin_charge(uint32_t sum);

/* The task in words; its cost diagrams for Graphviz, all of them or one action's; the trace of a probe list: each step by name, what it needs and sets, the first
 * that does not apply, and the states unless `states` is 0. Each is written to the front of a buffer of out_len bytes. */
uint64_t jafrelin_show(const uint8_t *file, size_t file_len, uint8_t *out, size_t out_len);
uint64_t jafrelin_draw(const uint8_t *file, size_t file_len, uint8_t *out, size_t out_len);
uint64_t jafrelin_draw_action(const uint8_t *file, size_t file_len, uint64_t action, uint8_t *out, size_t out_len);
uint64_t jafrelin_trace(const uint8_t *file, size_t file_len, const uint16_t *list, size_t list_len, uint64_t states, uint8_t *out, size_t out_len);

/* What a refusal is about: the file, where checking it is refused; else what was handed in beside it. */
enum jafrelin_subject {
    JAFRELIN_OF_FILE = 0,
    JAFRELIN_OF_STATE = 1,     /* a state, or the action that came with it or is asked about */
    JAFRELIN_OF_SETS = 2,      /* a relaxed state, or the action that came with it */
    JAFRELIN_OF_LIST = 3,      /* a list to be run, expanded or traced, or whose sheet is asked for */
    JAFRELIN_OF_CONTRACTED = 4 /* a list to be contracted */
};

/* A sentence for the refusal in a result, with a newline, written to the front of a buffer of out_len bytes; nothing where the result is none. */
uint64_t jafrelin_explain(uint64_t result, uint64_t subject, uint8_t *out, size_t out_len);

#ifdef __cplusplus
}
#endif

#endif
