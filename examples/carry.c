/* Compiles a task file, runs a plan to know how many steps it has on the probe, carries it across and back, compares the sums, and traces the steps; what a shop bills for it
 * is said with the sum.
 *
 *   (cd crates/jafrelin && rt lib)
 *   cc -Iinclude examples/carry.c crates/jafrelin/out/libjafrelin.a -o carry
 *   ./carry examples/breakpoints.task 0 1 2 3 4 5 6
 */
#include <jafrelin.h>
#include <stdio.h>
#include <stdlib.h>

/* One byte more than a task file has, so that a longer file is refused; likewise of the plan. */
static uint8_t task[JAFRELIN_TASK_MAX_BYTES + 1];
static uint16_t plan[JAFRELIN_TASK_MAX_LIST + 1];
static uint8_t probe[JAFRELIN_PROBE_MAX_WRITTEN];
static uint16_t steps[JAFRELIN_PROBE_MAX_LIST], back[JAFRELIN_TASK_MAX_LIST];
static uint8_t text[JAFRELIN_TRACE_MAX_BYTES];

/* The result, if it is no refusal. */
static uint64_t accepted(uint64_t result, enum jafrelin_subject subject)
{
    if (JAFRELIN_REFUSAL(result)) {
        size_t length = JAFRELIN_LENGTH(jafrelin_explain(result, subject, text, sizeof text));
        printf("refused %u at %u\n%.*s", JAFRELIN_REFUSAL(result), (unsigned)JAFRELIN_PLACE(result), (int)length, (const char *)text);
        exit(1);
    }
    return result;
}

int main(int argc, char **argv)
{
    FILE *in = argc > 1 ? fopen(argv[1], "rb") : NULL;
    if (!in) {
        fprintf(stderr, "usage: carry TASK [ACTION..]\n");
        return 2;
    }
    size_t task_len = fread(task, 1, sizeof task, in);
    fclose(in);
    size_t actions = 0;
    for (int i = 2; i < argc && actions <= JAFRELIN_TASK_MAX_LIST; i++)
        plan[actions++] = (uint16_t)strtoul(argv[i], NULL, 10);

    size_t probe_len = JAFRELIN_LENGTH(accepted(jafrelin_compile(task, task_len, probe, sizeof probe), JAFRELIN_OF_FILE));
    uint64_t run = accepted(jafrelin_run_task(task, task_len, plan, actions), JAFRELIN_OF_LIST);
    size_t count = 2 * actions + JAFRELIN_NODES(run);
    uint64_t there = accepted(jafrelin_expand(task, task_len, plan, actions, steps, count), JAFRELIN_OF_LIST);
    uint64_t followed = accepted(jafrelin_run_probe(probe, probe_len, steps, count), JAFRELIN_OF_LIST);
    uint64_t home = accepted(jafrelin_contract(task, task_len, steps, count, back, JAFRELIN_TASK_MAX_LIST), JAFRELIN_OF_CONTRACTED);
    uint64_t trace = accepted(jafrelin_trace(task, task_len, steps, count, 1, text, sizeof text), JAFRELIN_OF_LIST);

    unsigned cents = JAFRELIN_CENTS(jafrelin_charge(JAFRELIN_SUM(there)));

    printf("%zu bytes, %zu steps, sum %u, charge %u.%02u\n", probe_len, count, (unsigned)JAFRELIN_SUM(there), cents / 100, cents % 100);
    fwrite(text, 1, JAFRELIN_LENGTH(trace), stdout);
    return JAFRELIN_SUM(there) != JAFRELIN_SUM(run) || JAFRELIN_LENGTH(there) != count || JAFRELIN_SUM(there) != JAFRELIN_SUM(followed) || JAFRELIN_SUM(there) != JAFRELIN_SUM(home) || JAFRELIN_LENGTH(home) != actions;
}
