/* How much stack each C function needs: it is called on a painted stack, for the task files that are named and for one at every limit, and what is no longer painted is
 * counted. Ends with 1 where that is more than the header says. */
#define _GNU_SOURCE
#include <jafrelin.h>
#include <stdio.h>
#include <stdlib.h>
#include <string.h>
#include <ucontext.h>

enum { STACK = 1 << 18, PAINT = 0xa5 };

static unsigned char stack[STACK] __attribute__((aligned(4096)));
static ucontext_t here, there;

static uint8_t text[JAFRELIN_TRACE_MAX_BYTES];
static uint8_t task[JAFRELIN_TASK_MAX_BYTES + 1], probe[JAFRELIN_PROBE_MAX_WRITTEN];
static uint8_t state[JAFRELIN_TASK_MAX_VARIABLES], sets[JAFRELIN_TASK_MAX_VARIABLES], probe_state[JAFRELIN_PROBE_MAX_VARIABLES];
static uint16_t plan[JAFRELIN_TASK_MAX_LIST], back[JAFRELIN_TASK_MAX_LIST], list[JAFRELIN_PROBE_MAX_LIST];
static size_t task_len, probe_len, actions, steps, variables, probe_variables;

static void check_task(void) { jafrelin_check_task(task, task_len); }
static void check_probe(void) { jafrelin_check_probe(probe, probe_len); }
static void cost(void) { jafrelin_cost(task, task_len, 0, state, variables); }
static void relaxed_cost(void) { jafrelin_relaxed_cost(task, task_len, 0, sets, variables); }
static void dearest(void) { jafrelin_dearest(task, task_len, 0, text, sizeof text); }
static void run_task(void) { jafrelin_run_task(task, task_len, plan, actions); }
static void run_probe(void) { jafrelin_run_probe(probe, probe_len, list, steps); }
static void estimate_task(void) { jafrelin_estimate_task(task, task_len, state, variables); }
static void estimate_probe(void) { jafrelin_estimate_probe(probe, probe_len, probe_state, probe_variables); }
static void compile(void) { jafrelin_compile(task, task_len, probe, sizeof probe); }
static void expand(void) { jafrelin_expand(task, task_len, plan, actions, list, JAFRELIN_PROBE_MAX_LIST); }
static void contract(void) { jafrelin_contract(task, task_len, list, steps, back, JAFRELIN_TASK_MAX_LIST); }
static void sheet(void) { jafrelin_sheet(task, task_len, plan, actions, text, sizeof text); }
static void charge(void) { jafrelin_charge(UINT32_MAX); }
static void show(void) { jafrelin_show(task, task_len, text, sizeof text); }
static void draw(void) { jafrelin_draw(task, task_len, text, sizeof text); }
static void draw_action(void) { jafrelin_draw_action(task, task_len, 0, text, sizeof text); }
static void trace(void) { jafrelin_trace(task, task_len, list, steps, 1, text, sizeof text); }
static void explain(void) { jafrelin_explain((uint64_t)JAFRELIN_SHORT << 56 | UINT32_MAX, JAFRELIN_OF_FILE, text, sizeof text); }
static void nothing(void) {}

static struct {
    const char *name;
    void (*call)(void);
    size_t said, used;
} calls[] = {
    {"check_task", check_task, JAFRELIN_STACK_CHECK_TASK, 0},
    {"check_probe", check_probe, JAFRELIN_STACK_CHECK_PROBE, 0},
    {"cost", cost, JAFRELIN_STACK_COST, 0},
    {"relaxed_cost", relaxed_cost, JAFRELIN_STACK_RELAXED_COST, 0},
    {"dearest", dearest, JAFRELIN_STACK_DEAREST, 0},
    {"run_task", run_task, JAFRELIN_STACK_RUN_TASK, 0},
    {"run_probe", run_probe, JAFRELIN_STACK_RUN_PROBE, 0},
    {"estimate_task", estimate_task, JAFRELIN_STACK_ESTIMATE_TASK, 0},
    {"estimate_probe", estimate_probe, JAFRELIN_STACK_ESTIMATE_PROBE, 0},
    {"compile", compile, JAFRELIN_STACK_COMPILE, 0},
    {"expand", expand, JAFRELIN_STACK_EXPAND, 0},
    {"contract", contract, JAFRELIN_STACK_CONTRACT, 0},
    {"sheet", sheet, JAFRELIN_STACK_SHEET, 0},
    {"charge", charge, JAFRELIN_STACK_CHARGE, 0},
    {"show", show, JAFRELIN_STACK_SHOW, 0},
    {"draw", draw, JAFRELIN_STACK_DRAW, 0},
    {"draw_action", draw_action, JAFRELIN_STACK_DRAW_ACTION, 0},
    {"trace", trace, JAFRELIN_STACK_TRACE, 0},
    {"explain", explain, JAFRELIN_STACK_EXPLAIN, 0},
};

/* What a call leaves unpainted. */
static size_t used(void (*call)(void))
{
    size_t low = 0;
    memset(stack, PAINT, sizeof stack);
    getcontext(&there);
    there.uc_stack.ss_sp = stack;
    there.uc_stack.ss_size = sizeof stack;
    there.uc_link = &here;
    makecontext(&there, call, 0);
    swapcontext(&here, &there);
    while (low < STACK && stack[low] == PAINT)
        low++;
    return STACK - low;
}

/* Every function, on the task that is there. */
static void measure(void)
{
    size_t none = used(nothing);
    /* an empty file is the blank task, of one variable at 0 */
    variables = task_len ? task[0] : 1;
    memset(state, 0, sizeof state);
    if (task_len)
        memcpy(state, task + 1 + variables, variables);
    for (size_t v = 0; v < variables; v++)
        sets[v] = (uint8_t)(1 << state[v]);
    probe_len = JAFRELIN_LENGTH(jafrelin_compile(task, task_len, probe, sizeof probe));
    if (!probe_len) {
        printf("a task was refused\n");
        exit(2);
    }
    probe_variables = probe[0];
    memcpy(probe_state, probe + 1 + probe_variables, probe_variables);
    steps = JAFRELIN_LENGTH(jafrelin_expand(task, task_len, plan, actions, list, JAFRELIN_PROBE_MAX_LIST));
    for (size_t i = 0; i < sizeof calls / sizeof *calls; i++) {
        size_t n = used(calls[i].call) - none;
        calls[i].used = n > calls[i].used ? n : calls[i].used;
    }
}

static void put(unsigned byte, size_t count)
{
    memset(task + task_len, (int)byte, count);
    task_len += count;
}

/* 24 variables of 8 values, 32 actions of two nodes: its probe file has 57 variables and 576 steps. */
static void every_limit(void)
{
    task_len = 0;
    put(JAFRELIN_TASK_MAX_VARIABLES, 1);
    put(JAFRELIN_TASK_MAX_VALUES, JAFRELIN_TASK_MAX_VARIABLES);
    put(0, JAFRELIN_TASK_MAX_VARIABLES + 8);
    put(JAFRELIN_TASK_MAX_ACTIONS, 1);
    for (int a = 0; a < JAFRELIN_TASK_MAX_ACTIONS; a++) {
        put(0, 18);
        put(2, 1);
        for (unsigned node = 1; node <= 2; node++) {
            put(node, 1);
            for (int d = 0; d < JAFRELIN_TASK_MAX_VALUES; d++) {
                put(node + 1, 1);
                put(node, 2);
            }
        }
    }
    actions = JAFRELIN_TASK_MAX_LIST;
    for (size_t i = 0; i < actions; i++)
        plan[i] = (uint16_t)(i % JAFRELIN_TASK_MAX_ACTIONS);
}

int main(int argc, char **argv)
{
    int bad = 0;
    for (int i = 1; i < argc; i++) {
        FILE *in = fopen(argv[i], "rb");
        if (!in)
            return 2;
        task_len = fread(task, 1, sizeof task, in);
        fclose(in);
        actions = 0;
        measure();
    }
    every_limit();
    measure();
    for (size_t i = 0; i < sizeof calls / sizeof *calls; i++) {
        printf("%s %zu of %zu\n", calls[i].name, calls[i].used, calls[i].said);
        bad |= calls[i].used == 0 || calls[i].used > calls[i].said;
    }
    return bad;
}
