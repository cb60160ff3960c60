/* The texts of a task file: in words, all of its cost diagrams, the sheet of the plan that the arguments behind it are, the diagram of action 0, the trace of the list 0 1 2 and the dearest state of
 * action 0, the last three where there are actions; each in a buffer that is just long enough, after one that is too short. */
#include <jafrelin.h>
#include <stdio.h>
#include <stdlib.h>
#include <string.h>

static uint8_t task[JAFRELIN_TASK_MAX_BYTES + 1], text[JAFRELIN_TEXT_MAX_BYTES];
static const uint16_t list[] = {0, 1, 2};
static uint16_t plan[JAFRELIN_TASK_MAX_LIST];
static size_t task_len, plan_len;

static uint64_t show(size_t room) { return jafrelin_show(task, task_len, text, room); }
static uint64_t draw(size_t room) { return jafrelin_draw(task, task_len, text, room); }
static uint64_t sheet(size_t room) { return jafrelin_sheet(task, task_len, plan, plan_len, text, room); }
static uint64_t draw_action(size_t room) { return jafrelin_draw_action(task, task_len, 0, text, room); }
static uint64_t trace(size_t room) { return jafrelin_trace(task, task_len, list, 3, 0, text, room); }

static uint64_t dearest(size_t room) { return jafrelin_dearest(task, task_len, 0, text, room); }

static void print_text(uint64_t done) { fwrite(text, 1, JAFRELIN_LENGTH(done), stdout); }

static void print_state(uint64_t done)
{
    printf("cost %u\nstate", (unsigned)JAFRELIN_SUM(done));
    for (size_t v = 0; v < JAFRELIN_LENGTH(done); v++)
        printf(" %u", text[v]);
    printf("\n");
}

/* A refusal has the length needed, and leaves the buffer as it was; the result is then what `print` prints. */
static int put_by(uint64_t (*write)(size_t), void (*print)(uint64_t))
{
    memset(text, '#', sizeof text);
    uint64_t refused = write(0), again = write(JAFRELIN_PLACE(refused) - 1);
    for (size_t i = 0; i < sizeof text; i++)
        if (text[i] != '#')
            return 1;
    uint64_t done = write(JAFRELIN_PLACE(refused));
    print(done);
    return refused != again || JAFRELIN_REFUSAL(refused) != JAFRELIN_SHORT || JAFRELIN_LENGTH(done) != JAFRELIN_PLACE(refused);
}

static int put(uint64_t (*write)(size_t)) { return put_by(write, print_text); }

int main(int argc, char **argv)
{
    FILE *in = argc > 1 ? fopen(argv[1], "rb") : NULL;
    if (!in)
        return 2;
    task_len = fread(task, 1, sizeof task, in);
    fclose(in);
    for (int i = 2; i < argc && plan_len < JAFRELIN_TASK_MAX_LIST; i++)
        plan[plan_len++] = (uint16_t)strtoul(argv[i], NULL, 10);
    /* the blank task may come with any pointer */
    if (!task_len && jafrelin_show(NULL, 0, text, sizeof text) != show(sizeof text))
        return 1;
    return put(show) || put(draw) || put(sheet) || (task_len && (put(draw_action) || put(trace) || put_by(dearest, print_state)));
}
