/* How much stack a call needs: each of the three calls on a stack of its own, filled with one byte before. For each job
   file named, the reader, every step request in order, and runs with and without choices; none may need 32 KiB. The last
   line is 'N passed, M failed'. */
#include "settlement.h"

#include <stdio.h>
#include <ucontext.h>

enum { ROOM = 256 * 1024, PROMISED = 32 * 1024, CHOICES = 1000, FILL = 0xA5 };
enum call { READ, STEP, RUN, CALLS };

static _Alignas(64) unsigned char stack[ROOM];
static ucontext_t here, there;
static struct settlement_job job;
static struct settlement_state state;
static uint8_t file[SETTLEMENT_MAX_FILE];
static size_t length, most[CALLS];
static uint16_t kind, first, second, answer, choices[CHOICES], picked[SETTLEMENT_MAX_STEPS];
static size_t choices_len;
static uint32_t report[SETTLEMENT_REPORT];
static unsigned passed, failed;

static void expect(int holds, const char *name, const char *what)
{
    if (holds) {
        passed++;
        return;
    }
    failed++;
    printf("failed: %s: %s\n", name, what);
}

static void read_it(void) { answer = settlement_read_job(file, length, &job); }
static void step_it(void) { answer = settlement_step_job(&job, &state, kind, first, second); }
static void run_it(void)
{
    answer = settlement_run_job(&job, &state, choices, choices_len, SETTLEMENT_TABLE(picked), report);
}

/* Functions whose need is known. */
static void use_some(void)
{
    volatile unsigned char some[20000];
    some[0] = some[sizeof some - 1] = 1;
}

static void use_much(void)
{
    volatile unsigned char much[PROMISED];
    much[0] = much[sizeof much - 1] = 1;
}

/* The bytes of a stack that a function has written to, from the lowest on. */
static size_t needed_by(void (*function)(void))
{
    size_t untouched = 0;
    memset(stack, FILL, sizeof stack);
    getcontext(&there);
    there.uc_stack.ss_sp = stack;
    there.uc_stack.ss_size = sizeof stack;
    there.uc_link = &here;
    makecontext(&there, function, 0);
    swapcontext(&here, &there);
    while (untouched < sizeof stack && stack[untouched] == FILL)
        untouched++;
    return sizeof stack - untouched;
}

static void measure(enum call call, const char *name)
{
    static void (*const functions[])(void) = {read_it, step_it, run_it};
    static const char *const what[] = {"the reader needs 32 KiB", "a step needs 32 KiB", "a run needs 32 KiB"};
    size_t need = needed_by(functions[call]);
    if (need > most[call])
        most[call] = need;
    if (need >= PROMISED)
        expect(0, name, what[call]);
}

static void measure_steps(const char *name)
{
    settlement_make_fresh(&job, &state);
    for (kind = 0; kind <= 7; kind++)
        for (first = 0; first <= job.boxes; first++)
            for (second = 0; second <= job.boxes; second++)
                measure(STEP, name);
}

static size_t read_file(const char *path)
{
    FILE *in = fopen(path, "rb");
    size_t bytes = in == NULL ? 0 : fread(file, 1, sizeof file, in);
    if (in != NULL)
        fclose(in);
    return bytes;
}

static void measure_all(const char *name)
{
    length = read_file(name);
    expect(length > 0, name, "the file is there");
    measure(READ, name);
    if (answer != SETTLEMENT_ACCEPTED)
        return;
    measure_steps(name);
    for (choices_len = 0; choices_len <= CHOICES; choices_len += CHOICES) {
        measure(RUN, name);
        expect(answer == SETTLEMENT_ACCEPTED, name, "the run is accepted");
    }
}

int main(int argc, char **argv)
{
    for (size_t i = 0; i < CHOICES; i++)
        choices[i] = (uint16_t)(i * 40503);
    size_t some = needed_by(use_some);
    expect(some >= 20000 && some < 21000, "a function that needs 20,000 bytes", "it is seen");
    expect(needed_by(use_much) >= PROMISED, "a function that needs 32 KiB", "it is seen");
    for (int i = 1; i < argc; i++)
        measure_all(argv[i]);
    printf("bytes of stack at the most: reader %zu, step %zu, run %zu\n", most[READ], most[STEP], most[RUN]);
    for (unsigned call = 0; call < CALLS; call++)
        expect(most[call] > 0 && most[call] < PROMISED, "in all", "each call was made and needs less than 32 KiB");
    printf("%u passed, %u failed\n", passed, failed);
    return failed != 0;
}
