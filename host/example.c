/* A host program: settles a job twice, by steps in an order of its own and by one run, and compares the statements.
 * It prints amounts in tenths of a cent, as the library keeps them; the program settle prints whole cents.
 *
 *   example [FILE]    the job file, or standard input
 *
 * Exit status: 0 both alike; 1 a refusal, or they differ; 2 the file cannot be read or the output not written. */
#include "settlement.h"

#include <inttypes.h>
#include <stdio.h>
#include <string.h>

/* Words sent, messages and steps, as in a run's report. */
enum { SENT, MESSAGES, STEPS };

/* Tries the steps of one kind, the last boxes first. Answers 0, or a refusal that no order of steps explains. */
static uint16_t try_kind(const struct settlement_job *j, struct settlement_state *s, uint16_t kind, uint32_t *report)
{
    for (uint16_t first = j->boxes; first-- > 0;)
        for (uint16_t second = j->boxes; second-- > 0;) {
            uint16_t answer = settlement_step_job(j, s, kind, first, second);
            switch (answer) {
            case SETTLEMENT_ACCEPTED:
                report[STEPS]++;
                report[MESSAGES] += kind == SETTLEMENT_SEND_PRICES || kind == SETTLEMENT_SEND_TOTALS;
                break;
            case SETTLEMENT_BAD_BOXES:     /* no step has these boxes, */
            case SETTLEMENT_EMPTY_MESSAGE: /* the job has no such step, */
            case SETTLEMENT_ALREADY_DONE:  /* it is behind us, */
            case SETTLEMENT_NOT_READY:     /* or comes later */
                break;
            default:
                return answer;
            }
        }
    return SETTLEMENT_ACCEPTED;
}

/* Rounds over all requests, those that receive last: totals that wait for no price leave before any is received. A
 * round that has none accepted shows that all steps are done. */
static uint16_t settle_by_steps(const struct settlement_job *j, struct settlement_state *s, uint32_t *report)
{
    static const uint16_t kinds[] = {SETTLEMENT_SEND_PRICES,    SETTLEMENT_SWEEP_OWN,   SETTLEMENT_SEND_TOTALS,
                                     SETTLEMENT_ADD_OWN_TOTALS, SETTLEMENT_RECEIVE_PRICES, SETTLEMENT_RECEIVE_TOTALS};
    uint32_t before;
    uint16_t fresh = settlement_make_fresh(j, s);
    if (fresh != SETTLEMENT_ACCEPTED)
        return fresh;
    do {
        before = report[STEPS];
        for (size_t i = 0; i < sizeof kinds / sizeof kinds[0]; i++) {
            uint16_t answer = try_kind(j, s, kinds[i], report);
            if (answer != SETTLEMENT_ACCEPTED)
                return answer;
        }
    } while (report[STEPS] != before);
    report[SENT] = s->sent[0];
    return SETTLEMENT_ACCEPTED;
}

static uint16_t settle_by_run(const struct settlement_job *j, struct settlement_state *s, uint32_t *report)
{
    /* No choices: the first ready step is taken each time. No room for the steps picked: the order is not asked for. */
    return settlement_run_job(j, s, NULL, 0, NULL, 0, report);
}

/* A grocer's line: its amount on each list, those of additional lists after the first. */
static void print_grocer(size_t grocer, uint16_t lists, const int64_t *amounts)
{
    printf("%zu", grocer);
    for (size_t q = 0; q <= lists; q++)
        printf(" %" PRId64, amounts[q]);
    putchar('\n');
}

static void print_settlement(const char *title, const struct settlement_job *j, const struct settlement_state *s,
                             const uint32_t *report)
{
    printf("%s, amounts in tenths of a cent\n", title);
    for (size_t g = 0; g < j->grocers; g++)
        print_grocer(g, j->lists, &s->statement[g * (j->lists + 1u)]);
    printf("words %" PRIu32 "\n", report[SENT]);
    printf("messages %" PRIu32 "\n", report[MESSAGES]);
    printf("steps %" PRIu32 "\n", report[STEPS]);
}

static int refused(uint16_t answer)
{
    printf("refused %u\n", (unsigned)answer);
    fprintf(stderr, "example: %s\n", settlement_text(answer));
    return 1;
}

/* Both settlements of the job in a file, printed. */
static int settle(const uint8_t *file, size_t length)
{
    static struct settlement_job job;
    static struct settlement_state by_steps, by_run;
    uint32_t steps_report[SETTLEMENT_REPORT] = {0}, run_report[SETTLEMENT_REPORT] = {0};
    uint16_t answer = settlement_read_job(file, length, &job);
    if (answer == SETTLEMENT_ACCEPTED)
        answer = settle_by_steps(&job, &by_steps, steps_report);
    if (answer == SETTLEMENT_ACCEPTED)
        answer = settle_by_run(&job, &by_run, run_report);
    if (answer != SETTLEMENT_ACCEPTED)
        return refused(answer);
    print_settlement("by steps", &job, &by_steps, steps_report);
    print_settlement("by a run", &job, &by_run, run_report);
    size_t words = job.grocers * (job.lists + 1u);
    int alike = memcmp(by_steps.statement, by_run.statement, words * sizeof by_run.statement[0]) == 0 &&
                memcmp(steps_report, run_report, sizeof run_report) == 0;
    puts(alike ? "equal" : "different");
    return alike ? 0 : 1;
}

static int fail(const char *what)
{
    fprintf(stderr, "example: %s\n", what);
    return 2;
}

int main(int argc, char **argv)
{
    static uint8_t file[SETTLEMENT_MAX_FILE + 1]; /* one byte more: a file that is too long is refused as such */
    if (argc > 2)
        return fail("usage: example [FILE]");
    FILE *in = argc == 2 ? fopen(argv[1], "rb") : stdin;
    if (in == NULL)
        return fail("the file cannot be opened");
    size_t length = fread(file, 1, sizeof file, in);
    if (ferror(in))
        return fail("the file cannot be read");
    if (in != stdin)
        fclose(in);
    int status = settle(file, length);
    if (fflush(stdout) != 0 || ferror(stdout))
        return fail("the output cannot be written");
    return status;
}
