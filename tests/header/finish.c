/* When a settlement by steps is finished, as host/settlement.h says it: for each job file named, both ways of knowing
   it agree, in several orders of requests, and in that of the steps which a run has picked. The last line is 'N passed,
   M failed'. */
#include "settlement.h"

#include <stdio.h>
#include <string.h>

static struct settlement_job job;
static struct settlement_state state, by_run;
static uint32_t report[SETTLEMENT_REPORT];
static uint16_t picked[SETTLEMENT_MAX_STEPS];
static unsigned passed, failed;

static void expect(int holds, const char *name, const char *what)
{
    if (holds) {
        passed++;
        return;
    }
    failed++;
    printf("failed: %s: %s\n", name, what);
}

/* How many requests of one round over all were accepted, and how many were answered so that no step is left there. */
struct round {
    uint32_t accepted, settled, asked;
};

/* Every request once: the places of the done marks, from one of them on, in strides that meet all of them. */
static struct round go_round(uint32_t start, uint32_t stride)
{
    struct round round = {0, 0, 6u * job.boxes * job.boxes};
    for (uint32_t i = 0; i < round.asked; i++) {
        uint32_t place = (start + i * stride) % round.asked, pair = place % ((uint32_t)job.boxes * job.boxes);
        uint16_t answer = settlement_step_job(&job, &state, (uint16_t)(place / ((uint32_t)job.boxes * job.boxes) + 1),
                                              (uint16_t)(pair / job.boxes), (uint16_t)(pair % job.boxes));
        round.accepted += answer == SETTLEMENT_ACCEPTED;
        round.settled += answer == SETTLEMENT_BAD_BOXES || answer == SETTLEMENT_EMPTY_MESSAGE ||
                         answer == SETTLEMENT_ALREADY_DONE;
    }
    return round;
}

static int nothing_left(void)
{
    int64_t left = 0;
    for (size_t i = 0; i < (size_t)job.boxes * job.offers * (job.lists + 1u); i++)
        left |= state.price_transit[i];
    for (size_t i = 0; i < SETTLEMENT_MAX_WORKING; i++)
        left |= state.working[i] | state.total_transit[i];
    return left == 0;
}

/* Rounds until one has none accepted. */
static void settle(const char *name, uint32_t start, uint32_t stride)
{
    uint32_t accepted = 0;
    struct round round;
    settlement_make_fresh(&job, &state);
    do {
        expect(accepted < report[2] || !memcmp(state.statement, by_run.statement, sizeof state.statement), name,
               "as many steps as a run's, and other statements");
        round = go_round(start, stride);
        accepted += round.accepted;
        start += stride;
    } while (round.accepted > 0);
    expect(round.settled == round.asked, name, "after the end a request is answered otherwise than 23, 24 or 25");
    expect(accepted == report[2], name, "as many steps are accepted as a run reports");
    expect(nothing_left(), name, "nothing is left in working totals or in transit");
    expect(!memcmp(&state, &by_run, sizeof state), name, "the state is that of a run");
}

/* The steps that the run has picked, in their order; a kind, first and second from each place. */
static void settle_as_picked(const char *name)
{
    uint32_t accepted = 0;
    settlement_make_fresh(&job, &state);
    for (uint32_t i = 0; i < report[2]; i++) {
        unsigned place = picked[i], boxes = job.boxes;
        accepted += settlement_step_job(&job, &state, (uint16_t)(place / (boxes * boxes) + 1),
                                        (uint16_t)(place / boxes % boxes),
                                        (uint16_t)(place % boxes)) == SETTLEMENT_ACCEPTED;
    }
    expect(accepted == report[2], name, "the steps that a run has picked are accepted in their order");
    expect(!memcmp(&state, &by_run, sizeof state), name, "they leave the state of the run");
}

static size_t read_file(const char *path, uint8_t *bytes, size_t most)
{
    FILE *in = fopen(path, "rb");
    size_t length = in == NULL ? 0 : fread(bytes, 1, most, in);
    if (in != NULL)
        fclose(in);
    return length;
}

int main(int argc, char **argv)
{
    static uint8_t file[SETTLEMENT_MAX_FILE + 1];
    static const uint16_t choices[] = {5, 3, 60000, 2};
    static const uint32_t strides[] = {1, 17, 101, 7919}; /* 1, or a prime that does not divide 6 K K */
    for (int i = 1; i < argc; i++) {
        uint16_t answer = settlement_read_job(file, read_file(argv[i], file, sizeof file), &job);
        expect(answer == SETTLEMENT_ACCEPTED, argv[i], "the file is accepted");
        if (answer != SETTLEMENT_ACCEPTED)
            continue;
        memset(&by_run, 0, sizeof by_run);
        answer = settlement_run_job(&job, &by_run, choices, 4, SETTLEMENT_TABLE(picked), report);
        expect(answer == SETTLEMENT_ACCEPTED, argv[i], "the run is accepted");
        expect(report[2] == 2u * job.boxes + 2 * report[1], argv[i], "2 K + 2 x (messages) steps");
        for (size_t s = 0; s < sizeof strides / sizeof strides[0]; s++)
            settle(argv[i], (uint32_t)s, strides[s]);
        settle_as_picked(argv[i]);
    }
    printf("%u passed, %u failed\n", passed, failed);
    return failed != 0;
}
