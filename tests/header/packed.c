/* Where packed totals stand, as host/settlement.h says it. The first job file named is the small evening of the
   drawing: its words are held to it; the second is the same with a second list. For every file: a total stands at its
   place by the header's words, list by list, so many words of both tables are needed, no more and no less, and (M + T) L
   suffice. The last line is 'N passed, M failed'. */
#include "settlement.h"

#include <stdio.h>
#include <string.h>

static struct settlement_job job;
static struct settlement_state state;
static unsigned passed, failed;

static void expect(int holds, const char *name, const char *what)
{
    if (holds) {
        passed++;
        return;
    }
    failed++;
    printf("failed: %s: %s\n", name, what);
}

/* Among tallies of the same grocer, offer and bag, bag 0 left out, the highest revision stands. */
static int stands(size_t t)
{
    for (size_t u = 0; u < job.tallies; u++)
        if (job.tally_bag[t] != 0 && job.tally_bag[u] == job.tally_bag[t] &&
            job.tally_grocer[u] == job.tally_grocer[t] && job.tally_offer[u] == job.tally_offer[t] &&
            job.tally_revision[u] > job.tally_revision[t])
            return 0;
    return 1;
}

/* Whether a box holds a standing tally of a grocer, and the sum of count x price over them on each list. */
static int holds_tally[SETTLEMENT_MAX_BOXES][SETTLEMENT_MAX_GROCERS];
static int64_t part[SETTLEMENT_MAX_BOXES][SETTLEMENT_MAX_GROCERS][SETTLEMENT_MAX_WIDTH];

static void note_tallies(void)
{
    memset(holds_tally, 0, sizeof holds_tally);
    memset(part, 0, sizeof part);
    for (size_t t = 0; t < job.tallies; t++) {
        if (!stands(t))
            continue;
        holds_tally[job.tally_box[t]][job.tally_grocer[t]] = 1;
        for (size_t q = 0; q <= job.lists; q++)
            part[job.tally_box[t]][job.tally_grocer[t]][q] +=
                (int64_t)job.tally_count[t] * job.price[q * job.offers + job.tally_offer[t]];
    }
}

/* The totals by place: own grocers of a box ascending, then those of others by owner and number. */
struct total {
    uint16_t box, grocer;
};
static struct total totals[SETTLEMENT_MAX_GROCERS + SETTLEMENT_MAX_TALLIES];
static size_t places;

static void note_totals(void)
{
    places = 0;
    for (uint16_t box = 0; box < job.boxes; box++) {
        for (uint16_t g = 0; g < job.grocers; g++)
            if (job.grocer_owner[g] == box)
                totals[places++] = (struct total){box, g};
        for (uint16_t owner = 0; owner < job.boxes; owner++)
            for (uint16_t g = 0; g < job.grocers; g++)
                if (owner != box && job.grocer_owner[g] == owner && holds_tally[box][g])
                    totals[places++] = (struct total){box, g};
    }
}

/* Every step of a kind that is accepted. */
static void make_all(uint16_t kind)
{
    for (uint16_t first = 0; first < job.boxes; first++)
        for (uint16_t second = 0; second < job.boxes; second++)
            settlement_step_job(&job, &state, kind, first, second);
}

/* Each word of a table: the part of its box, grocer and list where it is of an own grocer, or of another box's, or else
   0. */
static int has_parts(const int64_t *table, int own, int others)
{
    int same = 1;
    for (size_t p = 0; p < places; p++) {
        int there = job.grocer_owner[totals[p].grocer] == totals[p].box ? own : others;
        for (size_t q = 0; q <= job.lists; q++)
            same &= *table++ == (there ? part[totals[p].box][totals[p].grocer][q] : 0);
    }
    return same;
}

/* All sums made, then all totals sent. */
static void try_places(const char *name)
{
    settlement_make_fresh(&job, &state);
    make_all(SETTLEMENT_SEND_PRICES);
    make_all(SETTLEMENT_SWEEP_OWN);
    make_all(SETTLEMENT_RECEIVE_PRICES);
    expect(has_parts(state.working, 1, 1), name, "each working total stands at its place");
    expect(has_parts(state.total_transit, 0, 0), name, "nothing is in transit");
    make_all(SETTLEMENT_SEND_TOTALS);
    expect(has_parts(state.working, 1, 0), name, "own working totals stay where they are");
    expect(has_parts(state.total_transit, 0, 1), name, "each total in transit stands at its sender's place");
}

/* A step and a run with so many words of the two tables. */
static void try_lengths(const char *name, size_t working, size_t total_transit, uint16_t due)
{
    const uint16_t no_choice = 0;
    uint16_t no_step = 0;
    uint32_t report[SETTLEMENT_REPORT];
    settlement_make_fresh(&job, &state);
#define JOB_AND_STATE                                                                                                  \
    job.boxes, job.grocers, job.offers, job.tallies, job.lists, SETTLEMENT_TABLE(job.price),                           \
        SETTLEMENT_TABLE(job.offer_owner), SETTLEMENT_TABLE(job.grocer_owner), SETTLEMENT_TABLE(job.tally_grocer),     \
        SETTLEMENT_TABLE(job.tally_box), SETTLEMENT_TABLE(job.tally_offer), SETTLEMENT_TABLE(job.tally_count),         \
        SETTLEMENT_TABLE(job.tally_bag), SETTLEMENT_TABLE(job.tally_revision), SETTLEMENT_TABLE(state.known),          \
        SETTLEMENT_TABLE(state.price_transit), state.working, working, state.total_transit, total_transit,             \
        SETTLEMENT_TABLE(state.statement), SETTLEMENT_TABLE(state.done), SETTLEMENT_TABLE(state.sent)
    expect(settlement_step(JOB_AND_STATE, SETTLEMENT_SWEEP_OWN, 0, 0) == due, name, "a step with so many words");
    expect(settlement_run(JOB_AND_STATE, &no_choice, 0, &no_step, 0, report, SETTLEMENT_REPORT) == due, name,
           "a run with so many words");
}

/* The drawings: three places, of grocer 1 in box 0, of grocer 0 in box 0, and of grocer 0 in box 1. */
static void try_drawing(const char *name)
{
    static const struct total drawn[] = {{0, 1}, {0, 0}, {1, 0}};
    static const int64_t swept[] = {2500, 1500, 750}, on_two_lists[] = {2500, 400, 1500, 300, 750, 200};
    expect(places == 3 && memcmp(totals, drawn, sizeof drawn) == 0, name, "the totals are those of the drawing");
    settlement_make_fresh(&job, &state);
    make_all(SETTLEMENT_SEND_PRICES);
    make_all(SETTLEMENT_SWEEP_OWN);
    make_all(SETTLEMENT_RECEIVE_PRICES);
    if (job.lists == 0)
        expect(memcmp(state.working, swept, sizeof swept) == 0, name, "the words are those of the drawing");
    else
        expect(memcmp(state.working, on_two_lists, sizeof on_two_lists) == 0, name,
               "the words are those of the drawing with two lists");
}

static size_t read_file(const char *path, uint8_t *bytes, size_t most)
{
    FILE *in = fopen(path, "rb");
    size_t length = in == NULL ? 0 : fread(bytes, 1, most, in);
    if (in != NULL)
        fclose(in);
    return length;
}

int main(int argc, char **argv)
{
    static uint8_t file[SETTLEMENT_MAX_FILE + 1];
    for (int i = 1; i < argc; i++) {
        uint16_t answer = settlement_read_job(file, read_file(argv[i], file, sizeof file), &job);
        expect(answer == SETTLEMENT_ACCEPTED, argv[i], "the file is accepted");
        if (answer != SETTLEMENT_ACCEPTED)
            continue;
        note_tallies();
        note_totals();
        size_t width = job.lists + 1u, words = places * width, enough = ((size_t)job.grocers + job.tallies) * width;
        if (i <= 2)
            try_drawing(argv[i]);
        try_places(argv[i]);
        try_lengths(argv[i], words, words, SETTLEMENT_ACCEPTED);
        try_lengths(argv[i], words - 1, words, SETTLEMENT_SHORT);
        try_lengths(argv[i], words, words - 1, SETTLEMENT_SHORT);
        try_lengths(argv[i], enough, enough, SETTLEMENT_ACCEPTED);
    }
    printf("%u passed, %u failed\n", passed, failed);
    return failed != 0;
}
