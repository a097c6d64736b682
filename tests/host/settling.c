#include "settling.h"

#include <string.h>

static size_t spare_words(uint32_t spare) { return below(spare + 1); }

size_t steps_of_job(const struct settlement *settlement)
{
    size_t steps = 0;
    for (unsigned kind = 1; kind < KINDS; kind++)
        for (size_t a = 0; a < settlement->job.sizes.boxes; a++)
            for (size_t b = 0; b < settlement->job.sizes.boxes; b++) steps += settlement->machine.has[kind][a][b];
    return steps;
}

/* A length of the steps picked: no word, one, fewer than there are steps, just as many, or all that there are. */
static size_t some_length(size_t steps, size_t whole)
{
    size_t lengths[] = {0, 1, below((uint32_t)steps), steps, whole};
    return lengths[below(5)];
}

size_t words_needed(const struct settlement *settlement, enum table_name name)
{
    struct sizes sizes = settlement->job.sizes;
    return is_packed(name) ? settlement->machine.packed * width_of_entry(sizes) : needed(name, sizes);
}

/* A length of a packed table: as for all others; or enough for every job of these sizes; or full rows. */
static size_t packed_room(const struct settlement *settlement, uint32_t spare)
{
    struct sizes sizes = settlement->job.sizes;
    size_t rooms[] = {words_needed(settlement, WORKING) + spare_words(spare), enough(WORKING, sizes),
                      sizes.boxes * sizes.grocers * width_of_entry(sizes)};
    return rooms[spare == 0 || one_in(2) ? 0 : below(3)];
}

void open_settlement(struct settlement *settlement, uint32_t spare, size_t choices)
{
    size_t lengths[ALL_TABLES] = {0};
    start_fresh(&settlement->machine, &settlement->job);
    size_t steps = steps_of_job(settlement);
    for (unsigned name = 0; name < STEP_TABLES; name++)
        lengths[name] =
            is_packed(name) ? packed_room(settlement, spare) : words_needed(settlement, name) + spare_words(spare);
    lengths[REPORT] = needed(REPORT, settlement->job.sizes) + spare_words(spare);
    lengths[CHOICES] = choices;
    lengths[PICKED] = steps + spare;
    open_lending(&settlement->lending, lengths);
    settlement->lending.lend[PICKED] = some_length(steps, lengths[PICKED]);
    write_job_words(&settlement->job, settlement->lending.twin);
    lend_state(settlement);
    for (size_t t = 0; t < settlement->job.sizes.tallies; t++)
        settlement->stands[t] = stands(settlement->job.tally, settlement->job.sizes.tallies, t);
}

void close_settlement(struct settlement *settlement) { close_lending(&settlement->lending); }

void lend_state(struct settlement *settlement)
{
    write_state_words(&settlement->machine, settlement->lending.twin);
    copy_twins(&settlement->lending);
}

int64_t lent_word(const struct settlement *settlement, enum table_name name, size_t place)
{
    return word_at(settlement->lending.table[name], place);
}

size_t word_place(const struct settlement *settlement, size_t entry, size_t list)
{
    return entry * width_of_entry(settlement->job.sizes) + list;
}

int64_t lent_on(const struct settlement *settlement, enum table_name name, size_t entry, size_t list)
{
    return lent_word(settlement, name, word_place(settlement, entry, list));
}

void put_on(struct settlement *settlement, enum table_name name, size_t entry, size_t list, int64_t word)
{
    put_both(&settlement->lending, name, word_place(settlement, entry, list), word);
}

void put_on_all(struct settlement *settlement, enum table_name name, size_t entry, int64_t word)
{
    for (size_t q = 0; q <= settlement->job.sizes.lists; q++) put_on(settlement, name, entry, q, word);
}

bool has_total(const struct settlement *settlement, size_t box, size_t grocer)
{
    return settlement->machine.place[box][grocer] != NO_PLACE;
}

int64_t lent_total(const struct settlement *settlement, enum table_name name, size_t box, size_t grocer, size_t list)
{
    if (!has_total(settlement, box, grocer)) return 0;
    return lent_on(settlement, name, settlement->machine.place[box][grocer], list);
}

void put_total(struct settlement *settlement, enum table_name name, size_t box, size_t grocer, size_t list,
               int64_t word)
{
    if (has_total(settlement, box, grocer))
        put_on(settlement, name, settlement->machine.place[box][grocer], list, word);
}

void expect_plain_sums(const struct settlement *settlement)
{
    for (uint16_t g = 0; g < settlement->job.sizes.grocers; g++)
        for (size_t q = 0; q <= settlement->job.sizes.lists; q++) {
            int64_t statement = lent_on(settlement, STATEMENT, g, q), sum = plain_sum(&settlement->job, g, q);
            expect(statement == sum, "statement %u on list %zu is %lld, the plain sum %lld", g, q,
                   (long long)statement, (long long)sum);
        }
}

static bool is_marked(const struct settlement *settlement, uint16_t kind, uint16_t first, uint16_t second)
{
    return lent_word(settlement, DONE, mark_place(settlement, (struct step){kind, first, second})) == 1;
}

static bool is_added(const struct settlement *settlement, const struct tally *tally)
{
    uint16_t owner = settlement->job.offer[tally->place].owner;
    if (owner == tally->box) return is_marked(settlement, MULTIPLY_OWN, owner, owner);
    return is_marked(settlement, RECEIVE_PRICES, tally->box, owner);
}

/* What the state has of a grocer on a list. */
static int64_t total_of(const struct settlement *settlement, size_t grocer, size_t list)
{
    int64_t have = lent_on(settlement, STATEMENT, grocer, list);
    for (size_t b = 0; b < settlement->job.sizes.boxes; b++)
        have += lent_total(settlement, WORKING, b, grocer, list) + lent_total(settlement, TOTAL_TRANSIT, b, grocer, list);
    return have;
}

void expect_running_sum(const struct settlement *settlement)
{
    const struct job *job = &settlement->job;
    int64_t sum[MOST_GROCERS][MOST_WIDTH];
    memset(sum, 0, job->sizes.grocers * sizeof sum[0]);
    for (size_t t = 0; t < job->sizes.tallies; t++) {
        const struct tally *tally = &job->tally[t];
        if (!settlement->stands[t] || !is_added(settlement, tally)) continue;
        for (size_t q = 0; q <= job->sizes.lists; q++)
            sum[tally->grocer][q] += (int64_t)tally->count * price_on(job, tally->place, q);
    }
    for (size_t g = 0; g < job->sizes.grocers; g++)
        for (size_t q = 0; q <= job->sizes.lists; q++) {
            int64_t have = total_of(settlement, g, q);
            expect(have == sum[g][q], "running sum of grocer %zu on list %zu is %lld, should be %lld", g, q,
                   (long long)have, (long long)sum[g][q]);
        }
}

void keep_state(const struct settlement *settlement, struct state_words *kept)
{
    kept->length = 0;
    for (unsigned name = JOB_TABLES; name < STEP_TABLES; name++) {
        size_t bytes = words_needed(settlement, name) * width_of(name);
        memcpy(kept->bytes + kept->length, settlement->lending.table[name].words, bytes);
        kept->length += bytes;
    }
}

bool same_state(const struct state_words *one, const struct state_words *other)
{
    return one->length == other->length && memcmp(one->bytes, other->bytes, one->length) == 0;
}

static uint16_t compare_step(struct settlement *settlement, struct sizes sizes, struct step step, uint16_t due)
{
    uint16_t answer = call_step(&settlement->lending, sizes, step);
    expect(answer == due, "step %u of %u and %u answered %u, should be %u", step.kind, step.first, step.second, answer,
           due);
    compare_with_twins(&settlement->lending);
    return answer;
}

uint16_t ask(struct settlement *settlement, struct step step)
{
    struct table tables[ALL_TABLES];
    twins_as_lent(&settlement->lending, tables);
    uint16_t due = step_tables_refusal(settlement->job.sizes, tables);
    if (!due) due = request(&settlement->machine, step);
    if (!due) write_state_words(&settlement->machine, settlement->lending.twin);
    return compare_step(settlement, settlement->job.sizes, step, due);
}

uint16_t ask_on_words(struct settlement *settlement, struct sizes sizes, struct step step)
{
    static struct job job;
    static struct machine machine;
    struct table tables[ALL_TABLES];
    twins_as_lent(&settlement->lending, tables);
    uint16_t due = step_tables_refusal(sizes, tables);
    if (!due) {
        read_job_words(&job, sizes, tables);
        read_state_words(&machine, &job, tables);
        due = request(&machine, step);
        if (!due) write_state_words(&machine, settlement->lending.twin);
    }
    return compare_step(settlement, sizes, step, due);
}

void expect_step(struct settlement *settlement, struct step step, uint16_t due)
{
    uint16_t answer = ask_on_words(settlement, settlement->job.sizes, step);
    expect(answer == due, "step answered %u, the specification says %u", answer, due);
}

struct step some_ready_step(const struct settlement *settlement)
{
    struct step ready[MOST_STEPS];
    size_t length = ready_steps(&settlement->machine, ready);
    return length ? ready[below((uint32_t)length)] : (struct step){1, 0, 0};
}

size_t mark_place(const struct settlement *settlement, struct step step)
{
    uint16_t boxes = settlement->job.sizes.boxes;
    return ((step.kind - 1u) * boxes + step.first) * (size_t)boxes + step.second;
}

struct step picked_step(const struct settlement *settlement, size_t i)
{
    size_t place = (size_t)lent_word(settlement, PICKED, i), boxes = settlement->job.sizes.boxes;
    return (struct step){(uint16_t)(place / (boxes * boxes) + 1), (uint16_t)(place / boxes % boxes),
                         (uint16_t)(place % boxes)};
}

void set_mark(struct settlement *settlement, struct step step)
{
    put_both(&settlement->lending, DONE, mark_place(settlement, step), 1);
}

static void write_report(struct table table, struct report report)
{
    put_word(table, 0, report.words);
    put_word(table, 1, report.messages);
    put_word(table, 2, report.steps);
}

uint16_t ask_run(struct settlement *settlement, struct sizes sizes, struct picks *picks)
{
    static struct job job;
    static struct machine machine;
    struct table tables[ALL_TABLES];
    twins_as_lent(&settlement->lending, tables);
    uint16_t due = run_tables_refusal(sizes, tables);
    picks->length = 0;
    if (!due) {
        read_job_words(&job, sizes, tables);
        struct report report = run_all(&machine, &job, tables[CHOICES], picks->step);
        picks->length = report.steps;
        write_state_words(&machine, settlement->lending.twin);
        write_picked_words(&job, picks->step, picks->length, tables[PICKED]);
        write_report(settlement->lending.twin[REPORT], report);
    }
    uint16_t answer = call_run(&settlement->lending, sizes);
    expect(answer == due, "run answered %u, should be %u", answer, due);
    compare_with_twins(&settlement->lending);
    return answer;
}

static const enum table_name reader_tables[] = {PRICE,        OFFER_OWNER,    OFFER_CODE,  OFFER_ISSUER, GROCER_OWNER,
                                                TALLY_GROCER, TALLY_BOX,      TALLY_CODE,  TALLY_COUNT,  TALLY_ISSUER,
                                                TALLY_BAG,    TALLY_REVISION, TALLY_OFFER, SIZES};
enum { READER_TABLES = sizeof reader_tables / sizeof reader_tables[0] };

void open_reading(struct lending *lending, uint32_t spare, size_t length)
{
    size_t lengths[ALL_TABLES] = {0};
    for (unsigned i = 0; i < READER_TABLES; i++)
        lengths[reader_tables[i]] = needed(reader_tables[i], LARGEST) + spare_words(spare);
    lengths[FILE_BYTES] = length;
    open_lending(lending, lengths);
}

static bool reader_is_short(const struct table tables[])
{
    for (unsigned i = 0; i < READER_TABLES; i++)
        if (is_short(tables[reader_tables[i]], LARGEST)) return true;
    return false;
}

uint16_t ask_read(struct lending *lending, const uint8_t *file, size_t length)
{
    static struct job job;
    struct table tables[ALL_TABLES];
    if (length > 0) {
        memcpy(lending->table[FILE_BYTES].words, file, length);
        memcpy(lending->twin[FILE_BYTES].words, file, length);
    }
    lending->lend[FILE_BYTES] = length;
    twins_as_lent(lending, tables);
    uint16_t due = reader_is_short(tables) ? 20 : read_file(file, length, &job);
    if (!due) {
        write_job_words(&job, lending->twin);
        write_reader_words(&job, lending->twin);
    }
    uint16_t answer = call_read(lending);
    expect(answer == due, "reader answered %u, should be %u", answer, due);
    compare_with_twins(lending);
    return answer;
}
