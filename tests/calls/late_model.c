#include "late_model.h"

#include <string.h>

/* The job as it is lent: its words, its names, and its places, which need not be those that the names say. */

static struct code code_at(struct table table, size_t entry)
{
    struct code code;
    code.digits = (uint8_t)word_at(table, 11 * entry);
    for (size_t i = 0; i < FIELD; i++) code.field[i] = (uint8_t)word_at(table, 11 * entry + 1 + i);
    return code;
}

static void read_lent(struct job *job, struct sizes sizes, const struct table tables[])
{
    read_job_words(job, sizes, tables);
    job->cycle = 0;
    for (size_t o = 0; o < sizes.offers; o++)
        job->offer[o].name = (struct name){(uint16_t)word_at(tables[OFFER_ISSUER], o), code_at(tables[OFFER_CODE], o)};
    for (size_t t = 0; t < sizes.tallies; t++)
        job->tally[t].name = (struct name){(uint16_t)word_at(tables[TALLY_ISSUER], t), code_at(tables[TALLY_CODE], t)};
}

/* The edited list */

static uint16_t put_last(struct job *job, const struct tally *tally)
{
    if (job->sizes.tallies >= MOST_TALLIES) return 31;
    job->tally[job->sizes.tallies++] = *tally;
    return 0;
}

static uint16_t take_out(struct job *job, size_t place)
{
    size_t tallies = job->sizes.tallies;
    if (place >= tallies) return 32;
    memmove(&job->tally[place], &job->tally[place + 1], (tallies - place - 1) * sizeof job->tally[0]);
    memset(&job->tally[tallies - 1], 0, sizeof job->tally[0]);
    job->sizes.tallies--;
    return 0;
}

/* Whether a file can say the tally, whatever its code. */
static bool fits_file(const struct tally *tally, struct sizes sizes)
{
    return tally->grocer < sizes.grocers && tally->box < sizes.boxes && tally->count >= -MOST_COUNT &&
           tally->count <= MOST_COUNT;
}

/* 31 or 32, else 0 and the job with its list edited. The writer refuses what the reader would refuse of its file. */
static uint16_t edit_list(struct job *job, const struct edit *edit)
{
    static uint8_t file[MOST_FILE];
    static struct job read;
    uint16_t refusal = edit->adds ? put_last(job, &edit->added) : take_out(job, edit->place);
    if (refusal) return refusal;
    if (edit->adds && !fits_file(&edit->added, job->sizes)) return 32;
    if (read_file(file, write_file(job, file), &read)) return 32;
    size_t last = job->sizes.tallies - 1u;
    if (edit->adds) job->tally[last].place = read.tally[last].place;
    return counted_twice(job->tally, job->sizes.tallies) ? 32 : 0;
}

/* The state */

struct report settle_afresh(const struct job *job, const struct table tables[ALL_TABLES])
{
    static struct machine machine;
    static struct step picked[MOST_STEPS];
    struct report report = run_all(&machine, job, (struct table){CHOICES, 0, NULL}, picked);
    write_state_words(&machine, tables);
    return report;
}

size_t packed_words_of(const struct job *job) { return packed_places(job) * width_of_entry(job->sizes); }

static size_t state_words_of(const struct job *job, unsigned name)
{
    return is_packed(name) ? packed_words_of(job) : needed(name, job->sizes);
}

/* Word for word as far as the job needs them. */
static bool left_by_run(const struct job *job, const struct table tables[])
{
    static int64_t room[STEP_TABLES - JOB_TABLES][MOST_WIDTH * MOST_BOXES * MOST_OFFERS];
    struct table due[ALL_TABLES];
    for (unsigned name = JOB_TABLES; name < STEP_TABLES; name++)
        due[name] = (struct table){name, 0, room[name - JOB_TABLES]};
    settle_afresh(job, due);
    for (unsigned name = JOB_TABLES; name < STEP_TABLES; name++)
        for (size_t i = 0, words = state_words_of(job, name); i < words; i++)
            if (word_at(tables[name], i) != word_at(due[name], i)) return false;
    return true;
}

/* Refusals */

/* The tallies that must have room. */
static struct sizes sizes_with_room(struct sizes sizes, const struct edit *edit)
{
    if (edit->adds && sizes.tallies < MOST_TALLIES) sizes.tallies++;
    return sizes;
}

/* 20 on all tables but the packed ones, which need nothing here. */
static bool lent_short(struct sizes sizes, const struct table tables[], const struct edit *edit)
{
    struct sizes room = sizes_with_room(sizes, edit);
    if (is_short(tables[EDITED], sizes) || (edit->adds && is_short(tables[ADDED_CODE], sizes))) return true;
    for (unsigned name = 0; name < SIZES; name++)
        if (is_short(tables[name], room)) return true;
    return false;
}

static bool lent_in_range(struct sizes sizes, const struct table tables[])
{
    if (!sizes_in_range(sizes)) return false;
    for (unsigned name = 0; name < STEP_TABLES; name++)
        if (!words_in_range(tables[name], sizes)) return false;
    return true;
}

static bool packed_short(const struct table tables[], size_t words)
{
    return tables[WORKING].length < words || tables[TOTAL_TRANSIT].length < words;
}

static bool packed_in_range(struct sizes sizes, const struct table tables[], size_t words)
{
    struct range range = range_of(WORKING, sizes);
    for (size_t i = 0; i < 2 * words; i++) {
        int64_t word = word_at(tables[i < words ? WORKING : TOTAL_TRANSIT], i % words);
        if (word < range.least || word > range.most) return false;
    }
    return true;
}

/* The refusal, or 0 and the job with its list edited. */
static uint16_t refusal_of(struct sizes sizes, const struct table tables[], const struct edit *edit, struct job *job)
{
    static struct job present;
    if (lent_short(sizes, tables, edit)) return 20;
    if (!lent_in_range(sizes, tables)) return 21;
    read_lent(&present, sizes, tables);
    if (counted_twice(present.tally, sizes.tallies)) return 9;
    *job = present;
    uint16_t own = edit_list(job, edit);
    size_t words = packed_words_of(&present);
    if (packed_short(tables, words)) return 20;
    if (!own && packed_short(tables, packed_words_of(job))) return 20;
    if (!packed_in_range(sizes, tables, words)) return 21;
    return left_by_run(&present, tables) ? own : 30;
}

/* Writing */

/* The list's first words: after a removal one more than the tallies, the last of them 0. */
static void write_list(const struct job *job, size_t entries, const struct table tables[])
{
    static struct job written;
    written = *job;
    written.sizes.tallies = (uint16_t)entries;
    written.sizes.offers = written.sizes.grocers = 0;
    uint16_t sizes[6];
    struct table into[ALL_TABLES];
    memcpy(into, tables, sizeof into);
    into[SIZES] = (struct table){SIZES, 6, sizes};
    write_job_words(&written, into);
    write_reader_words(&written, into);
}

uint16_t model_edit(struct sizes sizes, const struct table tables[ALL_TABLES], const struct edit *edit)
{
    static struct job job;
    struct edit read = *edit;
    if (edit->adds && !is_short(tables[ADDED_CODE], sizes)) read.added.name.code = code_at(tables[ADDED_CODE], 0);
    uint16_t refusal = refusal_of(sizes, tables, &read, &job);
    if (refusal) return refusal;
    write_list(&job, edit->adds ? sizes.tallies + 1u : sizes.tallies, tables);
    struct report report = settle_afresh(&job, tables);
    const uint32_t said[] = {job.sizes.tallies, report.words, report.messages, report.steps};
    for (size_t i = 0; i < 4; i++) put_word(tables[EDITED], i, said[i]);
    return 0;
}
