#include "entries_model.h"

#include <stdlib.h>
#include <string.h>

#include "entries.h"

/* The writer */

static const enum table_name writer_words[] = {PRICE, OFFER_OWNER, GROCER_OWNER, TALLY_GROCER, TALLY_BOX, TALLY_COUNT};
enum { WRITER_WORDS = sizeof writer_words / sizeof writer_words[0] };

static bool writer_is_short(struct sizes sizes, const struct table tables[])
{
    for (unsigned i = 0; i < WRITER_WORDS; i++)
        if (is_short(tables[writer_words[i]], sizes)) return true;
    return is_short(tables[OFFER_CODE], sizes) || is_short(tables[TALLY_CODE], sizes) ||
           is_short(tables[OFFER_ISSUER], sizes) || is_short(tables[TALLY_ISSUER], sizes) ||
           is_short(tables[TALLY_BAG], sizes) || is_short(tables[TALLY_REVISION], sizes) ||
           tables[OUT].length < BLOCK * blocks_of(sizes);
}

static struct code code_at(struct table table, size_t entry)
{
    struct code code;
    code.digits = (uint8_t)word_at(table, 11 * entry);
    for (size_t i = 0; i < FIELD; i++) code.field[i] = (uint8_t)word_at(table, 11 * entry + 1 + i);
    return code;
}

static struct name name_at(struct table issuers, struct table codes, size_t entry)
{
    return (struct name){(uint16_t)word_at(issuers, entry), code_at(codes, entry)};
}

static void read_file_words(struct job *job, struct sizes sizes, const struct table tables[])
{
    job->sizes = sizes;
    for (size_t o = 0; o < sizes.offers; o++)
        job->offer[o] = (struct offer){0, (uint16_t)word_at(tables[OFFER_OWNER], o),
                                       name_at(tables[OFFER_ISSUER], tables[OFFER_CODE], o)};
    read_prices(job, tables[PRICE]);
    for (size_t g = 0; g < sizes.grocers; g++) job->grocer_owner[g] = (uint16_t)word_at(tables[GROCER_OWNER], g);
    for (size_t t = 0; t < sizes.tallies; t++)
        job->tally[t] = (struct tally){.grocer = (uint16_t)word_at(tables[TALLY_GROCER], t),
                                       .box = (uint16_t)word_at(tables[TALLY_BOX], t),
                                       .count = (int32_t)word_at(tables[TALLY_COUNT], t),
                                       .name = name_at(tables[TALLY_ISSUER], tables[TALLY_CODE], t),
                                       .bag = (uint16_t)word_at(tables[TALLY_BAG], t),
                                       .revision = (uint16_t)word_at(tables[TALLY_REVISION], t)};
}

/* Where sizes and words are in their ranges, the writer refuses just what the reader would refuse of its file. */
uint16_t model_write(struct sizes sizes, uint16_t cycle, const struct table tables[ALL_TABLES],
                     uint8_t file[MOST_FILE], size_t *length)
{
    static struct job job, read;
    if (writer_is_short(sizes, tables)) return 20;
    if (!sizes_in_range(sizes)) return 4;
    for (unsigned i = 0; i < WRITER_WORDS; i++)
        if (!words_in_range(tables[writer_words[i]], sizes)) return 6;
    read_file_words(&job, sizes, tables);
    job.cycle = cycle;
    *length = write_file(&job, file);
    return read_file(file, *length, &read);
}

/* The tables of messages */

uint16_t price_words(const struct job *job, size_t sender, size_t receiver)
{
    uint16_t words = 0;
    for (size_t o = 0; o < job->sizes.offers; o++)
        words += sender != receiver && job->offer[o].owner == sender && holds_offer(job, receiver, o);
    return words;
}

uint16_t total_words(const struct job *job, size_t sender, size_t receiver)
{
    uint16_t words = 0;
    for (size_t g = 0; g < job->sizes.grocers; g++)
        words += sender != receiver && job->grocer_owner[g] == receiver && holds_grocer(job, sender, g);
    return words;
}

uint16_t messages_refusal(struct sizes sizes, const struct table tables[ALL_TABLES])
{
    for (unsigned name = PRICE_WORDS; name <= JOB_WORDS; name++)
        if (is_short(tables[name], sizes)) return 20;
    return job_tables_refusal(sizes, tables);
}

void write_messages(const struct job *job, const struct table tables[ALL_TABLES])
{
    for (size_t a = 0; a < MOST_BOXES; a++)
        for (size_t b = 0; b < MOST_BOXES; b++) {
            put_word(tables[PRICE_WORDS], MOST_BOXES * a + b, price_words(job, a, b));
            put_word(tables[TOTAL_WORDS], MOST_BOXES * a + b, total_words(job, a, b));
        }
    put_word(tables[JOB_WORDS], 0, entries_of_job(job));
}

/* The local book */

uint16_t book_refusal(struct sizes sizes, const struct table tables[ALL_TABLES], uint16_t box)
{
    for (unsigned name = LOCAL_OFFERS; name <= NUMBERS; name++)
        if (is_short(tables[name], sizes)) return 20;
    uint16_t refusal = job_tables_refusal(sizes, tables);
    if (refusal) return refusal;
    return box < sizes.boxes ? 0 : 23;
}

/* Own ones ascending, then those of each other owner of which the box holds a tally. */
static size_t list_local(uint16_t list[], const struct job *job, uint16_t box, bool grocers)
{
    size_t length = 0;
    for (uint16_t pass = 0; pass <= job->sizes.boxes; pass++) {
        uint16_t owner = pass == 0 ? box : (uint16_t)(pass - 1);
        if (pass > 0 && owner == box) continue;
        for (uint16_t i = 0; i < (grocers ? job->sizes.grocers : job->sizes.offers); i++) {
            if ((grocers ? job->grocer_owner[i] : job->offer[i].owner) != owner) continue;
            if (owner == box || (grocers ? holds_grocer(job, box, i) : holds_offer(job, box, i))) list[length++] = i;
        }
    }
    return length;
}

/* The box's tallies of one offer: by local grocer, then by place. */
static void pack_offer(const struct job *job, uint16_t box, uint16_t offer, struct book *book)
{
    size_t list[MOST_TALLIES], length = 0;
    for (size_t t = 0; t < job->sizes.tallies; t++)
        if (job->tally[t].place == offer && holds(job, box, t)) list[length++] = t;
    for (uint16_t g = 0; g < book->grocers && length > 0; g++)
        for (size_t p = 0; p < length; p++) {
            const struct tally *tally = &job->tally[list[p]];
            if (tally->grocer != book->grocer[g]) continue;
            book->packed_grocer[book->tallies] = g;
            book->packed_count[book->tallies++] = tally->count;
        }
}

void make_book(const struct job *job, uint16_t box, struct book *book)
{
    book->offers = list_local(book->offer, job, box, false);
    book->grocers = list_local(book->grocer, job, box, true);
    book->tallies = 0;
    for (size_t i = 0; i < book->offers; i++) {
        book->start[i] = (uint16_t)book->tallies;
        pack_offer(job, box, book->offer[i], book);
    }
    book->start[book->offers] = (uint16_t)book->tallies;
}

static void put_words(struct table table, const uint16_t words[], size_t length)
{
    for (size_t place = 0; place < length; place++) put_word(table, place, words[place]);
}

void write_book(const struct book *book, const struct table tables[ALL_TABLES])
{
    put_words(tables[LOCAL_OFFERS], book->offer, book->offers);
    put_words(tables[LOCAL_GROCERS], book->grocer, book->grocers);
    put_words(tables[STARTS], book->start, book->offers + 1);
    put_words(tables[PACKED_GROCERS], book->packed_grocer, book->tallies);
    for (size_t p = 0; p < book->tallies; p++) put_word(tables[PACKED_COUNTS], p, book->packed_count[p]);
    put_words(tables[NUMBERS],
              (const uint16_t[]){(uint16_t)book->offers, (uint16_t)book->grocers, (uint16_t)book->tallies},
              ENTRIES_NUMBERS);
}

/* The desk; its records are as many as the grocers lent. */

static const enum table_name fields[] = {TALLY_GROCER, TALLY_BOX, TALLY_OFFER, TALLY_COUNT, TALLY_BAG, TALLY_REVISION};
enum { FIELDS = sizeof fields / sizeof fields[0] };

/* The whole list as tallies, records of other grocers among them: their number. */
static size_t read_records(struct tally record[], const struct table tables[])
{
    size_t records = tables[TALLY_GROCER].length;
    for (size_t i = 0; i < records; i++)
        record[i] = (struct tally){.grocer = (uint16_t)word_at(tables[TALLY_GROCER], i),
                                   .place = (uint16_t)word_at(tables[TALLY_OFFER], i),
                                   .bag = (uint16_t)word_at(tables[TALLY_BAG], i),
                                   .revision = (uint16_t)word_at(tables[TALLY_REVISION], i)};
    return records;
}

uint16_t desk_refusal(struct sizes sizes, uint16_t wanted, const struct table tables[ALL_TABLES])
{
    static struct tally record[MOST_TALLIES];
    size_t records = tables[TALLY_GROCER].length;
    if (tables[OWED].length < 1) return 20;
    for (unsigned i = 0; i < FIELDS; i++)
        if (tables[fields[i]].length < records) return 20;
    if (is_short(tables[PRICE], sizes)) return 20;
    if (records > MOST_TALLIES) return 21;
    sizes.boxes = MOST_BOXES;
    sizes.tallies = (uint16_t)records;
    if (!sizes_in_range(sizes) || wanted >= sizes.grocers || !words_in_range(tables[PRICE], sizes)) return 21;
    for (unsigned i = 0; i < FIELDS; i++)
        if (!words_in_range(tables[fields[i]], sizes)) return 21;
    return counted_twice(record, read_records(record, tables)) ? 9 : 0;
}

static int64_t price_of(const struct table tables[], size_t record)
{
    return word_at(tables[PRICE], (size_t)word_at(tables[TALLY_OFFER], record));
}

int64_t serial_amount(uint16_t wanted, const struct table tables[ALL_TABLES])
{
    static struct tally record[MOST_TALLIES];
    size_t records = read_records(record, tables);
    int64_t sum = 0;
    for (size_t i = 0; i < records; i++)
        if (record[i].grocer == wanted && stands(record, records, i))
            sum += word_at(tables[TALLY_COUNT], i) * price_of(tables, i);
    return sum;
}

/* Whether another record counts the same bag with a higher revision. */
static bool is_counted_again(const struct table tables[], size_t record)
{
    static const enum table_name same[] = {TALLY_GROCER, TALLY_OFFER, TALLY_BAG};
    for (size_t i = 0; i < tables[TALLY_GROCER].length; i++) {
        bool again = word_at(tables[TALLY_BAG], i) != 0;
        for (unsigned j = 0; j < 3; j++) again &= word_at(tables[same[j]], i) == word_at(tables[same[j]], record);
        if (again && word_at(tables[TALLY_REVISION], i) > word_at(tables[TALLY_REVISION], record)) return true;
    }
    return false;
}

int64_t amount_by_adding(uint16_t wanted, const struct table tables[ALL_TABLES])
{
    int64_t credits = 0, corrections = 0;
    for (size_t i = tables[TALLY_GROCER].length; i-- > 0;) {
        if (word_at(tables[TALLY_GROCER], i) != wanted || is_counted_again(tables, i)) continue;
        int64_t count = word_at(tables[TALLY_COUNT], i);
        for (int64_t n = llabs(count); n > 0; n--) *(count < 0 ? &corrections : &credits) += price_of(tables, i);
    }
    return credits - corrections;
}
