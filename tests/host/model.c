#include "model.h"

#include <assert.h>
#include <string.h>

/* Which tallies stand */

static bool same_bag(const struct tally *a, const struct tally *b)
{
    return a->bag == b->bag && a->grocer == b->grocer && a->place == b->place;
}

bool stands(const struct tally tally[], size_t tallies, size_t t)
{
    if (tally[t].bag == 0) return true;
    for (size_t u = 0; u < tallies; u++)
        if (same_bag(&tally[t], &tally[u]) && tally[t].revision < tally[u].revision) return false;
    return true;
}

bool counted_twice(const struct tally tally[], size_t tallies)
{
    for (size_t t = 0; t < tallies; t++) {
        if (tally[t].bag == 0) continue;
        for (size_t u = 0; u < t; u++)
            if (same_bag(&tally[t], &tally[u]) && tally[t].revision == tally[u].revision) return true;
    }
    return false;
}

/* Price lists */

uint32_t price_on(const struct job *job, size_t offer, size_t list)
{
    return list == 0 ? job->offer[offer].price : job->more_price[list - 1][offer];
}

static void set_price(struct job *job, size_t offer, size_t list, uint32_t price)
{
    if (list == 0)
        job->offer[offer].price = price;
    else
        job->more_price[list - 1][offer] = price;
}

void take_list(struct job *only, const struct job *job, size_t list)
{
    *only = *job;
    only->sizes.lists = 0;
    for (size_t o = 0; o < job->sizes.offers; o++) set_price(only, o, 0, price_on(job, o, list));
}

/* Who holds what */

bool holds(const struct job *job, size_t box, size_t t)
{
    return job->tally[t].box == box && stands(job->tally, job->sizes.tallies, t);
}

static bool in_mask(uint16_t mask, unsigned box) { return (mask >> box) & 1; }

static void note_holders(struct machine *machine)
{
    const struct job *job = machine->job;
    memset(machine->needs, 0, sizeof machine->needs);
    memset(machine->sharers, 0, sizeof machine->sharers);
    for (size_t t = 0; t < job->sizes.tallies; t++) {
        const struct tally *tally = &job->tally[t];
        if (!stands(job->tally, job->sizes.tallies, t)) continue;
        machine->needs[tally->place] |= (uint16_t)(1u << tally->box);
        machine->sharers[tally->grocer] |= (uint16_t)(1u << tally->box);
    }
}

/* Packed totals */

/* The next places are for the owner's grocers of which the box has a total: for each of its own, and for those of
   another box of which it holds a tally that stands. */
static void place_grocers(struct machine *machine, uint16_t box, uint16_t owner)
{
    const struct job *job = machine->job;
    for (uint16_t g = 0; g < job->sizes.grocers; g++)
        if (job->grocer_owner[g] == owner && (owner == box || in_mask(machine->sharers[g], box)))
            machine->place[box][g] = machine->packed++;
}

/* Box by box, its own grocers first, then those of the other boxes in turn. */
static void note_places(struct machine *machine)
{
    uint16_t boxes = machine->job->sizes.boxes;
    memset(machine->place, 0xFF, sizeof machine->place);
    machine->packed = 0;
    for (uint16_t b = 0; b < boxes; b++) {
        place_grocers(machine, b, b);
        for (uint16_t owner = 0; owner < boxes; owner++)
            if (owner != b) place_grocers(machine, b, owner);
    }
}

size_t packed_places(const struct job *job)
{
    static struct machine machine;
    machine.job = job;
    note_holders(&machine);
    note_places(&machine);
    return machine.packed;
}

/* Messages */

struct message {
    uint16_t sender, receiver;
    size_t length;
    uint16_t number[MOST_OFFERS];
};

static bool is_message_step(unsigned kind) { return kind != MULTIPLY_OWN && kind != ADD_OWN; }
static bool is_send(unsigned kind) { return kind == SEND_PRICES || kind == SEND_TOTALS; }
static bool carries_prices(unsigned kind) { return kind == SEND_PRICES || kind == RECEIVE_PRICES; }

/* The sender's offers that the receiver needs. */
static void list_offers(const struct machine *machine, struct message *message)
{
    for (uint16_t o = 0; o < machine->job->sizes.offers; o++)
        if (machine->job->offer[o].owner == message->sender && in_mask(machine->needs[o], message->receiver))
            message->number[message->length++] = o;
}

/* The receiver's grocers of which the sender has a part total. */
static void list_grocers(const struct machine *machine, struct message *message)
{
    for (uint16_t g = 0; g < machine->job->sizes.grocers; g++)
        if (machine->job->grocer_owner[g] == message->receiver && in_mask(machine->sharers[g], message->sender))
            message->number[message->length++] = g;
}

static struct message message_of(const struct machine *machine, struct step step)
{
    struct message message = {step.first, step.second, 0, {0}};
    if (!is_send(step.kind)) {
        message.sender = step.second;
        message.receiver = step.first;
    }
    if (carries_prices(step.kind))
        list_offers(machine, &message);
    else
        list_grocers(machine, &message);
    return message;
}

/* The steps of the job, and those that are ready */

static bool job_has(const struct machine *machine, struct step step)
{
    if (!is_message_step(step.kind)) return step.first == step.second;
    return step.first != step.second && message_of(machine, step).length > 0;
}

static void note_steps(struct machine *machine)
{
    memset(machine->has, 0, sizeof machine->has);
    for (uint16_t kind = 1; kind < KINDS; kind++)
        for (uint16_t a = 0; a < machine->job->sizes.boxes; a++)
            for (uint16_t b = 0; b < machine->job->sizes.boxes; b++)
                machine->has[kind][a][b] = job_has(machine, (struct step){kind, a, b});
}

/* A tally is added once step 2 of its box, for an own offer, or else its step 3 from the offer's owner, is done. */
static bool is_added(const struct machine *machine, const struct tally *tally)
{
    uint16_t owner = machine->job->offer[tally->place].owner;
    if (owner == tally->box) return machine->done[MULTIPLY_OWN][owner][owner];
    return machine->done[RECEIVE_PRICES][tally->box][owner];
}

/* Every standing tally that a box holds of the owner's grocers is added. */
static bool all_added(const struct machine *machine, uint16_t box, uint16_t owner)
{
    const struct job *job = machine->job;
    for (size_t t = 0; t < job->sizes.tallies; t++) {
        const struct tally *tally = &job->tally[t];
        if (tally->box != box || job->grocer_owner[tally->grocer] != owner) continue;
        if (!is_added(machine, tally) && stands(job->tally, job->sizes.tallies, t)) return false;
    }
    return true;
}

static bool is_ready(const struct machine *machine, struct step step)
{
    switch (step.kind) {
    case RECEIVE_PRICES: return machine->done[SEND_PRICES][step.second][step.first];
    case RECEIVE_TOTALS: return machine->done[SEND_TOTALS][step.second][step.first];
    case SEND_TOTALS: return all_added(machine, step.first, step.second);
    case ADD_OWN: return all_added(machine, step.first, step.first);
    default: return true;
    }
}

static bool has(const struct machine *machine, struct step step)
{
    return machine->has[step.kind][step.first][step.second];
}

static bool is_done(const struct machine *machine, struct step step)
{
    return machine->done[step.kind][step.first][step.second];
}

size_t ready_steps(const struct machine *machine, struct step ready[MOST_STEPS])
{
    size_t length = 0;
    for (uint16_t kind = 1; kind < KINDS; kind++)
        for (uint16_t a = 0; a < machine->job->sizes.boxes; a++)
            for (uint16_t b = 0; b < machine->job->sizes.boxes; b++) {
                struct step step = {kind, a, b};
                if (has(machine, step) && !is_done(machine, step) && is_ready(machine, step)) ready[length++] = step;
            }
    return length;
}

/* Words under way */

static struct envelope *find_envelope(struct post *post, uint16_t sender, uint16_t receiver, uint16_t number)
{
    for (size_t i = 0; i < post->length; i++) {
        struct envelope *e = &post->envelope[i];
        if (e->sender == sender && e->receiver == receiver && e->number == number) return e;
    }
    return NULL;
}

/* The envelope of an offer or grocer, empty where there was none. */
static struct envelope *post_entry(struct post *post, const struct message *message, uint16_t number)
{
    struct envelope *e = find_envelope(post, message->sender, message->receiver, number);
    if (!e) e = &post->envelope[post->length++];
    *e = (struct envelope){message->sender, message->receiver, number, {0}};
    return e;
}

/* The envelope of an offer or grocer, which is gone afterwards; with words 0 where nothing is under way. */
static struct envelope take_entry(struct post *post, const struct message *message, uint16_t number)
{
    struct envelope taken = {message->sender, message->receiver, number, {0}};
    struct envelope *e = find_envelope(post, message->sender, message->receiver, number);
    if (!e) return taken;
    taken = *e;
    *e = post->envelope[--post->length];
    return taken;
}

/* What each step does */

/* Adds a tally to its box's working totals, on each list at the price the box knows. */
static void add_tally(struct machine *machine, const struct tally *tally)
{
    const uint32_t *known = machine->known[tally->box][tally->place];
    for (size_t q = 0; q <= machine->job->sizes.lists; q++)
        machine->working[tally->box][tally->grocer][q] += tally->count * (int64_t)known[q];
}

/* Adds the box's tallies of the offers that one box owns. */
static void add_tallies(struct machine *machine, uint16_t box, uint16_t owner)
{
    const struct job *job = machine->job;
    for (size_t t = 0; t < job->sizes.tallies; t++) {
        const struct tally *tally = &job->tally[t];
        if (job->offer[tally->place].owner == owner && holds(job, box, t)) add_tally(machine, tally);
    }
}

static void send_prices(struct machine *machine, const struct message *message)
{
    for (size_t i = 0; i < message->length; i++) {
        uint16_t offer = message->number[i];
        struct envelope *e = post_entry(&machine->prices, message, offer);
        for (size_t q = 0; q <= machine->job->sizes.lists; q++) {
            e->word[q] = machine->known[message->sender][offer][q];
            machine->sent++;
        }
    }
}

static void receive_prices(struct machine *machine, const struct message *message)
{
    for (size_t i = 0; i < message->length; i++) {
        uint16_t offer = message->number[i];
        struct envelope e = take_entry(&machine->prices, message, offer);
        for (size_t q = 0; q <= machine->job->sizes.lists; q++)
            machine->known[message->receiver][offer][q] = (uint32_t)e.word[q];
    }
    add_tallies(machine, message->receiver, message->sender);
}

static void send_totals(struct machine *machine, const struct message *message)
{
    for (size_t i = 0; i < message->length; i++) {
        uint16_t grocer = message->number[i];
        struct envelope *e = post_entry(&machine->totals, message, grocer);
        for (size_t q = 0; q <= machine->job->sizes.lists; q++) {
            e->word[q] = machine->working[message->sender][grocer][q];
            machine->working[message->sender][grocer][q] = 0;
            machine->sent++;
        }
    }
}

static void receive_totals(struct machine *machine, const struct message *message)
{
    for (size_t i = 0; i < message->length; i++) {
        uint16_t grocer = message->number[i];
        struct envelope e = take_entry(&machine->totals, message, grocer);
        for (size_t q = 0; q <= machine->job->sizes.lists; q++) machine->statement[grocer][q] += e.word[q];
    }
}

static void add_own(struct machine *machine, uint16_t box)
{
    for (uint16_t g = 0; g < machine->job->sizes.grocers; g++) {
        if (machine->job->grocer_owner[g] != box) continue;
        for (size_t q = 0; q <= machine->job->sizes.lists; q++) {
            machine->statement[g][q] += machine->working[box][g][q];
            machine->working[box][g][q] = 0;
        }
    }
}

static void act(struct machine *machine, struct step step)
{
    struct message message = message_of(machine, step);
    switch (step.kind) {
    case SEND_PRICES: send_prices(machine, &message); break;
    case MULTIPLY_OWN: add_tallies(machine, step.first, step.first); break;
    case RECEIVE_PRICES: receive_prices(machine, &message); break;
    case SEND_TOTALS: send_totals(machine, &message); break;
    case ADD_OWN: add_own(machine, step.first); break;
    default: receive_totals(machine, &message); break;
    }
    machine->done[step.kind][step.first][step.second] = true;
}

/* Requests */

static bool is_amount(int64_t word) { return -MOST_AMOUNT <= word && word <= MOST_AMOUNT; }

static bool are_amounts(const int64_t words[MOST_WIDTH], size_t lists)
{
    for (size_t q = 0; q <= lists; q++)
        if (!is_amount(words[q])) return false;
    return true;
}

static bool result_in_range(const struct machine *machine)
{
    struct sizes sizes = machine->job->sizes;
    for (size_t g = 0; g < sizes.grocers; g++) {
        if (!are_amounts(machine->statement[g], sizes.lists)) return false;
        for (size_t b = 0; b < sizes.boxes; b++)
            if (!are_amounts(machine->working[b][g], sizes.lists)) return false;
    }
    return machine->sent <= MOST_SENT;
}

static void copy_post(struct post *to, const struct post *from)
{
    to->length = from->length;
    memcpy(to->envelope, from->envelope, from->length * sizeof from->envelope[0]);
}

void copy_state(struct machine *to, const struct machine *from)
{
    struct sizes sizes = from->job->sizes;
    memcpy(to, from, offsetof(struct machine, known));
    for (size_t b = 0; b < sizes.boxes; b++) {
        memcpy(to->known[b], from->known[b], sizes.offers * sizeof from->known[b][0]);
        memcpy(to->working[b], from->working[b], sizes.grocers * sizeof from->working[b][0]);
    }
    memcpy(to->statement, from->statement, sizes.grocers * sizeof from->statement[0]);
    copy_post(&to->prices, &from->prices);
    copy_post(&to->totals, &from->totals);
    to->sent = from->sent;
}

static uint16_t refusal_of(const struct machine *machine, struct step step)
{
    uint16_t boxes = machine->job->sizes.boxes;
    if (step.kind < 1 || step.kind > 6) return 22;
    if (step.first >= boxes || step.second >= boxes) return 23;
    if ((step.first != step.second) != is_message_step(step.kind)) return 23;
    if (!has(machine, step)) return 24;
    if (is_done(machine, step)) return 25;
    if (!is_ready(machine, step)) return 26;
    return 0;
}

uint16_t request(struct machine *machine, struct step step)
{
    static struct machine after;
    uint16_t refusal = refusal_of(machine, step);
    if (refusal) return refusal;
    copy_state(&after, machine);
    act(&after, step);
    if (!result_in_range(&after)) return 21;
    copy_state(machine, &after);
    return 0;
}

/* A state with nothing in it */
static void start_empty(struct machine *machine, const struct job *job)
{
    struct sizes sizes = job->sizes;
    memset(machine, 0, offsetof(struct machine, known));
    for (size_t b = 0; b < sizes.boxes; b++) {
        memset(machine->known[b], 0, sizes.offers * sizeof machine->known[b][0]);
        memset(machine->working[b], 0, sizes.grocers * sizeof machine->working[b][0]);
    }
    memset(machine->statement, 0, sizes.grocers * sizeof machine->statement[0]);
    machine->job = job;
    machine->prices.length = machine->totals.length = 0;
    machine->sent = 0;
    note_holders(machine);
    note_places(machine);
    note_steps(machine);
}

void start_fresh(struct machine *machine, const struct job *job)
{
    start_empty(machine, job);
    for (size_t o = 0; o < job->sizes.offers; o++)
        for (size_t q = 0; q <= job->sizes.lists; q++) machine->known[job->offer[o].owner][o][q] = price_on(job, o, q);
}

struct report run_all(struct machine *machine, const struct job *job, struct table choices,
                      struct step picked[MOST_STEPS])
{
    struct report report = {0, 0, 0};
    struct step ready[MOST_STEPS];
    size_t length;
    start_fresh(machine, job);
    while ((length = ready_steps(machine, ready)) > 0) {
        size_t choice = report.steps < choices.length ? (size_t)word_at(choices, report.steps) : 0;
        struct step step = ready[choice % length];
        uint16_t refusal = request(machine, step);
        assert(refusal == 0);
        (void)refusal;
        report.messages += is_send(step.kind);
        picked[report.steps++] = step;
    }
    report.words = (uint32_t)machine->sent;
    return report;
}

/* Lent tables */

static bool any_short(struct sizes sizes, const struct table tables[], size_t from, size_t to)
{
    for (size_t name = from; name < to; name++)
        if (is_short(tables[name], sizes)) return true;
    return false;
}

static bool all_in_range(struct sizes sizes, const struct table tables[], size_t to)
{
    if (!sizes_in_range(sizes)) return false;
    for (size_t name = 0; name < to; name++)
        if (!words_in_range(tables[name], sizes)) return false;
    return true;
}

/* 9 on tables that are long enough and in range. */
static uint16_t bags_refusal(struct sizes sizes, const struct table tables[])
{
    static struct job job;
    read_job_words(&job, sizes, tables);
    return counted_twice(job.tally, sizes.tallies) ? 9 : 0;
}

uint16_t job_tables_refusal(struct sizes sizes, const struct table tables[ALL_TABLES])
{
    if (any_short(sizes, tables, 0, JOB_TABLES)) return 20;
    return all_in_range(sizes, tables, JOB_TABLES) ? bags_refusal(sizes, tables) : 21;
}

/* The packed words that a job needs whose tables are long enough and in range. */
static size_t packed_words(struct sizes sizes, const struct table tables[])
{
    static struct job job;
    read_job_words(&job, sizes, tables);
    return packed_places(&job) * width_of_entry(sizes);
}

static bool packed_short(const struct table tables[], size_t words)
{
    return tables[WORKING].length < words || tables[TOTAL_TRANSIT].length < words;
}

static bool packed_in_range(const struct table tables[], size_t words)
{
    for (size_t place = 0; place < words; place++)
        if (!is_amount(word_at(tables[WORKING], place)) || !is_amount(word_at(tables[TOTAL_TRANSIT], place)))
            return false;
    return true;
}

/* 20 and 21 on all else and 9 come first: which words are packed goes by a job without a fault. */
uint16_t step_tables_refusal(struct sizes sizes, const struct table tables[ALL_TABLES])
{
    if (any_short(sizes, tables, 0, STEP_TABLES)) return 20;
    if (!all_in_range(sizes, tables, STEP_TABLES)) return 21;
    if (bags_refusal(sizes, tables)) return 9;
    size_t words = packed_words(sizes, tables);
    if (packed_short(tables, words)) return 20;
    return packed_in_range(tables, words) ? 0 : 21;
}

uint16_t run_tables_refusal(struct sizes sizes, const struct table tables[ALL_TABLES])
{
    if (any_short(sizes, tables, 0, STEP_TABLES) || is_short(tables[REPORT], sizes)) return 20;
    if (!all_in_range(sizes, tables, JOB_TABLES)) return 21;
    if (bags_refusal(sizes, tables)) return 9;
    return packed_short(tables, packed_words(sizes, tables)) ? 20 : 0;
}

/* One list after the other. */
static void write_prices(const struct job *job, struct table price)
{
    size_t place = 0;
    for (size_t q = 0; q <= job->sizes.lists; q++)
        for (size_t o = 0; o < job->sizes.offers; o++) put_word(price, place++, price_on(job, o, q));
}

void read_prices(struct job *job, struct table price)
{
    size_t place = 0;
    for (size_t q = 0; q <= job->sizes.lists; q++)
        for (size_t o = 0; o < job->sizes.offers; o++) set_price(job, o, q, (uint32_t)word_at(price, place++));
}

void write_job_words(const struct job *job, const struct table tables[ALL_TABLES])
{
    write_prices(job, tables[PRICE]);
    for (size_t o = 0; o < job->sizes.offers; o++) put_word(tables[OFFER_OWNER], o, job->offer[o].owner);
    for (size_t g = 0; g < job->sizes.grocers; g++) put_word(tables[GROCER_OWNER], g, job->grocer_owner[g]);
    for (size_t t = 0; t < job->sizes.tallies; t++) {
        put_word(tables[TALLY_GROCER], t, job->tally[t].grocer);
        put_word(tables[TALLY_BOX], t, job->tally[t].box);
        put_word(tables[TALLY_OFFER], t, job->tally[t].place);
        put_word(tables[TALLY_COUNT], t, job->tally[t].count);
        put_word(tables[TALLY_BAG], t, job->tally[t].bag);
        put_word(tables[TALLY_REVISION], t, job->tally[t].revision);
    }
}

static void write_code(struct table table, size_t entry, const struct code *code)
{
    put_word(table, 11 * entry, code->digits);
    for (size_t i = 0; i < FIELD; i++) put_word(table, 11 * entry + 1 + i, code->field[i]);
}

void write_reader_words(const struct job *job, const struct table tables[ALL_TABLES])
{
    for (size_t o = 0; o < job->sizes.offers; o++) {
        write_code(tables[OFFER_CODE], o, &job->offer[o].name.code);
        put_word(tables[OFFER_ISSUER], o, job->offer[o].name.issuer);
    }
    for (size_t t = 0; t < job->sizes.tallies; t++) {
        write_code(tables[TALLY_CODE], t, &job->tally[t].name.code);
        put_word(tables[TALLY_ISSUER], t, job->tally[t].name.issuer);
    }
    put_word(tables[SIZES], 0, job->sizes.boxes);
    put_word(tables[SIZES], 1, job->sizes.grocers);
    put_word(tables[SIZES], 2, job->sizes.offers);
    put_word(tables[SIZES], 3, job->sizes.tallies);
    put_word(tables[SIZES], 4, job->cycle);
    put_word(tables[SIZES], 5, job->sizes.lists);
}

static size_t mark_place(uint16_t boxes, unsigned kind, size_t a, size_t b)
{
    return ((kind - 1) * (size_t)boxes + a) * boxes + b;
}

static void write_marks(const struct machine *machine, struct table done)
{
    uint16_t boxes = machine->job->sizes.boxes;
    for (unsigned kind = 1; kind < KINDS; kind++)
        for (size_t a = 0; a < boxes; a++)
            for (size_t b = 0; b < boxes; b++) put_word(done, mark_place(boxes, kind, a, b), machine->done[kind][a][b]);
}

void write_picked_words(const struct job *job, const struct step picked[], size_t steps, struct table table)
{
    for (size_t i = 0; i < steps && i < table.length; i++) {
        struct step step = picked[i];
        put_word(table, i, (int64_t)mark_place(job->sizes.boxes, step.kind, step.first, step.second));
    }
}

/* The entries of a table of the state, an offer or a grocer each, and of each the words of all lists: they stand in the
   table one entry after the other, and in an entry list by list. */
static int64_t entry[MOST_BOXES * MOST_OFFERS][MOST_WIDTH];

static void clear_entries(size_t entries) { memset(entry, 0, entries * sizeof entry[0]); }

static void write_entries(struct table table, size_t entries, size_t lists)
{
    size_t place = 0;
    for (size_t e = 0; e < entries; e++)
        for (size_t q = 0; q <= lists; q++) put_word(table, place++, entry[e][q]);
}

static void read_entries(struct table table, size_t entries, size_t lists)
{
    size_t place = 0;
    clear_entries(entries);
    for (size_t e = 0; e < entries; e++)
        for (size_t q = 0; q <= lists; q++) entry[e][q] = word_at(table, place++);
}

/* Prices under way stand by receiver, totals by sender. */
static void write_post(const struct machine *machine, const struct table tables[])
{
    struct sizes sizes = machine->job->sizes;
    size_t offers = (size_t)sizes.boxes * sizes.offers;
    clear_entries(offers);
    for (size_t i = 0; i < machine->prices.length; i++) {
        const struct envelope *e = &machine->prices.envelope[i];
        memcpy(entry[e->receiver * sizes.offers + e->number], e->word, sizeof e->word);
    }
    write_entries(tables[PRICE_TRANSIT], offers, sizes.lists);
    clear_entries(machine->packed);
    for (size_t i = 0; i < machine->totals.length; i++) {
        const struct envelope *e = &machine->totals.envelope[i];
        memcpy(entry[machine->place[e->sender][e->number]], e->word, sizeof e->word);
    }
    write_entries(tables[TOTAL_TRANSIT], machine->packed, sizes.lists);
}

static void write_known(const struct machine *machine, struct table known)
{
    struct sizes sizes = machine->job->sizes;
    size_t place = 0;
    for (size_t b = 0; b < sizes.boxes; b++)
        for (size_t o = 0; o < sizes.offers; o++)
            for (size_t q = 0; q <= sizes.lists; q++) put_word(known, place++, machine->known[b][o][q]);
}

static void write_working(const struct machine *machine, struct table working)
{
    struct sizes sizes = machine->job->sizes;
    clear_entries(machine->packed);
    for (size_t b = 0; b < sizes.boxes; b++)
        for (size_t g = 0; g < sizes.grocers; g++)
            if (machine->place[b][g] != NO_PLACE)
                memcpy(entry[machine->place[b][g]], machine->working[b][g], sizeof machine->working[b][g]);
    write_entries(working, machine->packed, sizes.lists);
}

static void write_statements(const struct machine *machine, struct table statement)
{
    size_t place = 0;
    for (size_t g = 0; g < machine->job->sizes.grocers; g++)
        for (size_t q = 0; q <= machine->job->sizes.lists; q++) put_word(statement, place++, machine->statement[g][q]);
}

void write_state_words(const struct machine *machine, const struct table tables[ALL_TABLES])
{
    write_known(machine, tables[KNOWN]);
    write_working(machine, tables[WORKING]);
    write_statements(machine, tables[STATEMENT]);
    write_post(machine, tables);
    write_marks(machine, tables[DONE]);
    put_word(tables[SENT], 0, machine->sent);
}

void read_job_words(struct job *job, struct sizes sizes, const struct table tables[ALL_TABLES])
{
    job->sizes = sizes;
    read_prices(job, tables[PRICE]);
    for (size_t o = 0; o < sizes.offers; o++) job->offer[o].owner = (uint16_t)word_at(tables[OFFER_OWNER], o);
    for (size_t g = 0; g < sizes.grocers; g++) job->grocer_owner[g] = (uint16_t)word_at(tables[GROCER_OWNER], g);
    for (size_t t = 0; t < sizes.tallies; t++) {
        job->tally[t].grocer = (uint16_t)word_at(tables[TALLY_GROCER], t);
        job->tally[t].box = (uint16_t)word_at(tables[TALLY_BOX], t);
        job->tally[t].place = (uint16_t)word_at(tables[TALLY_OFFER], t);
        job->tally[t].count = (int32_t)word_at(tables[TALLY_COUNT], t);
        job->tally[t].bag = (uint16_t)word_at(tables[TALLY_BAG], t);
        job->tally[t].revision = (uint16_t)word_at(tables[TALLY_REVISION], t);
    }
}

/* What is under way of an entry, where a word of it is not 0. */
static void read_envelope(struct post *post, uint16_t sender, uint16_t receiver, uint16_t number, const int64_t word[])
{
    static const int64_t nothing[MOST_WIDTH];
    if (memcmp(word, nothing, sizeof nothing) == 0) return;
    struct envelope *e = &post->envelope[post->length++];
    *e = (struct envelope){sender, receiver, number, {0}};
    memcpy(e->word, word, sizeof e->word);
}

/* The other end of a word under way is the owner of its offer or grocer. */
static void read_post(struct machine *machine, const struct table tables[])
{
    const struct job *job = machine->job;
    struct sizes sizes = job->sizes;
    read_entries(tables[PRICE_TRANSIT], (size_t)sizes.boxes * sizes.offers, sizes.lists);
    for (uint16_t b = 0; b < sizes.boxes; b++)
        for (uint16_t o = 0; o < sizes.offers; o++)
            read_envelope(&machine->prices, job->offer[o].owner, b, o, entry[b * sizes.offers + o]);
    read_entries(tables[TOTAL_TRANSIT], machine->packed, sizes.lists);
    for (uint16_t b = 0; b < sizes.boxes; b++)
        for (uint16_t g = 0; g < sizes.grocers; g++)
            if (machine->place[b][g] != NO_PLACE)
                read_envelope(&machine->totals, b, job->grocer_owner[g], g, entry[machine->place[b][g]]);
}

static void read_known(struct machine *machine, struct table known)
{
    struct sizes sizes = machine->job->sizes;
    size_t place = 0;
    for (size_t b = 0; b < sizes.boxes; b++)
        for (size_t o = 0; o < sizes.offers; o++)
            for (size_t q = 0; q <= sizes.lists; q++) machine->known[b][o][q] = (uint32_t)word_at(known, place++);
}

static void read_working(struct machine *machine, struct table working)
{
    struct sizes sizes = machine->job->sizes;
    read_entries(working, machine->packed, sizes.lists);
    for (size_t b = 0; b < sizes.boxes; b++)
        for (size_t g = 0; g < sizes.grocers; g++)
            if (machine->place[b][g] != NO_PLACE)
                memcpy(machine->working[b][g], entry[machine->place[b][g]], sizeof machine->working[b][g]);
}

static void read_statements(struct machine *machine, struct table statement)
{
    size_t place = 0;
    for (size_t g = 0; g < machine->job->sizes.grocers; g++)
        for (size_t q = 0; q <= machine->job->sizes.lists; q++) machine->statement[g][q] = word_at(statement, place++);
}

static void read_marks(struct machine *machine, struct table done)
{
    uint16_t boxes = machine->job->sizes.boxes;
    for (unsigned kind = 1; kind < KINDS; kind++)
        for (size_t a = 0; a < boxes; a++)
            for (size_t b = 0; b < boxes; b++)
                machine->done[kind][a][b] = word_at(done, mark_place(boxes, kind, a, b)) == 1;
}

void read_state_words(struct machine *machine, const struct job *job, const struct table tables[ALL_TABLES])
{
    start_empty(machine, job);
    read_known(machine, tables[KNOWN]);
    read_working(machine, tables[WORKING]);
    read_statements(machine, tables[STATEMENT]);
    read_post(machine, tables);
    read_marks(machine, tables[DONE]);
    machine->sent = word_at(tables[SENT], 0);
}

/* Sums straight from the tallies */

int64_t plain_sum(const struct job *job, uint16_t grocer, size_t list)
{
    int64_t sum = 0;
    for (size_t t = 0; t < job->sizes.tallies; t++)
        if (job->tally[t].grocer == grocer && stands(job->tally, job->sizes.tallies, t))
            sum += (int64_t)job->tally[t].count * price_on(job, job->tally[t].place, list);
    return sum;
}

bool holds_offer(const struct job *job, size_t box, size_t offer)
{
    for (size_t t = 0; t < job->sizes.tallies; t++)
        if (job->tally[t].place == offer && holds(job, box, t)) return true;
    return false;
}

bool holds_grocer(const struct job *job, size_t box, size_t grocer)
{
    for (size_t t = 0; t < job->sizes.tallies; t++)
        if (job->tally[t].grocer == grocer && holds(job, box, t)) return true;
    return false;
}

uint32_t entries_of_job(const struct job *job)
{
    uint32_t entries = 0;
    for (size_t b = 0; b < job->sizes.boxes; b++) {
        for (size_t o = 0; o < job->sizes.offers; o++) entries += job->offer[o].owner != b && holds_offer(job, b, o);
        for (size_t g = 0; g < job->sizes.grocers; g++) entries += job->grocer_owner[g] != b && holds_grocer(job, b, g);
    }
    return entries;
}

uint32_t words_of_job(const struct job *job) { return entries_of_job(job) * (uint32_t)width_of_entry(job->sizes); }
