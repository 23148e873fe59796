/* Runs the library and the reference on the same inputs in this process, holds
   every reply of the one against the other's, and prints how their times
   compare and how much stack each operation used. The rounds of an input are
   spread over the whole run, so that what else the machine does for a while
   falls on a few rounds of every input and not on all rounds of one; and each
   pass has the stack at another place, so that no row rests on one place of
   it beside the texts. */
#include "micaplume.h"
#include "../tests/reference/reference.h"
#include "inputs.h"

#include <stdbool.h>
#include <stdio.h>
#include <stdlib.h>
#include <string.h>
#include <time.h>
#include <ucontext.h>

enum { PASSES = 9, ROUNDS = 3 * PASSES, OUT_BYTES = 1 << 20, STACK_BYTES = 1 << 20, PAINT = 0xA5, FILL = 0x5A };
enum { STACK_MOST = 65536, JOBS_MOST = 64, SHIFT_BYTES = 464 };

static const double round_seconds = 0.002;

enum operation { WRITE_CARDS, WRITE_FRAMES, REDUCE_CARDS, REDUCE_FRAMES, CONE, CHECK };

static const char *const operation_name[] = {
    "write cards", "write frames", "reduce cards", "reduce frames", "cone", "check"
};

struct job {
    enum operation operation;
    const char *input;
    struct text one, two; /* the deck, and the claim of a check */
    uint64_t set;         /* of a cone */
    unsigned number;      /* replied */
    size_t stack;
    unsigned library_calls, reference_calls; /* in a round */
    unsigned rounds;                         /* done */
    double library[ROUNDS], reference[ROUNDS], ratio[ROUNDS];
};

/* The answer, the counts and the lent bytes of one side. */
struct reply {
    uint64_t answer, counts[2];
    uint8_t out[OUT_BYTES];
};

static void run_library(const struct job *job, struct reply *reply)
{
    const uint8_t *text = job->one.byte;
    size_t n = job->one.length;
    switch (job->operation) {
    case WRITE_CARDS:
        reply->answer = micaplume_write_cards(text, n, reply->out, OUT_BYTES, reply->counts);
        break;
    case WRITE_FRAMES:
        reply->answer = micaplume_write_frames(text, n, reply->out, OUT_BYTES, reply->counts);
        break;
    case REDUCE_CARDS:
        reply->answer = micaplume_reduce_cards(text, n, reply->out, OUT_BYTES, reply->counts);
        break;
    case REDUCE_FRAMES:
        reply->answer = micaplume_reduce_frames(text, n, reply->out, OUT_BYTES, reply->counts);
        break;
    case CONE:
        reply->answer = micaplume_cone(text, n, job->set, reply->counts);
        break;
    case CHECK:
        reply->answer = micaplume_check(text, n, job->two.byte, job->two.length);
        break;
    }
}

static void run_reference(const struct job *job, struct reply *reply)
{
    const uint8_t *text = job->one.byte;
    size_t n = job->one.length;
    switch (job->operation) {
    case WRITE_CARDS:
        reply->answer = ref_write_cards(text, n, reply->out, OUT_BYTES, reply->counts);
        break;
    case WRITE_FRAMES:
        reply->answer = ref_write_frames(text, n, reply->out, OUT_BYTES, reply->counts);
        break;
    case REDUCE_CARDS:
        reply->answer = ref_reduce_cards(text, n, reply->out, OUT_BYTES, reply->counts);
        break;
    case REDUCE_FRAMES:
        reply->answer = ref_reduce_frames(text, n, reply->out, OUT_BYTES, reply->counts);
        break;
    case CONE:
        reply->answer = ref_cone(text, n, job->set, reply->counts);
        break;
    case CHECK:
        reply->answer = ref_check(text, n, job->two.byte, job->two.length);
        break;
    }
}

static void run_nothing(const struct job *job, struct reply *reply)
{
    (void)job;
    (void)reply;
}

typedef void side(const struct job *, struct reply *);

static struct reply library_reply, reference_reply;

/* ---- Replies ---- */

static void clear_reply(struct reply *reply)
{
    reply->answer = 0;
    memset(reply->counts, 0, sizeof reply->counts);
    memset(reply->out, FILL, sizeof reply->out);
}

static bool same_reply(const struct job *job)
{
    clear_reply(&library_reply);
    clear_reply(&reference_reply);
    run_library(job, &library_reply);
    run_reference(job, &reference_reply);
    return memcmp(&library_reply, &reference_reply, sizeof library_reply) == 0;
}

/* ---- Time ---- */

static double seconds(void)
{
    struct timespec now;
    clock_gettime(CLOCK_PROCESS_CPUTIME_ID, &now);
    return (double)now.tv_sec + 1e-9 * (double)now.tv_nsec;
}

/* Seconds of one call, over so many. */
static double time_of(side *run, const struct job *job, struct reply *reply, unsigned calls)
{
    double began = seconds();
    for (unsigned i = 0; i < calls; i++)
        run(job, reply);
    return (seconds() - began) / calls;
}

/* As many calls as fill a round. */
static unsigned calls_for(side *run, const struct job *job, struct reply *reply)
{
    unsigned calls = 1;
    while (calls < 1u << 20 && calls * time_of(run, job, reply, calls) < round_seconds)
        calls *= 2;
    return calls;
}

static int by_size(const void *a, const void *b)
{
    double x = *(const double *)a, y = *(const double *)b;
    return (x > y) - (x < y);
}

static double quartile(const double rounds[ROUNDS], unsigned which)
{
    double sorted[ROUNDS];
    memcpy(sorted, rounds, sizeof sorted);
    qsort(sorted, ROUNDS, sizeof sorted[0], by_size);
    return sorted[(ROUNDS - 1) * which / 4];
}

static double median(const double rounds[ROUNDS])
{
    return quartile(rounds, 2);
}

static void run_round(struct job *job)
{
    unsigned i = job->rounds++;
    job->library[i] = time_of(run_library, job, &library_reply, job->library_calls);
    job->reference[i] = time_of(run_reference, job, &reference_reply, job->reference_calls);
    job->ratio[i] = job->library[i] / job->reference[i];
}

/* ---- Stack ---- */

static uint8_t painted[STACK_BYTES];
static ucontext_t here, there;
static side *painted_side;
static const struct job *painted_job;
static struct reply *painted_reply;

static void on_painted_stack(void)
{
    painted_side(painted_job, painted_reply);
}

static size_t bytes_touched(side *run, const struct job *job, struct reply *reply)
{
    size_t untouched = 0;
    memset(painted, PAINT, sizeof painted);
    getcontext(&there);
    there.uc_stack.ss_sp = painted;
    there.uc_stack.ss_size = sizeof painted;
    there.uc_link = &here;
    painted_side = run;
    painted_job = job;
    painted_reply = reply;
    makecontext(&there, on_painted_stack, 0);
    swapcontext(&here, &there);
    while (untouched < sizeof painted && painted[untouched] == PAINT)
        untouched++;
    return sizeof painted - untouched;
}

/* The stack that one call used at most, without what entering it takes. */
static size_t stack_of(side *run, const struct job *job, struct reply *reply)
{
    size_t with = bytes_touched(run, job, reply);
    return with - bytes_touched(run_nothing, job, reply);
}

/* ---- The inputs ---- */

static struct job jobs[JOBS_MOST];
static unsigned rows;    /* jobs of the table */
static unsigned lengths; /* jobs of the table of lengths, behind them */

/* The job that is put together; add_job takes it as it stands. */
static struct job next;

static void add_job(enum operation operation, const char *input, unsigned *count)
{
    unsigned at = rows + lengths;
    if (at == JOBS_MOST) {
        fprintf(stderr, "bench: too many inputs\n");
        exit(2);
    }
    jobs[at] = next;
    jobs[at].operation = operation;
    jobs[at].input = input;
    (*count)++;
}

static size_t text_bytes(const struct job *job)
{
    return job->one.length + (job->operation == CHECK ? job->two.length : 0);
}

static void to_frames(struct text *cards)
{
    static struct text frames;
    uint64_t counts[2];
    if (ref_write_cards(cards->byte, cards->length, frames.byte, TEXT_MOST, counts) != 0) {
        fprintf(stderr, "bench: a deck is refused\n");
        exit(2);
    }
    frames.length = (size_t)counts[0];
    *cards = frames;
}

static void add_cards(const char *input)
{
    add_job(WRITE_CARDS, input, &rows);
    add_job(REDUCE_CARDS, input, &rows);
}

/* All operations on a deck of cards. */
static void add_deck(const char *input, uint64_t set)
{
    add_cards(input);
    to_frames(&next.one);
    next.set = set;
    add_job(WRITE_FRAMES, input, &rows);
    add_job(REDUCE_FRAMES, input, &rows);
    add_job(CONE, input, &rows);
}

/* The first piece of the worked deck. */
static void first_piece(struct text *deck)
{
    static const char piece[] =
        "010000000000000003\n020000000000000000\n03004200\n0301430001\n030100\n04474201\n050006\n";
    deck->length = sizeof piece - 1;
    memcpy(deck->byte, piece, deck->length);
}

static void add_rows(void)
{
    static const struct {
        unsigned size;
        const char *name;
    } chain[] = { { 8, "chain of 8" }, { 16, "chain of 16" }, { 32, "chain of 32" }, { 64, "chain of 64" } },
      claim[] = { { 16, "16 states" }, { 256, "256 states" }, { 1024, "1,024 states" } };

    worked_deck(&next.one);
    add_deck("worked deck", 2);
    limits_deck(&next.one);
    add_deck("all limits", 1);
    limits_deck(&next.one);
    fill_with_comments(&next.one, TEXT_MOST);
    add_cards("all limits, comments");
    conjuncts_deck(&next.one);
    add_deck("64 conjuncts", 1);
    for (size_t i = 0; i < sizeof chain / sizeof chain[0]; i++) {
        chain_deck(&next.one, chain[i].size);
        add_deck(chain[i].name, 1);
    }
    first_piece(&next.one);
    worked_claim(&next.two);
    add_job(CHECK, "worked claim", &rows);
    limits_deck(&next.one);
    to_frames(&next.one);
    for (size_t i = 0; i < sizeof claim / sizeof claim[0]; i++) {
        limits_claim(&next.two, claim[i].size);
        add_job(CHECK, claim[i].name, &rows);
    }
}

/* The same deck in longer and longer texts, and longer and longer claims. */
static void add_lengths(void)
{
    for (size_t bytes = TEXT_MOST / 8; bytes <= TEXT_MOST; bytes *= 2) {
        worked_deck(&next.one);
        fill_with_comments(&next.one, bytes);
        add_job(WRITE_CARDS, "worked deck, comments", &lengths);
    }
    empty_deck(&next.one);
    to_frames(&next.one);
    for (unsigned states = 128; states <= 1024; states *= 2) {
        empty_claim(&next.two, states);
        add_job(CHECK, "no variables", &lengths);
    }
}

/* ---- The tables ---- */

static void print_rows(void)
{
    printf("%-14s %-20s %6s %6s %10s %10s %6s  %-14s %6s\n", "operation", "input", "bytes", "number",
           "library us", "ref. us", "ratio", "quartiles", "stack");
    for (unsigned i = 0; i < rows; i++) {
        const struct job *job = &jobs[i];
        double ratio = median(job->ratio);
        printf("%-14s %-20s %6zu %6u %10.2f %10.2f %6.2f  %5.2f to %5.2f %6zu%s\n",
               operation_name[job->operation], job->input, text_bytes(job), job->number,
               1e6 * median(job->library), 1e6 * median(job->reference), ratio,
               quartile(job->ratio, 1), quartile(job->ratio, 3), job->stack,
               job->stack > STACK_MOST ? "  TOO MUCH STACK" : ratio > 1 ? "  slower" : "");
    }
}

/* From the second length on with the nanoseconds that each byte more took. */
static void print_lengths(void)
{
    printf("\n%-14s %-22s %6s %10s %10s %14s %10s\n", "operation", "input", "bytes", "library us",
           "ref. us", "ns a byte more", "ref.");
    for (unsigned i = rows; i < rows + lengths; i++) {
        const struct job *job = &jobs[i], *before = &jobs[i - 1];
        printf("%-14s %-22s %6zu %10.2f %10.2f", operation_name[job->operation], job->input,
               text_bytes(job), 1e6 * median(job->library), 1e6 * median(job->reference));
        if (i > rows && before->operation == job->operation) {
            double more = (double)(text_bytes(job) - text_bytes(before));
            printf(" %14.2f %10.2f", 1e9 * (median(job->library) - median(before->library)) / more,
                   1e9 * (median(job->reference) - median(before->reference)) / more);
        }
        printf("\n");
    }
}

/* The rounds of a pass, on a stack that begins lower from pass to pass. */
static void run_pass(unsigned pass)
{
    volatile uint8_t shift[1 + SHIFT_BYTES * pass];
    shift[0] = 0;
    for (unsigned i = 0; i < rows + lengths; i++)
        while (jobs[i].rounds < (pass + 1) * (ROUNDS / PASSES))
            run_round(&jobs[i]);
    (void)shift[0];
}

int main(void)
{
    bool passed = true;
    add_rows();
    add_lengths();
    for (unsigned i = 0; i < rows + lengths; i++) {
        struct job *job = &jobs[i];
        if (!same_reply(job)) {
            fprintf(stderr, "bench: %s, %s: the replies differ\n", operation_name[job->operation], job->input);
            return 1;
        }
        job->number = (unsigned)(library_reply.answer & 255);
        job->stack = stack_of(run_library, job, &library_reply);
        job->library_calls = calls_for(run_library, job, &library_reply);
        job->reference_calls = calls_for(run_reference, job, &reference_reply);
        passed = passed && job->stack <= STACK_MOST;
    }
    for (unsigned pass = 0; pass < PASSES; pass++)
        run_pass(pass);
    print_rows();
    print_lengths();
    return passed ? 0 : 1;
}
