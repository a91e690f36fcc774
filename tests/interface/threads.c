/* Two threads do the same jobs on the same texts at the same time, in different
   order, each with lists and an answer area of its own; every answer is held to the
   one that was given before, with one thread. */

#include <pthread.h>

#include "texts.h"

/* The jobs over one text, compare and join of a text with the next, and slip from a text
   to itself. */
enum { COMPARE = JOBS, JOIN, SLIP, ALL_JOBS };

enum { THREADS = 2, ROUNDS = 60, CALLS = ALL_JOBS * TEXTS };

struct lent {
    uint16_t list[YILGORZA_LIST_RECORDS], second_list[YILGORZA_LIST_RECORDS];
    uint8_t answer[YILGORZA_ANSWER_BYTES];
    uint64_t outcome[4];
};

static struct lent first[CALLS], own[THREADS];
static pthread_barrier_t start;

/* The job, the text and the next text of a call. */
static int job_of(int call) { return call % ALL_JOBS; }
static const struct text *text_of(int call) { return &texts[call / ALL_JOBS]; }
static const struct text *next_of(int call) {
    return &texts[(call / ALL_JOBS + 1) % TEXTS];
}

static const struct text *slip_of(int call) { return &slips[call / ALL_JOBS % SLIPS]; }

static void answer_one(int call, struct lent *l) {
    const struct text *t = text_of(call), *n = next_of(call);
    memset(l, 0, sizeof *l);
    if (job_of(call) == COMPARE)
        yilgorza_compare(t->bytes, t->length, l->list, YILGORZA_LIST_RECORDS, n->bytes,
                         n->length, l->second_list, YILGORZA_LIST_RECORDS,
                         l->outcome);
    else if (job_of(call) == JOIN)
        yilgorza_join(t->bytes, t->length, l->list, YILGORZA_LIST_RECORDS, n->bytes,
                      n->length, l->answer, YILGORZA_ANSWER_BYTES, l->outcome);
    else if (job_of(call) == SLIP)
        yilgorza_slip(t->bytes, t->length, l->list, YILGORZA_LIST_RECORDS,
                      slip_of(call)->bytes, slip_of(call)->length, t->bytes, t->length,
                      l->second_list, YILGORZA_LIST_RECORDS, l->outcome);
    else
        do_job(job_of(call), t->bytes, t->length, l->list, YILGORZA_LIST_RECORDS,
               l->answer, YILGORZA_ANSWER_BYTES, l->outcome);
}

/* Whether the outcome is the one asked for; the bytes of a text are not known. */
static int is_expected(int call, const uint64_t *outcome) {
    uint64_t numbers[4];
    if (job_of(call) != COMPARE && job_of(call) != SLIP) {
        if (job_of(call) == JOIN)
            joined(text_of(call), next_of(call), numbers);
        else
            expected(job_of(call), text_of(call), numbers);
        return memcmp(outcome, numbers, 3 * sizeof *numbers) == 0;
    }
    if (job_of(call) == COMPARE)
        compared(text_of(call), next_of(call), numbers);
    else
        slipped(text_of(call), slip_of(call), text_of(call), numbers);
    return memcmp(outcome, numbers, sizeof numbers) == 0;
}

/* Counts the answers that are as the first ones. */
static void *work(void *argument) {
    struct lent *l = argument;
    int thread = l - own;
    size_t same = 0;
    for (int round = 0; round < ROUNDS; round++) {
        pthread_barrier_wait(&start);
        for (int k = 0; k < CALLS; k++) {
            int call = thread == 0 ? k : CALLS - 1 - k;
            answer_one(call, l);
            same += memcmp(l, &first[call], sizeof *l) == 0;
        }
    }
    return (void *)same;
}

int main(void) {
    pthread_t threads[THREADS];
    char name[80];
    int good = 1;

    make_texts();
    for (int call = 0; call < CALLS; call++) {
        answer_one(call, &first[call]);
        good &= is_expected(call, first[call].outcome);
    }
    verdict(good, "one thread gives the outcomes that are asked for");
    if (pthread_barrier_init(&start, NULL, THREADS))
        return 1;
    for (int t = 0; t < THREADS; t++)
        if (pthread_create(&threads[t], NULL, work, &own[t]))
            return 1;
    for (int t = 0; t < THREADS; t++) {
        void *same;
        if (pthread_join(threads[t], &same))
            return 1;
        snprintf(name, sizeof name, "thread %d: %zu of %d answers are the same", t,
                 (size_t)same, ROUNDS * CALLS);
        verdict((size_t)same == (size_t)ROUNDS * CALLS, name);
    }
    return counts();
}
