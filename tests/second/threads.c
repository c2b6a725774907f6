/*
 * All calls from several threads at once, each thread with just the stack that the header publishes: what they leave is
 * what one thread after another leaves. The last line counts: 'N passed, M failed'.
 *
 *     threads LIB NET..    pairs of files; a chain of 999 inverters, whose plan goes deep, comes besides
 */
#include <pthread.h>
#include <stdio.h>
#include <stdlib.h>
#include <string.h>

#include "scoap.h"

#define THREADS 8
#define ROUNDS 2
#define MOST_PAIRS 16

struct text {
    uint8_t bytes[SCOAP_MOST_TEXT];
    size_t length;
};

static struct text libs[MOST_PAIRS];
static struct text nets[MOST_PAIRS];
static unsigned pairs;

/* What one thread writes. Nothing of it stands on its stack. */
struct written {
    uint8_t text[SCOAP_MOST_REPORTS];
    uint32_t standing[SCOAP_STANDING];
    uint32_t numbers[SCOAP_BEST];
};

/* What the calls over a pair left: without scoap_plan, and by scoap_plan alone. */
static uint64_t left_alone[2][MOST_PAIRS];

struct job {
    pthread_t thread;
    struct written *written;
    unsigned first;
    /* 1 for scoap_plan. */
    unsigned plans;
    unsigned different;
};

/* FNV-1a. */
static uint64_t mixed(uint64_t hash, const void *memory, size_t length)
{
    const uint8_t *bytes = memory;
    size_t at;

    for (at = 0; at < length; at++)
        hash = (hash ^ bytes[at]) * 0x100000001b3u;
    return hash;
}

#define MIX(memory) hash = mixed(hash, memory, sizeof memory)

static uint64_t others(const struct text *lib, const struct text *net, struct written *w)
{
    uint64_t answers[12] = { 0 };
    uint64_t hash = 0xcbf29ce484222325u;

    memset(w, 7, sizeof *w);
    answers[0] = scoap_report(lib->bytes, lib->length, net->bytes, net->length, w->text, sizeof w->text);
    MIX(w->text);
    answers[1] = scoap_cell((const uint8_t *)"C1130,3,10000000\n", 17, w->text, SCOAP_MOST_ENTRY);
    MIX(w->text);
    answers[2] = scoap_built_in(w->text, SCOAP_BUILT_IN);
    MIX(w->text);
    answers[3] = scoap_qualifies(lib->bytes, lib->length, net->bytes, net->length);
    answers[4] = scoap_best(lib->bytes, lib->length, net->bytes, net->length, 500, w->numbers, SCOAP_BEST);
    MIX(w->numbers);
    /* A pad on each line of the chain would take long. */
    if (net->length < 4096) {
        answers[5] = scoap_advise(lib->bytes, lib->length, net->bytes, net->length, w->standing, 1, w->numbers, 1);
        answers[6] = scoap_rank(lib->bytes, lib->length, net->bytes, net->length, w->standing, 1,
                                w->numbers, SCOAP_RANKS);
    }
    MIX(w->numbers);
    answers[7] = scoap_stand(lib->bytes, lib->length, net->bytes, net->length, w->standing, SCOAP_STANDING,
                             w->text, sizeof w->text);
    answers[8] = scoap_ask(lib->bytes, lib->length, net->bytes, net->length, w->standing, SCOAP_STANDING, 2,
                           w->numbers, SCOAP_OBSERVED);
    MIX(w->numbers);
    answers[9] = scoap_commit(lib->bytes, lib->length, net->bytes, net->length, w->standing, SCOAP_STANDING, 2, 0);
    MIX(w->standing);
    answers[10] = scoap_change(lib->bytes, lib->length, lib->bytes, lib->length, net->bytes, net->length,
                               w->standing, SCOAP_STANDING);
    answers[11] = scoap_change(lib->bytes, lib->length, libs[0].bytes, libs[0].length, net->bytes, net->length,
                               w->standing, SCOAP_STANDING);
    MIX(w->standing);
    MIX(answers);
    return hash;
}

static uint64_t plans(const struct text *lib, const struct text *net, struct written *w)
{
    uint64_t hash = 0xcbf29ce484222325u;
    unsigned line, value;

    memset(w, 7, sizeof *w);
    for (line = 1; line <= SCOAP_LINES; line += line < 10 ? 1 : 330) {
        for (value = 0; value < 2; value++) {
            uint64_t answer = scoap_plan(lib->bytes, lib->length, net->bytes, net->length, line, value, value,
                                         w->text, sizeof w->text);
            hash = mixed(hash, &answer, sizeof answer);
            MIX(w->text);
        }
    }
    return hash;
}

static uint64_t work(unsigned plan, unsigned pair, struct written *w)
{
    return plan ? plans(&libs[pair], &nets[pair], w) : others(&libs[pair], &nets[pair], w);
}

static void *run(void *lent)
{
    struct job *job = lent;
    unsigned turn;

    for (turn = 0; turn < ROUNDS * pairs; turn++) {
        unsigned pair = (job->first + turn) % pairs;
        job->different += work(job->plans, pair, job->written) != left_alone[job->plans][pair];
    }
    return NULL;
}

static void fill(struct text *text, const char *name)
{
    FILE *file = fopen(name, "rb");

    if (file == NULL) {
        perror(name);
        exit(2);
    }
    text->length = fread(text->bytes, 1, sizeof text->bytes, file);
    fclose(file);
}

/* Inverters one after another, the last first. */
static void chain(struct text *lib, struct text *net)
{
    unsigned line;

    lib->length = (size_t)sprintf((char *)lib->bytes, "Name,INV,1\nCC,3,5\nCO,41\nSC,2,4\nSO,40\nEnd\n");
    net->length = (size_t)sprintf((char *)net->bytes, "input,1\noutput,%u\n", SCOAP_LINES);
    for (line = SCOAP_LINES; line > 1; line--)
        net->length += (size_t)sprintf((char *)net->bytes + net->length, "gate,INV,%u,%u\n", line, line - 1);
}

int main(int count, char **words)
{
    static struct job jobs[THREADS];
    unsigned at, pair, plan, passed = 0, failed = 0;
    struct written *alone = malloc(sizeof *alone);

    for (at = 1; at + 1 < (unsigned)count && pairs < MOST_PAIRS - 1; at += 2, pairs++) {
        fill(&libs[pairs], words[at]);
        fill(&nets[pairs], words[at + 1]);
    }
    chain(&libs[pairs], &nets[pairs]);
    pairs++;
    for (plan = 0; plan < 2; plan++)
        for (pair = 0; pair < pairs; pair++)
            left_alone[plan][pair] = work(plan, pair, alone);
    for (at = 0; at < THREADS; at++) {
        pthread_attr_t attributes;

        jobs[at].first = at;
        jobs[at].plans = at % 2;
        jobs[at].written = malloc(sizeof *jobs[at].written);
        if (jobs[at].written == NULL || pthread_attr_init(&attributes) != 0
            || pthread_attr_setstacksize(&attributes, at % 2 ? SCOAP_PLAN_STACK : SCOAP_STACK) != 0
            || pthread_create(&jobs[at].thread, &attributes, run, &jobs[at]) != 0) {
            fprintf(stderr, "no thread\n");
            return 2;
        }
    }
    for (at = 0; at < THREADS; at++) {
        if (pthread_join(jobs[at].thread, NULL) != 0 || jobs[at].different != 0) {
            printf("FAILED: thread %u differs %u times\n", at, jobs[at].different);
            failed++;
        } else {
            passed++;
        }
    }
    printf("%u threads at once, %u pairs of texts, %u rounds\n", THREADS, pairs, ROUNDS);
    printf("%u passed, %u failed\n", passed, failed);
    return failed != 0;
}
