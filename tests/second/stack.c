/*
 * The stack that the C entries need: each case runs on a thread whose stack was painted before, and
 * the lowest byte that lost its paint is looked for afterwards. What the thread itself takes, a few
 * thousand bytes, counts as the entry's. Calls for memory from the heap are counted, too, by the
 * linker's --wrap. The last line counts: 'N passed, M failed'.
 */
#define _GNU_SOURCE
#include <pthread.h>
#include <stdio.h>
#include <stdlib.h>
#include <string.h>
#include <sys/mman.h>

#include "scoap.h"

#define LIMIT SCOAP_STACK
/* Of the call that writes out a plan, which goes down as deep as the tree. */
#define PLAN_LIMIT SCOAP_PLAN_STACK
/* Far more than the limit, so that a breach is measured rather than met as a crash. */
#define STACK (64u * 1024u * 1024u)
#define PAINT 0xa5u

static char lib[2 * SCOAP_MOST_TEXT];
static char net[2 * SCOAP_MOST_TEXT];
static uint8_t report[2 * SCOAP_REPORT];
static size_t lib_length;
static size_t net_length;
static uint64_t answer;
/* Which entry is called. The library's text is the line of a truth table for CELL. */
static enum { REPORT, PLAN, CELL, BUILT_IN, QUALIFIES, STAND, ASK, COMMIT, CHANGE, BEST, ADVISE, RANK } entry;
#define ENTRIES (RANK + 1)
static const char *const names[ENTRIES] = { "report", "plan", "cell", "built_in", "qualifies", "stand",
                                            "ask", "commit", "change", "best", "advise", "rank" };
/* The most that each took. */
static size_t most[ENTRIES];
/* The line whose plan is written out, at 1. */
static unsigned plan;
/* A standing analysis, what is asked of it, and the line of the pad. */
static uint32_t standing[SCOAP_STANDING];
static uint32_t asked[SCOAP_OBSERVED];
static unsigned pad;
/* The library that it is changed to. */
static char more[2 * SCOAP_MOST_TEXT];
static size_t more_length;
static uint32_t best[SCOAP_BEST];
/* All lines but one, and what a pad on it leaves. */
static uint32_t forbidden[SCOAP_LINES - 1];
static uint32_t ranks[SCOAP_RANKS];

static volatile int entered;
static volatile unsigned taken;

static unsigned passed;
static unsigned failed;

void *__real_malloc(size_t size);
void *__real_calloc(size_t count, size_t size);
void *__real_realloc(void *memory, size_t size);
void *__wrap_malloc(size_t size);
void *__wrap_calloc(size_t count, size_t size);
void *__wrap_realloc(void *memory, size_t size);

void *__wrap_malloc(size_t size)
{
    taken += entered;
    return __real_malloc(size);
}

void *__wrap_calloc(size_t count, size_t size)
{
    taken += entered;
    return __real_calloc(count, size);
}

void *__wrap_realloc(void *memory, size_t size)
{
    taken += entered;
    return __real_realloc(memory, size);
}

static void *run(void *unused)
{
    entered = 1;
    switch (entry) {
    case REPORT:
        answer = scoap_report((const uint8_t *)lib, lib_length, (const uint8_t *)net, net_length,
                              report, sizeof report);
        break;
    case PLAN:
        answer = scoap_plan((const uint8_t *)lib, lib_length, (const uint8_t *)net, net_length,
                            plan, 1, 0, report, sizeof report);
        break;
    case CELL:
        answer = scoap_cell((const uint8_t *)lib, lib_length, report, SCOAP_MOST_ENTRY);
        break;
    case BUILT_IN:
        answer = scoap_built_in(report, SCOAP_BUILT_IN);
        break;
    case QUALIFIES:
        answer = scoap_qualifies((const uint8_t *)lib, lib_length, (const uint8_t *)net, net_length);
        break;
    case STAND:
        answer = scoap_stand((const uint8_t *)lib, lib_length, (const uint8_t *)net, net_length,
                             standing, SCOAP_STANDING, report, sizeof report);
        break;
    case ASK:
        answer = scoap_ask((const uint8_t *)lib, lib_length, (const uint8_t *)net, net_length,
                           standing, SCOAP_STANDING, pad, asked, SCOAP_OBSERVED);
        break;
    case COMMIT:
        answer = scoap_commit((const uint8_t *)lib, lib_length, (const uint8_t *)net, net_length,
                              standing, SCOAP_STANDING, pad, standing[0]);
        break;
    case CHANGE:
        answer = scoap_change((const uint8_t *)lib, lib_length, (const uint8_t *)more, more_length,
                              (const uint8_t *)net, net_length, standing, SCOAP_STANDING);
        break;
    case BEST:
        answer = scoap_best((const uint8_t *)lib, lib_length, (const uint8_t *)net, net_length,
                            UINT64_MAX, best, SCOAP_BEST);
        break;
    case ADVISE:
        answer = scoap_advise((const uint8_t *)lib, lib_length, (const uint8_t *)net, net_length,
                              forbidden, SCOAP_LINES - 1, ranks, 1);
        break;
    case RANK:
        answer = scoap_rank((const uint8_t *)lib, lib_length, (const uint8_t *)net, net_length,
                            forbidden, SCOAP_LINES - 1, ranks, SCOAP_RANKS);
        break;
    }
    entered = 0;
    return unused;
}

/* The bytes of a fresh thread's stack that lost their paint. */
static size_t used(void)
{
    pthread_attr_t attributes;
    pthread_t thread;
    size_t untouched = 0;
    unsigned char *stack = mmap(NULL, STACK, PROT_READ | PROT_WRITE,
                                MAP_PRIVATE | MAP_ANONYMOUS | MAP_STACK, -1, 0);

    if (stack == MAP_FAILED) {
        perror("mmap");
        exit(2);
    }
    memset(stack, PAINT, STACK);
    if (pthread_attr_init(&attributes) != 0
        || pthread_attr_setstack(&attributes, stack, STACK) != 0
        || pthread_create(&thread, &attributes, run, NULL) != 0
        || pthread_join(thread, NULL) != 0) {
        fprintf(stderr, "no thread on the painted stack\n");
        exit(2);
    }
    pthread_attr_destroy(&attributes);
    while (untouched < STACK && stack[untouched] == PAINT) {
        untouched++;
    }
    munmap(stack, STACK);
    return STACK - untouched;
}

static void start(void)
{
    lib_length = 0;
    net_length = 0;
}

static void add_lib(const char *text)
{
    size_t length = strlen(text);

    memcpy(lib + lib_length, text, length);
    lib_length += length;
}

static void add_net(const char *text)
{
    size_t length = strlen(text);

    memcpy(net + net_length, text, length);
    net_length += length;
}

/* Measures the texts just put together. `number` is the refusal meant, 0 for acceptance. */
static void measure(const char *label, unsigned number)
{
    size_t own = used();
    unsigned is = answer < SCOAP_REFUSED ? 0 : scoap_number(answer);

    printf("%-38s %8zu bytes of stack\n", label, own);
    most[entry] = own > most[entry] ? own : most[entry];
    if (is != number) {
        printf("FAILED: %s: answer %llu, number %u was meant\n", label,
               (unsigned long long)answer, number);
        failed++;
    } else if (taken != 0) {
        printf("FAILED: %s: %u calls for memory\n", label, taken);
        taken = 0;
        failed++;
    } else if (own > (entry == PLAN ? PLAN_LIMIT : LIMIT)) {
        printf("FAILED: %s: above %u\n", label, entry == PLAN ? PLAN_LIMIT : LIMIT);
        failed++;
    } else {
        passed++;
    }
}

/* The texts just put together, held as a standing analysis: a pad is asked for and placed. */
static void measure_pad(const char *label, unsigned line)
{
    char text[64];

    pad = line;
    snprintf(text, sizeof text, "%s, held", label);
    entry = STAND;
    measure(text, 0);
    snprintf(text, sizeof text, "%s, a pad asked for", label);
    entry = ASK;
    measure(text, 0);
    snprintf(text, sizeof text, "%s, placed", label);
    entry = COMMIT;
    measure(text, 0);
    measure("the same once more", SCOAP_UNPADDABLE);
    entry = REPORT;
}

/* What the change just measured answered. */
static void meant(const char *label, uint64_t wanted)
{
    if (answer != wanted) {
        printf("FAILED: %s: answer %llu, %llu was meant\n", label, (unsigned long long)answer,
               (unsigned long long)wanted);
        failed++;
    }
}

/* The analysis just held, under the same library, under one with an entry more, and under one without any. */
static void measure_change(const char *label)
{
    static const char tie[] = "Name,TIE0,0\nCC,1,Z\nCO\nSC,0,Z\nSO\nEnd\n";
    char text[64];

    entry = CHANGE;
    memcpy(more, lib, more_length = lib_length);
    snprintf(text, sizeof text, "%s, gone on", label);
    measure(text, 0);
    meant(text, SCOAP_WENT_ON);
    memcpy(more + more_length, tie, sizeof tie - 1);
    more_length += sizeof tie - 1;
    snprintf(text, sizeof text, "%s, begun again", label);
    measure(text, 0);
    meant(text, SCOAP_BEGUN_AGAIN);
    more_length = 0;
    measure("under a library without entries", SCOAP_UNKNOWN_CELL);
    entry = REPORT;
}

/* The same texts, and what steps without a limit tell of them. */
static void measure_best(const char *label, unsigned number)
{
    char text[64];

    snprintf(text, sizeof text, "%s, settled by steps", label);
    entry = BEST;
    measure(text, number);
    entry = REPORT;
}

/* The same texts, and a pad tried on one line. */
static void measure_advice(const char *label, unsigned line, unsigned number)
{
    char text[64];

    for (unsigned at = 0; at < SCOAP_LINES - 1; at++) {
        forbidden[at] = at + 1 < line ? at + 1 : at + 2;
    }
    snprintf(text, sizeof text, "%s, advice", label);
    entry = ADVISE;
    measure(text, number);
    if (number == 0 && answer != line) {
        printf("FAILED: line %u is allowed alone, %llu is named\n", line, (unsigned long long)answer);
        failed++;
    }
    snprintf(text, sizeof text, "%s, ranks", label);
    entry = RANK;
    measure(text, number);
    entry = REPORT;
}

static const char nand2[] = "Name,NAND2,2\nCC,13,21,M,5\nCO,203,211\nSC,12,20,M,4\nSO,202,210\nEnd\n";
/* The 0 comes from the own 1 and the 1 from the 0 before: 2G + 1 sweeps where listed backwards. */
static const char slow[] = "Name,SLOW,2\nCC,3,21\nCO,203,211\nSC,2,20\nSO,202,210\nEnd\n";

/* Groups of sixteen rows over eight pins, each naming every column. */
static void full_entry(unsigned number)
{
    static const char *const words[] = {"CC", "CO", "SC", "SO"};
    char text[64];

    snprintf(text, sizeof text, "Name,FULL%u,8\n", number);
    add_lib(text);
    for (unsigned word = 0; word < 4; word++) {
        unsigned groups = word % 2 == 0 ? 2 : 8;
        add_lib(words[word]);
        for (unsigned row = 0; row < groups * 16; row++) {
            add_lib(row % 16 == 0 ? "," : ",M,");
            add_lib(word % 2 == 0 ? "377777" : "3777777");
        }
        add_lib("\n");
    }
    add_lib("End\n");
}

int main(void)
{
    char text[128];

    start();
    measure("empty texts", 0);

    start();
    add_lib(nand2);
    for (unsigned line = 1; line <= SCOAP_LINES; line++) {
        snprintf(text, sizeof text, "gate,NAND2,%u,%u,%u\noutput,%u\n", line, line % SCOAP_LINES + 1,
                 (line * 7) % SCOAP_LINES + 1, line);
        add_net(text);
    }
    measure("a gate for each line, in loops", 0);
    measure_best("a gate for each line, in loops", 0);

    start();
    add_lib(slow);
    add_net("input,1\n");
    for (unsigned line = SCOAP_LINES; line > 1; line--) {
        snprintf(text, sizeof text, "gate,SLOW,%u,%u,%u\n", line, line - 1, line);
        add_net(text);
    }
    snprintf(text, sizeof text, "output,%u\n", SCOAP_LINES);
    add_net(text);
    measure("2G + 1 sweeps", 0);
    measure_pad("2G + 1 sweeps", 500);
    measure_change("2G + 1 sweeps");
    measure_best("2G + 1 sweeps", 0);
    measure_advice("2G + 1 sweeps", 500, 0);
    /* The same at both ends of a range. */
    add_net("range,1,1,999\n");
    measure("2G + 1 sweeps, twice", 0);

    start();
    for (unsigned cell = 0; cell < 15; cell++) {
        full_entry(cell);
    }
    add_net("input,1\noutput,2\n");
    for (unsigned line = 2; line <= SCOAP_LINES; line++) {
        snprintf(text, sizeof text, "gate,FULL%u,%u,1,%u,1,1,%u,1,1,1\n", line % 15, line, line - 1,
                 line);
        add_net(text);
    }
    measure("full entries, full rows", 0);
    measure_pad("full entries", 500);
    measure_change("full entries");
    measure_best("full entries", 0);
    measure_advice("full entries", 500, 0);

    /* Texts as long as they may be: many lines, many fields, one field. */
    start();
    memset(lib, '\n', lib_length = SCOAP_MOST_TEXT);
    measure("a library of empty lines", 3);
    start();
    memset(net, '\n', net_length = SCOAP_MOST_TEXT);
    measure("a netlist of empty lines", 10);
    start();
    memset(lib, ',', lib_length = SCOAP_MOST_TEXT);
    measure("a library of commas", 3);
    start();
    memset(net, ',', net_length = SCOAP_MOST_TEXT);
    measure("a netlist of commas", 10);
    entry = ASK;
    measure("an ask with a netlist of commas", 10);
    entry = COMMIT;
    measure("a commit with a netlist of commas", 10);
    entry = CHANGE;
    measure("a change with a netlist of commas", 10);
    measure_best("a netlist of commas", 10);
    measure_advice("a netlist of commas", 500, 10);
    start();
    memset(net, '1', net_length = SCOAP_MOST_TEXT);
    measure("a netlist of one field", 10);
    start();
    add_lib("Name,A,1\nCC,2");
    while (lib_length + 5 <= SCOAP_MOST_TEXT) {
        add_lib(",M,2");
    }
    add_lib("\n");
    measure("one group of many rows", 6);
    start();
    add_lib("Name,A,1\nCC,2");
    while (lib_length + 3 <= SCOAP_MOST_TEXT) {
        add_lib(",2");
    }
    add_lib("\n");
    measure("many groups", 6);
    start();
    add_lib(nand2);
    add_net("gate,NAND2,1");
    while (net_length + 3 <= SCOAP_MOST_TEXT) {
        add_net(",1");
    }
    add_net("\n");
    measure("one gate of many pins", 13);
    start();
    memset(net, '\n', net_length = SCOAP_MOST_TEXT + 1);
    measure("a text too long", 2);
    entry = ASK;
    measure("an ask with a text too long", 2);
    entry = COMMIT;
    measure("a commit with a text too long", 2);
    entry = CHANGE;
    measure("a change with a text too long", 2);
    measure_best("a text too long", 2);
    measure_advice("a text too long", 500, 2);
    start();
    entry = CHANGE;
    memset(standing, 0, sizeof standing);
    memset(more, ',', more_length = SCOAP_MOST_TEXT);
    measure("a change to a library of commas", 3);
    more_length++;
    measure("a change to a text too long", 2);
    entry = REPORT;

    /* The deepest tree: the 1 comes from the own 0, and the 0 from the 1 before. */
    start();
    add_lib("Name,DEEP,2\nCC,11,5\nCO,201,201\nSC,10,4\nSO,200,200\nEnd\n");
    add_net("input,1\n");
    for (unsigned line = 2; line <= SCOAP_LINES; line++) {
        snprintf(text, sizeof text, "gate,DEEP,%u,%u,%u\n", line, line - 1, line);
        add_net(text);
    }
    entry = PLAN;
    plan = SCOAP_LINES;
    measure("the deepest plan", 0);
    /* A tree of more nodes than any buffer has bytes ends with the buffer. */
    start();
    add_lib("Name,AND2,2\nCC,21,M,5,13\nCO,205,221\nSC,20,M,4,12\nSO,204,220\nEnd\n");
    add_net("input,1\ninput,2\n");
    for (unsigned line = 3; line <= 40; line++) {
        snprintf(text, sizeof text, "gate,AND2,%u,%u,%u\n", line, line - 1, line - 2);
        add_net(text);
    }
    plan = 40;
    measure("a plan longer than its buffer", 19);

    /* The most rows: each pin of an exclusive or changes the output. */
    start();
    entry = CELL;
    add_lib("XOR4,4,0110100110010110\n");
    measure("the entry of a truth table", 0);
    start();
    memset(lib, '1', lib_length = SCOAP_MOST_TEXT);
    measure("a truth table of one field", 3);

    /* The built-in text fits its published length, and is accepted as a library. */
    start();
    entry = BUILT_IN;
    measure("the built-in library", 0);
    memcpy(lib, report, lib_length = SCOAP_BUILT_IN);
    add_net("input,1\ngate,NOT,2,1\noutput,2\n");
    entry = REPORT;
    measure("a netlist over it", 0);
    entry = QUALIFIES;
    measure("whether it qualifies", 0);
    if (answer != SCOAP_EXACTLY) {
        printf("FAILED: an inverter's netlist qualifies by %llu\n", (unsigned long long)answer);
        failed++;
    }

    for (unsigned each = 0; each < ENTRIES; each++) {
        printf("most of scoap_%s %zu\n", names[each], most[each]);
    }
    printf("%u passed, %u failed\n", passed, failed);
    return failed == 0 ? 0 : 1;
}
