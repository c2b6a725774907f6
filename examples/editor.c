/*
 * An example of a schematic editor's side: it lends two texts and a buffer to the analyser and shows
 * the report, or says in words where the texts stop. Then it places a pad on each line that it is given, after
 * asking what the pad does, and changes to each library that it is given. While a circuit is being drawn it shows what
 * a few steps tell; and it says where a pad does most, with the lines that must get none.
 *
 *     gcc -std=c99 -Iinclude -o editor examples/editor.c target/staticlib/libscoap_c.a
 *     ./editor [LIBRARY NETLIST [LINE | LIBRARY ..]]
 *     ./editor --best STEPS [LIBRARY NETLIST]
 *     ./editor --advise [LIBRARY NETLIST [LINE ..]]
 *
 * Without names it shows a bundled example. Exit status: 0 accepted, 1 refused, 2 no texts to lend, or a word that should
 * be a number and is none.
 */
#include <stdio.h>
#include <stdlib.h>
#include <string.h>

#include "scoap.h"

static const char example_lib[] =
    "Name,NAND2,2\n"
    "CC,13,21,M,5\n"
    "CO,203,211\n"
    "SC,12,20,M,4\n"
    "SO,202,210\n"
    "End\n";

/* A latch: each gate reads the other's output. */
static const char example_net[] =
    "input,1\n"
    "input,2\n"
    "gate,NAND2,3,1,4\n"
    "gate,NAND2,4,2,3\n"
    "output,3\n";

/* One byte more than a text may have, so that a longer file is seen to be too long. */
#define TEXT (SCOAP_MOST_TEXT + 1)

static uint8_t lib[TEXT];
static uint8_t net[TEXT];
static uint8_t report[SCOAP_MOST_REPORTS];

static size_t lib_length;
static size_t net_length;

/* The standing analysis, and what a pad would make of its CO and SO. */
static uint32_t standing[SCOAP_STANDING];
static uint32_t asked[SCOAP_OBSERVED];

/* A library to change to, and what stood before it. */
static uint8_t new_lib[TEXT];
static uint32_t stood[SCOAP_STANDING];

/* What a few steps tell. */
static uint32_t best[SCOAP_BEST];

/* Lines that must get no pad, each once, and what a pad on each of the others would leave. */
static uint32_t forbidden[SCOAP_LINES];
static size_t forbidden_count;
static uint32_t ranks[SCOAP_RANKS];

/* Reads a file up to TEXT bytes. Returns 0 where it can't be read. */
static int read_text(const char *name, uint8_t *text, size_t *length)
{
    FILE *file = fopen(name, "rb");
    int fine;

    if (file == NULL) {
        return 0;
    }
    *length = fread(text, 1, TEXT, file);
    fine = !ferror(file);
    fclose(file);
    return fine;
}

/* Says where a call stops; returns 1. */
static int refused(uint64_t answer)
{
    unsigned number = scoap_number(answer);

    if ((number >= SCOAP_NETLIST_FORM && number <= SCOAP_OUTPUT_TWICE) ||
        (number >= SCOAP_NOT_INPUT && number <= SCOAP_RANGE)) {
        printf("netlist, line %u: ", scoap_line(answer));
    } else if (number >= SCOAP_LIBRARY_FORM && number <= SCOAP_ENTRIES) {
        printf("library, line %u: ", scoap_line(answer));
    }
    printf("%s (refusal %u)\n", scoap_words(number), number);
    return 1;
}

static void show_cost(uint32_t cost)
{
    if (cost == SCOAP_NEVER) {
        printf("never");
    } else if (cost == SCOAP_OVER) {
        printf("over");
    } else {
        printf("%lu", (unsigned long)cost);
    }
}

static void show_number(unsigned line, const char *name, uint32_t then, uint32_t now)
{
    if (now != then) {
        printf("line %u: %s ", line, name);
        show_cost(then);
        printf(" becomes ");
        show_cost(now);
        printf("\n");
    }
}

/* Shows each CO and SO that the pad lowers. */
static void show_gain(void)
{
    for (unsigned line = 1; line <= SCOAP_LINES; line++) {
        show_number(line, "co", scoap_standing_co(standing, line), scoap_asked_co(asked, line));
        show_number(line, "so", scoap_standing_so(standing, line), scoap_asked_so(asked, line));
    }
}

/* Shows each number that is another than it was. */
static void show_changes(void)
{
    for (unsigned line = 1; line <= SCOAP_LINES; line++) {
        show_number(line, "cc0", scoap_standing_cc(stood, line, 0), scoap_standing_cc(standing, line, 0));
        show_number(line, "cc1", scoap_standing_cc(stood, line, 1), scoap_standing_cc(standing, line, 1));
        show_number(line, "sc0", scoap_standing_sc(stood, line, 0), scoap_standing_sc(standing, line, 0));
        show_number(line, "sc1", scoap_standing_sc(stood, line, 1), scoap_standing_sc(standing, line, 1));
        show_number(line, "co", scoap_standing_co(stood, line), scoap_standing_co(standing, line));
        show_number(line, "so", scoap_standing_so(stood, line), scoap_standing_so(standing, line));
    }
}

/* Asks for a pad, shows what it does, and places it. Returns the exit status. */
static int place(uint64_t line)
{
    uint64_t count = scoap_ask(lib, lib_length, net, net_length, standing, SCOAP_STANDING, line,
                               asked, SCOAP_OBSERVED);
    uint64_t placed;

    printf("pad on line %llu:\n", (unsigned long long)line);
    if (count >= SCOAP_REFUSED) {
        return refused(count);
    }
    show_gain();
    /* A real editor would let its user decide here; the ticket says whether the answer still holds. */
    placed = scoap_commit(lib, lib_length, net, net_length, standing, SCOAP_STANDING, line, count);
    return placed < SCOAP_REFUSED ? 0 : refused(placed);
}

/* Changes to the library of a file, and shows what it changes. Returns the exit status. */
static int change(const char *name)
{
    size_t length;
    uint64_t answer;

    if (!read_text(name, new_lib, &length)) {
        fprintf(stderr, "editor: can't read %s\n", name);
        return 2;
    }
    memcpy(stood, standing, sizeof stood);
    answer = scoap_change(lib, lib_length, new_lib, length, net, net_length, standing, SCOAP_STANDING);
    printf("library %s:\n", name);
    if (answer >= SCOAP_REFUSED) {
        return refused(answer);
    }
    puts(answer == SCOAP_WENT_ON ? "the sweeps went on" : "analysed from the beginning");
    show_changes();
    printf("sweeps");
    for (unsigned run = 0; run < 4; run++) {
        printf(",%lu", (unsigned long)scoap_standing_sweeps(standing, run));
    }
    printf("\n");
    /* From here on this is the library that the analysis stands under. */
    memcpy(lib, new_lib, length);
    lib_length = length;
    return 0;
}

/* Reads a decimal number; one too large for 64 bits counts as the largest. Returns 0 where the word is none. */
static int number_of(const char *word, uint64_t *number)
{
    *number = strtoull(word, NULL, 10);
    return *word != 0 && word[strspn(word, "0123456789")] == 0;
}

/* A word of digits is a line, which gets a pad; any other names a library. */
static int follow(const char *word)
{
    uint64_t line;

    return number_of(word, &line) ? place(line) : change(word);
}

/* What setting a line to a value costs: its number, or what it lies between. */
static void show_value(unsigned line, unsigned value)
{
    uint32_t cost = scoap_best_cost(best, line, value);

    if (scoap_best_settled(best, line, value)) {
        show_cost(cost);
    } else {
        show_cost(scoap_best_last(best));
        if (cost == SCOAP_NEVER) {
            printf(" or more");
        } else {
            printf(" to ");
            show_cost(cost);
        }
    }
}

/* Shows the lines of which some steps tell more than nothing. Returns the exit status. */
static int show_best(uint64_t budget)
{
    uint64_t steps = scoap_best(lib, lib_length, net, net_length, budget, best, SCOAP_BEST);

    if (steps >= SCOAP_REFUSED) {
        return refused(steps);
    }
    printf("after %llu steps:\n", (unsigned long long)steps);
    for (unsigned line = 1; line <= SCOAP_LINES; line++) {
        if (scoap_best_cost(best, line, 0) != SCOAP_NEVER || scoap_best_cost(best, line, 1) != SCOAP_NEVER) {
            printf("line %u: 0 costs ", line);
            show_value(line, 0);
            printf(", 1 costs ");
            show_value(line, 1);
            printf("\n");
        }
    }
    return 0;
}

/* Shows what a pad on each allowed line would leave, and which of them does most. Returns the exit status. */
static int show_advice(void)
{
    uint32_t largest;
    uint64_t allowed = scoap_rank(lib, lib_length, net, net_length, forbidden, forbidden_count, ranks, SCOAP_RANKS);
    uint64_t line = scoap_advise(lib, lib_length, net, net_length, forbidden, forbidden_count, &largest, 1);

    /* Both are refused alike. */
    if (line >= SCOAP_REFUSED) {
        return refused(line);
    }
    for (unsigned each = 1; each <= SCOAP_LINES; each++) {
        if (scoap_rank_allowed(ranks, each)) {
            printf("line %u: never %lu, over %lu, largest co ", each, (unsigned long)scoap_rank_never(ranks, each),
                   (unsigned long)scoap_rank_over(ranks, each));
            show_cost(scoap_rank_largest(ranks, each));
            printf(", sum ");
            show_cost(scoap_rank_sum(ranks, each));
            printf("\n");
        }
    }
    if (line == 0) {
        printf("no line is allowed a pad\n");
    } else {
        printf("best pad of %llu: line %llu, with co up to ", (unsigned long long)allowed, (unsigned long long)line);
        show_cost(largest);
        printf("\n");
    }
    return 0;
}

/*
 * Takes the lines that must get no pad, however many words there are. Returns 0 where a word is no line: whoever forbids one
 * is told so, since a line that is passed over would be advised.
 */
static int forbid(int count, char **words)
{
    static char listed[SCOAP_LINES + 1];

    for (int word = 0; word < count; word++) {
        uint64_t line;

        if (!number_of(words[word], &line) || line < 1 || line > SCOAP_LINES) {
            fprintf(stderr, "editor: %s is no line that can be forbidden: a number from 1 to %u is\n", words[word], SCOAP_LINES);
            return 0;
        }
        if (!listed[line]) {
            listed[line] = 1;
            forbidden[forbidden_count++] = (uint32_t)line;
        }
    }
    return 1;
}

int main(int argc, char **argv)
{
    uint64_t answer;
    uint64_t budget = 0;
    int drawing = argc > 2 && strcmp(argv[1], "--best") == 0;
    int advising = argc > 1 && strcmp(argv[1], "--advise") == 0;
    int status = 0;

    if (drawing && !number_of(argv[2], &budget)) {
        fprintf(stderr, "editor: %s is no number of steps\n", argv[2]);
        return 2;
    }
    argc -= 2 * drawing + advising;
    argv += 2 * drawing + advising;
    if (argc == 1) {
        lib_length = strlen(example_lib);
        net_length = strlen(example_net);
        memcpy(lib, example_lib, lib_length);
        memcpy(net, example_net, net_length);
    } else if (argc == 2) {
        fprintf(stderr, "usage: editor [LIBRARY NETLIST [LINE | LIBRARY ..]]\n"
                        "       editor --best STEPS [LIBRARY NETLIST]\n"
                        "       editor --advise [LIBRARY NETLIST [LINE ..]]\n");
        return 2;
    } else if (!read_text(argv[1], lib, &lib_length) || !read_text(argv[2], net, &net_length)) {
        fprintf(stderr, "editor: can't read %s and %s\n", argv[1], argv[2]);
        return 2;
    }

    if (drawing) {
        return show_best(budget);
    }
    if (advising) {
        return forbid(argc - 3, argv + 3) ? show_advice() : 2;
    }
    /* Where nothing follows, a report has to do. */
    if (argc > 3) {
        answer = scoap_stand(lib, lib_length, net, net_length, standing, SCOAP_STANDING, report, sizeof report);
    } else {
        answer = scoap_report(lib, lib_length, net, net_length, report, sizeof report);
    }
    if (answer >= SCOAP_REFUSED) {
        return refused(answer);
    }
    fwrite(report, 1, (size_t)answer, stdout);
    for (int word = 3; word < argc && status == 0; word++) {
        status = follow(argv[word]);
    }
    return status;
}
