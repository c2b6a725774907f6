/*
 * What include/scoap.h says beside each call, tried with the archive: null where a length is 0, texts lent twice, tickets after
 * an undo, a new analysis and a change of library, a table of another netlist, a netlist that is not finished, and what the
 * accessors read. tests/editor builds it as C and as C++. Says what is otherwise, and counts it in its status.
 */
#include <stdio.h>
#include <string.h>

#include "scoap.h"

static int wrong;

static void is(const char *label, unsigned long long found, unsigned long long expected)
{
    if (found != expected) {
        printf("%s: %llu instead of %llu\n", label, found, expected);
        wrong = 1;
    }
}

#define TEXT(text) (const uint8_t *)(text), sizeof(text) - 1
#define REFUSAL(number, line) ((uint64_t)(number) * SCOAP_REFUSED + (line))

/* The latch of document 01, and its cell with a row added for each pin that observes it without asking for the other. */
#define LIB "Name,NAND2,2\nCC,13,21,M,5\nCO,203,211\nSC,12,20,M,4\nSO,202,210\nEnd\n"
#define MORE "Name,NAND2,2\nCC,13,21,M,5\nCO,203,M,201,211,M,201\nSC,12,20,M,4\nSO,202,210\nEnd\n"
#define NET "input,1\ninput,2\ngate,NAND2,3,1,4\ngate,NAND2,4,2,3\noutput,3\n"
#define OTHER "input,4\ngate,NAND2,5,4,4\noutput,5\n"
#define UNFINISHED "input,1\ngate,NAND2,3,1,4\noutput,3\n"

static uint32_t standing[SCOAP_STANDING];
static uint32_t kept[SCOAP_STANDING];
static uint32_t asked[SCOAP_OBSERVED];
static uint32_t before[SCOAP_OBSERVED];
static uint32_t best[SCOAP_BEST];
static uint32_t ranks[SCOAP_RANKS];
static uint8_t report[SCOAP_MOST_REPORTS];

/* Each slice of each call with length 0, once null and once not: the answers are the same, and those that are expected. */
static void nulls(void)
{
    uint8_t byte = 7;
    uint32_t word = 7;
    uint64_t empty;
    int null;

    scoap_stand(TEXT(LIB), TEXT(NET), standing, SCOAP_STANDING, report, sizeof report);
    empty = scoap_report(TEXT(""), TEXT(""), report, sizeof report);
    for (null = 0; null < 2; null++) {
        uint8_t *bytes = null ? NULL : &byte;
        uint32_t *words = null ? NULL : &word;

        is("report, lib", scoap_report(bytes, 0, TEXT(""), report, sizeof report), empty);
        is("report, net", scoap_report(TEXT(LIB), bytes, 0, report, sizeof report), empty);
        is("report, report", scoap_report(TEXT(LIB), TEXT(NET), bytes, 0), REFUSAL(17, 0));
        is("report, all", scoap_report(bytes, 0, bytes, 0, bytes, 0), REFUSAL(17, 0));
        is("report, refused", scoap_report(TEXT("x"), TEXT(NET), bytes, 0), REFUSAL(3, 1));
        is("plan, lib", scoap_plan(bytes, 0, TEXT(NET), 4, 1, 0, report, sizeof report), REFUSAL(12, 3));
        is("plan, net", scoap_plan(TEXT(LIB), bytes, 0, 4, 1, 0, report, sizeof report), REFUSAL(18, 0));
        is("plan, text", scoap_plan(TEXT(LIB), TEXT(NET), 4, 1, 0, bytes, 0), REFUSAL(19, 0));
        is("cell, line", scoap_cell(bytes, 0, report, sizeof report), REFUSAL(3, 1));
        is("cell, entry", scoap_cell(TEXT("NOT,1,10\n"), bytes, 0), REFUSAL(17, 0));
        is("built_in, text", scoap_built_in(bytes, 0), REFUSAL(17, 0));
        is("qualifies, lib", scoap_qualifies(bytes, 0, TEXT(NET)), REFUSAL(12, 3));
        is("qualifies, net", scoap_qualifies(TEXT(LIB), bytes, 0), SCOAP_EXACTLY);
        is("best, lib", scoap_best(bytes, 0, TEXT(NET), 9, best, SCOAP_BEST), REFUSAL(12, 3));
        is("best, net", scoap_best(TEXT(LIB), bytes, 0, 9, best, SCOAP_BEST), 0);
        is("best, best", scoap_best(TEXT(LIB), TEXT(NET), 9, words, 0), REFUSAL(1, 0));
        is("advise, lib", scoap_advise(bytes, 0, TEXT(NET), words, 0, asked, 1), REFUSAL(12, 3));
        is("advise, net", scoap_advise(TEXT(LIB), bytes, 0, words, 0, asked, 1), 0);
        is("advise, forbidden", scoap_advise(TEXT(LIB), TEXT(NET), words, 0, asked, 1), 2);
        is("advise, answer", scoap_advise(TEXT(LIB), TEXT(NET), NULL, 0, words, 0), REFUSAL(1, 0));
        is("rank, lib", scoap_rank(bytes, 0, TEXT(NET), words, 0, ranks, SCOAP_RANKS), REFUSAL(12, 3));
        is("rank, net", scoap_rank(TEXT(LIB), bytes, 0, words, 0, ranks, SCOAP_RANKS), 0);
        is("rank, forbidden", scoap_rank(TEXT(LIB), TEXT(NET), words, 0, ranks, SCOAP_RANKS), 3);
        is("rank, ranks", scoap_rank(TEXT(LIB), TEXT(NET), NULL, 0, words, 0), REFUSAL(1, 0));
        is("stand, lib", scoap_stand(bytes, 0, TEXT(NET), kept, SCOAP_STANDING, report, sizeof report), REFUSAL(12, 3));
        is("stand, net", scoap_stand(TEXT(LIB), bytes, 0, kept, SCOAP_STANDING, report, sizeof report), empty);
        is("stand, standing", scoap_stand(TEXT(LIB), TEXT(NET), words, 0, report, sizeof report), REFUSAL(1, 0));
        is("stand, report", scoap_stand(TEXT(LIB), TEXT(NET), kept, SCOAP_STANDING, bytes, 0), REFUSAL(17, 0));
        is("ask, lib", scoap_ask(bytes, 0, TEXT(NET), standing, SCOAP_STANDING, 4, asked, SCOAP_OBSERVED), REFUSAL(12, 3));
        is("ask, net", scoap_ask(TEXT(LIB), bytes, 0, standing, SCOAP_STANDING, 4, asked, SCOAP_OBSERVED), REFUSAL(23, 0));
        is("ask, standing", scoap_ask(TEXT(LIB), TEXT(NET), words, 0, 4, asked, SCOAP_OBSERVED), REFUSAL(1, 0));
        is("ask, answer", scoap_ask(TEXT(LIB), TEXT(NET), standing, SCOAP_STANDING, 4, words, 0), REFUSAL(1, 0));
        is("commit, lib", scoap_commit(bytes, 0, TEXT(NET), standing, SCOAP_STANDING, 4, 0), REFUSAL(12, 3));
        is("commit, net", scoap_commit(TEXT(LIB), bytes, 0, standing, SCOAP_STANDING, 4, 0), REFUSAL(23, 0));
        is("commit, standing", scoap_commit(TEXT(LIB), TEXT(NET), words, 0, 4, 0), REFUSAL(1, 0));
        is("change, lib", scoap_change(bytes, 0, TEXT(LIB), TEXT(NET), standing, SCOAP_STANDING), REFUSAL(12, 3));
        is("change, new_lib", scoap_change(TEXT(LIB), bytes, 0, TEXT(NET), standing, SCOAP_STANDING), REFUSAL(12, 3));
        is("change, net", scoap_change(TEXT(LIB), TEXT(MORE), bytes, 0, kept, SCOAP_STANDING), SCOAP_WENT_ON);
        is("change, standing", scoap_change(TEXT(LIB), TEXT(MORE), TEXT(NET), words, 0), REFUSAL(1, 0));
    }
    is("a byte of an empty slice", byte, 7);
    is("a number of an empty slice", word, 7);
}

/* What is only read may overlap: a text lent twice, a text within a text. */
static void twice(void)
{
    static const uint8_t texts[] = NET "x";

    is("a netlist as library", scoap_report(TEXT(NET), TEXT(NET), report, sizeof report), REFUSAL(3, 1));
    is("a text within a text", scoap_report(texts + sizeof NET - 1, 0, texts, sizeof NET - 1, report, sizeof report),
       REFUSAL(12, 3));
    scoap_stand(TEXT(LIB), TEXT(NET), standing, SCOAP_STANDING, report, sizeof report);
    is("the same library again", scoap_change(TEXT(LIB), TEXT(LIB), TEXT(NET), standing, SCOAP_STANDING), SCOAP_WENT_ON);
}

/* The numbers of docs/TABLES.md. */
static void places(void)
{
    uint64_t count;
    unsigned line;

    scoap_stand(TEXT(LIB), TEXT(NET), standing, SCOAP_STANDING, report, sizeof report);
    is("no pad", scoap_standing_count(standing), 0);
    is("co of line 2", scoap_standing_co(standing, 2), 5);
    count = scoap_ask(TEXT(LIB), TEXT(NET), standing, SCOAP_STANDING, 4, asked, SCOAP_OBSERVED);
    is("count", count, 0);
    is("co of line 2, asked", scoap_asked_co(asked, 2), 3);
    is("so of line 2, asked", scoap_asked_so(asked, 2), 0);
    is("co of line 5, asked", scoap_asked_co(asked, 5), SCOAP_NEVER);
    is("commit", scoap_commit(TEXT(LIB), TEXT(NET), standing, SCOAP_STANDING, 4, count), 1);
    is("one pad", scoap_standing_count(standing), 1);
    is("on line 4", scoap_standing_pad(standing, 1), 4);
    is("sweeps of CC", scoap_standing_sweeps(standing, 0), 3);
    is("sweeps of SC", scoap_standing_sweeps(standing, 1), 3);
    is("sweeps of CO", scoap_standing_sweeps(standing, 2), 2);
    is("sweeps of SO", scoap_standing_sweeps(standing, 3), 2);
    is("cc0 of line 3", scoap_standing_cc(standing, 3, 0), 4);
    is("cc1 of line 3", scoap_standing_cc(standing, 3, 1), 2);
    is("sc0 of line 3", scoap_standing_sc(standing, 3, 0), 0);
    is("sc1 of line 1,000", scoap_standing_sc(standing, SCOAP_LINES, 1), SCOAP_NEVER);
    is("so of line 1,000", scoap_standing_so(standing, SCOAP_LINES), SCOAP_NEVER);
    is("so of line 1", scoap_standing_so(standing, 1), 0);
    for (line = 1; line <= 4; line++) {
        is("co, asked and placed", scoap_standing_co(standing, line), scoap_asked_co(asked, line));
        is("so, asked and placed", scoap_standing_so(standing, line), scoap_asked_so(asked, line));
    }

    is("steps", scoap_best(TEXT(LIB), TEXT(NET), 5, best, SCOAP_BEST), 5);
    is("settled last", scoap_best_last(best), 2);
    is("line 3 at 0 is not settled", scoap_best_settled(best, 3, 0), 0);
    is("line 3 at 0", scoap_best_cost(best, 3, 0), SCOAP_NEVER);
    is("line 3 at 1 is settled", scoap_best_settled(best, 3, 1), 1);
    is("line 3 at 1", scoap_best_cost(best, 3, 1), 2);
    is("line 4 at 0", scoap_best_cost(best, 4, 0), 4);
    is("line 1,000 at 1", scoap_best_cost(best, SCOAP_LINES, 1), SCOAP_NEVER);

    is("allowed", scoap_rank(TEXT(LIB), TEXT(NET), NULL, 0, ranks, SCOAP_RANKS), 3);
    is("line 3 is not allowed", scoap_rank_allowed(ranks, 3), 0);
    is("line 4 is allowed", scoap_rank_allowed(ranks, 4), 1);
    is("never of line 4", scoap_rank_never(ranks, 4), 0);
    is("over of line 4", scoap_rank_over(ranks, 4), 0);
    is("largest of line 4", scoap_rank_largest(ranks, 4), 3);
    is("sum of line 4", scoap_rank_sum(ranks, 4), 6);
    is("sum of line 1,000", scoap_rank_sum(ranks, SCOAP_LINES), SCOAP_NEVER);
}

/* A ticket is a line and a count: what it is good for, and what it is not. */
static void tickets(void)
{
    uint64_t count;

    scoap_stand(TEXT(LIB), TEXT(NET), standing, SCOAP_STANDING, report, sizeof report);
    memcpy(kept, standing, sizeof kept);
    scoap_commit(TEXT(LIB), TEXT(NET), standing, SCOAP_STANDING, 2, 0);
    count = scoap_ask(TEXT(LIB), TEXT(NET), standing, SCOAP_STANDING, 4, before, SCOAP_OBSERVED);
    is("a pad placed since", scoap_commit(TEXT(LIB), TEXT(NET), standing, SCOAP_STANDING, 4, 0), REFUSAL(24, 0));
    is("line 2 is seen at its pad", scoap_asked_co(before, 2), 0);

    /* The table is put back and another pad placed: the ticket is accepted, and line 2 has no pad. */
    memcpy(standing, kept, sizeof kept);
    scoap_commit(TEXT(LIB), TEXT(NET), standing, SCOAP_STANDING, 1, 0);
    is("a ticket after an undo", scoap_commit(TEXT(LIB), TEXT(NET), standing, SCOAP_STANDING, 4, count), 2);
    is("other numbers than its ask wrote", scoap_standing_co(standing, 2), 3);

    /* A new analysis, and another pad: likewise. */
    scoap_stand(TEXT(LIB), TEXT(NET), standing, SCOAP_STANDING, report, sizeof report);
    scoap_commit(TEXT(LIB), TEXT(NET), standing, SCOAP_STANDING, 1, 0);
    is("a ticket after a stand", scoap_commit(TEXT(LIB), TEXT(NET), standing, SCOAP_STANDING, 4, count), 2);

    /* A change of library between ask and commit: what stands is what an ask writes after the change. */
    scoap_stand(TEXT(LIB), TEXT(NET), standing, SCOAP_STANDING, report, sizeof report);
    count = scoap_ask(TEXT(LIB), TEXT(NET), standing, SCOAP_STANDING, 4, before, SCOAP_OBSERVED);
    is("a row more", scoap_change(TEXT(LIB), TEXT(MORE), TEXT(NET), standing, SCOAP_STANDING), SCOAP_WENT_ON);
    scoap_ask(TEXT(MORE), TEXT(NET), standing, SCOAP_STANDING, 4, asked, SCOAP_OBSERVED);
    is("a ticket after a change", scoap_commit(TEXT(MORE), TEXT(NET), standing, SCOAP_STANDING, 4, count), 1);
    is("the number that the ask wrote", scoap_asked_co(before, 1), 3);
    is("the number under the new library", scoap_standing_co(standing, 1), 1);
    is("as an ask after the change wrote it", scoap_asked_co(asked, 1), 1);

    /* A table of another netlist is taken: nothing in it says of which it is. */
    scoap_stand(TEXT(LIB), TEXT(OTHER), standing, SCOAP_STANDING, report, sizeof report);
    is("a table of another netlist", scoap_ask(TEXT(LIB), TEXT(NET), standing, SCOAP_STANDING, 4, asked, SCOAP_OBSERVED), 0);
}

/* While a netlist is drawn, the lines that nothing drives yet are declared open. */
static void drawing(void)
{
    is("unfinished", scoap_best(TEXT(LIB), TEXT(UNFINISHED), 9, best, SCOAP_BEST), REFUSAL(SCOAP_UNDECLARED, 0));
    is("with an open line", scoap_best(TEXT(LIB), TEXT(UNFINISHED "open,4\n"), 9, best, SCOAP_BEST), 3);
    is("line 3 at 1", scoap_best_cost(best, 3, 1), 2);
    is("the open line", scoap_best_cost(best, 4, 0), SCOAP_NEVER);
}

static void words(void)
{
    unsigned number;

    for (number = 0; number < 30; number++) {
        int used = number >= 1 && number <= SCOAP_TICKET_STALE && number != 16;

        is("a number has words", strcmp(scoap_words(number), scoap_words(0)) != 0, used);
    }
    is("the words of 12", strcmp(scoap_words(SCOAP_UNKNOWN_CELL), "the library has no such cell"), 0);
}

int main(void)
{
    nulls();
    twice();
    places();
    tickets();
    drawing();
    words();
    return wrong;
}
