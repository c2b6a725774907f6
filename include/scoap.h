/*
 * Goldstein's six numbers for every line of a netlist, for callers in C and C++.
 *
 * Link libscoap_c.a, which 'make archive' builds in target/staticlib. No call takes anything from the heap,
 * and each but scoap_plan takes less than SCOAP_STACK bytes of stack. Nothing is kept from call to call, so that calls
 * may be made from several threads at once, as long as none writes what another reads or writes.
 */
#ifndef SCOAP_H
#define SCOAP_H

#include <stddef.h>
#include <stdint.h>

/* The version of the header and of what was installed with it. */
#define SCOAP_VERSION "0.1.0"

#ifdef __cplusplus
extern "C" {
#endif

/* The most lines of a netlist. */
#define SCOAP_LINES 1000u

/* The longest text that is read; a longer one is refused with number 2. */
#define SCOAP_MOST_TEXT 65535u

/*
 * The report buffer that the program scoap itself uses. A buffer may have any length, 0 included:
 * a report longer than its buffer is refused with number 17; one that just fits is accepted. Of a netlist with
 * ranges both reports count, with the line 'high' between them, so that 17 can come of this buffer too.
 */
#define SCOAP_REPORT 65536u

/*
 * No report is longer, so that of a netlist without ranges number 17 never comes of a buffer of this length or
 * more: a header of 27 bytes, 1,000 lines with six costs of nine digits at most, and the sweeps.
 */
#define SCOAP_MOST_REPORT 63947u

/* Twice that and the line 'high': number 17 never comes of a buffer of this length or more. */
#define SCOAP_MOST_REPORTS 127899u

/*
 * Stack that a thread should have left for the call. Most that was measured, in bytes, by how many lines the analyser
 * takes: of 1000 the published archive, of more those of make large, where a link has 32 bits from 8192 on:
 *   lines                1000     2000     4000     8000    32767
 *   scoap_report       217584   343712   595968  1100464  4945072
 *   scoap_plan         504552   918680  1746920  3403432 14380936
 *   scoap_cell           5008     5008     5008     5008     5008
 *   scoap_built_in       6464     6464     6464     6464     6464
 *   scoap_qualifies    158892   226892   362892   634892  2319044
 *   scoap_stand        217616   343744   596000  1100496  4945104
 *   scoap_ask          193536   295664   499920   908416  4158624
 *   scoap_commit       193456   295584   499840   908336  4158544
 *   scoap_change       301568   425824   674320  1171328  5690368
 *   scoap_best         256944   422944   754944  1418944  5989008
 *   scoap_advise       240448   389792   688288  1285296  6423504
 *   scoap_rank         240416   389792   688288  1285280  6423504
 * Of scoap_qualifies the figures above 1000 lines are not measured but computed: what was measured before the call had
 * lists of 8 bytes a line, and these.
 */
#define SCOAP_STACK 524288u

/*
 * Every call answers by one number, and every number is one of two, for every input:
 *   below SCOAP_REFUSED      accepted: a length, a count or a line, as each call says
 *   SCOAP_REFUSED and above  refused: the refusal's number times SCOAP_REFUSED plus its line, which scoap_number and
 *                            scoap_line give back. The line is at most 65,536, and 0 where the refusal belongs to no line
 * No length is taken for a refusal: where a text could be as long as SCOAP_REFUSED, in scoap_plan alone, such a text
 * counts as longer than its buffer.
 */
#define SCOAP_REFUSED 1000000u

/*
 * What is lent to a call, one rule for every one of them. A pointer and the length behind it are a slice: of bytes a text or
 * a buffer, of numbers a table, an answer or a list.
 *   valid     each pointer is valid for its length, and aligned for its type. Where the length is 0 nothing is read or
 *             written there, and the pointer may be null
 *   const     is only read. Such slices may overlap each other: one text may be lent twice
 *   other     is written, and overlaps no other slice of the call, whether that is read or written
 * Texts need no byte 0 at their end. Nothing outside of the slices is read or written.
 */

/*
 * Why a call is refused; scoap_words says each in words. 16 is unused.
 */
enum scoap_refusal {
    SCOAP_TABLE_SHORT = 1,
    SCOAP_TEXT_TOO_LONG = 2,
    SCOAP_LIBRARY_FORM = 3,
    SCOAP_NAME_USED = 4,
    SCOAP_PINS = 5,
    SCOAP_GROUPS = 6,
    SCOAP_ROW_BITS = 7,
    SCOAP_ROW_EMPTY = 8,
    SCOAP_ENTRIES = 9,
    SCOAP_NETLIST_FORM = 10,
    SCOAP_LINE_NUMBER = 11,
    SCOAP_UNKNOWN_CELL = 12,
    SCOAP_PIN_COUNT = 13,
    SCOAP_DRIVEN_TWICE = 14,
    SCOAP_OUTPUT_TWICE = 15,
    SCOAP_REPORT_TOO_LONG = 17,
    SCOAP_NO_FIGURE = 18,
    SCOAP_PLAN_TOO_LONG = 19,
    SCOAP_UNDECLARED = 20,
    SCOAP_NOT_INPUT = 21,
    SCOAP_RANGE = 22,
    SCOAP_UNPADDABLE = 23,
    SCOAP_TICKET_STALE = 24
};

/* A refusal's number in the words of README's table, to which tests/refusals holds them. */
static inline const char *scoap_words(unsigned number)
{
    switch (number) {
    case SCOAP_TABLE_SHORT:
        return "a lent table is shorter than its published size";
    case SCOAP_TEXT_TOO_LONG:
        return "a text has more than 65,535 bytes";
    case SCOAP_LIBRARY_FORM:
        return "bad form: a wrong word, a missing or empty field, a bad number or name, an M or a Z out of "
               "place, no byte 10 at the end, an entry broken off";
    case SCOAP_NAME_USED:
        return "the name was used before";
    case SCOAP_PINS:
        return "more than 8 pins";
    case SCOAP_GROUPS:
        return "a wrong count of groups, or a group of more than 16 rows";
    case SCOAP_ROW_BITS:
        return "a row has a bit above its columns";
    case SCOAP_ROW_EMPTY:
        return "a CC or SC row names no pin while the other group of its line has rows, or a CO or SO row does "
               "not observe the output";
    case SCOAP_ENTRIES:
        return "a 33rd entry";
    case SCOAP_NETLIST_FORM:
        return "bad form";
    case SCOAP_LINE_NUMBER:
        return "a line number is not 1 to 1,000";
    case SCOAP_UNKNOWN_CELL:
        return "the library has no such cell";
    case SCOAP_PIN_COUNT:
        return "the count of pins differs from the cell's";
    case SCOAP_DRIVEN_TWICE:
        return "the line is driven already, by an input or a gate, or declared open";
    case SCOAP_OUTPUT_TWICE:
        return "the line is marked output already";
    case SCOAP_REPORT_TOO_LONG:
        return "the report is longer than its buffer; of a netlist with ranges both reports together";
    case SCOAP_NO_FIGURE:
        return "the number is over or never, or there is none";
    case SCOAP_PLAN_TOO_LONG:
        return "the plan's text is longer than its buffer";
    case SCOAP_UNDECLARED:
        return "a line is read by a pin or marked output, and neither driven nor declared open";
    case SCOAP_NOT_INPUT:
        return "a range on a line that is not marked input above";
    case SCOAP_RANGE:
        return "a bound of a range is not 1 to 999, LOW is above HIGH, or the line has a range already";
    case SCOAP_UNPADDABLE:
        return "the netlist does not mention the line, or it is an output already; or the standing table holds "
               "such a pad, or a count of pads above 1,000";
    case SCOAP_TICKET_STALE:
        return "the ticket's count of pads is not the present one";
    default:
        return "no refusal has this number";
    }
}

/*
 * Reads a cell library and a netlist and writes the report.
 *
 * lib, net    the texts, lib_len and net_len bytes
 * report      the buffer, report_len bytes
 *
 * Answers the report's length where the pair is accepted. Otherwise it answers a refusal, with the line
 * from 1 in the text that the number belongs to: 3 to 9 the library, 10 to 15, 21 and 22 the netlist; 2, 17 and 20 have
 * line 0. The library is read first; the topmost bad line counts, and within it the lowest number. 20 comes after all
 * lines.
 *
 * Where the netlist has a line 'range,L,LOW,HIGH' the report is written twice: with all such inputs at LOW, then,
 * after a line 'high', with all at HIGH. However the prices fall within the ranges, each cc and co lies between
 * the two; never stands in both or in neither; sc and so are the same. The length is that of both.
 *
 * Pins of a gate that share a line are one wire: a CC or SC row pays a value of it once, and a row that needs
 * both is no way. A cell with a row that names both values of one pin pays for each pin.
 *
 * A cost 'never' says that there is no plan. scoap_qualifies tells whether it also says something of the chip.
 *
 * The buffer afterwards:
 *   accepted       the report, without a byte 0 at its end; bytes past it keep their values
 *   refusal 2      untouched
 *   other refusal  all zero
 */
uint64_t scoap_report(const uint8_t *lib, size_t lib_len, const uint8_t *net, size_t net_len,
                      uint8_t *report, size_t report_len);

/* Stack that a thread should have left for scoap_plan, which follows a plan from node to node. */
#define SCOAP_PLAN_STACK 1048576u

/*
 * Writes out the cheapest way to set a line to a value: one line of text for each node of the plan,
 * 'depth in tree,line,value,row', parents before children. The row is octal as its entry writes it, or
 * 'input'. Pins on one wire are one node.
 *
 * lib, net    the texts, as for scoap_report
 * line        the line, 1 to 1,000; value 0 or 1; kind 0 combinational, 1 sequential
 * text        the buffer, text_len bytes
 *
 * Answers the text's length, or a refusal as scoap_report answers it. 17 is not made; 18 and 19 have line 0
 * and come after every other. 19 comes where the text is longer than the buffer, and where it has SCOAP_REFUSED
 * bytes or more, however long the buffer is. The buffer afterwards is as scoap_report leaves its own: untouched by 2,
 * all zero after every other refusal; bytes past the text keep their values.
 * Of a standing analysis, after scoap_change too, the plan under its library costs the number that stands.
 */
uint64_t scoap_plan(const uint8_t *lib, size_t lib_len, const uint8_t *net, size_t net_len,
                    uint64_t line, uint64_t value, uint64_t kind, uint8_t *text, size_t text_len);

/* No entry of a truth table is longer, so that number 17 never comes of a buffer of this length or more. */
#define SCOAP_MOST_ENTRY 8192u

/*
 * Writes the library entry of a truth table.
 *
 * line        one line 'NAME,n,BITS' with its byte 10, line_len bytes: n from 0 to 4, BITS the 2^n output
 *             values from all pins 0 upwards, pin 1 heaviest
 * entry       the buffer, entry_len bytes
 *
 * Answers the entry's length. Otherwise it answers a refusal: 2 (more than 65,535 bytes) at line 0, 3 (bad form)
 * and 5 (n above 4) at line 1, 17 (the entry is longer than its buffer) at line 0. The buffer afterwards is as
 * scoap_report leaves its own.
 */
uint64_t scoap_cell(const uint8_t *line, size_t line_len, uint8_t *entry, size_t entry_len);

/* The length of the built-in library text. */
#define SCOAP_BUILT_IN 2044u

/*
 * Writes the built-in library text, AND2 to AND4, then likewise NAND, OR, NOR, XOR and XNOR, and last NOT: what
 * scoap_cell writes of their truth tables. Answers SCOAP_BUILT_IN, or 17 times 1,000,000 where the buffer of
 * text_len bytes is shorter, which is then all zero.
 */
uint64_t scoap_built_in(uint8_t *text, size_t text_len);

/* What never says of the chip. */
enum scoap_never {
    /* nothing: the netlist has a loop, an open line or a cell that scoap_cell does not make */
    SCOAP_NOTHING = 0,
    /* no setting of the inputs gives a line a value whose CC number is never */
    SCOAP_NO_SETTING = 1,
    /* besides, never stands exactly when no setting does: each line is read by at most one pin */
    SCOAP_EXACTLY = 2
};

/*
 * Tells which of these holds of a netlist: answers one of enum scoap_never, or a refusal of the texts as
 * scoap_report answers it. It only reads, and calculates nothing, so that 17 does not come.
 */
uint64_t scoap_qualifies(const uint8_t *lib, size_t lib_len, const uint8_t *net, size_t net_len);

/* Costs are numbers up to 999,999,999; above that stand these two. */
#define SCOAP_OVER 1000000000u
#define SCOAP_NEVER 1000000001u

/* Numbers of the table that scoap_best writes; the place of line 1 at 0 in it, and the numbers of a value. */
#define SCOAP_BEST 4001u
#define SCOAP_BEST_VALUES 1u
#define SCOAP_BEST_VALUE 2u

/*
 * The best numbers that a few steps give, for an editor that cannot wait for an analysis. Each step settles one
 * value of one line, in combinational terms: the cheapest on offer, among equals that of the lowest line, 0 before
 * 1. On offer are an input at its price (with ranges at LOW), and a gate's value by a row whose columns are all
 * settled. It stops after budget steps, or when nothing is on offer. A line has two values, so that a budget of
 * 2,000 or more is unlimited.
 *
 * A netlist that is not finished yet is refused by 20 as long as a pin reads a line, or an output marks one, that nothing
 * drives: lend it with a line 'open,L' added for each of these, which then is never on offer, and without them once it is
 * driven.
 *
 * lib, net    the texts, as for scoap_report
 * best        the table, best_len numbers, SCOAP_BEST of them written:
 *
 *   place 0                       the cost settled last, 0 before any
 *   places 4 l - 3 and 4 l - 2    line l at 0: 1 and its number where it is settled; else 0 and the present offer,
 *                                 SCOAP_NEVER where there is none
 *   places 4 l - 1 and 4 l        line l at 1, likewise
 *
 * A settled number is exactly the one that scoap_report has. Every other one lies between place 0 and its offer. A
 * larger budget changes no settled value; an unlimited one leaves all numbers as scoap_report has them, with never
 * for what is not settled.
 *
 * Answers the number of steps, which is that of settled values and at most 2,000; or a refusal as scoap_report
 * answers it. No analysis is run and no report made, so that 17 does not come. The table afterwards:
 *   accepted           as above; numbers past SCOAP_BEST keep their values
 *   refusals 1 and 2   untouched; 1, which comes first, where best_len is below SCOAP_BEST
 *   other refusal      all zero
 */
uint64_t scoap_best(const uint8_t *lib, size_t lib_len, const uint8_t *net, size_t net_len,
                    uint64_t budget, uint32_t *best, size_t best_len);

/* Numbers that scoap_rank writes, and how many for each line. */
#define SCOAP_RANKS 4000u
#define SCOAP_RANK 4u

/*
 * A pad adviser, a second library above the first: on which line a pad does most, where some lines must get none. A
 * line is allowed that the netlist mentions, that is not forbidden and no output already. A pad is tried on each of
 * them alone. It takes a netlist, and sees no pads that scoap_commit placed.
 *
 * lib, net    the texts, as for scoap_report; with ranges all inputs are at LOW
 * forbidden   the lines that must get no pad, forbidden_len numbers in any order, perhaps none. One that names no line
 *             of the netlist counts for nothing, and one that stands there twice is forbidden once
 * answer      answer_len numbers, of which the first is written
 *
 * Answers the line whose pad leaves the lowest largest CO, and puts that CO into answer[0]; among equals it is the
 * lowest line. Every other allowed line, padded alone, leaves a largest CO at least as high, as a new analysis with
 * that line marked output has it. Largest is over all lines of the netlist, the padded one included; SCOAP_OVER and
 * SCOAP_NEVER are above all figures. Where lines are left that nothing can see, every line leaves SCOAP_NEVER, and the
 * lowest is answered; scoap_rank tells more. Where no line is allowed it answers 0, and the answer is untouched.
 *
 * Otherwise it answers a refusal of the texts as scoap_report does; 17 does not come. The numbers afterwards:
 *   accepted           as above; those past the first keep their values
 *   refusals 1 and 2   untouched; 1, which comes first, where answer_len is 0
 *   other refusal      all zero
 */
uint64_t scoap_advise(const uint8_t *lib, size_t lib_len, const uint8_t *net, size_t net_len,
                      const uint32_t *forbidden, size_t forbidden_len,
                      uint32_t *answer, size_t answer_len);

/*
 * What the same trials leave, so that a caller can rank pads. For each line l from 1 to 1,000 stand in ranks, from
 * place 4 (l - 1) on, with a pad on l alone:
 *   the count of lines whose CO is never
 *   the count of lines whose CO is over
 *   the largest CO that is a figure
 *   the sum of the CO that are figures, SCOAP_OVER where it is above 999,999,999
 * Of a line that is not allowed all four are SCOAP_NEVER.
 *
 * Answers the count of allowed lines, which may be 0, or a refusal as scoap_advise does: 1 where ranks_len is below
 * SCOAP_RANKS. Numbers past SCOAP_RANKS keep their values.
 */
uint64_t scoap_rank(const uint8_t *lib, size_t lib_len, const uint8_t *net, size_t net_len,
                    const uint32_t *forbidden, size_t forbidden_len,
                    uint32_t *ranks, size_t ranks_len);

/* Numbers of a standing table; the places of the sweeps, the pads and line 1's six costs in it. */
#define SCOAP_STANDING 7005u
#define SCOAP_STANDING_SWEEPS 1u
#define SCOAP_STANDING_PADS 5u
#define SCOAP_STANDING_NUMBERS 1005u

/* Costs of a line, and among them the place of CO; combinational and sequential; values that a line is set to. */
#define SCOAP_COSTS 6u
#define SCOAP_COSTS_OBSERVED 4u
#define SCOAP_KINDS 2u
#define SCOAP_VALUES 2u

/* Numbers that scoap_ask answers with: CO and SO of line 1, of line 2, and so on up to line 1,000. */
#define SCOAP_OBSERVED 2000u

/*
 * A standing analysis: pads are asked for and placed one by one, the library may change, and the numbers are always
 * those of a new analysis with the pads placed so far as outputs. No pad raises a CO or an SO. The caller keeps the
 * analysis, in a standing table of SCOAP_STANDING numbers, and lends the two texts again with each call:
 *
 *   place 0          the count of pads placed
 *   places 1 to 4    the sweeps of CC, SC, CO and SO
 *   places 5 to 1004 the pads in the order of their commits, 0 after the last
 *   places 1005 on   six costs for each line 1 to 1,000: cc0, cc1, sc0, sc1, co, so
 *
 * A table or an answer may be longer than its size; entries past it keep their values. With ranges all numbers of the
 * table and of an answer are those at LOW. scoap_standing_co and the others below read these places.
 *
 * Keep each table with its two texts. The table does not name them, so that one of another netlist or library is taken
 * without a word, as long as its pads could be placed; the numbers then say nothing of the texts that are lent.
 *
 * A ticket is a line and a count of pads, and a commit sees no more of it: drop all tickets where scoap_stand is called,
 * and where a table is put back in order to undo a commit or a change. As many pads may stand there, but other ones, and
 * a ticket from before is then accepted, with other numbers than its ask wrote.
 *
 * A refusal is answered as scoap_report answers it. 1 and 2 come first and touch nothing; 23, and after it 24,
 * come after those of the texts and have line 0.
 */

/*
 * Analyses a library and a netlist, writes the report as scoap_report does, and the standing table without a pad.
 * Answers the report's length. A refusal other than 1 and 2 leaves the whole table and the report zero.
 */
uint64_t scoap_stand(const uint8_t *lib, size_t lib_len, const uint8_t *net, size_t net_len,
                     uint32_t *standing, size_t standing_len, uint8_t *report, size_t report_len);

/*
 * Asks what a pad would do: writes CO and SO of all lines, as they were with the line marked output besides,
 * into answer, SCOAP_OBSERVED numbers; a line that the netlist does not mention holds SCOAP_NEVER. Changes
 * nothing else.
 *
 * Answers the count of pads placed so far, which is at most 1,000 and with the line makes up the ticket.
 * Refused by 1, 2, what the texts are refused by, and 23; then nothing is touched.
 */
uint64_t scoap_ask(const uint8_t *lib, size_t lib_len, const uint8_t *net, size_t net_len,
                   const uint32_t *standing, size_t standing_len, uint64_t line,
                   uint32_t *answer, size_t answer_len);

/*
 * Places a pad by its ticket, the line and the count that scoap_ask answered. CO and SO become those that an ask for the
 * line would write at this moment: where the table and the library are as they were at the ask, exactly those that it
 * wrote; after a scoap_change, those under the new library, which is the one to lend here. CC and SC and their sweeps
 * stay; the sweeps of CO and SO are those of the new analysis.
 *
 * Answers the count of pads placed now. Refused as scoap_ask is, and by 24 where the count is not the present one, as
 * where another pad was placed since; then nothing is touched.
 *
 * Of a table that no calls over these texts left, these two calls take the count, the pads and the CC and SC as they
 * are, any number above SCOAP_NEVER as never, and find CO and SO over them.
 */
uint64_t scoap_commit(const uint8_t *lib, size_t lib_len, const uint8_t *net, size_t net_len,
                      uint32_t *standing, size_t standing_len, uint64_t line, uint64_t count);

/* What became of a standing analysis under a new library. */
enum scoap_changed {
    /* analysed from the beginning, with the pads kept */
    SCOAP_BEGUN_AGAIN = 0,
    /* the sweeps went on from the standing numbers */
    SCOAP_WENT_ON = 1
};

/*
 * Makes a standing analysis one under a new library, in which rows were added, say, while it was held open. From then
 * on new_lib is the library that is lent to the calls.
 *
 * lib         the library that it stands under until now
 * new_lib     the new one, new_lib_len bytes
 *
 * Answers SCOAP_WENT_ON where new_lib has the same entries in the same order, name, pins and Name or Name3 alike, and
 * differs only by rows added to groups, perhaps none, the old rows keeping their order; Z may gain rows. No cell may
 * lose the reading of pins that share a line as one wire, by a row of any of its lines that names both values of one
 * pin. Cells that no gate uses count. The sweeps then go on from the standing numbers, those of CO and SO after those
 * of CC and SC, and the four counts are those of this run: 1 each where no row was added.
 *
 * Answers SCOAP_BEGUN_AGAIN under any other library that is accepted.
 *
 * Either way the pads stay, and the six numbers of each line are those of a new analysis under new_lib with the pads as
 * outputs. scoap_plan with new_lib writes plans that cost these numbers; they may be others than before. A ticket
 * from before the change is good after it, and its commit, with new_lib lent, makes the numbers under new_lib stand, not
 * those that its ask wrote.
 *
 * A refusal touches nothing: 1 and 2, of any of the three texts; then those of lib and of net, and 23, by which the
 * table is no standing analysis of these; then those of new_lib; then those of net under new_lib. So where the table
 * is one, 3 to 9 tell of new_lib, and 12 and 13 of a gate whose cell it has not, or has otherwise.
 *
 * Of a table that no calls over these texts left, the count and the pads are taken as they are. Where the sweeps go
 * on, they begin with its numbers, any above SCOAP_NEVER as never, and each visit keeps the lesser.
 */
uint64_t scoap_change(const uint8_t *lib, size_t lib_len, const uint8_t *new_lib, size_t new_lib_len,
                      const uint8_t *net, size_t net_len, uint32_t *standing, size_t standing_len);

/*
 * What stands in a standing table. line is 1 to SCOAP_LINES; value 0 or 1; place 1 to the count of pads, in the order of
 * the commits; run 0 CC, 1 SC, 2 CO, 3 SO. Costs are numbers, SCOAP_OVER or SCOAP_NEVER.
 */
static inline uint32_t scoap_standing_count(const uint32_t *standing)
{
    return standing[0];
}

static inline uint32_t scoap_standing_sweeps(const uint32_t *standing, unsigned run)
{
    return standing[SCOAP_STANDING_SWEEPS + run];
}

static inline uint32_t scoap_standing_pad(const uint32_t *standing, unsigned place)
{
    return standing[SCOAP_STANDING_PADS + place - 1];
}

static inline uint32_t scoap_standing_cc(const uint32_t *standing, unsigned line, unsigned value)
{
    return standing[SCOAP_STANDING_NUMBERS + SCOAP_COSTS * (line - 1) + value];
}

static inline uint32_t scoap_standing_sc(const uint32_t *standing, unsigned line, unsigned value)
{
    return standing[SCOAP_STANDING_NUMBERS + SCOAP_COSTS * (line - 1) + SCOAP_VALUES + value];
}

static inline uint32_t scoap_standing_co(const uint32_t *standing, unsigned line)
{
    return standing[SCOAP_STANDING_NUMBERS + SCOAP_COSTS * (line - 1) + SCOAP_COSTS_OBSERVED];
}

static inline uint32_t scoap_standing_so(const uint32_t *standing, unsigned line)
{
    return standing[SCOAP_STANDING_NUMBERS + SCOAP_COSTS * (line - 1) + SCOAP_COSTS_OBSERVED + 1];
}

/* What scoap_ask answered with. */
static inline uint32_t scoap_asked_co(const uint32_t *answer, unsigned line)
{
    return answer[SCOAP_KINDS * (line - 1)];
}

static inline uint32_t scoap_asked_so(const uint32_t *answer, unsigned line)
{
    return answer[SCOAP_KINDS * (line - 1) + 1];
}

/* What scoap_best left: the cost settled last; whether a value is settled; its number where it is, else its offer. */
static inline uint32_t scoap_best_last(const uint32_t *best)
{
    return best[0];
}

static inline int scoap_best_settled(const uint32_t *best, unsigned line, unsigned value)
{
    return best[SCOAP_BEST_VALUES + SCOAP_BEST_VALUE * (SCOAP_VALUES * (line - 1) + value)] == 1;
}

static inline uint32_t scoap_best_cost(const uint32_t *best, unsigned line, unsigned value)
{
    return best[SCOAP_BEST_VALUES + SCOAP_BEST_VALUE * (SCOAP_VALUES * (line - 1) + value) + 1];
}

/* What scoap_rank left: whether a line may get a pad; with it, the counts of never and of over, the largest CO and the sum. */
static inline int scoap_rank_allowed(const uint32_t *ranks, unsigned line)
{
    return ranks[SCOAP_RANK * (line - 1)] != SCOAP_NEVER;
}

static inline uint32_t scoap_rank_never(const uint32_t *ranks, unsigned line)
{
    return ranks[SCOAP_RANK * (line - 1)];
}

static inline uint32_t scoap_rank_over(const uint32_t *ranks, unsigned line)
{
    return ranks[SCOAP_RANK * (line - 1) + 1];
}

static inline uint32_t scoap_rank_largest(const uint32_t *ranks, unsigned line)
{
    return ranks[SCOAP_RANK * (line - 1) + 2];
}

static inline uint32_t scoap_rank_sum(const uint32_t *ranks, unsigned line)
{
    return ranks[SCOAP_RANK * (line - 1) + 3];
}

/* The two parts of a refusal. */
static inline unsigned scoap_number(uint64_t answer)
{
    return (unsigned)(answer / SCOAP_REFUSED);
}

static inline unsigned scoap_line(uint64_t answer)
{
    return (unsigned)(answer % SCOAP_REFUSED);
}

#ifdef __cplusplus
}
#endif

#endif
