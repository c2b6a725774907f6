/*
 * A stand-in for an analyser of 20 lines (tests/several), above one of 1,000 whose calls have other names: it refuses a netlist
 * with a higher line by 11, as the proved calls do, and hands all else on. No netlist of the test has a range.
 */
#include "scoap_1000.h"

/* The statement, from 1, that names a line above 20; 0 where none does. */
static uint64_t above(const uint8_t *net, size_t net_len)
{
    uint64_t statement = 1, number = 0;
    int digits = 1;
    for (size_t at = 0; at < net_len; at++) {
        if (net[at] == ',' || net[at] == '\n') {
            if (digits && number > 20)
                return statement;
            statement += net[at] == '\n';
            number = 0;
            digits = 1;
        } else {
            digits = digits && net[at] >= '0' && net[at] <= '9';
            number = 10 * number + (uint64_t)(net[at] - '0');
        }
    }
    return 0;
}

#define REFUSES                                                                                                              \
    if (above(net, net_len))                                                                                                 \
        return 11 * (uint64_t)SCOAP_1000_REFUSED + above(net, net_len);

uint64_t scoap_report(const uint8_t *lib, size_t lib_len, const uint8_t *net, size_t net_len, uint8_t *report,
                      size_t report_len)
{
    REFUSES
    return scoap_1000_report(lib, lib_len, net, net_len, report, report_len);
}

uint64_t scoap_plan(const uint8_t *lib, size_t lib_len, const uint8_t *net, size_t net_len, uint64_t line, uint64_t value,
                    uint64_t kind, uint8_t *text, size_t text_len)
{
    REFUSES
    return scoap_1000_plan(lib, lib_len, net, net_len, line, value, kind, text, text_len);
}

uint64_t scoap_cell(const uint8_t *line, size_t line_len, uint8_t *entry, size_t entry_len)
{
    return scoap_1000_cell(line, line_len, entry, entry_len);
}

uint64_t scoap_built_in(uint8_t *text, size_t text_len)
{
    return scoap_1000_built_in(text, text_len);
}

uint64_t scoap_qualifies(const uint8_t *lib, size_t lib_len, const uint8_t *net, size_t net_len)
{
    REFUSES
    return scoap_1000_qualifies(lib, lib_len, net, net_len);
}

uint64_t scoap_best(const uint8_t *lib, size_t lib_len, const uint8_t *net, size_t net_len, uint64_t budget, uint32_t *best,
                    size_t best_len)
{
    REFUSES
    return scoap_1000_best(lib, lib_len, net, net_len, budget, best, best_len);
}

uint64_t scoap_advise(const uint8_t *lib, size_t lib_len, const uint8_t *net, size_t net_len, const uint32_t *forbidden,
                      size_t forbidden_len, uint32_t *answer, size_t answer_len)
{
    REFUSES
    return scoap_1000_advise(lib, lib_len, net, net_len, forbidden, forbidden_len, answer, answer_len);
}

uint64_t scoap_rank(const uint8_t *lib, size_t lib_len, const uint8_t *net, size_t net_len, const uint32_t *forbidden,
                    size_t forbidden_len, uint32_t *ranks, size_t ranks_len)
{
    REFUSES
    return scoap_1000_rank(lib, lib_len, net, net_len, forbidden, forbidden_len, ranks, ranks_len);
}

uint64_t scoap_stand(const uint8_t *lib, size_t lib_len, const uint8_t *net, size_t net_len, uint32_t *standing,
                     size_t standing_len, uint8_t *report, size_t report_len)
{
    REFUSES
    return scoap_1000_stand(lib, lib_len, net, net_len, standing, standing_len, report, report_len);
}

uint64_t scoap_ask(const uint8_t *lib, size_t lib_len, const uint8_t *net, size_t net_len, const uint32_t *standing,
                   size_t standing_len, uint64_t line, uint32_t *answer, size_t answer_len)
{
    REFUSES
    return scoap_1000_ask(lib, lib_len, net, net_len, standing, standing_len, line, answer, answer_len);
}

uint64_t scoap_commit(const uint8_t *lib, size_t lib_len, const uint8_t *net, size_t net_len, uint32_t *standing,
                      size_t standing_len, uint64_t line, uint64_t count)
{
    REFUSES
    return scoap_1000_commit(lib, lib_len, net, net_len, standing, standing_len, line, count);
}

uint64_t scoap_change(const uint8_t *lib, size_t lib_len, const uint8_t *new_lib, size_t new_lib_len, const uint8_t *net,
                      size_t net_len, uint32_t *standing, size_t standing_len)
{
    REFUSES
    return scoap_1000_change(lib, lib_len, new_lib, new_lib_len, net, net_len, standing, standing_len);
}
