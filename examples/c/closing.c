/* A shop of two tills with the messages of docs/RULES.md: it is run, till 0 is closed, and what is left is run again.
 * Built with libexports.a (include/mirvuttu.h). */
#include "mirvuttu.h"

#include <stdio.h>

enum { BUDGET = 32 };

static unsigned two(const uint8_t *at)
{
    return at[0] | at[1] << 8;
}

/* A row of the log as the program ddcr prints it. */
static void print_row(const uint8_t *row)
{
    unsigned slot = two(row) | two(row + 2) << 16;
    unsigned message = two(row + 10);
    printf("%u %c %u %u %c ", slot, "fts"[row[4]], two(row + 6), two(row + 8), "-BX"[row[5]]);
    if (message == 65535)
        printf("-");
    else
        printf("%u", message);
    printf(" %u\n", two(row + 12));
}

static int run(struct mirvuttu_message *messages, size_t count)
{
    static const uint32_t owners[] = {0, 1};
    struct mirvuttu_shop shop = {.stations = 2,
                                 .width = 10,
                                 .offset = 0,
                                 .compression = 1,
                                 .time = {.branches = 2, .leaves = 4},
                                 .index = {.branches = 2, .leaves = 2}};
    uint8_t log[16 * BUDGET];
    struct mirvuttu_run_numbers end = mirvuttu_run(shop, owners, 2, messages, count, log, sizeof log, BUDGET);
    if (end.refusal != 0) {
        printf("refused %u\n", end.refusal);
        return 1;
    }
    for (uint32_t event = 0; event < end.events; event++)
        print_row(log + 16 * event);
    printf("%s %u %u %u %u\n", end.done ? "done" : "budget", end.events, end.slot, end.sent, end.late);
    return 0;
}

int main(void)
{
    struct mirvuttu_message messages[] = {{.station = 0, .relative = 25, .length = 3},
                                          {.station = 1, .relative = 28, .length = 2},
                                          {.station = 0, .relative = 100, .length = 1}};
    size_t count = sizeof messages / sizeof messages[0];
    if (run(messages, count) != 0)
        return 1;
    struct mirvuttu_withdrawal_numbers closed = mirvuttu_withdraw(messages, count, 0);
    if (closed.refusal != 0) {
        printf("refused %u\n", closed.refusal);
        return 1;
    }
    printf("till 0 closed: kept %u, withdrawn %u\n", closed.kept, closed.withdrawn);
    return run(messages, closed.kept);
}
