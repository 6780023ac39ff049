/*
 * Tallies the messages on standard input, one on a line in hexadecimal, by the members whose prefixes are the arguments, and
 * prints the messages and the octets of each row. An empty line is a message of no octets, which is refused. Ends with status 1
 * where the members are refused, and with 2 and no row where a line is none, or reading or printing fails (streams.h).
 *
 *     bin/library
 *     cc -I include -o target/tally examples/tally.c target/lib/libsua.a
 */
#include <stdio.h>
#include <string.h>
#include "streams.h"
#include "sua.h"

static uint8_t input[1048577], digits[65 * 16], lengths[65]; /* one more than is accepted, of everything */
static uint64_t messages[67], octets[67];

int main(int argc, char **argv)
{
    uint64_t report[4];
    size_t members = argc - 1 < 65 ? argc - 1 : 65, total = 0, n;

    for (size_t i = 0; i < members; i++) {
        size_t length = strlen(argv[1 + i]);
        lengths[i] = length < 16 ? length : 16;
        memcpy(digits + total, argv[1 + i], lengths[i]);
        total += lengths[i];
    }
    while (read_line(input, sizeof input, &n))
        if (sua_tally(digits, total, lengths, members, input, n, messages, members + 2, octets, members + 2, report, 4) != 0) {
            printf("refused %d\n", (int)report[0]);
            close_output();
            return 1;
        }
    for (size_t i = 0; i < members + 2; i++)
        printf("%s: %llu messages, %llu octets\n",
               i < members ? argv[1 + i] : i == members ? "unplaced" : "refused",
               (unsigned long long)messages[i], (unsigned long long)octets[i]);
    close_output();
    return 0;
}
