/*
 * Settles the messages on standard input, those of SUA and of M3UA in any order, one on a line in hexadecimal behind an octet
 * that says the family as SCTP's payload protocol identifier does: 03 M3UA, 04 SUA. Prints each form in hexadecimal, or the
 * number refused with its values. Ends with status 1 where one was refused, and with 2 where a line is none or says no family, or
 * reading or printing fails (streams.h).
 *
 *     bin/library
 *     cc -I include -o target/families examples/families.c target/lib/libsua.a
 */
#include <stdio.h>
#include "m3ua.h"
#include "streams.h"
#include "sua.h"

static uint8_t input[1 + 1048577], out[1048576]; /* the family and one octet more than is accepted, and the longest form */

int main(void)
{
    uint64_t report[4];
    size_t n;
    int refused = 0;

    for (unsigned long line = 1; read_line(input, sizeof input, &n); line++) {
        if (n > 0 && input[0] == 3) {
            m3ua_settle(input + 1, n - 1, out, sizeof out, report, 4);
        } else if (n > 0 && input[0] == 4) {
            sua_settle(input + 1, n - 1, out, sizeof out, report, 4);
        } else {
            fprintf(stderr, "line %lu: the first octet is 03 for M3UA and 04 for SUA\n", line);
            return 2;
        }
        refused |= print_answer(report, out);
    }
    close_output();
    return refused;
}
