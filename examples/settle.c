/*
 * Prints the settled form of the message on standard input in hexadecimal, or the number refused with its values. Ends with
 * status 1 where it is refused, and with 2 where reading or printing fails (streams.h).
 *
 *     bin/library
 *     cc -I include -o target/settle examples/settle.c target/lib/libsua.a
 */
#include <stdio.h>
#include "streams.h"
#include "sua.h"

static uint8_t input[1048577], out[1048576]; /* one octet more than is accepted, and the longest form */

int main(void)
{
    uint64_t report[4];
    size_t n = fread(input, 1, sizeof input, stdin);
    int refused;

    check_input();
    sua_settle(input, n, out, sizeof out, report, 4);
    refused = print_answer(report, out);
    close_output();
    return refused;
}
