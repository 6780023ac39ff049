/*
 * Converts the addresses on standard input, one on a line in hexadecimal: `sccp to` address values of SUA to party addresses of
 * SCCP, `sccp from` back. Prints each in hexadecimal, or the number refused with its values. An empty line is an address of no
 * octets. Ends with status 1 where one was refused, and with 2 where a line is none, or reading or printing fails (streams.h).
 *
 *     bin/library
 *     cc -I include -o target/sccp examples/sccp.c target/lib/libsua.a
 */
#include <stdio.h>
#include <string.h>
#include "streams.h"
#include "sua.h"

static uint8_t input[1048577], out[160]; /* one octet more than is accepted, and the longest address value */

int main(int argc, char **argv)
{
    uint64_t report[4];
    size_t n;
    int refused = 0;

    if (argc != 2 || (strcmp(argv[1], "to") != 0 && strcmp(argv[1], "from") != 0)) {
        fprintf(stderr, "sccp to, or sccp from\n");
        return 2;
    }
    while (read_line(input, sizeof input, &n)) {
        if (strcmp(argv[1], "to") == 0)
            sua_to_sccp(input, n, out, sizeof out, report, 4);
        else
            sua_from_sccp(input, n, out, sizeof out, report, 4);
        refused |= print_answer(report, out);
    }
    close_output();
    return refused;
}
