/*
 * Standard input and output of the examples. An example that cannot read its input to the end, or write its output, says so on
 * standard error and ends with status 2.
 *
 * A line holds octets, each two hexadecimal digits that stand together, capitals or small letters, with any spaces and tabs
 * before, between and behind the octets. It ends with a line feed, with a carriage return and a line feed, or where the input
 * ends. An example that meets anything else says the line's number on standard error and ends with status 2.
 */
#ifndef STREAMS_H
#define STREAMS_H

#include <stdint.h>
#include <stdio.h>
#include <stdlib.h>

/* Ends an example whose last read failed. */
static inline void check_input(void)
{
    if (ferror(stdin)) {
        fprintf(stderr, "standard input could not be read\n");
        exit(2);
    }
}

/* Closes the output, and ends an example that has lost some of it. */
static inline void close_output(void)
{
    int lost = ferror(stdout);

    if (fclose(stdout) != 0 || lost) {
        fprintf(stderr, "standard output could not be written\n");
        exit(2);
    }
}

/* Prints the octets that an entry wrote in hexadecimal, or the number refused with its values. Tells whether it refused. */
static inline int print_answer(const uint64_t *report, const uint8_t *out)
{
    static const char values[] = {0, 2, 1, 1, 2, 2, 3, 1, 1, 1, 2, 1, 1, 1, 1, 0, 0, 0, 0}; /* how many a refusal has, by number */

    if (report[0] != 0) {
        printf("refused %d:", (int)report[0]);
        for (int i = 1; i <= values[report[0]]; i++)
            printf(" %llu", (unsigned long long)report[i]);
    } else {
        for (size_t i = 0; i < report[1]; i++)
            printf("%02x", out[i]);
    }
    putchar('\n');
    return report[0] != 0;
}

/* The value of a hexadecimal digit; below 0 where it is none. */
static inline int half(int c)
{
    if ('0' <= c && c <= '9')
        return c - '0';
    if ('a' <= c && c <= 'f')
        return c - 'a' + 10;
    return 'A' <= c && c <= 'F' ? c - 'A' + 10 : -1;
}

/* The next character, a line feed where it is a carriage return and a line feed. */
static inline int next(void)
{
    int c = getchar();

    return c == '\r' && getchar() == '\n' ? '\n' : c;
}

/* Ends an example at a line that holds something else. */
static inline void refuse_line(unsigned long line)
{
    check_input();
    fprintf(stderr, "line %lu: octets are two hexadecimal digits each\n", line);
    exit(2);
}

/* Reads the octets of a line, as many as there is room for; 0 where there is no line. */
static inline int read_line(uint8_t *octets, size_t room, size_t *n)
{
    static unsigned long line;
    int c = next(), any = c != EOF;

    line++;
    for (*n = 0; c != '\n' && c != EOF; c = next()) {
        if (c != ' ' && c != '\t') {
            int high = half(c), low = half(next());
            if (high < 0 || low < 0)
                refuse_line(line);
            if (*n < room)
                octets[(*n)++] = (uint8_t)(high << 4 | low);
        }
    }
    check_input();
    return any;
}

#endif
