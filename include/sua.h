/*
 * The entries of the SUA codec (crates/entry_c/src/lib.rt) for C. `bin/library` builds the library, target/lib/libsua.a.
 * M3UA's entries are in m3ua.h.
 *
 * A lent slice is a pointer and the number of its elements. The pointer is never null, and slices of one call do not
 * overlap. Each entry is defined for every contents and every length of its slices.
 *
 * Every entry answers 0 where it accepted what it was lent, else the refusal's number, and stores four numbers in the
 * report, as many of them as it has places:
 *
 *     accepted    0, octets written (by sua_tally: the row that gained, from 0), 0, 0
 *     refused     number, and its values with zeros behind them
 *
 *      1  too short (expected, actual)             9  no digit (octet)
 *      2  version (octet)                         10  value above 65,531 octets (tag, length)
 *      4  unknown pair (class, type)              12  over 1,048,576 octets (length)
 *      5  parameter length below 4 (tag, length)  14  output too small (length needed)
 *      6  parameter beyond the octets, or point   15  a record of the list is not finished
 *         code or SSN too short (tag, expected,  16  a member list or rows outside the rules of
 *         actual)                                    sua_tally
 *      8  routing indicator above 4 (indicator)   17  an address outside the rules of sua_to_sccp
 *                                                 18  an SCCP address outside those of sua_from_sccp
 *
 * A refusal leaves the output, or the rows, as they were; nothing is written past the octets that are answered. The report
 * alone is written by every call, refused or not.
 */
#ifndef SUA_H
#define SUA_H

#include <stddef.h>
#include <stdint.h>

#ifdef __cplusplus
extern "C" {
#endif

/*
 * The settled form of a message: it is read, the value of every source and destination address is read and written
 * again, every SS7 hop counter (0x0101) is left out, and the message is encoded. Refusals in order: 12, 1, 2, 4, 5 or 6 in
 * wire order; then for each address in wire order 1, 8, 5 or 6 of its walk, each sub-parameter's 1 or 6, 9, 10; then 14.
 *
 * A form is never longer than the input, rounded up to a multiple of 4: an output of that length is always long enough.
 */
uint64_t sua_settle(const uint8_t *input, size_t input_len,
                    uint8_t *out, size_t out_len,
                    uint64_t *report, size_t report_len);

/*
 * A flat account of a message with its addresses. Numbers have their high octet first; a start counts from the message's
 * first octet.
 *
 *     class (1 octet), type (1), number of parameters (4)
 *     for each parameter   tag (2), start (4) and length (4) of its value; then, for tags 0x0102 and 0x0103, the address:
 *         routing indicator (2), include bits (1: 1 SSN, 2 point code, 4 title)
 *         title                0; or 1, indicator, translation type, numbering plan, nature of address, number of digits
 *                              (1 each), digits as characters
 *         point code           0; or 1 and the code (4)
 *         SSN                  0; or 1 and the SSN (1)
 *         others               their number (4), and for each tag (2), start (4) and length (4) of its value
 *
 * Refusals in order: 12, 1, 2, 4, 5 or 6 in wire order; then for each address in wire order 1, 8, 5 or 6 of its walk, each
 * sub-parameter's 1 or 6; then 14.
 *
 * An account has at most 5 octets for each 2 of the input, and at most 2,621,426; it may pass 1,048,576 octets, which is no
 * 12. 14 tells the length needed.
 */
uint64_t sua_read(const uint8_t *input, size_t input_len,
                  uint8_t *out, size_t out_len,
                  uint64_t *report, size_t report_len);

/*
 * The message of a class, a type and a list of parameters. The list is flat, numbers have their high octet first:
 *
 *     for each parameter   tag (2 octets), length of the value (4), value
 *
 * Refusals in order: 4, 15, 10 in order, 12, 14. 12 is the message's: the list itself may be longer than 1,048,576 octets.
 *
 * A message has at most 8 octets more than the list and one more for each parameter, and at most 1,048,576. 14 tells the
 * length needed.
 */
uint64_t sua_encode(uint8_t message_class, uint8_t message_type,
                    const uint8_t *list, size_t list_len,
                    uint8_t *out, size_t out_len,
                    uint64_t *report, size_t report_len);

/*
 * Tallies one message of a day by member: one row gains one message, and octets.
 *
 *     digits      the members' prefixes, as characters, one after the other
 *     lengths     the length of each prefix
 *     messages    the messages of each row: a row for each member, as they stand, then unplaced, then refused
 *     octets      the octets of each row, likewise; the two slices do not overlap
 *
 * A message that sua_settle refuses, 14 apart, is tallied too: it adds itself and no octets to the refused row. Every other
 * adds itself and the octets of its first Data parameter (0x010B), 0 if it has none. It goes to the member with the longest
 * prefix that the title's digits begin with, where it is a CLDT (class 7, type 1) whose first destination address (0x0103)
 * has a title, whatever the include bits say; else, or where no prefix fits, to the unplaced row.
 *
 * Rows that are all 0 start a day. The rows of a day are the same in every order of its messages, and are the sums of the
 * rows of its parts.
 *
 * Refused as 16, before the message is read, with every row as it was, unless all of these hold:
 *
 *     1 to 64 lengths, each 1 to 15, that add up to digits_len; each character 0 to 9; no prefix twice
 *     two places more than lengths_len in messages, and in octets
 *     under 4,294,967,295 messages in all rows together
 *     in each row at most 65,531 octets for each of its messages
 */
uint64_t sua_tally(const uint8_t *digits, size_t digits_len,
                   const uint8_t *lengths, size_t lengths_len,
                   const uint8_t *input, size_t input_len,
                   uint64_t *messages, size_t messages_len,
                   uint64_t *octets, size_t octets_len,
                   uint64_t *report, size_t report_len);

/*
 * The SCCP party address (ITU-T Q.713, 3.4) of an address value, which is the value of a source or destination address
 * parameter (0x0102, 0x0103). The length octet that stands before a party address in an SCCP message is no part of it.
 *
 *     octet 1     from the lowest bit: point code there (1 bit), SSN there (1), title indicator (4: 0 or 4), routing (1: 0 is
 *                 on title, 1 on SSN), 0 (1)
 *     if there    point code (2 octets, the low one first), SSN (1)
 *     title 4     translation type (1); numbering plan in the high half and encoding scheme (1 odd, 2 even) in the low half
 *                 (1); nature of address (1); digits, two to an octet, the first in the low half, with a last half of 0
 *                 behind an odd number
 *
 * The value is read as sua_settle reads an address. Refused as 17 unless all of these hold:
 *
 *     routing indicator 1 or 2
 *     each include bit is set exactly where its part, title, point code or SSN, is there
 *     no other sub-parameters
 *     a title has indicator 4, a numbering plan up to 15, a nature of address up to 127 and no digit that is half octet 15
 *     a point code is at most 16,383
 *
 * Refusals in order: 12, 1, 8, 5 or 6 of the walk, each sub-parameter's 1 or 6; then 17; then 14.
 *
 * A party address has at most 135 octets: an output of that length is always long enough. sua_from_sccp takes it, and gives
 * an address value with the same meaning.
 */
uint64_t sua_to_sccp(const uint8_t *value, size_t value_len,
                     uint8_t *out, size_t out_len,
                     uint64_t *report, size_t report_len);

/*
 * The address value of an SCCP party address, laid out as above: title, point code and SSN, each if it is there, and its
 * include bit then set. Refused as 18 where the octets
 *
 *     end early, or go on behind the last part
 *     have a reserved bit set: the high bit of the first octet or of the nature, the two high bits of the point code
 *     have a title indicator other than 0 and 4, or an encoding scheme other than 1 and 2
 *     have no digits with scheme 1, over 255 digits, a last half other than 0 behind an odd number, or a half octet 15
 *
 * Refusals in order: 12, 18, 14.
 *
 * An address value has at most 160 octets: an output of that length is always long enough. sua_to_sccp takes it, and gives
 * the same octets.
 */
uint64_t sua_from_sccp(const uint8_t *octets, size_t octets_len,
                       uint8_t *out, size_t out_len,
                       uint64_t *report, size_t report_len);

#ifdef __cplusplus
}
#endif

#endif
