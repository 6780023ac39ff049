/*
 * The entries of the M3UA codec (RFC 4666; crates/entry_c/src/lib.rt) for C. They are in the library of sua.h, and slices are
 * lent as sua.h has it.
 *
 * Every entry answers 0 where it accepted what it was lent, else the refusal's number, and stores four numbers in the
 * report, as many of them as it has places:
 *
 *     accepted    0, octets written, 0, 0
 *     refused     number, and its values with zeros behind them
 *
 *      1  too short (expected, actual)            10  value above 65,531 octets (tag, length)
 *      2  version (octet)                         12  over 1,048,576 octets (length)
 *      4  unknown pair (class, type)              14  output too small (length needed)
 *      5  parameter length below 4 (tag, length)  15  a record of the list is not finished
 *      6  parameter beyond the octets, or Protocol
 *         Data too short (tag, expected, actual)
 *
 * A refusal leaves the output as it was; nothing is written past the octets that are answered. The report alone is written
 * by every call, refused or not.
 *
 * Header and parameters are laid out as SUA's. The pairs of class and type are those of RFC 4666 (3.1.2), and every other is
 * refused:
 *
 *     0  MGMT      0 ERR, 1 NTFY
 *     1  transfer  1 DATA
 *     2  SSNM      1 DUNA, 2 DAVA, 3 DAUD, 4 SCON, 5 DUPU, 6 DRST
 *     3  ASPSM     1 ASPUP, 2 ASPDN, 3 BEAT, 4 ASPUP ACK, 5 ASPDN ACK, 6 BEAT ACK
 *     4  ASPTM     1 ASPAC, 2 ASPIA, 3 ASPAC ACK, 4 ASPIA ACK
 *     9  RKM       1 REG REQ, 2 REG RSP, 3 DEREG REQ, 4 DEREG RSP
 */
#ifndef M3UA_H
#define M3UA_H

#include <stddef.h>
#include <stdint.h>

#ifdef __cplusplus
extern "C" {
#endif

/*
 * The settled form of a message: it is read, and encoded. Every parameter is kept with its tag and its value, those with
 * SUA's tags among them. So the form does not depend on the header's reserved octet and length, on padding, on a last padding
 * that is missing, or on one to three octets behind the last parameter.
 *
 * Refusals in order: 12, 1, 2, 4, 5 or 6 in wire order; then 6 (0x0210, 12, its length) for each Protocol Data (0x0210) in
 * wire order whose value has under 12 octets; then 14.
 *
 * A form is never longer than the input, rounded up to a multiple of 4: an output of that length is always long enough.
 */
uint64_t m3ua_settle(const uint8_t *input, size_t input_len,
                     uint8_t *out, size_t out_len,
                     uint64_t *report, size_t report_len);

/*
 * A flat account of a message with its Protocol Data. Numbers have their high octet first; a start counts from the message's
 * first octet.
 *
 *     class (1 octet), type (1), number of parameters (4)
 *     for each parameter   tag (2), start (4) and length (4) of its value; then, for tag 0x0210, the Protocol Data (3.3.1):
 *         originating point code (4), destination point code (4)
 *         service indicator, network indicator, message priority, signalling link selection (1 each)
 *         start (4) and length (4) of the user's data, which is the value from its 13th octet on and may be empty
 *
 * Refusals in order: those of m3ua_settle.
 *
 * An account has at most 5 octets for each 2 of the input, and at most 2,621,426; it may pass 1,048,576 octets, which is no
 * 12. 14 tells the length needed.
 */
uint64_t m3ua_read(const uint8_t *input, size_t input_len,
                   uint8_t *out, size_t out_len,
                   uint64_t *report, size_t report_len);

/*
 * The message of a class, a type and a list of parameters. The list is flat, numbers have their high octet first:
 *
 *     for each parameter   tag (2 octets), length of the value (4), value
 *
 * Values are written as they are: a Protocol Data may have any length here.
 *
 * Refusals in order: 4, 15, 10 in order, 12, 14. 12 is the message's: the list itself may be longer than 1,048,576 octets.
 *
 * A message has at most 8 octets more than the list and one more for each parameter, and at most 1,048,576. 14 tells the
 * length needed.
 */
uint64_t m3ua_encode(uint8_t message_class, uint8_t message_type,
                     const uint8_t *list, size_t list_len,
                     uint8_t *out, size_t out_len,
                     uint64_t *report, size_t report_len);

#ifdef __cplusplus
}
#endif

#endif
