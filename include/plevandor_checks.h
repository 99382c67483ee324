/*
 * Plevandor: the two header checks alone, for a recovery loader; docs/FIRMWARE.md says more.
 *
 * Both are worked out from their polynomials, with no stored table: the library has no data, read-only or written, calls
 * nobody, and takes any number. plevandor.h is the whole shelf; a program needs one of the two libraries.
 */
#ifndef PLEVANDOR_CHECKS_H
#define PLEVANDOR_CHECKS_H

#include <stdint.h>

#ifdef __cplusplus
extern "C" {
#endif

/*
 * The check of a cell header, its fifth byte: the remainder of the header times x^8 by x^8+x^2+x+1, then exclusive-or
 * with hex 55. The header is the number that its four bytes say, the first byte highest: 00 50 02 10 is 0x00500210.
 */
uint8_t plevandor_header_check(uint32_t header);

/*
 * The check of a routing header, its low four bits: the remainder of its upper 12 bits times x^4 by x^4+x+1. The number
 * is these 12 bits, kind 2, class 2, address 8; bits above them do not count. Of the routing header 0x2038 they are
 * 0x203, and the check is 8.
 */
uint8_t plevandor_routing_check(uint16_t upper);

#ifdef __cplusplus
}
#endif

#endif
