/* Gorephan for the C radio firmware: opening and sealing one Network PDU (Mesh Profile 1.0.1, 3.4). No function keeps state, allocates or waits.
 *
 * A length says how many octets the pointer before it points to. No pointer may be null, also where the length is 0. Octets behind what is written,
 * and the whole buffer where the call is refused, stay as they were.
 *
 * A buffer lent for writing (out) may share no octet with another of the same call. The proofs suppose that out is the call's alone; where it is not,
 * the call is undefined: neither the answer nor what stands in a buffer afterwards is promised. So a PDU is not opened in place, and not sealed over
 * its own transport. Buffers that are only read may overlap, or be one.
 *
 * A credential is 33 octets: NID, encryption key (16), privacy key (16). Derive it once per network key and keep it: a PDU with a foreign NID then
 * costs no cipher work.
 *
 * Link target/staticlib/libradio.a (bin/built --archive radio), x86-64; c/example.c has the compile lines. It needs memcpy and memset. C++ may
 * include this header. bin/handheld builds the same without the S-box's table, some 500 octets smaller and 90 times slower. Counted from the
 * instructions, not proved: the deepest call takes some 2 KiB of stack (docs/SIZES.md). */
#ifndef GOREPHAN_H
#define GOREPHAN_H

#include <stddef.h>
#include <stdint.h>

#ifdef __cplusplus
extern "C" {
#endif

#define GOREPHAN_CREDENTIAL 33 /* octets of a credential */
#define GOREPHAN_PDU 29        /* octets that a buffer for a PDU must have at least */

/* The refusals that these functions give, by their numbers in docs/ANSWERS.md. */
enum gorephan_refusal {
    GOREPHAN_WRONG_LENGTH = 1,   /* the PDU's length is not 14 to 29 */
    GOREPHAN_NO_CANDIDATE = 2,   /* no credential has its NID, or no IV Index of 0 or more fits IVI */
    GOREPHAN_NOT_AUTHENTIC = 3,  /* no credential with its NID authenticates it */
    GOREPHAN_WRONG_ADDRESS = 4,  /* it is authentic, but an address is not allowed */
    GOREPHAN_OUTSIDE_RULES = 14, /* what is asked for is outside the rules */
    GOREPHAN_SHORT_BUFFER = 16   /* out is shorter than a PDU may need */
};

/* The number of the refusal in an answer: 0 where nothing is refused. */
#define GOREPHAN_REFUSAL(answer) ((answer) & 0xFF)
/* How many credentials were tried: the opening one's place among those with the PDU's NID, from 1, or their number. 0 to 4. */
#define GOREPHAN_TRIALS(answer) ((answer) >> 8 & 0xFF)
/* How many octets were written: 10 to 25 by opening, 14 to 29 by sealing, 0 where the call is refused. */
#define GOREPHAN_OCTETS(answer) ((answer) >> 16 & 0xFF)
/* The place in the list of the credential that opened the PDU, 0 to 3; 0 where the call is refused. */
#define GOREPHAN_PLACE(answer) ((answer) >> 24)

/* Writes the credential of a network key.
 *   key, key_len   the network key, 16 octets
 *   out, out_len   33 octets or more
 * Answers 0, or GOREPHAN_OUTSIDE_RULES (14) where a length is another. That goes for a short out, too: GOREPHAN_SHORT_BUFFER (16) speaks of a buffer
 * that is lent for a PDU, of 29 octets, and this one is lent for a credential. */
uint32_t gorephan_credentials(const uint8_t *key, size_t key_len, uint8_t *out, size_t out_len);

/* Opens a Network PDU and writes it in clear, without NetMIC: octet 0, CTL and TTL, SEQ (3), SRC (2), DST (2), transport.
 *   credentials    whole credentials put behind each other, in the order of trial; the first four count, and octets left over do not. One
 *                  whose NID is above 127 is never tried
 *   iv_index       the current IV Index, any number; the one before it is used where IVI asks for it
 *   pdu            any octets
 *   out            29 octets or more
 * Refusals, in this order: 16 out is shorter than 29; 1 length not 14 to 29; 2 no credential with that NID, or no IV Index of 0 or more fits IVI;
 * 3 none of them authenticates the PDU; 4 an address is not allowed: src is not unicast, dst is 0, or virtual where CTL is 1. A dst that is a
 * reserved group, 0xFF00 to 0xFFFB, is allowed, for a relay must open and seal such a PDU.
 * Nothing is remembered. A caller that keeps a cache of its own compares SRC, SEQ and the IV Index under which the PDU was opened: iv_index where
 * bit 7 of octet 0 is its lowest bit, else the one before it. SEQs start again under another. */
uint32_t gorephan_open(const uint8_t *credentials, size_t credentials_len, uint32_t iv_index, const uint8_t *pdu, size_t pdu_len, uint8_t *out,
                       size_t out_len);

/* Seals a Network PDU under a credential and the IV Index given.
 *   credential     one, 33 octets, its NID at most 127
 *   ctl            0 or 1
 *   ttl            0 to 127
 *   seq            at most 0xFFFFFF
 *   src            a unicast address, 0x0001 to 0x7FFF
 *   dst            not 0; not virtual (0x8000 to 0xBFFF) where ctl is 1; a reserved group (0xFF00 to 0xFFFB) is allowed
 *   transport      1 to 16 octets, 1 to 12 where ctl is 1
 *   out            29 octets or more
 * Refusals, in this order: 16 out is shorter than 29; 14 anything else outside these ranges. */
uint32_t gorephan_seal(const uint8_t *credential, size_t credential_len, uint32_t iv_index, uint8_t ctl, uint8_t ttl, uint32_t seq, uint16_t src,
                       uint16_t dst, const uint8_t *transport, size_t transport_len, uint8_t *out, size_t out_len);

#ifdef __cplusplus
}
#endif

#endif
