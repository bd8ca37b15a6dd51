// The longest calls of the C functions: a credential derived; a PDU of 29 octets opened by the fourth of four credentials of its NID, with a NetMIC of
// four octets and of eight; one refused by all four; PDUs of 29 octets sealed. A call takes the function that it is to call, so that another of the
// same form can stand in for it. To try plain C in the place of ours: -Dgorephan_open=plain_open, and so on.
#ifndef LONGEST_H
#define LONGEST_H

#include <stddef.h>
#include <stdint.h>
#include <stdio.h>
#include <stdlib.h>
#include <string.h>
#include "../c/gorephan.h"

typedef uint32_t credentials_fn(const uint8_t *key, size_t key_len, uint8_t *out, size_t out_len);
typedef uint32_t open_fn(const uint8_t *credentials, size_t credentials_len, uint32_t iv_index, const uint8_t *pdu, size_t pdu_len, uint8_t *out,
			 size_t out_len);
typedef uint32_t seal_fn(const uint8_t *credential, size_t credential_len, uint32_t iv_index, uint8_t ctl, uint8_t ttl, uint32_t seq, uint16_t src,
			 uint16_t dst, const uint8_t *transport, size_t transport_len, uint8_t *out, size_t out_len);

enum { IV_INDEX = 0x12345678, TTL = 4, SEQ = 0x3129ad, SRC = 0x0003, DST = 0x1201 };

// MP 8.2.1: the network key.
static const uint8_t network_key[16] = {
	0x7d, 0xd7, 0x36, 0x4c, 0xd8, 0x42, 0xad, 0x18, 0xc1, 0x7c, 0x2b, 0x82, 0x0c, 0x84, 0xc3, 0xd6,
};
static const uint8_t transport[16] = "gorephan, longes";

// What is called, which the compiler must not know.
static credentials_fn *volatile derived_by = gorephan_credentials;
static open_fn *volatile opened_by = gorephan_open;
static seal_fn *volatile sealed_by = gorephan_seal;

// Four credentials, of which the fourth is the network key's and the others have its NID; and the PDUs that it seals, by CTL.
static uint8_t held[4 * GOREPHAN_CREDENTIAL], pdus[2][GOREPHAN_PDU], forged[GOREPHAN_PDU], out[GOREPHAN_CREDENTIAL];
static uint32_t answer;

static void derive(void)
{
	answer = derived_by(network_key, sizeof network_key, out, sizeof out);
}

static void seal_access(void)
{
	answer = sealed_by(held + 3 * GOREPHAN_CREDENTIAL, GOREPHAN_CREDENTIAL, IV_INDEX, 0, TTL, SEQ, SRC, DST, transport, 16, out, GOREPHAN_PDU);
}

static void seal_control(void)
{
	answer = sealed_by(held + 3 * GOREPHAN_CREDENTIAL, GOREPHAN_CREDENTIAL, IV_INDEX, 1, TTL, SEQ, SRC, DST, transport, 12, out, GOREPHAN_PDU);
}

static void open_access(void)
{
	answer = opened_by(held, sizeof held, IV_INDEX, pdus[0], GOREPHAN_PDU, out, GOREPHAN_PDU);
}

static void open_control(void)
{
	answer = opened_by(held, sizeof held, IV_INDEX, pdus[1], GOREPHAN_PDU, out, GOREPHAN_PDU);
}

static void open_alone(void)
{
	answer = opened_by(held + 3 * GOREPHAN_CREDENTIAL, GOREPHAN_CREDENTIAL, IV_INDEX, pdus[0], GOREPHAN_PDU, out, GOREPHAN_PDU);
}

static void open_forged(void)
{
	answer = opened_by(held, sizeof held, IV_INDEX, forged, GOREPHAN_PDU, out, GOREPHAN_PDU);
}

// Each call with the name of its function and the answer that it must give.
static const struct call {
	const char *function, *what;
	void (*run)(void);
	uint32_t expected;
} calls[] = {
	{ "credentials", "a network key", derive, 0 },
	{ "open", "four credentials, the fourth fits", open_access, 4 << 8 | 25 << 16 | 3 << 24 },
	{ "open", "the same, CTL 1", open_control, 4 << 8 | 21 << 16 | 3 << 24 },
	{ "open", "four credentials, none fits", open_forged, GOREPHAN_NOT_AUTHENTIC | 4 << 8 },
	{ "open", "one credential, which fits", open_alone, 1 << 8 | 25 << 16 },
	{ "seal", "CTL 0", seal_access, 29 << 16 },
	{ "seal", "CTL 1", seal_control, 29 << 16 },
};
enum { CALLS = sizeof calls / sizeof calls[0] };

static void expect(const struct call *c)
{
	if (answer == c->expected)
		return;
	printf("%s, %s: the answer is %#x and not %#x\n", c->function, c->what, answer, c->expected);
	exit(1);
}

static void make_inputs(void)
{
	derive();
	for (int i = 0; i < 4; i++)
		memcpy(held + i * GOREPHAN_CREDENTIAL, out, GOREPHAN_CREDENTIAL);
	for (int i = 0; i < 3; i++)
		held[i * GOREPHAN_CREDENTIAL + 5] ^= (uint8_t)(i + 1);
	seal_access();
	memcpy(pdus[0], out, GOREPHAN_PDU);
	memcpy(forged, out, GOREPHAN_PDU);
	forged[GOREPHAN_PDU - 1] ^= 1;
	seal_control();
	memcpy(pdus[1], out, GOREPHAN_PDU);
}

#endif
