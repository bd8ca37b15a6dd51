// CCM (RFC 3610) in place, and the opening and sealing of a Network PDU (MP 3.4), in plain C for a small device: what plain_radio.c and
// plain_hear.c share. plain.c, which is timed, has an opening of its own, as the proved code has it: into a local, and then copied.
#ifndef PLAIN_NETWORK_H
#define PLAIN_NETWORK_H

#include <stdbool.h>
#include "plain_ciphers.h"

enum { PDU_SIZE = 29, CREDENTIAL_SIZE = 33, CREDENTIALS = 4 };
enum { WRONG_LENGTH = 1, NO_CANDIDATE = 2, NOT_AUTHENTIC = 3, WRONG_ADDRESS = 4, SHORT_BUFFER = 16 };

// A number of two octets, high octet first.
static unsigned word(const uint8_t *octets)
{
	return (unsigned)(octets[0] << 8 | octets[1]);
}

static void put_index(uint8_t out[4], uint32_t iv_index)
{
	out[0] = (uint8_t)(iv_index >> 24);
	out[1] = (uint8_t)(iv_index >> 16);
	out[2] = (uint8_t)(iv_index >> 8);
	out[3] = (uint8_t)iv_index;
}

// Encrypts n octets in place, or decrypts them.
static void ccm_stream(const uint8_t ks[11][16], const uint8_t nonce[NONCE_SIZE], uint8_t *text, size_t n)
{
	uint8_t s[16];

	for (size_t at = 0; at < n; at += 16) {
		ccm_block(s, 1, nonce, at / 16 + 1);
		encrypt(ks, s);
		xor_octets(text + at, s, n - at < 16 ? n - at : 16);
	}
}

// A block whose first octets are the MIC of n octets in clear; the additional data is a label of 16 octets or, where that is NULL, none.
static void ccm_mac(const uint8_t ks[11][16], const uint8_t nonce[NONCE_SIZE], size_t mic_size, const uint8_t *label, const uint8_t *clear, size_t n,
		    uint8_t mac[16])
{
	uint8_t s[16];

	ccm_block(mac, (uint8_t)((label ? 64 : 0) + (mic_size - 2) / 2 * 8 + 1), nonce, n);
	encrypt(ks, mac);
	if (label) {
		// its length in two octets and 14 of its own, then the other two
		mac[1] ^= 16;
		xor_octets(mac + 2, label, 14);
		encrypt(ks, mac);
		xor_octets(mac, label + 14, 2);
		encrypt(ks, mac);
	}
	for (size_t at = 0; at < n; at += 16) {
		xor_octets(mac, clear + at, n - at < 16 ? n - at : 16);
		encrypt(ks, mac);
	}
	ccm_block(s, 1, nonce, 0);
	encrypt(ks, s);
	xor_octets(mac, s, 16);
}

// Decrypts n octets in place, and says whether the MIC behind them is right with the label, or NULL, as additional data.
static bool ccm_open(const uint8_t ks[11][16], const uint8_t nonce[NONCE_SIZE], size_t mic_size, const uint8_t *label, uint8_t *text, size_t n)
{
	uint8_t mac[16], wrong = 0;

	ccm_stream(ks, nonce, text, n);
	ccm_mac(ks, nonce, mic_size, label, text, n, mac);
	for (size_t i = 0; i < mic_size; i++)
		wrong |= mac[i] ^ text[n + i];
	return !wrong;
}

// Encrypts n octets in place, and writes the MIC behind them.
static void ccm_seal(const uint8_t ks[11][16], const uint8_t nonce[NONCE_SIZE], size_t mic_size, uint8_t *text, size_t n)
{
	uint8_t mac[16];

	ccm_mac(ks, nonce, mic_size, NULL, text, n, mac);
	ccm_stream(ks, nonce, text, n);
	memcpy(text + n, mac, mic_size);
}

// Hides octets 1 to 6 of a PDU under the privacy key, or shows them again.
static void obfuscate(const uint8_t credential[CREDENTIAL_SIZE], uint32_t iv_index, uint8_t *pdu)
{
	uint8_t ks[11][16], pecb[16] = { 0 };

	put_index(pecb + 5, iv_index);
	memcpy(pecb + 9, pdu + 7, 7);
	expand(credential + 17, ks);
	encrypt(ks, pecb);
	xor_octets(pdu + 1, pecb, 6);
}

// The nonce and the octets of the NetMIC that octets 1 to 6 of a PDU give, in clear.
static size_t network_nonce(uint8_t nonce[NONCE_SIZE], const uint8_t *pdu, uint32_t iv_index)
{
	nonce[0] = 0;
	memcpy(nonce + 1, pdu + 1, 6);
	nonce[7] = nonce[8] = 0;
	put_index(nonce + 9, iv_index);
	return pdu[1] & 0x80 ? 8 : 4;
}

// One credential tried on a PDU, of which clear gets a copy to open in place; gives how many octets it has without NetMIC, 0 where it does not
// authenticate.
static size_t try_credential(const uint8_t credential[CREDENTIAL_SIZE], uint32_t iv_index, const uint8_t *pdu, size_t size, uint8_t clear[PDU_SIZE])
{
	uint8_t ks[11][16], nonce[NONCE_SIZE];

	memcpy(clear, pdu, size);
	obfuscate(credential, iv_index, clear);
	size_t mic_size = network_nonce(nonce, clear, iv_index);
	if (mic_size == 8 && size < 18)
		return 0;
	expand(credential + 1, ks);
	return ccm_open(ks, nonce, mic_size, NULL, clear + 7, size - 7 - mic_size) ? size - mic_size : 0;
}

// The IV Index now, or the one before it, whichever has IVI as its lowest bit.
static uint32_t index_heard(uint32_t iv_index, uint8_t first)
{
	return iv_index - ((iv_index ^ first >> 7) & 1);
}

static bool allowed(bool ctl, unsigned src, unsigned dst)
{
	return src != 0 && src < 0x8000 && dst != 0 && !(ctl && 0x8000 <= dst && dst < 0xC000);
}

// Opens a PDU under the first of `held` credentials that authenticates it; clear gets it without NetMIC. The answer is that of gorephan_open.
SPARE static uint32_t open_pdu(const uint8_t *credentials, size_t held, uint32_t iv_index, const uint8_t *pdu, size_t size, uint8_t clear[PDU_SIZE])
{
	uint32_t trials = 0;

	if (size < 14 || PDU_SIZE < size)
		return WRONG_LENGTH;
	if (iv_index == 0 && pdu[0] & 0x80)
		return NO_CANDIDATE;
	for (uint32_t i = 0; i < held; i++, credentials += CREDENTIAL_SIZE) {
		if (credentials[0] != (pdu[0] & 0x7f))
			continue;
		trials++;
		uint32_t octets = (uint32_t)try_credential(credentials, index_heard(iv_index, pdu[0]), pdu, size, clear);
		if (!octets)
			continue;
		if (!allowed(clear[1] & 0x80, word(clear + 5), word(clear + 7)))
			return WRONG_ADDRESS | trials << 8;
		return trials << 8 | octets << 16 | i << 24;
	}
	return trials ? NOT_AUTHENTIC | trials << 8 : NO_CANDIDATE;
}

// Seals a PDU in place: its octets in clear, without NetMIC, stand behind octet 0. Gives its length with NetMIC.
static size_t seal_pdu(const uint8_t credential[CREDENTIAL_SIZE], uint32_t iv_index, uint8_t *pdu, size_t octets)
{
	uint8_t ks[11][16], nonce[NONCE_SIZE];
	size_t mic_size = network_nonce(nonce, pdu, iv_index);

	pdu[0] = (uint8_t)(iv_index << 7 | credential[0]);
	expand(credential + 1, ks);
	ccm_seal(ks, nonce, mic_size, pdu + 7, octets - 7);
	obfuscate(credential, iv_index, pdu);
	return octets + mic_size;
}

#endif
