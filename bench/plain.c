// AES-128 (FIPS 197), CMAC (RFC 4493), CCM opening (RFC 3610) and the opening of a Network PDU (MP 3.4) in plain C over octets, with
// the same 256-entry S-box: what the proved code is timed against. It is compiled at -O2 and at -O3, with another PREFIX for the names that it gives.
#include <stdbool.h>
#include "plain_ciphers.h"

#define JOIN(a, b) a##b
#define NAMED(prefix, name) JOIN(prefix, name)
#define GIVEN(name) NAMED(PREFIX, name)

enum { OK = 0, NOT_OPENED = 1, BAD_ARGUMENT = 14 };
enum { LONGEST_MESSAGE = 384 };

// As the proved code does, it leaves out untouched unless the MIC is right.
static bool ccm_open(const uint8_t ks[11][16], const uint8_t nonce[NONCE_SIZE], size_t mic_size, const uint8_t *sealed, size_t size,
		     uint8_t *out, size_t out_size)
{
	uint8_t clear[LONGEST_MESSAGE], mac[16], s[16], wrong = 0;
	size_t n = size - mic_size;

	if (size < mic_size || LONGEST_MESSAGE < n || out_size < n)
		return false;
	memcpy(clear, sealed, n);
	for (size_t at = 0; at < n; at += 16) {
		ccm_block(s, 1, nonce, at / 16 + 1);
		encrypt(ks, s);
		xor_octets(clear + at, s, n - at < 16 ? n - at : 16);
	}
	ccm_block(mac, (uint8_t)((mic_size - 2) / 2 * 8 + 1), nonce, n);
	encrypt(ks, mac);
	for (size_t at = 0; at < n; at += 16) {
		xor_octets(mac, clear + at, n - at < 16 ? n - at : 16);
		encrypt(ks, mac);
	}
	ccm_block(s, 1, nonce, 0);
	encrypt(ks, s);
	for (size_t i = 0; i < mic_size; i++)
		wrong |= mac[i] ^ s[i] ^ sealed[n + i];
	if (wrong)
		return false;
	memcpy(out, clear, n);
	return true;
}

// One credential tried on a PDU: true, and the PDU in clear, where it authenticates.
static bool try_credential(const uint8_t credential[33], uint32_t iv_index, const uint8_t *pdu, size_t size, uint8_t clear[25], size_t *octets)
{
	uint8_t ks[11][16], pecb[16] = { 0 }, nonce[NONCE_SIZE] = { 0 };
	uint8_t iv[4] = { (uint8_t)(iv_index >> 24), (uint8_t)(iv_index >> 16), (uint8_t)(iv_index >> 8), (uint8_t)iv_index };

	memcpy(pecb + 5, iv, 4);
	memcpy(pecb + 9, pdu + 7, 7);
	expand(credential + 17, ks);
	encrypt(ks, pecb);
	for (int i = 0; i < 6; i++)
		nonce[1 + i] = pdu[1 + i] ^ pecb[i];
	memcpy(nonce + 9, iv, 4);
	size_t mic_size = nonce[1] & 0x80 ? 8 : 4;
	if (mic_size == 8 && size < 18)
		return false;
	expand(credential + 1, ks);
	clear[0] = pdu[0];
	memcpy(clear + 1, nonce + 1, 6);
	*octets = size - mic_size;
	return ccm_open(ks, nonce, mic_size, pdu + 7, size - 7, clear + 7, 18);
}

static bool allowed(bool ctl, unsigned src, unsigned dst)
{
	return src != 0 && src < 0x8000 && dst != 0 && !(ctl && 0x8000 <= dst && dst < 0xC000);
}

// The given functions answer as those of crates/speed and crates/radio do.

uint32_t GIVEN(open_pdu)(const uint8_t *credentials, size_t credentials_size, uint32_t iv_index, const uint8_t *pdu, size_t size, uint8_t *out,
			 size_t out_size)
{
	size_t held = credentials_size / 33 < 4 ? credentials_size / 33 : 4, octets;
	uint32_t trials = 0;
	uint8_t clear[25];

	if (out_size < 29)
		return 16;
	if (size < 14 || 29 < size)
		return 1;
	if ((iv_index & 1) != pdu[0] >> 7 && iv_index-- == 0)
		return 2;
	for (size_t i = 0; i < held; i++) {
		if (credentials[33 * i] != (pdu[0] & 0x7f))
			continue;
		trials++;
		if (!try_credential(credentials + 33 * i, iv_index, pdu, size, clear, &octets))
			continue;
		if (!allowed(clear[1] & 0x80, (unsigned)(clear[5] << 8 | clear[6]), (unsigned)(clear[7] << 8 | clear[8])))
			return 4 + 256 * trials;
		memcpy(out, clear, octets);
		return 256 * trials + 65536 * (uint32_t)octets + ((uint32_t)i << 24);
	}
	return trials ? 3 + 256 * trials : 2;
}

uint32_t GIVEN(blocks)(const uint8_t *key, size_t key_size, uint8_t *block, size_t block_size, uint32_t times)
{
	uint8_t ks[11][16];

	if (key_size != 16 || block_size != 16)
		return BAD_ARGUMENT;
	expand(key, ks);
	for (uint32_t i = 0; i < times; i++)
		encrypt(ks, block);
	return OK;
}

uint32_t GIVEN(cmac)(const uint8_t *key, size_t key_size, const uint8_t *message, size_t size, uint8_t *out, size_t out_size)
{
	uint8_t ks[11][16];

	if (key_size != 16 || out_size < 16)
		return BAD_ARGUMENT;
	expand(key, ks);
	cmac(ks, message, size, out);
	return OK;
}

uint32_t GIVEN(open)(const uint8_t *key, size_t key_size, const uint8_t *nonce, size_t nonce_size, const uint8_t *sealed, size_t size,
		     uint8_t *out, size_t out_size)
{
	uint8_t ks[11][16];

	if (key_size != 16 || nonce_size != NONCE_SIZE)
		return BAD_ARGUMENT;
	expand(key, ks);
	return ccm_open(ks, nonce, 4, sealed, size, out, out_size) ? OK : NOT_OPENED;
}
