// The three functions of c/gorephan.h in plain C, with the same answers: what the size of the proved archive is compared with (bench/same).
#include "plain_radio.h"
#include "plain_network.h"

enum { OUTSIDE_RULES = 14 };

// MP 3.8.2.6 with P = 00: the credential of a network key.
uint32_t plain_credentials(const uint8_t *key, size_t key_len, uint8_t *out, size_t out_len)
{
	// s1("smk2")
	static const uint8_t salt[16] = {
		0x4f, 0x90, 0x48, 0x0c, 0x18, 0x71, 0xbf, 0xbf, 0xfd, 0x16, 0x97, 0x1f, 0x4d, 0x8d, 0x10, 0xb1,
	};
	uint8_t ks[11][16], t[18] = { 0 };

	if (key_len != 16 || out_len < CREDENTIAL_SIZE)
		return OUTSIDE_RULES;
	expand(salt, ks);
	cmac(ks, key, 16, t);
	expand(t, ks);
	t[17] = 1;
	cmac(ks, t + 16, 2, t);
	out[0] = t[15] & 0x7f;
	t[17] = 2;
	cmac(ks, t, 18, out + 1);
	memcpy(t, out + 1, 16);
	t[17] = 3;
	cmac(ks, t, 18, out + 17);
	return 0;
}

uint32_t plain_open(const uint8_t *credentials, size_t credentials_len, uint32_t iv_index, const uint8_t *pdu, size_t pdu_len, uint8_t *out,
		    size_t out_len)
{
	size_t held = credentials_len / CREDENTIAL_SIZE;
	uint8_t clear[PDU_SIZE];

	if (out_len < PDU_SIZE)
		return SHORT_BUFFER;
	uint32_t answer = open_pdu(credentials, held < CREDENTIALS ? held : CREDENTIALS, iv_index, pdu, pdu_len, clear);
	memcpy(out, clear, answer >> 16 & 0xff);
	return answer;
}

uint32_t plain_seal(const uint8_t *credential, size_t credential_len, uint32_t iv_index, uint8_t ctl, uint8_t ttl, uint32_t seq, uint16_t src,
		    uint16_t dst, const uint8_t *transport, size_t transport_len, uint8_t *out, size_t out_len)
{
	if (out_len < PDU_SIZE)
		return SHORT_BUFFER;
	if (credential_len != CREDENTIAL_SIZE || 127 < credential[0] || 1 < ctl || 127 < ttl || 0xFFFFFF < seq || !allowed(ctl, src, dst))
		return OUTSIDE_RULES;
	if (transport_len < 1 || (ctl ? 12 : 16) < transport_len)
		return OUTSIDE_RULES;
	out[1] = (uint8_t)(ctl << 7 | ttl);
	out[2] = (uint8_t)(seq >> 16);
	out[3] = (uint8_t)(seq >> 8);
	out[4] = (uint8_t)seq;
	out[5] = (uint8_t)(src >> 8);
	out[6] = (uint8_t)src;
	out[7] = (uint8_t)(dst >> 8);
	out[8] = (uint8_t)dst;
	memcpy(out + 9, transport, transport_len);
	return (uint32_t)seal_pdu(credential, iv_index, out, 9 + transport_len) << 16;
}
