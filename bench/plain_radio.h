// The functions of c/gorephan.h in plain C: parameters and answers are those of gorephan_credentials, gorephan_open and gorephan_seal.
#ifndef PLAIN_RADIO_H
#define PLAIN_RADIO_H

#include <stddef.h>
#include <stdint.h>

uint32_t plain_credentials(const uint8_t *key, size_t key_len, uint8_t *out, size_t out_len);

uint32_t plain_open(const uint8_t *credentials, size_t credentials_len, uint32_t iv_index, const uint8_t *pdu, size_t pdu_len, uint8_t *out,
		    size_t out_len);

uint32_t plain_seal(const uint8_t *credential, size_t credential_len, uint32_t iv_index, uint8_t ctl, uint8_t ttl, uint32_t seq, uint16_t src,
		    uint16_t dst, const uint8_t *transport, size_t transport_len, uint8_t *out, size_t out_len);

#endif
