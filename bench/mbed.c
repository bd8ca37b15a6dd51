// The opening of a Network PDU (MP 3.4) by mbedTLS, with the same interface as ours: keys are set at each call, as ours are expanded.
#include <mbedtls/aes.h>
#include <mbedtls/ccm.h>
#include <stdbool.h>
#include <stddef.h>
#include <stdint.h>
#include <string.h>

static bool try_credential(const uint8_t credential[33], uint32_t iv_index, const uint8_t *pdu, size_t size, uint8_t clear[25], size_t *octets)
{
	uint8_t pecb[16] = { 0 }, nonce[13] = { 0 };
	uint8_t iv[4] = { (uint8_t)(iv_index >> 24), (uint8_t)(iv_index >> 16), (uint8_t)(iv_index >> 8), (uint8_t)iv_index };
	mbedtls_aes_context aes;
	mbedtls_ccm_context ccm;

	memcpy(pecb + 5, iv, 4);
	memcpy(pecb + 9, pdu + 7, 7);
	mbedtls_aes_init(&aes);
	mbedtls_aes_setkey_enc(&aes, credential + 17, 128);
	mbedtls_aes_crypt_ecb(&aes, MBEDTLS_AES_ENCRYPT, pecb, pecb);
	mbedtls_aes_free(&aes);
	for (int i = 0; i < 6; i++)
		nonce[1 + i] = pdu[1 + i] ^ pecb[i];
	memcpy(nonce + 9, iv, 4);
	size_t mic_size = nonce[1] & 0x80 ? 8 : 4, n = size - 7 - mic_size;
	if (mic_size == 8 && size < 18)
		return false;
	clear[0] = pdu[0];
	memcpy(clear + 1, nonce + 1, 6);
	*octets = size - mic_size;
	mbedtls_ccm_init(&ccm);
	mbedtls_ccm_setkey(&ccm, MBEDTLS_CIPHER_ID_AES, credential + 1, 128);
	int wrong = mbedtls_ccm_auth_decrypt(&ccm, n, nonce, 13, NULL, 0, pdu + 7, clear + 7, pdu + 7 + n, mic_size);
	mbedtls_ccm_free(&ccm);
	return wrong == 0;
}

uint32_t mbed_open_pdu(const uint8_t *credentials, size_t credentials_size, uint32_t iv_index, const uint8_t *pdu, size_t size, uint8_t *out,
		       size_t out_size)
{
	size_t held = credentials_size / 33 < 4 ? credentials_size / 33 : 4, octets;
	uint32_t trials = 0;
	uint8_t clear[25];

	if (out_size < 29)
		return 16;
	if (size < 14 || 29 < size)
		return 1;
	if ((iv_index & 1) != pdu[0] >> 7 && iv_index-- == 0)
		return 2;
	for (size_t i = 0; i < held; i++) {
		if (credentials[33 * i] != (pdu[0] & 0x7f))
			continue;
		trials++;
		if (!try_credential(credentials + 33 * i, iv_index, pdu, size, clear, &octets))
			continue;
		memcpy(out, clear, octets);
		return 256 * trials + 65536 * (uint32_t)octets + ((uint32_t)i << 24);
	}
	return trials ? 3 + 256 * trials : 2;
}
