// Times the opening of a Network PDU through the C function of crates/radio_c against plain.c at -O2 and at -O3 and, where it is compiled
// with MBEDTLS, against the same work by that library. First it holds all to the same answers and octets. Each call expands the keys that it needs.
#include <stdbool.h>
#include <stddef.h>
#include <stdint.h>
#include <stdio.h>
#include <string.h>
#include "../c/gorephan.h"
#include "timing.h"

typedef uint32_t open_fn(const uint8_t *credentials, size_t credentials_size, uint32_t iv_index, const uint8_t *pdu, size_t size, uint8_t *out,
			 size_t out_size);

open_fn o2_open_pdu, o3_open_pdu, mbed_open_pdu;

static const struct code {
	const char *name;
	open_fn *open;
} codes[] = {
	{ "ours", gorephan_open },
	{ "-O2", o2_open_pdu },
	{ "-O3", o3_open_pdu },
#ifdef MBEDTLS
	{ "mbedTLS", mbed_open_pdu },
#endif
};
enum { CODES = sizeof codes / sizeof codes[0] };

// MP 8.2.2: the credential; MP 8.3.6: the first PDU, 29 octets.
static const uint8_t credential[33] = {
	0x68, 0x09, 0x53, 0xfa, 0x93, 0xe7, 0xca, 0xac, 0x96, 0x38, 0xf5, 0x88, 0x20, 0x22, 0x0a, 0x39, 0x8e,
	0x8b, 0x84, 0xee, 0xde, 0xc1, 0x00, 0x06, 0x7d, 0x67, 0x09, 0x71, 0xdd, 0x2a, 0xa7, 0x00, 0xcf,
};
static const uint8_t pdu[29] = {
	0x68, 0xca, 0xb5, 0xc5, 0x34, 0x8a, 0x23, 0x0a, 0xfb, 0xa8, 0xc6, 0x3d, 0x4e, 0x68, 0x63,
	0x64, 0x97, 0x9d, 0xea, 0xf4, 0xfd, 0x40, 0x96, 0x11, 0x45, 0x93, 0x9c, 0xda, 0x0e,
};
enum { IV_INDEX = 0x12345678 };

// One credential that fits; four of which the fourth fits and the others only share its NID; four with a foreign NID.
static uint8_t one[33], fourth[4 * 33], foreign[4 * 33];

static void make_lists(void)
{
	memcpy(one, credential, 33);
	for (int i = 0; i < 4; i++) {
		memcpy(fourth + 33 * i, credential, 33);
		memcpy(foreign + 33 * i, credential, 33);
		foreign[33 * i] ^= 1;
		if (i < 3)
			fourth[33 * i + 5] ^= (uint8_t)(i + 1);
	}
}

static void row(const char *what, const uint8_t *credentials, size_t size, uint32_t expected, uint32_t times)
{
	static double took[CODES][ROUNDS];
	double median[CODES];
	uint8_t first[29] = { 0 }, out[29];

	for (int i = 0; i < CODES; i++) {
		memset(out, 0, sizeof out);
		if (codes[i].open(credentials, size, IV_INDEX, pdu, sizeof pdu, out, sizeof out) != expected || (i && memcmp(out, first, sizeof out))) {
			printf("bench: %s: %s is wrong\n", codes[i].name, what);
			exit(1);
		}
		memcpy(first, out, sizeof out);
	}
	for (int r = 0; r < ROUNDS; r++) {
		for (int i = 0; i < CODES; i++) {
			double start = now();

			for (uint32_t n = 0; n < times; n++)
				codes[i].open(credentials, size, IV_INDEX, pdu, sizeof pdu, out, sizeof out);
			took[i][r] = (now() - start) / times;
		}
	}
	for (int i = 0; i < CODES; i++)
		median[i] = median_of(took[i]);
	printf("%-42s", what);
	for (int i = 0; i < CODES; i++)
		printf(" %8.0f", median[i]);
	for (int i = 1; i < CODES; i++)
		printf(" %12.2f", median[i] / median[0]);
	printf("\n");
}

int main(void)
{
	make_lists();
	printf("%-42s", "a PDU of 29 octets opened, nanoseconds");
	for (int i = 0; i < CODES; i++)
		printf(" %8s", codes[i].name);
	for (int i = 1; i < CODES; i++)
		printf(" %4s %-7s", "over", codes[i].name);
	printf("\n");
	row("with one credential", one, sizeof one, 256 + 65536 * 25, 5000);
	row("with four, of which the fourth fits", fourth, sizeof fourth, 4 * 256 + 65536 * 25 + (3u << 24), 2000);
	row("with four of a foreign NID", foreign, sizeof foreign, 2, 100000);
	return 0;
}
