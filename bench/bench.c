// Times the proved code of crates/speed against plain.c at -O2 and at -O3. First it holds each to the results that FIPS 197,
// RFC 4493 and the Mesh Profile print, and all to each other. A time is the median of ROUNDS rounds, in which the three take turns.
#include <stdbool.h>
#include <stddef.h>
#include <stdint.h>
#include <stdio.h>
#include <stdlib.h>
#include <string.h>
#include "timing.h"

enum { CODES = 3 };

typedef uint32_t blocks_fn(const uint8_t *key, size_t key_size, uint8_t *block, size_t block_size, uint32_t times);
typedef uint32_t cmac_fn(const uint8_t *key, size_t key_size, const uint8_t *message, size_t size, uint8_t *out, size_t out_size);
typedef uint32_t open_fn(const uint8_t *key, size_t key_size, const uint8_t *nonce, size_t nonce_size, const uint8_t *sealed, size_t size,
			 uint8_t *out, size_t out_size);

blocks_fn speed_blocks, o2_blocks, o3_blocks;
cmac_fn speed_cmac, o2_cmac, o3_cmac;
open_fn speed_open, o2_open, o3_open;

static const struct code {
	const char *name;
	blocks_fn *blocks;
	cmac_fn *cmac;
	open_fn *open;
} codes[CODES] = {
	{ "ours", speed_blocks, speed_cmac, speed_open },
	{ "C at -O2", o2_blocks, o2_cmac, o2_open },
	{ "C at -O3", o3_blocks, o3_cmac, o3_open },
};

// FIPS 197, appendix B; its key is that of RFC 4493, too.
static const uint8_t key[16] = {
	0x2b, 0x7e, 0x15, 0x16, 0x28, 0xae, 0xd2, 0xa6, 0xab, 0xf7, 0x15, 0x88, 0x09, 0xcf, 0x4f, 0x3c,
};
static const uint8_t plain_block[16] = {
	0x32, 0x43, 0xf6, 0xa8, 0x88, 0x5a, 0x30, 0x8d, 0x31, 0x31, 0x98, 0xa2, 0xe0, 0x37, 0x07, 0x34,
};
static const uint8_t cipher_block[16] = {
	0x39, 0x25, 0x84, 0x1d, 0x02, 0xdc, 0x09, 0xfb, 0xdc, 0x11, 0x85, 0x97, 0x19, 0x6a, 0x0b, 0x32,
};

// RFC 4493, section 4, example 4.
static const uint8_t message[64] = {
	0x6b, 0xc1, 0xbe, 0xe2, 0x2e, 0x40, 0x9f, 0x96, 0xe9, 0x3d, 0x7e, 0x11, 0x73, 0x93, 0x17, 0x2a,
	0xae, 0x2d, 0x8a, 0x57, 0x1e, 0x03, 0xac, 0x9c, 0x9e, 0xb7, 0x6f, 0xac, 0x45, 0xaf, 0x8e, 0x51,
	0x30, 0xc8, 0x1c, 0x46, 0xa3, 0x5c, 0xe4, 0x11, 0xe5, 0xfb, 0xc1, 0x19, 0x1a, 0x0a, 0x52, 0xef,
	0xf6, 0x9f, 0x24, 0x45, 0xdf, 0x4f, 0x9b, 0x17, 0xad, 0x2b, 0x41, 0x7b, 0xe6, 0x6c, 0x37, 0x10,
};
static const uint8_t mac[16] = {
	0x51, 0xf0, 0xbe, 0xbf, 0x7e, 0x3b, 0x9d, 0x92, 0xfc, 0x49, 0x74, 0x17, 0x79, 0x36, 0x3c, 0xfe,
};

// MP 8.3.6, the first PDU: DST and sixteen octets of transport, sealed with a 4-octet NetMIC.
static const uint8_t encryption_key[16] = {
	0x09, 0x53, 0xfa, 0x93, 0xe7, 0xca, 0xac, 0x96, 0x38, 0xf5, 0x88, 0x20, 0x22, 0x0a, 0x39, 0x8e,
};
static const uint8_t nonce[13] = {
	0x00, 0x04, 0x31, 0x29, 0xab, 0x00, 0x03, 0x00, 0x00, 0x12, 0x34, 0x56, 0x78,
};
static const uint8_t sealed[22] = {
	0x0a, 0xfb, 0xa8, 0xc6, 0x3d, 0x4e, 0x68, 0x63, 0x64, 0x97, 0x9d, 0xea, 0xf4, 0xfd, 0x40, 0x96, 0x11, 0x45, 0x93, 0x9c, 0xda, 0x0e,
};
static const uint8_t opened[18] = {
	0x12, 0x01, 0x80, 0x26, 0xac, 0x01, 0xee, 0x9d, 0xdd, 0xfd, 0x21, 0x69, 0x32, 0x6d, 0x23, 0xf3, 0xaf, 0xdf,
};

static void expect(bool right, const struct code *c, const char *what)
{
	if (right)
		return;
	printf("bench: %s: %s is wrong\n", c->name, what);
	exit(1);
}

// The printed results, and a refusal for a wrong MIC and for a size that is not taken.
static void expect_printed(const struct code *c)
{
	uint8_t block[16], out[18], forged[22];

	memcpy(block, plain_block, 16);
	expect(c->blocks(key, 16, block, 16, 1) == 0 && !memcmp(block, cipher_block, 16), c, "the block of FIPS 197, B");
	expect(c->blocks(key, 16, block, 15, 1) == 14 && !memcmp(block, cipher_block, 16), c, "a block of 15 octets");
	expect(c->cmac(key, 16, message, 64, out, 16) == 0 && !memcmp(out, mac, 16), c, "the CMAC of RFC 4493, example 4");
	expect(c->cmac(key, 15, message, 64, out, 16) == 14 && !memcmp(out, mac, 16), c, "a key of 15 octets");
	expect(c->open(encryption_key, 16, nonce, 13, sealed, 22, out, 18) == 0 && !memcmp(out, opened, 18), c, "the opening of MP 8.3.6");
	memcpy(forged, sealed, 22);
	forged[21] ^= 1;
	memset(out, 0, 18);
	expect(c->open(encryption_key, 16, nonce, 13, forged, 22, out, 18) == 1 && !out[0], c, "the refusal of a forged MIC");
	expect(c->open(encryption_key, 16, nonce, 12, sealed, 22, out, 18) == 14 && !out[0], c, "a nonce of 12 octets");
}

// Equal results on a thousand keys, blocks, and messages of every size to 64.
static void expect_equal(void)
{
	uint8_t k[16], block[CODES][16], out[CODES][16];
	uint32_t seed = 1;

	for (int n = 0; n < 1000; n++) {
		for (int i = 0; i < 16; i++) {
			seed = seed * 1664525 + 1013904223;
			k[i] = (uint8_t)(seed >> 24);
			block[0][i] = block[1][i] = block[2][i] = (uint8_t)(seed >> 16);
		}
		for (int i = 0; i < CODES; i++) {
			codes[i].blocks(k, 16, block[i], 16, 3);
			codes[i].cmac(k, 16, message, (size_t)(n % 65), out[i], 16);
			expect(!memcmp(block[i], block[0], 16) && !memcmp(out[i], out[0], 16), &codes[i], "a result that ours has otherwise");
		}
	}
}

static void time_blocks(const struct code *c, uint32_t times)
{
	static uint8_t block[16];

	c->blocks(key, 16, block, 16, times);
}

static void time_cmac(const struct code *c, uint32_t times)
{
	uint8_t out[16];

	for (uint32_t i = 0; i < times; i++)
		c->cmac(key, 16, message, sizeof message, out, sizeof out);
}

static void time_open(const struct code *c, uint32_t times)
{
	uint8_t out[18];

	for (uint32_t i = 0; i < times; i++)
		c->open(encryption_key, 16, nonce, sizeof nonce, sealed, sizeof sealed, out, sizeof out);
}

static void row(const char *what, void (*task)(const struct code *, uint32_t), uint32_t times)
{
	static double took[CODES][ROUNDS];
	double median[CODES];

	for (int r = 0; r < ROUNDS; r++) {
		for (int i = 0; i < CODES; i++) {
			double start = now();

			task(&codes[i], times);
			took[i][r] = (now() - start) / times;
		}
	}
	for (int i = 0; i < CODES; i++)
		median[i] = median_of(took[i]);
	printf("%-42s %8.0f %8.0f %8.0f %10.2f %10.2f\n", what, median[0], median[1], median[2], median[1] / median[0], median[2] / median[0]);
}

int main(void)
{
	for (int i = 0; i < CODES; i++)
		expect_printed(&codes[i]);
	expect_equal();
	printf("%-42s %8s %8s %8s %10s %10s\n", "nanoseconds, and our speed over C's", "ours", "-O2", "-O3", "over -O2", "over -O3");
	row("a block, the key expanded beforehand", time_blocks, 100000);
	row("a key and the CMAC of 64 octets", time_cmac, 10000);
	row("a key and a CCM opening: 22 octets, 18 + 4", time_open, 10000);
	return 0;
}
