// Times the hearing of a PDU from end to end beside its cipher work: the bare opening of its network layer and, where a message is handed up, the
// opening of that. First it holds each to what is expected. A time is the median of ROUNDS rounds, in which the calls take turns; every hearing
// is by a receiver just set up, and the set-up, which derives keys, is done once for many of them.
#include <stdbool.h>
#include <stddef.h>
#include <stdint.h>
#include <stdio.h>
#include <string.h>
#include "timing.h"

uint64_t speed_hear(const uint8_t *keys, size_t keys_size, uint16_t first, uint32_t iv_index, const uint8_t *pdu, size_t size, size_t slot,
		    uint8_t *message, size_t message_size, uint32_t times);
uint64_t speed_hear_row(const uint8_t *keys, size_t keys_size, uint16_t first, uint32_t iv_index, const uint8_t *pdus, size_t size, uint8_t *message,
			size_t message_size);
uint32_t speed_open_pdu(const uint8_t *keys, size_t keys_size, uint16_t first, uint32_t iv_index, const uint8_t *pdu, size_t size, uint32_t times);
uint32_t speed_open(const uint8_t *key, size_t key_size, const uint8_t *nonce, size_t nonce_size, const uint8_t *sealed, size_t size, uint8_t *out,
		    size_t out_size);

enum { IV_INDEX = 0x12345678, FIRST = 0x1201 };

// MP 8.2.1: network key; application key; device key.
static const uint8_t keys[48] = {
	0x7d, 0xd7, 0x36, 0x4c, 0xd8, 0x42, 0xad, 0x18, 0xc1, 0x7c, 0x2b, 0x82, 0x0c, 0x84, 0xc3, 0xd6,
	0x63, 0x96, 0x47, 0x71, 0x73, 0x4f, 0xbd, 0x76, 0xe3, 0xb4, 0x05, 0x19, 0xd1, 0xd9, 0x4a, 0x48,
	0x9d, 0x6d, 0xd0, 0xe9, 0x6e, 0xb2, 0x5d, 0xc1, 0x9a, 0x40, 0xed, 0x99, 0x14, 0xf8, 0xf0, 0x3f,
};

// An access message of 11 octets to 0x1201, from 0x0003 with TTL 4 and SEQ 0x3129ad: by OpenSSL under those keys, from MP 3.6.4 and 3.4.4.
static const uint8_t payload[11] = {
	0xd5, 0x0a, 0x00, 'g', 'o', 'r', 'e', 'p', 'h', 'a', 'n',
};
static const uint8_t nonce[13] = {
	0x01, 0x00, 0x31, 0x29, 0xad, 0x00, 0x03, 0x12, 0x01, 0x12, 0x34, 0x56, 0x78,
};
static const uint8_t sealed[15] = {
	0xa8, 0x6c, 0x53, 0x75, 0x4f, 0x65, 0x1f, 0x23, 0x2a, 0x35, 0xa1, 0x39, 0x6f, 0xe7, 0x60,
};
static const uint8_t access[29] = {
	0x68, 0xe0, 0xe6, 0xfb, 0xb9, 0x52, 0x60, 0x0e, 0x2f, 0x77, 0x23, 0x16, 0xa2, 0xf5, 0xb4,
	0xb8, 0x8a, 0x46, 0x8d, 0xce, 0xb3, 0x8d, 0xad, 0x4d, 0x11, 0xd3, 0x8a, 0x37, 0xa9,
};

// MP 8.3.6: the first of two segments.
static const uint8_t segment[29] = {
	0x68, 0xca, 0xb5, 0xc5, 0x34, 0x8a, 0x23, 0x0a, 0xfb, 0xa8, 0xc6, 0x3d, 0x4e, 0x68, 0x63,
	0x64, 0x97, 0x9d, 0xea, 0xf4, 0xfd, 0x40, 0x96, 0x11, 0x45, 0x93, 0x9c, 0xda, 0x0e,
};

// MP 8.3.11: under friendship credentials, whose NID a receiver without them does not have.
static const uint8_t foreign[29] = {
	0x5e, 0x6e, 0xbf, 0xc0, 0x21, 0xed, 0xf5, 0xd5, 0xe7, 0x48, 0xa2, 0x0e, 0xcf, 0xd9, 0x8d,
	0xdf, 0xd3, 0x2d, 0xe8, 0x0b, 0xef, 0xb4, 0x00, 0x21, 0x3d, 0x11, 0x38, 0x13, 0xb5,
};

static uint8_t message[384];

// Of each hearing 0 for a refusal; else 1, and 2 where session slot 0 holds a message then.
static uint64_t hear(const uint8_t pdu[29], uint32_t times)
{
	return speed_hear(keys, sizeof keys, FIRST, IV_INDEX, pdu, 29, 0, message, sizeof message, times);
}

static uint32_t open_network(const uint8_t pdu[29], uint32_t times)
{
	return speed_open_pdu(keys, sizeof keys, FIRST, IV_INDEX, pdu, 29, times);
}

static uint32_t open_message(uint32_t times)
{
	uint8_t out[11];
	uint32_t opened = 0;

	for (uint32_t i = 0; i < times; i++)
		opened += speed_open(keys + 16, 16, nonce, sizeof nonce, sealed, sizeof sealed, out, sizeof out) == 0;
	return opened;
}

// stored: it opens a session; handed: its message is handed up; of neither it is refused.
static void row(const char *what, const uint8_t pdu[29], bool stored, bool handed, uint32_t times)
{
	static double took[3][ROUNDS];
	double heard, network, inner;
	static const uint8_t zeros[sizeof payload];

	memset(message, 0, sizeof message);
	if (hear(pdu, 3) != (stored ? 6 : handed ? 3 : 0) || open_network(pdu, 3) != (stored || handed ? 3 : 0) || open_message(3) != 3 ||
	    memcmp(message, handed ? payload : zeros, sizeof payload)) {
		printf("bench: %s is wrong\n", what);
		exit(1);
	}
	for (int r = 0; r < ROUNDS; r++) {
		double start = now(), middle, last;

		hear(pdu, times);
		middle = now();
		open_network(pdu, times);
		last = now();
		if (handed)
			open_message(times);
		took[0][r] = (middle - start) / times;
		took[1][r] = (last - middle) / times;
		took[2][r] = handed ? (now() - last) / times : 0;
	}
	heard = median_of(took[0]);
	network = median_of(took[1]);
	inner = median_of(took[2]);
	printf("%-42s %8.0f %8.0f %8.0f %10.2f %10.0f %12.2f\n", what, heard, network, inner, heard / network, heard - network - inner,
	       (heard - network - inner) / (network + inner));
}

// hear -: hears the PDUs on standard input, 29 octets each, in a row by one receiver; an error where one is refused. bench/console times that.
static int hear_row(void)
{
	static uint8_t pdus[29 * 10000];
	size_t size = fread(pdus, 1, sizeof pdus, stdin);

	return speed_hear_row(keys, sizeof keys, FIRST, IV_INDEX, pdus, size, message, sizeof message) != size / 29;
}

int main(int argc, char **argv)
{
	if (argc > 1 && strcmp(argv[1], "-") == 0)
		return hear_row();
	printf("%-42s %8s %8s %8s %10s %10s %12s\n", "a PDU of 29 octets heard, nanoseconds", "hear", "open", "message", "over open", "the rest", "over ciphers");
	row("an access message is handed up", access, false, true, 5000);
	row("a segment is stored", segment, true, false, 5000);
	row("a foreign NID is refused", foreign, false, false, 100000);
	return 0;
}
