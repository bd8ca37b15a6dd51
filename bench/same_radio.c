// Holds plain_radio.c to the proved functions of c/gorephan.h: each is called with the same arguments, from a fixed seed, and answers and whole buffers
// must be equal. Prints how often each answer occurred; exits 1 at a difference, and where an answer did not occur.
#include <stdio.h>
#include <stdlib.h>
#include "../c/gorephan.h"
#include "plain_network.h"
#include "plain_radio.h"

enum { TURNS = 200000, OUT_SIZE = 40, LISTED = 5, REFUSALS = 17 };

static unsigned answered[3][REFUSALS], tried[CREDENTIALS + 1], opened_by[CREDENTIALS];
static const char *const functions[3] = { "credentials", "open", "seal" };

static uint32_t dice(void)
{
	static uint64_t state = 0x9E3779B97F4A7C15;

	state ^= state << 13;
	state ^= state >> 7;
	state ^= state << 17;
	return (uint32_t)(state >> 32);
}

static bool one_in(uint32_t n)
{
	return dice() % n == 0;
}

static void random_octets(uint8_t *out, size_t n)
{
	for (size_t i = 0; i < n; i++)
		out[i] = (uint8_t)dice();
}

// The buffers that are lent for a call; both begin with the same octets.
static struct {
	uint8_t ours[OUT_SIZE], plain[OUT_SIZE];
} out;

static void lend(void)
{
	random_octets(out.ours, OUT_SIZE);
	memcpy(out.plain, out.ours, OUT_SIZE);
}

static void expect_same(unsigned function, uint32_t ours, uint32_t plain)
{
	bool equal = !memcmp(out.ours, out.plain, OUT_SIZE);

	if (ours != plain || !equal) {
		printf("same_radio: %s: ours answers %08x, plain C %08x, and the buffers are %s\n", functions[function], ours, plain,
		       equal ? "equal" : "different");
		exit(1);
	}
	answered[function][GOREPHAN_REFUSAL(ours)]++;
}

// A length that is mostly the right one, and else one about it.
static size_t about(size_t right)
{
	return one_in(20) ? right + dice() % 3 - 1 : right;
}

static size_t room(void)
{
	return one_in(20) ? dice() % OUT_SIZE : 29 + dice() % (OUT_SIZE - 28);
}

static void make_credential(uint8_t credential[CREDENTIAL_SIZE])
{
	uint8_t key[17];
	size_t key_len = about(16), out_len = about(CREDENTIAL_SIZE);

	random_octets(key, sizeof key);
	lend();
	expect_same(0, gorephan_credentials(key, key_len, out.ours, out_len), plain_credentials(key, key_len, out.plain, out_len));
	memcpy(credential, out.ours, CREDENTIAL_SIZE);
}

// Addresses about the ends of their ranges, and any others.
static uint16_t address(void)
{
	static const uint16_t ends[] = { 0, 1, 0x7FFF, 0x8000, 0xBFFF, 0xC000, 0xFEFF, 0xFF00, 0xFFFB, 0xFFFC, 0xFFFF };

	return one_in(3) ? ends[dice() % (sizeof ends / sizeof ends[0])] : (uint16_t)dice();
}

static uint32_t some_index(void)
{
	return one_in(4) ? dice() % 3 : one_in(4) ? 0xFFFFFFFF - dice() % 3 : dice();
}

static void seal(const uint8_t *credential)
{
	uint8_t transport[17], ctl = (uint8_t)(one_in(20) ? 2 + dice() % 254 : dice() & 1), ttl = (uint8_t)(one_in(20) ? dice() : dice() & 127);
	uint32_t iv_index = some_index(), seq = one_in(20) ? 0xFFFFFF + dice() % 3 : dice() & 0xFFFFFF;
	uint16_t src = one_in(5) ? address() : (uint16_t)(1 + dice() % 0x7FFF), dst = address();
	size_t credential_len = about(CREDENTIAL_SIZE), len = dice() % (ctl == 1 ? 14 : 18), out_len = room();

	random_octets(transport, sizeof transport);
	lend();
	expect_same(2, gorephan_seal(credential, credential_len, iv_index, ctl, ttl, seq, src, dst, transport, len, out.ours, out_len),
		    plain_seal(credential, credential_len, iv_index, ctl, ttl, seq, src, dst, transport, len, out.plain, out_len));
}

// A PDU of any addresses, sealed under a credential, and at times damaged; or any octets. Gives its length.
static size_t make_pdu(const uint8_t *credential, uint32_t iv_index, uint8_t pdu[PDU_SIZE + 1])
{
	random_octets(pdu, PDU_SIZE + 1);
	if (one_in(10)) {
		pdu[0] = credential[0] ^ (uint8_t)(dice() & 0x80);
		return dice() % (PDU_SIZE + 2);
	}
	bool ctl = one_in(2);
	uint16_t src = one_in(5) ? address() : (uint16_t)(1 + dice() % 0x7FFF), dst = address();
	pdu[1] = (uint8_t)(ctl << 7 | (dice() & 127));
	pdu[5] = (uint8_t)(src >> 8), pdu[6] = (uint8_t)src;
	pdu[7] = (uint8_t)(dst >> 8), pdu[8] = (uint8_t)dst;
	size_t size = seal_pdu(credential, iv_index, pdu, 10 + dice() % (ctl ? 12 : 16));
	if (one_in(5))
		pdu[dice() % size] ^= (uint8_t)(1 << dice() % 8);
	return one_in(20) ? dice() % (PDU_SIZE + 2) : size;
}

static void open(const uint8_t *list)
{
	uint32_t iv_index = some_index(), sealed_under = iv_index - dice() % 2 - (one_in(20) ? 2 : 0);
	uint8_t pdu[PDU_SIZE + 1];
	size_t size = make_pdu(list + CREDENTIAL_SIZE * (dice() % LISTED), sealed_under, pdu);
	size_t list_len = one_in(4) ? dice() % (CREDENTIAL_SIZE * LISTED + 1) : (size_t)CREDENTIAL_SIZE * LISTED, out_len = room();

	lend();
	uint32_t ours = gorephan_open(list, list_len, iv_index, pdu, size, out.ours, out_len);
	expect_same(1, ours, plain_open(list, list_len, iv_index, pdu, size, out.plain, out_len));
	tried[GOREPHAN_TRIALS(ours)]++;
	if (!GOREPHAN_REFUSAL(ours))
		opened_by[GOREPHAN_PLACE(ours)]++;
}

// Five credentials, of which four count: some share a NID, and some have one above 127.
static void make_list(uint8_t list[CREDENTIAL_SIZE * LISTED])
{
	for (int i = 0; i < LISTED; i++) {
		uint8_t *credential = list + CREDENTIAL_SIZE * i;

		make_credential(credential);
		credential[0] = one_in(8) ? credential[0] | 0x80 : i && !one_in(3) ? list[0] : credential[0] & 0x7f;
	}
}

static void tell(const char *what, const unsigned *counts, int n)
{
	printf("%s:", what);
	for (int i = 0; i < n; i++)
		if (counts[i])
			printf(" %d: %u", i, counts[i]);
	printf("\n");
}

static void require(const char *what, const unsigned *counts, int n)
{
	for (int i = 0; i < n; i++) {
		if (counts[i])
			continue;
		printf("same_radio: %s %d did not occur\n", what, i);
		exit(1);
	}
}

int main(void)
{
	static const struct {
		unsigned function, refusal;
	} wanted[] = { { 0, 0 }, { 0, 14 }, { 1, 0 }, { 1, 1 }, { 1, 2 }, { 1, 3 }, { 1, 4 }, { 1, 16 }, { 2, 0 }, { 2, 14 }, { 2, 16 } };
	uint8_t list[CREDENTIAL_SIZE * LISTED];

	for (int i = 0; i < TURNS; i++) {
		if (i % 8 == 0)
			make_list(list);
		seal(list + CREDENTIAL_SIZE * (dice() % (LISTED - 1)));
		open(list);
	}
	for (int i = 0; i < 3; i++)
		tell(functions[i], answered[i], REFUSALS);
	tell("credentials tried", tried, CREDENTIALS + 1);
	tell("opened by the one at", opened_by, CREDENTIALS);
	for (size_t i = 0; i < sizeof wanted / sizeof wanted[0]; i++)
		require(functions[wanted[i].function], &answered[wanted[i].function][wanted[i].refusal], 1);
	require("credentials tried", tried, CREDENTIALS + 1);
	require("opened by the one at", opened_by, CREDENTIALS);
	return 0;
}
