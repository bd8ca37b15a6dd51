// Hears the two segments of MP 8.3.6, whose message the second completes, on a stack that is filled with a pattern, and prints how deep that writes into
// it, the return address included. Ours is heard by speed_hear_row, which sets up the receiver too; with PLAIN, plain_hear.c by a receiver set up before.
#include <stdio.h>
#include <stdlib.h>
#include "painted.h"
#include "plain_hear.h"

enum { IV_INDEX = 0x12345678, FIRST = 0x1201 };

// MP 8.2.1: network key; application key; device key.
static const uint8_t keys[48] = {
	0x7d, 0xd7, 0x36, 0x4c, 0xd8, 0x42, 0xad, 0x18, 0xc1, 0x7c, 0x2b, 0x82, 0x0c, 0x84, 0xc3, 0xd6,
	0x63, 0x96, 0x47, 0x71, 0x73, 0x4f, 0xbd, 0x76, 0xe3, 0xb4, 0x05, 0x19, 0xd1, 0xd9, 0x4a, 0x48,
	0x9d, 0x6d, 0xd0, 0xe9, 0x6e, 0xb2, 0x5d, 0xc1, 0x9a, 0x40, 0xed, 0x99, 0x14, 0xf8, 0xf0, 0x3f,
};
static const uint8_t pdus[2 * 29] = {
	0x68, 0xca, 0xb5, 0xc5, 0x34, 0x8a, 0x23, 0x0a, 0xfb, 0xa8, 0xc6, 0x3d, 0x4e, 0x68, 0x63,
	0x64, 0x97, 0x9d, 0xea, 0xf4, 0xfd, 0x40, 0x96, 0x11, 0x45, 0x93, 0x9c, 0xda, 0x0e,
	0x68, 0x16, 0x15, 0xb5, 0xdd, 0x4a, 0x84, 0x6c, 0xae, 0x0c, 0x03, 0x2b, 0xf0, 0x74, 0x6f,
	0x44, 0xf1, 0xb8, 0xcc, 0x8c, 0xe5, 0xed, 0xc5, 0x7e, 0x55, 0xbe, 0xed, 0x49, 0xc0,
};
static const uint8_t payload[20] = {
	0x00, 0x56, 0x34, 0x12, 0x63, 0x96, 0x47, 0x71, 0x73, 0x4f, 0xbd, 0x76, 0xe3, 0xb4, 0x05, 0x19, 0xd1, 0xd9, 0x4a, 0x48,
};
static uint8_t message[MESSAGE_SIZE];

#ifdef PLAIN

typedef void hear_fn(struct receiver *r, const uint8_t *pdu, size_t size, uint8_t *forward, size_t forward_size, uint8_t *to, size_t to_size,
		     struct answer *a);
static hear_fn *volatile heard_by = plain_hear;
static struct receiver receiver;

static void top_of_hear(struct receiver *r, const uint8_t *pdu, size_t size, uint8_t *forward, size_t forward_size, uint8_t *to, size_t to_size,
			struct answer *a)
{
	MARK_TOP();
	(void)r, (void)pdu, (void)size, (void)forward, (void)forward_size, (void)to, (void)to_size, (void)a;
}

static void set_up(void)
{
	struct node *n = &receiver.node;

	memset(&receiver, 0, sizeof receiver);
	n->iv = IV_INDEX;
	n->first = FIRST;
	n->networks = n->applications = n->elements = 1;
	memcpy(n->network_keys[0], keys, 16);
	memcpy(n->application_keys[0].key, keys + 16, 16);
	memcpy(n->device_key, keys + 32, 16);
	plain_setup(&receiver);
}

static void hear(void)
{
	static uint8_t forward[29];
	static struct answer a;

	for (int i = 0; i < 2; i++)
		heard_by(&receiver, pdus + 29 * i, 29, forward, sizeof forward, message, sizeof message, &a);
}

#else

typedef uint64_t hear_fn(const uint8_t *keys, size_t keys_size, uint16_t first, uint32_t iv_index, const uint8_t *row, size_t size, uint8_t *to,
			 size_t to_size);
hear_fn speed_hear_row;
static hear_fn *volatile heard_by = speed_hear_row;

static uint64_t top_of_hear(const uint8_t *given, size_t given_size, uint16_t first, uint32_t iv_index, const uint8_t *row, size_t size, uint8_t *to,
			    size_t to_size)
{
	MARK_TOP();
	(void)given, (void)given_size, (void)first, (void)iv_index, (void)row, (void)size, (void)to, (void)to_size;
	return 0;
}

static void set_up(void)
{
}

static void hear(void)
{
	heard_by(keys, sizeof keys, FIRST, IV_INDEX, pdus, sizeof pdus, message, sizeof message);
}

#endif

// The lowest octet that a hearing writes, which must hand up the message.
static uint8_t *lowest_heard(uint8_t pattern)
{
	memset(message, 0, sizeof message);
	set_up();
	uint8_t *at = lowest(hear, pattern);
	if (memcmp(message, payload, sizeof payload)) {
		printf("the message of MP 8.3.6 was not handed up\n");
		exit(1);
	}
	return at;
}

int main(void)
{
	uint8_t *one = lowest_heard(0xa5), *other = lowest_heard(0x5a);

	heard_by = top_of_hear;
	lowest(hear, 0);
	printf("hear %zu two segments, a message handed up\n", (size_t)(top - (one < other ? one : other)));
	return 0;
}
