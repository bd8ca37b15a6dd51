// Times the hearing of an access message in one PDU by how full the receiver's replay list is: of a source that has one of 1, 16 or 32 entries, of one
// that is new, and of one that finds no entry left; ours, and beside it plain_hear.c, which walks its list. Two rows of PDUs, which differ in length
// alone, are each heard by a receiver just set up. The time of one hearing is the difference of the two, over the PDUs that one has more; it is the
// processor's, so that other work disturbs it less. First each row is held to the number of messages that it hands up.
//   entries                          prints the least of ROUNDS times, the median and the most
//   entries ours|plain ROW SIZE      hears a row once, SIZE being shorter or longer, and prints how many PDUs more the longer has: bench/entries counts
//                                    the instructions of that
#define CLOCK CLOCK_PROCESS_CPUTIME_ID
#include <stdio.h>
#include "plain_hear.h"
#include "plain_network.h"
#include "plain_radio.h"
#include "timing.h"

uint64_t speed_hear_row(const uint8_t *keys, size_t keys_size, uint16_t first, uint32_t iv_index, const uint8_t *pdus, size_t size, uint8_t *message,
			size_t message_size);

enum { IV_INDEX = 0x12345678, FIRST = 0x1201, LIST = 32, LEAD = 16, MANY = 4096, FEW = 512 };

// MP 8.2.1: network key; application key; device key.
static const uint8_t keys[48] = {
	0x7d, 0xd7, 0x36, 0x4c, 0xd8, 0x42, 0xad, 0x18, 0xc1, 0x7c, 0x2b, 0x82, 0x0c, 0x84, 0xc3, 0xd6,
	0x63, 0x96, 0x47, 0x71, 0x73, 0x4f, 0xbd, 0x76, 0xe3, 0xb4, 0x05, 0x19, 0xd1, 0xd9, 0x4a, 0x48,
	0x9d, 0x6d, 0xd0, 0xe9, 0x6e, 0xb2, 0x5d, 0xc1, 0x9a, 0x40, 0xed, 0x99, 0x14, 0xf8, 0xf0, 0x3f,
};

static const uint8_t payload[11] = {
	0xd5, 0x0a, 0x00, 'g', 'o', 'r', 'e', 'p', 'h', 'a', 'n',
};
static uint8_t message[MESSAGE_SIZE];
static struct receiver receiver;

// PDUs that are heard one after the other.
static struct pdus {
	unsigned size;
	uint8_t octets[LIST + LIST * LEAD + MANY][PDU_SIZE];
} shorter, longer;

// Which of the sources, in ascending order, comes at a place. 13 and 32 have no common divisor: 16 or 32 places are as many sources, in mixed order.
static unsigned mixed(unsigned at)
{
	return at < LIST ? at * 13 % LIST : at;
}

static unsigned rising(unsigned at)
{
	return at;
}

static unsigned falling(unsigned at)
{
	return LIST - 1 - at;
}

// The sources at the first `held` places each send one message. Then each of `speakers` sources, from a place on, sends `lead` messages; where that is
// LEAD the cache holds no other's then, so that the list alone differs from row to row. In the longer row each sends `more` behind them.
static const struct row {
	const char *what;
	unsigned (*source)(unsigned at);
	unsigned held, from, speakers, lead, more;
	unsigned times; // that a row is heard in a round
	bool refused; // what the speakers say
} rows[] = {
	{ "of the only source that has an entry", mixed, 1, 0, 1, LEAD, MANY, 1, false },
	{ "of each of 16 that have one", mixed, 16, 0, 16, LEAD, MANY / 16, 1, false },
	{ "of each of 32 that have one", mixed, LIST, 0, LIST, LEAD, MANY / LIST, 1, false },
	{ "of each of 32 new ones, rising", rising, 0, 0, LIST, 0, 1, MANY / LIST, false },
	{ "of each of 32 new ones, falling", falling, 0, 0, LIST, 0, 1, MANY / LIST, false },
	{ "of a 33rd, which is refused", mixed, LIST, LIST, 1, LEAD, MANY, 1, true },
};
enum { ROWS = sizeof rows / sizeof *rows };

static void put_number(uint8_t *out, uint32_t number, unsigned octets)
{
	for (unsigned i = 0; i < octets; i++)
		out[i] = (uint8_t)(number >> 8 * (octets - 1 - i));
}

static void set_up(void)
{
	struct node *n = &receiver.node;

	n->iv = IV_INDEX;
	n->first = FIRST;
	n->networks = n->applications = n->elements = 1;
	memcpy(n->network_keys[0], keys, 16);
	memcpy(n->application_keys[0].key, keys + 16, 16);
	memcpy(n->device_key, keys + 32, 16);
	plain_setup(&receiver);
}

// An access message of 11 octets to our element, in one PDU with TTL 4: MP 3.6.4 and 3.4.4.
static void make(uint8_t pdu[PDU_SIZE], uint32_t seq, unsigned src)
{
	uint8_t ks[11][16], nonce[NONCE_SIZE] = { 1 };

	pdu[1] = 4;
	put_number(pdu + 2, seq, 3);
	put_number(pdu + 5, src, 2);
	put_number(pdu + 7, FIRST, 2);
	pdu[9] = 0x40 | receiver.node.application_keys[0].aid;
	memcpy(pdu + 10, payload, sizeof payload);
	memcpy(nonce + 2, pdu + 2, 7);
	put_index(nonce + 9, IV_INDEX);
	expand(keys + 16, ks);
	ccm_seal(ks, nonce, 4, pdu + 10, sizeof payload);
	seal_pdu(receiver.node.credentials[0], IV_INDEX, pdu, 10 + sizeof payload + 4);
}

// The SEQs rise.
static void add(struct pdus *p, unsigned source)
{
	make(p->octets[p->size], p->size + 1, 0x0100 + source);
	p->size++;
}

static void fill(struct pdus *p, const struct row *r, unsigned each)
{
	p->size = 0;
	for (unsigned i = 0; i < r->held; i++)
		add(p, r->source(i));
	for (unsigned i = 0; i < r->speakers; i++)
		for (unsigned k = 0; k < each; k++)
			add(p, r->source(r->from + i));
}

static void make_row(const struct row *r)
{
	set_up();
	fill(&shorter, r, r->lead);
	fill(&longer, r, r->lead + r->more);
}

// How many of the PDUs hand up a message.
typedef uint64_t hear_fn(const struct pdus *p);

static uint64_t ours(const struct pdus *p)
{
	return speed_hear_row(keys, sizeof keys, FIRST, IV_INDEX, p->octets[0], sizeof p->octets[0] * p->size, message, sizeof message);
}

static uint64_t plain(const struct pdus *p)
{
	uint8_t forward[PDU_SIZE];
	uint64_t count = 0;
	struct answer a;

	set_up();
	for (unsigned i = 0; i < p->size; i++) {
		plain_hear(&receiver, p->octets[i], PDU_SIZE, forward, sizeof forward, message, sizeof message, &a);
		count += a.kind == ACCESS;
	}
	return count;
}

static hear_fn *const by[] = { ours, plain };

static void check(const struct row *r, hear_fn *hear)
{
	memset(message, 0, sizeof message);
	if (hear(&shorter) != (r->refused ? r->held : shorter.size) || hear(&longer) != (r->refused ? r->held : longer.size) ||
	    memcmp(message, payload, sizeof payload)) {
		printf("bench: a message %s is wrong\n", r->what);
		exit(1);
	}
}

static double time_of(const struct row *r, hear_fn *hear, const struct pdus *p)
{
	double start = now();

	for (unsigned i = 0; i < r->times; i++)
		hear(p);
	return (now() - start) / r->times;
}

static void print_row(const struct row *r)
{
	static double took[2][ROUNDS];

	make_row(r);
	for (int who = 0; who < 2; who++)
		check(r, by[who]);
	for (int i = 0; i < ROUNDS; i++)
		for (int who = 0; who < 2; who++)
			took[who][i] = (time_of(r, by[who], &longer) - time_of(r, by[who], &shorter)) / (longer.size - shorter.size);
	printf("%-38s", r->what);
	for (int who = 0; who < 2; who++) {
		double median = median_of(took[who]);

		printf("   %8.0f %8.0f %8.0f", took[who][0], median, took[who][ROUNDS - 1]);
	}
	printf("\n");
}

static int hear_once(bool plainly, unsigned place, bool all)
{
	if (ROWS <= place)
		return 1;
	struct row r = rows[place];
	// each hearing takes the same instructions, so fewer will do
	if (FEW < r.more * r.speakers)
		r.more = FEW / r.speakers;
	make_row(&r);
	by[plainly](all ? &longer : &shorter);
	printf("%u %s\n", longer.size - shorter.size, r.what);
	return 0;
}

int main(int argc, char **argv)
{
	if (argc == 4)
		return hear_once(strcmp(argv[1], "plain") == 0, (unsigned)atoi(argv[2]), strcmp(argv[3], "longer") == 0);
	printf("%-38s   %26s   %26s\n", "an access message, nanoseconds", "ours: least, median, most", "plain: least, median, most");
	for (int i = 0; i < ROWS; i++)
		print_row(&rows[i]);
	return 0;
}
