// Setting up the receiver of plain_hear.h: apart from it, so that the size of `hear` is its own.
#include "plain_hear.h"
#include "plain_ciphers.h"
#include "plain_radio.h"

// MP 3.8.2.8: the AID of an application key.
static uint8_t k4(const uint8_t key[16])
{
	// s1("smk4")
	static const uint8_t salt[16] = {
		0x0e, 0x9a, 0xc1, 0xb7, 0xce, 0xfa, 0x66, 0x87, 0x4c, 0x97, 0xee, 0x54, 0xac, 0x5f, 0x49, 0xbe,
	};
	static const uint8_t id6[4] = { 'i', 'd', '6', 1 };
	uint8_t ks[11][16], t[16];

	expand(salt, ks);
	cmac(ks, key, 16, t);
	expand(t, ks);
	cmac(ks, id6, sizeof id6, t);
	return t[15] & 0x3f;
}

// MP 3.4.2.3: the virtual address of a label.
static uint16_t label_address(const uint8_t octets[16])
{
	// s1("vtad")
	static const uint8_t salt[16] = {
		0xce, 0xf7, 0xfa, 0x9d, 0xc4, 0x7b, 0xaf, 0x5d, 0xaa, 0xee, 0xd1, 0x94, 0x06, 0x09, 0x4f, 0x37,
	};
	uint8_t ks[11][16], hash[16];

	expand(salt, ks);
	cmac(ks, octets, 16, hash);
	return (uint16_t)(0x8000 | (hash[14] & 0x3f) << 8 | hash[15]);
}

void plain_setup(struct receiver *r)
{
	struct node *n = &r->node;

	for (unsigned i = 0; i < n->networks; i++)
		plain_credentials(n->network_keys[i], 16, n->credentials[i], sizeof n->credentials[i]);
	for (unsigned i = 0; i < n->applications; i++)
		n->application_keys[i].aid = k4(n->application_keys[i].key);
	for (unsigned i = 0; i < n->labelled; i++)
		n->labels[i].address = label_address(n->labels[i].octets);
	memset(r->cache, 0, sizeof r->cache);
	r->oldest = 0;
	memset(r->replay, 0, sizeof r->replay);
	memset(r->sessions, 0, sizeof r->sessions);
	memset(&r->sending, 0, sizeof r->sending);
}
