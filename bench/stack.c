// Runs the longest calls of the C functions on a stack that is filled with a pattern, and prints how deep each writes into it, the return address
// included: at most what bench/sizes counts from the instructions.
#include "longest.h"
#include "painted.h"

static uint32_t top_of_credentials(const uint8_t *key, size_t key_len, uint8_t *to, size_t to_len)
{
	MARK_TOP();
	(void)key, (void)key_len, (void)to, (void)to_len;
	return 0;
}

static uint32_t top_of_open(const uint8_t *list, size_t list_len, uint32_t iv_index, const uint8_t *pdu, size_t pdu_len, uint8_t *to, size_t to_len)
{
	MARK_TOP();
	(void)list, (void)list_len, (void)iv_index, (void)pdu, (void)pdu_len, (void)to, (void)to_len;
	return 0;
}

static uint32_t top_of_seal(const uint8_t *credential, size_t credential_len, uint32_t iv_index, uint8_t ctl, uint8_t ttl, uint32_t seq, uint16_t src,
			    uint16_t dst, const uint8_t *from, size_t from_len, uint8_t *to, size_t to_len)
{
	MARK_TOP();
	(void)credential, (void)credential_len, (void)iv_index, (void)ctl, (void)ttl, (void)seq, (void)src, (void)dst, (void)from, (void)from_len;
	(void)to, (void)to_len;
	return 0;
}

// With two patterns, so that no octet that is written can be missed.
static size_t depth(const struct call *c)
{
	uint8_t *one = lowest(c->run, 0xa5), *other = lowest(c->run, 0x5a);

	expect(c);
	derived_by = top_of_credentials, opened_by = top_of_open, sealed_by = top_of_seal;
	lowest(c->run, 0);
	derived_by = gorephan_credentials, opened_by = gorephan_open, sealed_by = gorephan_seal;
	return (size_t)(top - (one < other ? one : other));
}

int main(void)
{
	make_inputs();
	for (int i = 0; i < CALLS; i++)
		printf("%s %zu %s\n", calls[i].function, depth(&calls[i]), calls[i].what);
	return 0;
}
