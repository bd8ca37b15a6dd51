// The receiver's `hear` in plain C, as for a small device: the state is changed in place, and nothing is allocated. The size of the proved code is
// compared with that of this; bench/same holds its answers, and what it remembers, to those of the proved console. A function that can refuse gives the
// number of the refusal (docs/ANSWERS.md), or 0.
#include "plain_hear.h"
#include "plain_network.h"

enum {
	IN_CACHE = 5,
	NOT_FOR_NODE = 6,
	WRONG_FORM = 7,
	NO_SEQ_AUTH = 8,
	REPLAYED = 9,
	DIFFERS = 10,
	NO_ENTRY_LEFT = 11,
	NO_SLOT_LEFT = 12,
	NOT_OPENED = 13,
	OWN_SOURCE = 22,
};

// A PDU that was opened.
struct header {
	struct pair pair;
	uint16_t src, dst;
	bool ctl;
	uint8_t key;
	uint8_t len; // octets of transport
	uint8_t *transport;
};

static bool same(struct pair a, struct pair b)
{
	return a.iv == b.iv && a.seq == b.seq;
}

static bool newer(struct pair a, struct pair b)
{
	return a.iv == b.iv ? b.seq < a.seq : b.iv < a.iv;
}

// Bits 0 to n, where n is at most 31.
static uint32_t all_bits(unsigned n)
{
	return 0xFFFFFFFF >> (31 - n);
}

// Of a segment, its place and the last place.
static unsigned seg_o(const uint8_t *transport)
{
	return word(transport + 2) >> 5 & 31;
}

static unsigned seg_n(const uint8_t *transport)
{
	return transport[3] & 31;
}

static bool is_local(const struct node *n, unsigned address)
{
	return n->first <= address && address < (unsigned)n->first + n->elements;
}

// No reserved group is listened to: setup refuses it.
static bool is_for_node(const struct node *n, unsigned dst)
{
	if (is_local(n, dst) || dst == 0xFFFF || (dst == 0xFFFE && n->relay))
		return true;
	for (unsigned i = 0; i < n->listened; i++)
		if (n->groups[i] == dst)
			return true;
	for (unsigned i = 0; i < n->labelled; i++)
		if (n->labels[i].address == dst)
			return true;
	return false;
}

static bool is_cached(const struct receiver *r, const struct header *h)
{
	for (unsigned i = 0; i < CACHED; i++)
		if (r->cache[i].src == h->src && same(r->cache[i].pair, h->pair))
			return true;
	return false;
}

static void remember(struct receiver *r, const struct header *h)
{
	r->cache[r->oldest] = (struct seen){ h->pair, h->src };
	r->oldest = (r->oldest + 1) % CACHED;
}

// The entry of a source, or else an empty one; NULL where others have them all. They are filled one after the other, and none is emptied.
static struct entry *entry_for(struct receiver *r, unsigned src)
{
	for (struct entry *e = r->replay; e < r->replay + ENTRIES; e++)
		if (e->src == src || !e->src)
			return e;
	return NULL;
}

static bool is_stale(const struct entry *e, struct pair pair)
{
	return e && e->src && !newer(pair, e->pair);
}

// The first slot of a source; of source 0 the first that is free.
static struct segmented *session_of(struct receiver *r, unsigned src)
{
	for (struct segmented *s = r->sessions; s < r->sessions + SLOTS; s++)
		if (s->src == src)
			return s;
	return NULL;
}

// One key tried on an access message, with a label or, where that is NULL, without. Where it does not open it the message is as before.
static bool try_key(const uint8_t key[16], const uint8_t nonce[NONCE_SIZE], size_t mic_size, const uint8_t *label, uint8_t *text, size_t n)
{
	uint8_t ks[11][16];

	expand(key, ks);
	if (ccm_open(ks, nonce, mic_size, label, text, n))
		return true;
	ccm_stream(ks, nonce, text, n);
	return false;
}

static void message_nonce(uint8_t nonce[NONCE_SIZE], bool akf, bool szmic, const struct answer *a)
{
	nonce[0] = akf ? 1 : 2;
	nonce[1] = szmic ? 0x80 : 0;
	nonce[2] = (uint8_t)(a->pair.seq >> 16);
	nonce[3] = (uint8_t)(a->pair.seq >> 8);
	nonce[4] = (uint8_t)a->pair.seq;
	nonce[5] = (uint8_t)(a->src >> 8);
	nonce[6] = (uint8_t)a->src;
	nonce[7] = (uint8_t)(a->dst >> 8);
	nonce[8] = (uint8_t)a->dst;
	put_index(nonce + 9, a->pair.iv);
}

// A message that is there whole, to be handed up.
struct whole {
	uint8_t *octets;
	uint16_t size;
	uint8_t first; // octet 0 of its PDUs
	bool ctl, szmic;
};

// Its highest two bits are 1 and 0.
static bool is_virtual(unsigned address)
{
	return address >> 14 == 2;
}

// One application key tried: alone or, where DST is virtual, with each label of that address.
static bool try_pairs(const struct node *n, const uint8_t key[16], const uint8_t nonce[NONCE_SIZE], size_t mic_size, const struct whole *w,
		      struct answer *a)
{
	if (!is_virtual(a->dst)) {
		a->application_trials++;
		return try_key(key, nonce, mic_size, NULL, w->octets, a->len);
	}
	for (a->label = 0; a->label < n->labelled; a->label++) {
		if (n->labels[a->label].address != a->dst)
			continue;
		a->application_trials++;
		if (try_key(key, nonce, mic_size, n->labels[a->label].octets, w->octets, a->len))
			return true;
	}
	return false;
}

// Opens an access message in place by the keys that fit; the answer has its SRC, DST, pair and network key already.
static bool open_access(const struct node *n, const struct whole *w, struct answer *a)
{
	const struct application_key *keys = n->application_keys;
	size_t mic_size = w->szmic ? 8 : 4;
	bool akf = w->first & 0x40;
	uint8_t nonce[NONCE_SIZE];

	if (w->size <= mic_size)
		return false;
	a->len = (uint16_t)(w->size - mic_size);
	message_nonce(nonce, akf, w->szmic, a);
	a->key = DEVICE_KEY;
	a->label = NO_LABEL;
	if (!akf)
		return try_key(n->device_key, nonce, mic_size, NULL, w->octets, a->len);
	for (a->key = 0; a->key < n->applications; a->key++)
		if (keys[a->key].aid == (w->first & 0x3f) && keys[a->key].bound == a->network &&
		    try_pairs(n, keys[a->key].key, nonce, mic_size, w, a))
			return true;
	return false;
}

// Hands a message up: a control message as it is, an access message opened.
static uint8_t hand_up(const struct node *n, const struct whole *w, uint8_t *message, struct answer *a)
{
	a->kind = w->ctl ? CONTROL : ACCESS;
	a->opcode = w->first & 0x7f;
	a->len = w->size;
	if (!w->ctl && !open_access(n, w, a))
		return NOT_OPENED;
	memcpy(message, w->octets, a->len);
	return 0;
}

// What an acknowledgement does to the message that is being sent.
static void acknowledge(struct segmented *s, const struct header *h, struct answer *a)
{
	const uint8_t *t = h->transport;
	uint32_t all = all_bits(s->segn);

	a->kind = ACKNOWLEDGEMENT;
	a->bits = (uint32_t)word(t + 3) << 16 | word(t + 5);
	if (h->dst != s->src || ((word(t + 1) >> 2 ^ s->auth.seq) & 0x1fff) || (!(t[1] & 0x80) && h->src != s->dst))
		return;
	uint32_t heard = s->filled | (a->bits & all);
	if (a->bits != 0 && heard != all) {
		a->effect = heard == s->filled ? NOTHING : MARKED;
		s->filled = heard;
		return;
	}
	a->effect = a->bits ? COMPLETED : CANCELLED;
	memset(s, 0, sizeof *s);
}

// A message in one PDU.
static uint8_t take_whole(struct receiver *r, const struct header *h, uint8_t *message, struct answer *a)
{
	struct whole w = { h->transport + 1, h->len - 1, h->transport[0], h->ctl, false };
	struct entry *e = entry_for(r, h->src);

	if (is_stale(e, h->pair))
		return REPLAYED;
	if (!e)
		return NO_ENTRY_LEFT;
	if (h->ctl && w.first == 0)
		acknowledge(&r->sending, h, a);
	else if (hand_up(&r->node, &w, message, a))
		return NOT_OPENED;
	e->src = h->src;
	e->pair = h->pair;
	return 0;
}

// The message of a session that is complete; the slot is freed.
static uint8_t finish(const struct node *n, struct entry *e, struct segmented *s, uint8_t *message, struct answer *a)
{
	struct whole w = { s->bytes, s->len, s->first, s->ctl, s->szmic };
	uint8_t refusal = hand_up(n, &w, message, a);

	if (!refusal) {
		if (!newer(e->pair, s->auth))
			e->pair = s->auth;
		e->src = s->src;
		e->last = s->auth;
		e->segn = s->segn;
		e->dst = s->dst;
	}
	memset(s, 0, sizeof *s);
	return refusal;
}

static bool differs(const struct segmented *s, const struct header *h, bool szmic, unsigned segn)
{
	return s->ctl != h->ctl || s->first != h->transport[0] || s->szmic != szmic || s->segn != segn || s->dst != h->dst || s->key != h->key;
}

static void begin(struct segmented *s, const struct header *h, struct pair auth, bool szmic, unsigned segn)
{
	memset(s, 0, sizeof *s);
	s->auth = auth;
	s->src = h->src;
	s->dst = h->dst;
	s->first = h->transport[0];
	s->segn = (uint8_t)segn;
	s->key = h->key;
	s->ctl = h->ctl;
	s->szmic = szmic;
}

// Stores a segment in its place; the last one tells the message's length.
static void store(struct segmented *s, const struct header *h, unsigned sego)
{
	unsigned at = sego * (h->ctl ? 8 : 12), n = h->len - 4u;

	memcpy(s->bytes + at, h->transport + 4, n);
	s->filled |= (uint32_t)1 << sego;
	if (sego == s->segn)
		s->len = (uint16_t)(at + n);
}

static uint8_t report(struct answer *a, enum kind kind, uint32_t bits)
{
	a->kind = (uint8_t)kind;
	a->bits = bits;
	return 0;
}

// A segment of a message.
static uint8_t take_segment(struct receiver *r, const struct header *h, uint8_t *message, struct answer *a)
{
	const uint8_t *t = h->transport;
	unsigned sego = seg_o(t), segn = seg_n(t);
	bool szmic = !h->ctl && t[1] & 0x80;
	// how many numbers ago the message was begun
	uint32_t back = (h->pair.seq - (word(t + 1) >> 2)) & 0x1fff;
	struct entry *e = entry_for(r, h->src);
	struct segmented *s = session_of(r, h->src);

	if (h->pair.seq < back)
		return NO_SEQ_AUTH;
	a->pair.seq -= back;
	if (e && e->dst == h->dst && e->segn == segn && same(e->last, a->pair))
		return report(a, REPEATED, all_bits(segn));
	if (s && same(s->auth, a->pair)) {
		if (differs(s, h, szmic, segn))
			return DIFFERS;
		if (!e)
			return NO_ENTRY_LEFT;
		if (s->filled >> sego & 1)
			return report(a, REPEATED, s->filled);
	} else {
		if (is_stale(e, a->pair) || (s && newer(s->auth, a->pair)))
			return REPLAYED;
		if (!e)
			return NO_ENTRY_LEFT;
		if (!s && !(s = session_of(r, 0)))
			return NO_SLOT_LEFT;
		begin(s, h, a->pair, szmic, segn);
	}
	store(s, h, sego);
	if (s->filled != all_bits(segn))
		return report(a, STORED, s->filled);
	return finish(&r->node, e, s, message, a);
}

// Whether a transport PDU is of one of the forms.
static bool is_formed(const struct header *h)
{
	const uint8_t *t = h->transport;

	if (h->ctl && (t[0] & 0x7f) == 0)
		return t[0] == 0 && h->len == 7;
	if (!h->ctl && !(t[0] & 0x40) && (t[0] & 0x3f || 0x7fff < h->dst))
		return false;
	if (!(t[0] & 0x80))
		return h->ctl || 6 <= h->len;
	return 5 <= h->len && (seg_o(t) == seg_n(t) || (seg_o(t) < seg_n(t) && h->len == (h->ctl ? 12 : 16)));
}

// A PDU that is in the cache now.
static uint8_t take(struct receiver *r, const struct header *h, uint8_t *message, struct answer *a)
{
	if (!is_for_node(&r->node, h->dst))
		return NOT_FOR_NODE;
	if (!is_formed(h))
		return WRONG_FORM;
	a->src = h->src;
	a->dst = h->dst;
	a->network = h->key;
	a->pair = h->pair;
	return h->transport[0] & 0x80 ? take_segment(r, h, message, a) : take_whole(r, h, message, a);
}

// Forwards a PDU, of which clear has `octets` octets, where it is to be forwarded; gives the octets written.
static uint8_t relay(const struct node *n, const struct header *h, const uint8_t *clear, size_t octets, uint8_t *forward)
{
	if (!n->relay || (clear[1] & 0x7f) < 2 || is_local(n, h->dst))
		return 0;
	memcpy(forward, clear, octets);
	forward[1]--;
	return (uint8_t)seal_pdu(n->credentials[h->key], h->pair.iv, forward, octets);
}

static uint8_t hear(struct receiver *r, const uint8_t *pdu, size_t size, uint8_t *forward, uint8_t *message, struct answer *a)
{
	const struct node *n = &r->node;
	uint8_t clear[PDU_SIZE];
	uint32_t opened = open_pdu(n->credentials[0], n->networks, n->iv, pdu, size, clear);
	size_t octets = opened >> 16 & 0xff;

	a->network_trials = opened >> 8 & 0xff;
	if (opened & 0xff)
		return opened & 0xff;
	struct header h = {
		.pair = { index_heard(n->iv, clear[0]), (uint32_t)clear[2] << 16 | word(clear + 3) },
		.src = (uint16_t)word(clear + 5),
		.dst = (uint16_t)word(clear + 7),
		.ctl = clear[1] & 0x80,
		.key = (uint8_t)(opened >> 24),
		.len = (uint8_t)(octets - 9),
		.transport = clear + 9,
	};
	if (is_local(n, h.src))
		return OWN_SOURCE;
	if (is_cached(r, &h))
		return IN_CACHE;
	remember(r, &h);
	a->forwarded = relay(n, &h, clear, octets, forward);
	return take(r, &h, message, a);
}

void plain_hear(struct receiver *r, const uint8_t *pdu, size_t size, uint8_t *forward, size_t forward_size, uint8_t *message, size_t message_size,
		struct answer *a)
{
	memset(a, 0, sizeof *a);
	if (forward_size < PDU_SIZE || message_size < MESSAGE_SIZE)
		a->refusal = SHORT_BUFFER;
	else
		a->refusal = hear(r, pdu, size, forward, message, a);
	if (a->refusal)
		a->kind = REFUSED;
}
