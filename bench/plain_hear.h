// The receiver of crates/receiver in plain C: the same state, changed in place, and what `hear` answers.
#ifndef PLAIN_HEAR_H
#define PLAIN_HEAR_H

#include <stdbool.h>
#include <stddef.h>
#include <stdint.h>

enum { KEYS = 4, LABELS = 4, ELEMENTS = 8, GROUPS = 8, CACHED = 16, ENTRIES = 32, SLOTS = 8, MESSAGE_SIZE = 384 };

// An IV Index and a sequence number.
struct pair {
	uint32_t iv, seq;
};

struct application_key {
	uint8_t key[16], aid;
	uint8_t bound; // the place of its network key
};

struct label {
	uint8_t octets[16];
	uint16_t address;
};

// What setup fixes, and each element's next SEQ.
struct node {
	uint32_t iv;
	uint32_t next[ELEMENTS];
	uint16_t first; // the first element's address
	uint16_t groups[GROUPS];
	uint8_t networks, applications, elements, listened, labelled; // how many there are
	bool flag, relay;
	uint8_t network_keys[KEYS][16];
	uint8_t credentials[KEYS][33]; // of each network key NID, encryption key and privacy key
	struct application_key application_keys[KEYS];
	uint8_t device_key[16];
	struct label labels[LABELS];
};

// A PDU that was heard; SRC 0 marks an empty place, here and below.
struct seen {
	struct pair pair;
	uint16_t src;
};

// A source's newest pair, and SeqAuth, DST and SegN of its last message in segments that was handed up; DST 0 where there is none.
struct entry {
	struct pair pair, last;
	uint16_t src, dst;
	uint8_t segn;
};

// A message in segments: one that comes, where `filled` has a bit for each segment that is there, or one that is sent, for each acknowledged.
struct segmented {
	struct pair auth;
	uint32_t filled;
	uint16_t src, dst, len;
	uint8_t first; // octet 0 of each segment
	uint8_t segn;
	uint8_t key; // the place of the network key
	bool ctl, szmic;
	uint8_t ttl; // of one that is sent
	uint8_t bytes[MESSAGE_SIZE];
};

struct receiver {
	struct node node;
	struct seen cache[CACHED];
	uint32_t oldest; // the place in the cache that is filled next
	struct entry replay[ENTRIES];
	struct segmented sessions[SLOTS];
	struct segmented sending;
};

enum kind { REFUSED, STORED, REPEATED, ACCESS, CONTROL, ACKNOWLEDGEMENT };
enum effect { NOTHING, MARKED, COMPLETED, CANCELLED };
enum { DEVICE_KEY = 0xff, NO_LABEL = 0xff };

// What became of a PDU. A field that its kind has no use for means nothing.
struct answer {
	uint8_t kind, refusal;
	uint8_t network_trials; // how many network keys were tried
	uint8_t application_trials; // how many application keys, or pairs of one and a label
	uint8_t forwarded; // octets of the forward buffer that were written
	uint8_t network; // the place of the network key
	uint8_t key; // the place of the application key, or DEVICE_KEY
	uint8_t label; // the place of the label, or NO_LABEL
	uint8_t opcode, effect;
	uint16_t src, dst;
	uint16_t len; // octets of the message buffer that were written
	struct pair pair; // of a message in segments SeqAuth
	uint32_t bits;
};

// Makes a receiver of a node whose numbers, addresses and keys are within the rules: fills in what is derived from keys and labels, and empties the rest.
void plain_setup(struct receiver *r);

// Hears a PDU. Where it is refused the message buffer stays as it was, and where nothing is forwarded the forward buffer.
void plain_hear(struct receiver *r, const uint8_t *pdu, size_t size, uint8_t *forward, size_t forward_size, uint8_t *message, size_t message_size,
		struct answer *a);

#endif
