/* Tests the archive from C: the refusals' names, MP's Network PDUs, some to reserved groups, some of one SRC and SEQ under two IV Indexes and random
 * ones of OpenSSL both ways, edge lengths and TTLs, every refusal with the buffer untouched, and random PDUs, whole and damaged, 10000 or as many as
 * the argument says. Prints what it counted, and a sum of the random credentials and PDUs, by which two archives are compared; exits 1 at the first
 * thing that is not as it should be. */
#include "gorephan.h"
#include "names.h" /* made by tests/c/make_names.py */
#include "pdus.h"  /* made by tests/c/make_pdus.py */
#include <stdio.h>
#include <stdlib.h>
#include <string.h>

static unsigned checks;

static void check(int ok, const char *what)
{
    checks++;
    if (!ok) {
        printf("FAILED: %s\n", what);
        exit(1);
    }
}

/* A buffer with a pattern, to see what was written. */
static void fill(uint8_t *buffer, size_t len)
{
    for (size_t i = 0; i < len; i++)
        buffer[i] = (uint8_t)(0xA5 ^ i);
}

static int untouched(const uint8_t *buffer, size_t from, size_t len)
{
    for (size_t i = from; i < len; i++)
        if (buffer[i] != (uint8_t)(0xA5 ^ i))
            return 0;
    return 1;
}

static uint64_t state = 0x9E3779B97F4A7C15;

static uint32_t dice(void)
{
    state ^= state << 13;
    state ^= state >> 7;
    state ^= state << 17;
    return (uint32_t)(state >> 32);
}

static void random_octets(uint8_t *out, size_t len)
{
    for (size_t i = 0; i < len; i++)
        out[i] = (uint8_t)dice();
}

/* FNV-1a over octets that the archive has written. */
static uint64_t sum = 0xCBF29CE484222325;

static void add(const uint8_t *octets, size_t len)
{
    for (size_t i = 0; i < len; i++)
        sum = (sum ^ octets[i]) * 0x100000001B3;
}

/* One header, sealed; out has 40 octets. */
struct header {
    uint32_t iv_index;
    uint8_t ctl, ttl;
    uint32_t seq;
    uint16_t src, dst;
    size_t len;
    uint8_t transport[16];
};

static uint32_t seal(const uint8_t *credential, const struct header *h, uint8_t *out)
{
    fill(out, 40);
    return gorephan_seal(credential, 33, h->iv_index, h->ctl, h->ttl, h->seq, h->src, h->dst, h->transport, h->len, out, 40);
}

/* What opening must write: the PDU in clear behind octet 0. */
static size_t clear_of(const struct header *h, uint8_t first, uint8_t *out)
{
    uint8_t front[9] = {first, (uint8_t)(h->ctl << 7 | h->ttl), (uint8_t)(h->seq >> 16), (uint8_t)(h->seq >> 8), (uint8_t)h->seq,
                        (uint8_t)(h->src >> 8), (uint8_t)h->src, (uint8_t)(h->dst >> 8), (uint8_t)h->dst};
    memcpy(out, front, 9);
    memcpy(out + 9, h->transport, h->len);
    return 9 + h->len;
}

static void opens(const uint8_t *credentials, size_t len, const struct header *h, const uint8_t *pdu, size_t pdu_len, unsigned trials, unsigned place)
{
    uint8_t out[40], expected[29];
    fill(out, 40);
    uint32_t answer = gorephan_open(credentials, len, h->iv_index, pdu, pdu_len, out, 40);
    size_t n = clear_of(h, pdu[0], expected);
    check(GOREPHAN_REFUSAL(answer) == 0, "a sealed PDU opens");
    check(GOREPHAN_TRIALS(answer) == trials, "with this many trials");
    check(GOREPHAN_OCTETS(answer) == n && GOREPHAN_PLACE(answer) == place, "to so many octets, by the credential at this place");
    check(memcmp(out, expected, n) == 0, "which are the header's");
    check(untouched(out, n, 40), "and nothing behind them is written");
}

static void refuses(const uint8_t *credentials, size_t len, uint32_t iv_index, const uint8_t *pdu, size_t pdu_len, size_t out_len, uint32_t refusal,
                    const char *what)
{
    uint8_t out[40];
    fill(out, 40);
    uint32_t answer = gorephan_open(credentials, len, iv_index, pdu, pdu_len, out, out_len);
    check(answer == refusal, what);
    check(untouched(out, 0, 40), "a refusal writes nothing");
}

static void will_not_seal(const uint8_t *credential, size_t credential_len, const struct header *h, size_t out_len, uint32_t refusal, const char *what)
{
    uint8_t out[40];
    fill(out, 40);
    uint32_t answer = gorephan_seal(credential, credential_len, h->iv_index, h->ctl, h->ttl, h->seq, h->src, h->dst, h->transport, h->len, out, out_len);
    check(answer == refusal, what);
    check(untouched(out, 0, 40), "a refusal writes nothing");
}

static struct header header_of(const struct mp_pdu *m)
{
    struct header h = {m->iv_index, m->ctl, m->ttl, m->seq, m->src, m->dst, m->transport_len, {0}};
    memcpy(h.transport, m->transport, h.len);
    return h;
}

/* A PDU made elsewhere: sealed to the same octets, and opened. */
static void both_ways(const struct mp_pdu *m)
{
    const struct header h = header_of(m);
    uint8_t out[40];
    check(seal(m->credential, &h, out) == (uint32_t)m->pdu_len << 16, m->name);
    check(memcmp(out, m->pdu, m->pdu_len) == 0, m->name);
    check(untouched(out, m->pdu_len, 40), m->name);
    opens(m->credential, 33, &h, m->pdu, m->pdu_len, 1, 0);
}

static void samples(void)
{
    for (size_t i = 0; i < sizeof mp_pdus / sizeof mp_pdus[0]; i++)
        both_ways(&mp_pdus[i]);
    static const uint8_t key[16] = MP_NET_KEY, credential[33] = MP_CREDENTIAL;
    uint8_t out[40];
    fill(out, 40);
    check(gorephan_credentials(key, 16, out, 40) == 0 && memcmp(out, credential, 33) == 0 && untouched(out, 33, 40), "MP 8.2.2");
    fill(out, 40);
    check(gorephan_credentials(key, 15, out, 40) == 14 && gorephan_credentials(key, 16, out, 32) == 14 && untouched(out, 0, 40), "14 for other lengths");
}

/* A PDU to a reserved group may have to be forwarded, so it is opened and sealed like any other. */
static void reserved_groups(void)
{
    for (size_t i = 0; i < sizeof reserved_pdus / sizeof reserved_pdus[0]; i++)
        both_ways(&reserved_pdus[i]);
}

/* One SRC and SEQ under the IV Index before and under the current one: both are opened, as the same header but for IVI in octet 0, by which a caller
 * that remembers what it heard tells them apart. A copy is opened, too, since nothing is remembered here. */
static void under_both_indexes(void)
{
    static const size_t n = sizeof twice_pdus / sizeof twice_pdus[0];
    for (size_t i = 0; i < 2 * n; i++) {
        const struct mp_pdu *m = &twice_pdus[i % n], *other = &twice_pdus[i % n ^ 1];
        both_ways(m);
        struct header h = header_of(other);
        check(m->iv_index != h.iv_index && m->pdu[0] == (other->pdu[0] ^ 0x80), "the other IV Index, the other IVI");
        h.iv_index = 0x12345678; /* the greater of the two */
        opens(m->credential, 33, &h, m->pdu, m->pdu_len, 1, 0);
    }
}

/* Random network keys and PDUs of OpenSSL. */
static void of_openssl(void)
{
    for (size_t i = 0; i < sizeof openssl_pdus / sizeof openssl_pdus[0]; i++) {
        const struct mp_pdu *m = &openssl_pdus[i];
        uint8_t credential[33];
        check(gorephan_credentials(openssl_keys[i], 16, credential, 33) == 0 && memcmp(credential, m->credential, 33) == 0, m->name);
        both_ways(m);
    }
}

static void edges(const uint8_t *credential)
{
    struct header h = {7, 0, 5, 0x010203, 0x0001, 0xC000, 1, {9}};
    uint8_t pdu[41];
    check(seal(credential, &h, pdu) >> 16 == 14, "the shortest PDU has 14 octets");
    opens(credential, 33, &h, pdu, 14, 1, 0);
    refuses(credential, 33, 7, pdu, 13, 40, 1, "13 octets");
    refuses(credential, 33, 7, pdu, 0, 40, 1, "no octets");
    h.len = 16;
    check(seal(credential, &h, pdu) >> 16 == 29, "the longest has 29");
    opens(credential, 33, &h, pdu, 29, 1, 0);
    refuses(credential, 33, 7, pdu, 30, 40, 1, "30 octets");
    static const uint8_t ttls[] = {0, 1, 2, 127};
    for (unsigned i = 0; i < sizeof ttls; i++) {
        h.ttl = ttls[i];
        seal(credential, &h, pdu);
        opens(credential, 33, &h, pdu, 29, 1, 0);
    }
    h.ctl = 1, h.len = 12;
    check(seal(credential, &h, pdu) >> 16 == 29, "a control PDU has 29 at most");
    opens(credential, 33, &h, pdu, 29, 1, 0);
    h.iv_index = 8; /* what was sealed under 7 opens where 8 is current, and not where 9 is */
    opens(credential, 33, &h, pdu, 29, 1, 0);
    refuses(credential, 33, 9, pdu, 29, 40, 1 << 8 | 3, "two IV Indexes later");
}

/* Buffers that are only read may be one: transport that lies in the credential is sealed like a copy of it. */
static void read_from_one_buffer(const uint8_t *credential)
{
    struct header h = {7, 0, 5, 3, 1, 2, 16, {0}};
    uint8_t apart[40], out[40];
    memcpy(h.transport, credential + 1, 16);
    check(seal(credential, &h, apart) == 29 << 16, "a copy of a part of the credential is sealed");
    fill(out, 40);
    check(gorephan_seal(credential, 33, 7, 0, 5, 3, 1, 2, credential + 1, 16, out, 40) == 29 << 16, "and the part itself");
    check(memcmp(out, apart, 40) == 0, "to the same octets");
}

static void every_refusal(const uint8_t *credential)
{
    const struct header h = {8, 0, 5, 3, 0x0102, 0x0304, 4, {1, 2, 3, 4}};
    struct header x;
    uint8_t pdu[40], list[5 * 33];
    uint32_t n = seal(credential, &h, pdu) >> 16;
    refuses(credential, 33, 8, pdu, n, 28, 16, "16 before all else");
    refuses(credential, 33, 8, pdu, 3, 28, 16, "16 before 1");
    refuses(credential, 32, 8, pdu, n, 40, 2, "no whole credential");
    refuses(credential, 0, 8, pdu, n, 40, 2, "no credential");
    pdu[0] ^= 1;
    refuses(credential, 33, 8, pdu, n, 40, 2, "a foreign NID");
    pdu[0] ^= 0x81;
    refuses(credential, 33, 0, pdu, n, 40, 2, "no IV Index below 0");
    pdu[0] ^= 0x80;
    refuses(credential, 33, 10, pdu, n, 40, 3 + 256, "another IV Index");
    pdu[n - 1] ^= 1;
    refuses(credential, 33, 8, pdu, n, 40, 3 + 256, "a damaged NetMIC");
    pdu[n - 1] ^= 1;
    for (unsigned i = 0; i < sizeof unallowed / sizeof unallowed[0]; i++)
        refuses(credential, 33, unallowed[i].iv_index, unallowed[i].pdu, unallowed[i].pdu_len, 40, 4 + 256, unallowed[i].name);

    for (unsigned i = 0; i < 5; i++)
        memcpy(list + 33 * i, credential, 33);
    list[33] ^= 1;
    list[1] ^= 1, list[2 * 33 + 1] ^= 1;
    opens(list, 4 * 33, &h, pdu, n, 3, 3);
    list[3 * 33 + 1] ^= 1;
    refuses(list, 5 * 33, 8, pdu, n, 40, 3 + 3 * 256, "the fifth credential is not tried");
    list[0] |= 0x80, list[2 * 33] |= 0x80, list[3 * 33] |= 0x80;
    refuses(list, 4 * 33, 8, pdu, n, 40, 2, "a NID above 127 is never a candidate");

    will_not_seal(credential, 33, &h, 28, 16, "16 before all else");
    will_not_seal(credential, 32, &h, 40, 14, "a short credential");
    will_not_seal(list, 33, &h, 40, 14, "a NID above 127");
    x = h, x.ctl = 2;
    will_not_seal(credential, 33, &x, 40, 14, "CTL 2");
    x = h, x.ttl = 128;
    will_not_seal(credential, 33, &x, 40, 14, "TTL 128");
    x = h, x.seq = 0x1000000;
    will_not_seal(credential, 33, &x, 40, 14, "SEQ of 25 bits");
    x = h, x.src = 0;
    will_not_seal(credential, 33, &x, 40, 14, "SRC unassigned");
    x = h, x.src = 0x8000;
    will_not_seal(credential, 33, &x, 40, 14, "SRC virtual");
    x = h, x.src = 0xFF00;
    will_not_seal(credential, 33, &x, 40, 14, "SRC reserved, first");
    x = h, x.src = 0xFFFB;
    will_not_seal(credential, 33, &x, 40, 14, "SRC reserved, last");
    x = h, x.dst = 0;
    will_not_seal(credential, 33, &x, 40, 14, "DST unassigned");
    x = h, x.dst = 0x8000, x.ctl = 1;
    will_not_seal(credential, 33, &x, 40, 14, "DST virtual with CTL 1");
    x = h, x.len = 0;
    will_not_seal(credential, 33, &x, 40, 14, "no transport");
    x = h, x.len = 13, x.ctl = 1;
    will_not_seal(credential, 33, &x, 40, 14, "13 octets with CTL 1");
    uint8_t long_transport[17] = {0}, out[40];
    fill(out, 40);
    check(gorephan_seal(credential, 33, 8, 0, 5, 3, 1, 2, long_transport, 17, out, 40) == 14 && untouched(out, 0, 40), "17 octets");
    x = h, x.dst = 0x8000;
    check(seal(credential, &x, pdu) >> 16 == n, "DST virtual with CTL 0 is sealed");
}

static void at_random(unsigned turns)
{
    for (unsigned turn = 0; turn < turns; turn++) {
        uint8_t key[16], credential[33], pdu[40];
        random_octets(key, 16);
        check(gorephan_credentials(key, 16, credential, 33) == 0, "a credential");
        struct header h = {dice(), dice() & 1, dice() & 127, dice() & 0xFFFFFF, (uint16_t)(1 + dice() % 0x7FFF), 0, 0, {0}};
        h.dst = (uint16_t)(dice() & 1 ? 0xC000 | dice() : 1 + dice() % 0x7FFF);
        h.len = 1 + dice() % (h.ctl ? 12 : 16);
        random_octets(h.transport, h.len);
        uint32_t n = seal(credential, &h, pdu) >> 16;
        check(n == 9 + h.len + (h.ctl ? 8 : 4), "the sealed length");
        add(credential, 33);
        add(pdu, n);
        opens(credential, 33, &h, pdu, n, 1, 0);
        uint32_t bit = dice() % (8 * n);
        pdu[bit / 8] ^= (uint8_t)(1 << bit % 8);
        uint8_t out[40];
        fill(out, 40);
        uint32_t refusal = GOREPHAN_REFUSAL(gorephan_open(credential, 33, h.iv_index, pdu, n, out, 40));
        check((refusal == 2 || refusal == 3) && untouched(out, 0, 40), "one bit changed, and it is refused");
    }
}

/* A refusal's name has the number that docs/ANSWERS.md has under it. */
static void refusals_by_name(void)
{
    for (size_t i = 0; i < sizeof names / sizeof names[0]; i++)
        check(names[i].is == names[i].should_be, names[i].name);
}

int main(int count, char **words)
{
    static const uint8_t credential[33] = MP_CREDENTIAL;
    const unsigned turns = count > 1 ? (unsigned)strtoul(words[1], NULL, 10) : 10000;
    refusals_by_name();
    samples();
    reserved_groups();
    under_both_indexes();
    of_openssl();
    edges(credential);
    read_from_one_buffer(credential);
    every_refusal(credential);
    at_random(turns);
    printf("%zu refusals by name, %zu samples of MP, %zu PDUs to reserved groups, %zu under two IV Indexes, %zu of OpenSSL, %u random PDUs,"
           " %u checks, sum %016llx\n",
           sizeof names / sizeof names[0], sizeof mp_pdus / sizeof mp_pdus[0], sizeof reserved_pdus / sizeof reserved_pdus[0],
           sizeof twice_pdus / sizeof twice_pdus[0], sizeof openssl_pdus / sizeof openssl_pdus[0], turns, checks, (unsigned long long)sum);
    return 0;
}
