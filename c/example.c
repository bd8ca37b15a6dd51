/* Seals one Network PDU, opens it again, and shows one bit of it damaged being refused: the least that links. `bin/example` does all that follows.
 *
 * The archive, which is proved before it is built:
 *   bin/built --archive radio
 * On x86-64 (Debian: gcc, libc6-dev):
 *   gcc -Ic c/example.c target/staticlib/libradio.a -o example
 *   ./example
 * On an Arm host, by the cross compiler and an emulator (Debian: gcc-x86-64-linux-gnu, libc6-dev-amd64-cross, qemu-user-static):
 *   x86_64-linux-gnu-gcc -static -Ic c/example.c target/staticlib/libradio.a -o example
 *   qemu-x86_64-static example
 * It is C++, too: g++ -x c++ -Ic c/example.c -x none target/staticlib/libradio.a -o example */
#include "gorephan.h"
#include <stdio.h>

/* What an answer of opening says. */
static const char *told(uint32_t answer)
{
    switch (GOREPHAN_REFUSAL(answer)) {
    case 0:
        return "opened";
    case GOREPHAN_NO_CANDIDATE:
        return "of another network, or under an IV Index before the first";
    case GOREPHAN_NOT_AUTHENTIC:
        return "damaged or forged, or under another IV Index";
    default:
        return "refused, see docs/ANSWERS.md";
    }
}

int main(void)
{
    static const uint8_t key[16] = {0x7d, 0xd7, 0x36, 0x4c, 0xd8, 0x42, 0xad, 0x18, 0xc1, 0x7c, 0x2b, 0x82, 0x0c, 0x84, 0xc3, 0xd6};
    static const uint8_t transport[] = {0x66, 0x5a, 0x8b, 0xde, 0x6d, 0x91, 0x06, 0xea, 0x07, 0x8a};
    uint8_t credential[GOREPHAN_CREDENTIAL], pdu[GOREPHAN_PDU], clear[GOREPHAN_PDU];

    if (gorephan_credentials(key, sizeof key, credential, sizeof credential))
        return 1;
    uint32_t sealed = gorephan_seal(credential, sizeof credential, 0x12345678, 0, 3, 7, 0x1201, 0xffff, transport, sizeof transport, pdu, sizeof pdu);
    if (GOREPHAN_REFUSAL(sealed))
        return 1;
    for (unsigned i = 0; i < GOREPHAN_OCTETS(sealed); i++)
        printf("%02x", pdu[i]);
    uint32_t opened = gorephan_open(credential, sizeof credential, 0x12345678, pdu, GOREPHAN_OCTETS(sealed), clear, sizeof clear);
    printf(" is %s: refusal %u, trials %u, octets %u\n", told(opened), GOREPHAN_REFUSAL(opened), GOREPHAN_TRIALS(opened), GOREPHAN_OCTETS(opened));

    pdu[9] ^= 1;
    uint32_t damaged = gorephan_open(credential, sizeof credential, 0x12345678, pdu, GOREPHAN_OCTETS(sealed), clear, sizeof clear);
    printf("with one bit changed it is %s: refusal %u\n", told(damaged), GOREPHAN_REFUSAL(damaged));
    return GOREPHAN_REFUSAL(opened) != 0 || GOREPHAN_REFUSAL(damaged) != GOREPHAN_NOT_AUTHENTIC;
}
