/* The Reed-Solomon work of `bench speed`, done by libfec (Debian: libfec-dev):
 * words of 224 octets with 16 octets of parity, over the field with polynomial 0x11d,
 * generator roots alpha^1 to alpha^16. Prints the mean nanoseconds for each octet. */
#include <fec.h>
#include <stdio.h>
#include <string.h>
#include <time.h>

enum { MESSAGE = 224, PARITY = 16, WORD = MESSAGE + PARITY, BATCH = 64 };

static const double SECONDS = 0.3;

/* The parity of the message whose octet i is (7 i + 3) mod 256. */
static const char *KNOWN = "e6a57de96be88c9557c88a4f735c5020";

static void *rs;
static unsigned char message[MESSAGE];
static unsigned char word[WORD];
static int spoiled;

static double now(void)
{
    struct timespec t;
    clock_gettime(CLOCK_MONOTONIC, &t);
    return t.tv_sec + t.tv_nsec * 1e-9;
}

static void fill(unsigned char *octets, int count)
{
    for (int i = 0; i < count; i++)
        octets[i] = (unsigned char)(7 * i + 3);
}

/* Each round puts a parity octet into the message, so that no two rounds are one. */
static int code(void)
{
    unsigned char parity[PARITY];
    encode_rs_char(rs, message, parity);
    message[0] = parity[PARITY - 1];
    return 1;
}

/* Each round mends a copy. */
static int mend(void)
{
    unsigned char room[WORD];
    memcpy(room, word, WORD);
    return decode_rs_char(rs, room, NULL, 0) == spoiled;
}

static int measure(const char *name, int (*round)(void), int octets)
{
    double start = now(), seconds = 0;
    double batches = 0;
    while (seconds < SECONDS) {
        for (int i = 0; i < BATCH; i++)
            if (!round()) {
                printf("speed %s went wrong\n", name);
                return 1;
            }
        batches++;
        seconds = now() - start;
    }
    printf("speed %s %.1f ns/octet\n", name, seconds * 1e9 / (batches * BATCH * octets));
    return 0;
}

/* Spoils octets five places apart from the second on, and measures how they are mended. */
static int measure_mend(int count)
{
    char name[16];
    fill(word, MESSAGE);
    encode_rs_char(rs, word, word + MESSAGE);
    for (int i = 0; i < count; i++)
        word[1 + 5 * i] ^= 0x5a;
    spoiled = count;
    snprintf(name, sizeof name, "mend-%d", count);
    return measure(name, mend, WORD);
}

static int is_same_code(void)
{
    unsigned char parity[PARITY];
    char hex[2 * PARITY + 1];
    fill(message, MESSAGE);
    encode_rs_char(rs, message, parity);
    for (int i = 0; i < PARITY; i++)
        snprintf(hex + 2 * i, 3, "%02x", parity[i]);
    return strcmp(hex, KNOWN) == 0;
}

int main(void)
{
    rs = init_rs_char(8, 0x11d, 1, 1, PARITY, 255 - WORD);
    if (rs == NULL || !is_same_code()) {
        fprintf(stderr, "libfec does not give the known parity: another code\n");
        return 1;
    }
    return measure("parity", code, MESSAGE) | measure_mend(0) | measure_mend(1) | measure_mend(4)
        | measure_mend(8);
}
