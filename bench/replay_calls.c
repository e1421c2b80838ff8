/* Makes the calls on files that a replay of a capture makes, without anything proved and without looking for duplicates:
 * reads the capture, appends an accepted record and a gate for each bulletin, says its receipt, and at the end of the
 * capture appends a draw record and a gate for each bulletin and writes its frame. It is what `replay` is measured
 * against; its records have the sizes of the journal's, each with the digest of the seal before it and its bytes, and not
 * their checks. */
#include <fcntl.h>
#include <stdint.h>
#include <stdio.h>
#include <stdlib.h>
#include <string.h>
#include <unistd.h>

/* LONGEST, the bytes of the longest frame, is given by who compiles this. */
enum { PIECE = 65536, SEAL = 32 };

static int capture, journal, receipts = 1, circuit;
static off_t gate = 40;
static char *bodies[1 << 20];
static size_t sizes[1 << 20];
static size_t accepted;

/* The seal of the last record. */
static unsigned char seal[SEAL];

static char piece[PIECE];
static size_t held, place;

static void fail(const char *what)
{
    perror(what);
    exit(1);
}

static int next_byte(void)
{
    if (place == held) {
        ssize_t n = read(capture, piece, PIECE);
        if (n < 0)
            fail("read");
        if (n == 0)
            return -1;
        held = (size_t)n;
        place = 0;
    }
    return (unsigned char)piece[place++];
}

static void line(char *into, size_t size)
{
    size_t n = 0;
    int byte;
    while ((byte = next_byte()) >= 0 && byte != '\n' && n + 1 < size)
        into[n++] = (char)byte;
    into[n] = 0;
}

static const uint32_t rounds[64] = {
    0x428a2f98, 0x71374491, 0xb5c0fbcf, 0xe9b5dba5, 0x3956c25b, 0x59f111f1, 0x923f82a4, 0xab1c5ed5,
    0xd807aa98, 0x12835b01, 0x243185be, 0x550c7dc3, 0x72be5d74, 0x80deb1fe, 0x9bdc06a7, 0xc19bf174,
    0xe49b69c1, 0xefbe4786, 0x0fc19dc6, 0x240ca1cc, 0x2de92c6f, 0x4a7484aa, 0x5cb0a9dc, 0x76f988da,
    0x983e5152, 0xa831c66d, 0xb00327c8, 0xbf597fc7, 0xc6e00bf3, 0xd5a79147, 0x06ca6351, 0x14292967,
    0x27b70a85, 0x2e1b2138, 0x4d2c6dfc, 0x53380d13, 0x650a7354, 0x766a0abb, 0x81c2c92e, 0x92722c85,
    0xa2bfe8a1, 0xa81a664b, 0xc24b8b70, 0xc76c51a3, 0xd192e819, 0xd6990624, 0xf40e3585, 0x106aa070,
    0x19a4c116, 0x1e376c08, 0x2748774c, 0x34b0bcb5, 0x391c0cb3, 0x4ed8aa4a, 0x5b9cca4f, 0x682e6ff3,
    0x748f82ee, 0x78a5636f, 0x84c87814, 0x8cc70208, 0x90befffa, 0xa4506ceb, 0xbef9a3f7, 0xc67178f2};

static uint32_t turned(uint32_t word, int by)
{
    return word >> by | word << (32 - by);
}

static void compress(uint32_t hash[8], const unsigned char *block)
{
    uint32_t w[64], v[8];
    for (int i = 0; i < 16; i++)
        w[i] = (uint32_t)block[4 * i] << 24 | (uint32_t)block[4 * i + 1] << 16 | (uint32_t)block[4 * i + 2] << 8 | block[4 * i + 3];
    for (int i = 16; i < 64; i++) {
        uint32_t a = w[i - 15], b = w[i - 2];
        w[i] = w[i - 16] + (turned(a, 7) ^ turned(a, 18) ^ a >> 3) + w[i - 7] + (turned(b, 17) ^ turned(b, 19) ^ b >> 10);
    }
    memcpy(v, hash, sizeof v);
    for (int i = 0; i < 64; i++) {
        uint32_t one = v[7] + (turned(v[4], 6) ^ turned(v[4], 11) ^ turned(v[4], 25)) + ((v[4] & v[5]) ^ (~v[4] & v[6])) + rounds[i] + w[i];
        uint32_t two = (turned(v[0], 2) ^ turned(v[0], 13) ^ turned(v[0], 22)) + ((v[0] & v[1]) ^ (v[0] & v[2]) ^ (v[1] & v[2]));
        memmove(v + 1, v, 7 * sizeof *v);
        v[4] += one;
        v[0] = one + two;
    }
    for (int i = 0; i < 8; i++)
        hash[i] += v[i];
}

/* SHA-256 of the seal before and the bytes of a record, which is the seal then. */
static void seal_on(const char *record, size_t size)
{
    uint32_t hash[8] = {0x6a09e667, 0xbb67ae85, 0x3c6ef372, 0xa54ff53a, 0x510e527f, 0x9b05688c, 0x1f83d9ab, 0x5be0cd19};
    size_t total = SEAL + size, blocks = (total + 8) / 64 + 1;
    unsigned char *text = calloc(blocks, 64);
    memcpy(text, seal, SEAL);
    memcpy(text + SEAL, record, size);
    text[total] = 0x80;
    for (int i = 0; i < 8; i++)
        text[64 * blocks - 1 - i] = (unsigned char)(8 * (uint64_t)total >> 8 * i);
    for (size_t i = 0; i < blocks; i++)
        compress(hash, text + 64 * i);
    for (int i = 0; i < SEAL; i++)
        seal[i] = (unsigned char)(hash[i / 4] >> (24 - 8 * (i % 4)));
    free(text);
}

static void append(const char *record, size_t size)
{
    char open = 0x4f, closed = 0x43;
    char *bytes = malloc(size + SEAL + 1);
    memcpy(bytes, record, size);
    seal_on(record, size);
    memcpy(bytes + size, seal, SEAL);
    size += SEAL;
    bytes[size] = closed;
    if (pwrite(journal, bytes, size + 1, gate + 1) != (ssize_t)(size + 1))
        fail("pwrite");
    if (fsync(journal) != 0)
        fail("fsync");
    if (pwrite(journal, &open, 1, gate) != 1)
        fail("pwrite");
    if (fsync(journal) != 0)
        fail("fsync");
    gate += (off_t)size + 1;
    free(bytes);
}

int main(void)
{
    char head[32];
    capture = open("capture.gts", O_RDONLY);
    journal = open("journal.0", O_RDWR | O_CREAT | O_TRUNC, 0644);
    circuit = open("circuit.01.out", O_WRONLY | O_CREAT | O_APPEND, 0644);
    if (capture < 0 || journal < 0 || circuit < 0)
        fail("open");
    for (;;) {
        line(head, sizeof head);
        if (head[0] != 'F')
            break;
        size_t size = (size_t)atol(head + 5);
        char *frame = malloc(size + 32);
        for (size_t i = 0; i < size; i++)
            frame[i] = (char)next_byte();
        char receipt[96];
        append(frame, size - 20 + 16);
        bodies[accepted] = frame;
        sizes[accepted] = size;
        int n = snprintf(receipt, sizeof receipt, "ACC 0 %zu 1 %.18s\n", accepted, frame + 20);
        if (write(receipts, receipt, (size_t)n) != n)
            fail("write");
        accepted++;
    }
    for (size_t i = 0; i < accepted; i++) {
        char record[23] = {0}, number[4];
        append(record, sizeof record);
        snprintf(number, sizeof number, "%03zu", (i + 1) % 1000);
        memcpy(bodies[i] + 14, number, 3);
        if (write(circuit, bodies[i], sizes[i]) != (ssize_t)sizes[i])
            fail("write");
    }
    return 0;
}
