/* Compares the library with plain.c: first the results, on random texts, sealed, opened and damaged; then the speed. */
#define _POSIX_C_SOURCE 200809L
#include "plain.h"
#include <stdio.h>
#include <stdlib.h>
#include <string.h>
#include <time.h>

/* The library's calls (crates/exports_c). A slice is a pointer and a length. Each answers 0, or the refusal's number. */
uint8_t lochgrater_hash(const uint8_t *text, size_t len, uint8_t *out, size_t outlen);
uint8_t lochgrater_seal_128(const uint8_t *key, const uint8_t *nonce, const uint8_t *ad, size_t adlen, const uint8_t *text, size_t len, uint8_t *out, size_t outlen);
uint8_t lochgrater_seal_32(const uint8_t *key, const uint8_t *nonce, const uint8_t *ad, size_t adlen, const uint8_t *text, size_t len, uint8_t *out, size_t outlen);
uint8_t lochgrater_open_128(const uint8_t *key, const uint8_t *nonce, const uint8_t *ad, size_t adlen, const uint8_t *text, size_t len, uint8_t *out, size_t outlen);
uint8_t lochgrater_open_32(const uint8_t *key, const uint8_t *nonce, const uint8_t *ad, size_t adlen, const uint8_t *text, size_t len, uint8_t *out, size_t outlen);

enum { MOST = 65536, CASES = 4000, LONGEST = 4096 };

static uint8_t key[16], nonce[16], ad[MOST], msg[MOST], ours[MOST + 16], theirs[MOST + 16], back[MOST + 16], back2[MOST + 16];

static uint64_t seed = 0x9e3779b97f4a7c15u;

static uint64_t next_random(void)
{
    seed ^= seed << 13;
    seed ^= seed >> 7;
    seed ^= seed << 17;
    return seed;
}

static void fill(uint8_t *bytes, size_t n)
{
    for (size_t i = 0; i < n; i++)
        bytes[i] = (uint8_t)(next_random() >> 32);
}

static uint8_t our_seal(int rate, size_t adlen, size_t len, uint8_t *out)
{
    return (rate == 16 ? lochgrater_seal_128 : lochgrater_seal_32)(key, nonce, ad, adlen, msg, len, out, len + 16);
}

static uint8_t our_open(int rate, size_t adlen, const uint8_t *sealed, size_t len, uint8_t *out, size_t outlen)
{
    return (rate == 16 ? lochgrater_open_128 : lochgrater_open_32)(key, nonce, ad, adlen, sealed, len, out, outlen);
}

static void print_bytes(const char *name, const uint8_t *bytes, size_t n)
{
    printf("  %s (%zu bytes) ", name, n);
    for (size_t i = 0; i < n; i++)
        printf("%02x", bytes[i]);
    printf("\n");
}

static void disagree(const char *what, int rate, size_t adlen, size_t len)
{
    printf("DISAGREE: %s, rate %d bytes\n", what, rate);
    print_bytes("key", key, 16);
    print_bytes("nonce", nonce, 16);
    print_bytes("associated data", ad, adlen);
    print_bytes("message", msg, len);
    print_bytes("ours", ours, len + 16);
    print_bytes("theirs", theirs, len + 16);
    print_bytes("opened by ours", back, len);
    print_bytes("opened by theirs", back2, len);
    exit(1);
}

static int all_zero(const uint8_t *bytes, size_t n)
{
    for (size_t i = 0; i < n; i++)
        if (bytes[i])
            return 0;
    return 1;
}

/* one byte of one of the texts, changed and put back */
static uint8_t *some_byte(size_t adlen, size_t len)
{
    size_t at = (size_t)(next_random() % (32 + adlen + len + 16));
    if (at < 16)
        return key + at;
    if (at < 32)
        return nonce + (at - 16);
    if (at < 32 + adlen)
        return ad + (at - 32);
    return ours + (at - 32 - adlen);
}

static void one_case(int rate, size_t adlen, size_t len)
{
    fill(key, 16);
    fill(nonce, 16);
    fill(ad, adlen);
    fill(msg, len);
    plain_hash(msg, len, theirs);
    if (lochgrater_hash(msg, len, ours, 32) != 0 || memcmp(ours, theirs, 32) != 0)
        disagree("hash", rate, adlen, len);
    plain_seal(rate, key, nonce, ad, adlen, msg, len, theirs);
    if (our_seal(rate, adlen, len, ours) != 0 || memcmp(ours, theirs, len + 16) != 0)
        disagree("sealing", rate, adlen, len);
    memset(back, 0xff, len + 16);
    if (our_open(rate, adlen, theirs, len + 16, back, len + 16) != 0 || memcmp(back, msg, len) != 0 || !all_zero(back + len, 16))
        disagree("opening", rate, adlen, len);
    uint8_t *changed = some_byte(adlen, len), change = (uint8_t)(1u << (next_random() & 7));
    *changed ^= change;
    memset(back, 0xff, len);
    int granted = plain_open(rate, key, nonce, ad, adlen, ours, len + 16, back2);
    if (granted || our_open(rate, adlen, ours, len + 16, back, len) != 3 || !all_zero(back, len))
        disagree("a damaged text", rate, adlen, len);
    *changed ^= change;
    size_t cut = (size_t)(next_random() % (len + 16));
    granted = plain_open(rate, key, nonce, ad, adlen, ours, cut, back2);
    memset(back, 0xff, len);
    if (granted || our_open(rate, adlen, ours, cut, back, len) != 3 || !all_zero(back, len))
        disagree("a cut text", rate, adlen, len);
}

static double now(void)
{
    struct timespec t;
    clock_gettime(CLOCK_MONOTONIC, &t);
    return (double)t.tv_sec * 1e9 + (double)t.tv_nsec;
}

enum work { SEAL, OPEN, HASH };

static void run(enum work work, int mine, int rate, size_t len)
{
    if (work == SEAL) {
        if (mine)
            our_seal(rate, 0, len, ours);
        else
            plain_seal(rate, key, nonce, ad, 0, msg, len, ours);
    } else if (work == OPEN) {
        if (mine)
            our_open(rate, 0, theirs, len + 16, back, len);
        else
            plain_open(rate, key, nonce, ad, 0, theirs, len + 16, back);
    } else {
        if (mine)
            lochgrater_hash(msg, len, ours, 32);
        else
            plain_hash(msg, len, ours);
    }
}

/* nanoseconds a call: the best of some tries, ours and theirs in turn */
static void measure(const char *name, enum work work, int rate, size_t len)
{
    int turns = (int)(4000000 / (len + 64) / (work == HASH || rate == 4 ? 4 : 1)) + 1;
    double best[2] = {1e300, 1e300};
    plain_seal(rate, key, nonce, ad, 0, msg, len, theirs);
    for (int again = 0; again < 7; again++)
        for (int mine = 0; mine < 2; mine++) {
            double start = now();
            for (int i = 0; i < turns; i++)
                run(work, mine, rate, len);
            double each = (now() - start) / turns;
            if (each < best[mine])
                best[mine] = each;
        }
    printf("%-4s %3d bits %6zu bytes  ours %12.1f ns  theirs %12.1f ns  ratio %5.2f\n", name, rate * 8, len, best[1], best[0], best[1] / best[0]);
    fflush(stdout);
}

int main(void)
{
    static const size_t lengths[] = {64, 1024, 65536};
    plain_init();
    for (int i = 0; i < CASES; i++) {
        one_case(i % 2 ? 4 : 16, (size_t)(next_random() % (LONGEST + 1)), (size_t)(next_random() % (LONGEST + 1)));
        if (i % 400 == 399)
            fprintf(stderr, "%d of %d cases compared ..\n", i + 1, CASES);
    }
    for (size_t adlen = 0; adlen <= 34; adlen++)
        for (size_t len = 0; len <= 34; len++) {
            one_case(16, adlen, len);
            one_case(4, adlen, len);
        }
    printf("%d random cases and %d short ones agree: hash, sealing, opening, damaged and cut texts\n", CASES, 35 * 35 * 2);
    for (int r = 0; r < 2; r++)
        for (int l = 0; l < 3; l++) {
            int rate = r ? 4 : 16;
            measure("seal", SEAL, rate, lengths[l]);
            measure("open", OPEN, rate, lengths[l]);
        }
    for (int l = 0; l < 3; l++)
        measure("hash", HASH, 4, lengths[l]);
    return 0;
}
