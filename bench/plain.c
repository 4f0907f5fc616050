/* See plain.h. */
#include "plain.h"
#include <string.h>

static const uint8_t S[16] = {12, 5, 6, 11, 9, 0, 10, 13, 3, 14, 15, 8, 4, 7, 1, 2};
static const uint8_t RC[12] = {1, 3, 7, 14, 13, 11, 6, 12, 9, 2, 5, 10};
static const uint8_t IC[8] = {0, 1, 3, 7, 15, 14, 12, 8};
static const uint8_t LAST[8] = {2, 4, 2, 11, 2, 8, 5, 6};

/* table[t][v]: S on two cells and eight multiplications by M, as one 32-bit column */
static uint32_t table[4][256];
static uint32_t round_constant[12];

/* product of polynomials over two elements, then reduction from the top by z^4 + z + 1 */
static unsigned product(unsigned a, unsigned b)
{
    unsigned p = 0;
    for (int i = 0; i < 4; i++)
        if (b >> i & 1)
            p ^= a << i;
    for (int i = 6; i >= 4; i--)
        if (p >> i & 1)
            p ^= 0x13u << (i - 4);
    return p;
}

static uint32_t mixed(const uint8_t column[8])
{
    uint8_t c[8];
    uint32_t word = 0;
    memcpy(c, column, 8);
    for (int turn = 0; turn < 8; turn++) {
        unsigned last = 0;
        for (int i = 0; i < 8; i++)
            last ^= product(LAST[i], c[i]);
        memmove(c, c + 1, 7);
        c[7] = (uint8_t)last;
    }
    for (int i = 0; i < 8; i++)
        word |= (uint32_t)c[i] << 4 * i;
    return word;
}

void plain_init(void)
{
    for (int t = 0; t < 4; t++)
        for (int v = 0; v < 256; v++) {
            uint8_t column[8] = {0};
            column[2 * t] = S[v & 15];
            column[2 * t + 1] = S[v >> 4];
            table[t][v] = mixed(column);
        }
    for (int k = 0; k < 12; k++) {
        round_constant[k] = 0;
        for (int i = 0; i < 8; i++)
            round_constant[k] |= (uint32_t)(RC[k] ^ IC[i]) << 4 * i;
    }
}

void plain_permute(uint8_t state[32])
{
    uint32_t w[8], n[8];
    for (int j = 0; j < 8; j++) {
        w[j] = 0;
        for (int i = 0; i < 8; i++)
            w[j] |= (uint32_t)(state[4 * i + j / 2] >> 4 * (j & 1) & 15) << 4 * i;
    }
    for (int k = 0; k < 12; k++) {
        w[0] ^= round_constant[k];
        for (int j = 0; j < 8; j++) {
            uint32_t x = 0;
            for (int t = 0; t < 4; t++)
                x ^= table[t][(w[(j + 2 * t) & 7] >> 8 * t & 0x0f) | (w[(j + 2 * t + 1) & 7] >> 8 * t & 0xf0)];
            n[j] = x;
        }
        memcpy(w, n, sizeof w);
    }
    for (int k = 0; k < 32; k++) {
        int row = k / 4, pair = 2 * (k % 4);
        state[k] = (uint8_t)((w[pair] >> 4 * row & 15) | (w[pair + 1] >> 4 * row & 15) << 4);
    }
}

static void absorb(int rate, uint8_t state[32], const uint8_t *text, size_t len)
{
    while (len > 0) {
        size_t n = len < (size_t)rate ? len : (size_t)rate;
        plain_permute(state);
        for (size_t i = 0; i < n; i++)
            state[i] ^= text[i];
        if (n < (size_t)rate)
            state[n] ^= 1;
        text += n;
        len -= n;
    }
}

static void add(uint8_t state[32], int c)
{
    state[31] ^= (uint8_t)(c << 5);
}

void plain_hash(const uint8_t *text, size_t len, uint8_t out[32])
{
    uint8_t state[32] = {0};
    if (len == 0) {
        add(state, 1);
    } else if (len <= 16) {
        memcpy(state, text, len);
        if (len < 16)
            state[len] = 1;
        add(state, len < 16 ? 1 : 2);
    } else {
        memcpy(state, text, 16);
        absorb(4, state, text + 16, len - 16);
        add(state, (len - 16) % 4 == 0 ? 1 : 2);
    }
    plain_permute(state);
    memcpy(out, state, 16);
    plain_permute(state);
    memcpy(out + 16, state, 16);
}

/* one block: out is the text under the shuffled front of the state, and the plain block goes into the state */
static void cover(int rate, uint8_t state[32], const uint8_t *in, uint8_t *out, size_t n, int opening)
{
    uint8_t shuffled[16];
    int half = rate == 16 ? 8 : 2;
    for (int i = 0; i < half; i++) {
        shuffled[i] = state[half + i];
        shuffled[half + i] = (uint8_t)(state[i] >> 1 | (state[(i + 1) % half] & 1) << 7);
    }
    for (size_t i = 0; i < n; i++) {
        uint8_t x = in[i], y = (uint8_t)(x ^ shuffled[i]);
        state[i] ^= opening ? y : x;
        out[i] = y;
    }
    if (n < (size_t)rate)
        state[n] ^= 1;
}

/* the whole mode: leaves the tag in the first 16 bytes of the state */
static void mode(int rate, uint8_t state[32], const uint8_t key[16], const uint8_t nonce[16], const uint8_t *ad, size_t adlen,
                 const uint8_t *in, size_t len, uint8_t *out, int opening)
{
    memcpy(state, nonce, 16);
    memcpy(state + 16, key, 16);
    if (adlen == 0 && len == 0)
        add(state, 1);
    if (adlen > 0) {
        absorb(rate, state, ad, adlen);
        add(state, (len > 0 ? 1 : 3) + (adlen % (size_t)rate != 0));
    }
    if (len > 0) {
        for (size_t at = 0; at < len; at += (size_t)rate) {
            size_t n = len - at < (size_t)rate ? len - at : (size_t)rate;
            plain_permute(state);
            cover(rate, state, in + at, out + at, n, opening);
        }
        add(state, (adlen > 0 ? 1 : 5) + (len % (size_t)rate != 0));
    }
    plain_permute(state);
}

void plain_seal(int rate, const uint8_t key[16], const uint8_t nonce[16], const uint8_t *ad, size_t adlen,
                const uint8_t *msg, size_t len, uint8_t *out)
{
    uint8_t state[32];
    mode(rate, state, key, nonce, ad, adlen, msg, len, out, 0);
    memcpy(out + len, state, 16);
}

int plain_open(int rate, const uint8_t key[16], const uint8_t nonce[16], const uint8_t *ad, size_t adlen,
               const uint8_t *sealed, size_t len, uint8_t *out)
{
    uint8_t state[32], differ = 0;
    if (len < 16)
        return 0;
    mode(rate, state, key, nonce, ad, adlen, sealed, len - 16, out, 1);
    for (int i = 0; i < 16; i++)
        differ |= (uint8_t)(state[i] ^ sealed[len - 16 + i]);
    if (differ)
        memset(out, 0, len - 16);
    return !differ;
}
