/* What the hash chains of a check of a signature take in C, beside docs/PERFORMANCE.md: by OpenSSL's block function, one chain at a
 * time, and by vectors of the compiler, eight chains at a time, in the order in which lmots walks them; what is left of the last
 * chains goes by OpenSSL. It prints the mean over 30 messages, each the least of 60 runs. Nothing is read. Status 1: the two
 * disagree. */
#include <openssl/crypto.h>
#include <openssl/sha.h>
#include <stdint.h>
#include <stdio.h>
#include <string.h>
#include <time.h>

#define CHAINS 34
#define MESSAGES 30
#define RUNS 60

typedef uint32_t lanes __attribute__((vector_size(32)));

static const uint32_t K[64] = {
    0x428a2f98, 0x71374491, 0xb5c0fbcf, 0xe9b5dba5, 0x3956c25b, 0x59f111f1, 0x923f82a4, 0xab1c5ed5, 0xd807aa98, 0x12835b01, 0x243185be,
    0x550c7dc3, 0x72be5d74, 0x80deb1fe, 0x9bdc06a7, 0xc19bf174, 0xe49b69c1, 0xefbe4786, 0x0fc19dc6, 0x240ca1cc, 0x2de92c6f, 0x4a7484aa,
    0x5cb0a9dc, 0x76f988da, 0x983e5152, 0xa831c66d, 0xb00327c8, 0xbf597fc7, 0xc6e00bf3, 0xd5a79147, 0x06ca6351, 0x14292967, 0x27b70a85,
    0x2e1b2138, 0x4d2c6dfc, 0x53380d13, 0x650a7354, 0x766a0abb, 0x81c2c92e, 0x92722c85, 0xa2bfe8a1, 0xa81a664b, 0xc24b8b70, 0xc76c51a3,
    0xd192e819, 0xd6990624, 0xf40e3585, 0x106aa070, 0x19a4c116, 0x1e376c08, 0x2748774c, 0x34b0bcb5, 0x391c0cb3, 0x4ed8aa4a, 0x5b9cca4f,
    0x682e6ff3, 0x748f82ee, 0x78a5636f, 0x84c87814, 0x8cc70208, 0x90befffa, 0xa4506ceb, 0xbef9a3f7, 0xc67178f2};
static const uint32_t H[8] = {0x6a09e667, 0xbb67ae85, 0x3c6ef372, 0xa54ff53a, 0x510e527f, 0x9b05688c, 0x1f83d9ab, 0x5be0cd19};

#define ROTATE(x, n) (((x) >> (n)) | ((x) << (32 - (n))))

static lanes all(uint32_t x) { return (lanes){x, x, x, x, x, x, x, x}; }

/* One block in each lane. */
static void compress(lanes w[16], lanes h[8]) {
    lanes a = h[0], b = h[1], c = h[2], d = h[3], e = h[4], f = h[5], g = h[6], k = h[7];
#pragma GCC unroll 64
    for (int t = 0; t < 64; t++) {
        if (t >= 16) {
            lanes x = w[(t + 1) & 15], y = w[(t + 14) & 15];
            lanes s0 = ROTATE(x, 7) ^ ROTATE(x, 18) ^ (x >> 3), s1 = ROTATE(y, 17) ^ ROTATE(y, 19) ^ (y >> 10);
            w[t & 15] += s0 + w[(t + 9) & 15] + s1;
        }
        lanes t1 = k + (ROTATE(e, 6) ^ ROTATE(e, 11) ^ ROTATE(e, 25)) + (g ^ (e & (f ^ g))) + all(K[t]) + w[t & 15];
        lanes t2 = (ROTATE(a, 2) ^ ROTATE(a, 13) ^ ROTATE(a, 22)) + ((a & b) | (c & (a | b)));
        k = g, g = f, f = e, e = d + t1, d = c, c = b, b = a, a = t1 + t2;
    }
    h[0] += a, h[1] += b, h[2] += c, h[3] += d, h[4] += e, h[5] += f, h[6] += g, h[7] += k;
}

struct work {
    uint8_t key_id[16];
    uint32_t q;
    int digit[CHAINS];
    uint8_t start[CHAINS][32];
};

/* The block that a step hashes: key id, q, the chain's number, the step, the value, and the padding. */
static void block_of(const struct work *w, int i, int j, const uint8_t value[32], uint8_t out[64]) {
    memset(out, 0, 64);
    memcpy(out, w->key_id, 16);
    out[16] = w->q >> 24, out[17] = w->q >> 16, out[18] = w->q >> 8, out[19] = w->q;
    out[20] = i >> 8, out[21] = i, out[22] = j;
    memcpy(out + 23, value, 32);
    out[55] = 0x80, out[62] = 1, out[63] = 0xb8;
}

static void by_openssl(const struct work *w, uint8_t ends[CHAINS][32]) {
    for (int i = 0; i < CHAINS; i++) {
        uint8_t block[64];
        block_of(w, i, 0, w->start[i], block);
        for (int j = w->digit[i]; j < 255; j++) {
            SHA256_CTX c;
            block[22] = j;
            memcpy(c.h, H, sizeof H);
            SHA256_Transform(&c, block);
            for (int k = 0; k < 8; k++) {
                uint32_t x = __builtin_bswap32(c.h[k]);
                memcpy(block + 23 + 4 * k, &x, 4);
            }
        }
        memcpy(ends[i], block + 23, 32);
    }
}

/* So many steps of eight chains. */
static void walk(const struct work *w, const int chain[8], int at[CHAINS], uint8_t value[CHAINS][32], int count) {
    lanes front[6], v[8], j;
    uint8_t block[8][64];
    for (int l = 0; l < 8; l++) {
        block_of(w, chain[l], 0, value[chain[l]], block[l]);
        j[l] = at[chain[l]];
        for (int k = 0; k < 6; k++) {
            uint32_t x;
            memcpy(&x, block[l] + 4 * k, 4);
            front[k][l] = __builtin_bswap32(x) & (k == 5 ? 0xffff0000u : ~0u);
        }
        for (int k = 0; k < 8; k++) {
            uint32_t x;
            memcpy(&x, value[chain[l]] + 4 * k, 4);
            v[k][l] = __builtin_bswap32(x);
        }
    }
    for (int n = 0; n < count; n++) {
        lanes words[16], h[8];
        for (int k = 0; k < 5; k++)
            words[k] = front[k];
        words[5] = front[5] | ((j + all(n)) << 8) | (v[0] >> 24);
        for (int k = 0; k < 7; k++)
            words[6 + k] = (v[k] << 8) | (v[k + 1] >> 24);
        words[13] = (v[7] << 8) | all(0x80);
        words[14] = all(0), words[15] = all(55 * 8);
        for (int k = 0; k < 8; k++)
            h[k] = all(H[k]);
        compress(words, h);
        memcpy(v, h, sizeof v);
    }
    for (int l = 0; l < 8; l++) {
        at[chain[l]] += count;
        for (int k = 0; k < 8; k++) {
            uint32_t x = __builtin_bswap32(v[k][l]);
            memcpy(value[chain[l]] + 4 * k, &x, 4);
        }
    }
}

/* The eight chains that have most steps left go together, until one of them has ended; what is left of the last ones goes alone. */
static void by_lanes(const struct work *w, uint8_t ends[CHAINS][32]) {
    int at[CHAINS];
    memcpy(at, w->digit, sizeof at);
    memcpy(ends, w->start, CHAINS * 32);
    for (;;) {
        int chain[8], taken[CHAINS] = {0}, least = 255;
        for (int l = 0; l < 8; l++) {
            int best = -1;
            for (int i = 0; i < CHAINS; i++)
                if (!taken[i] && (best < 0 || at[i] < at[best]))
                    best = i;
            taken[best] = 1, chain[l] = best;
            if (255 - at[best] < least)
                least = 255 - at[best];
        }
        if (least == 0)
            break;
        walk(w, chain, at, ends, least);
    }
    struct work rest = *w;
    uint8_t last[CHAINS][32];
    memcpy(rest.digit, at, sizeof at);
    memcpy(rest.start, ends, sizeof rest.start);
    by_openssl(&rest, last);
    memcpy(ends, last, sizeof last);
}

static double least_of(void (*walk_all)(const struct work *, uint8_t[CHAINS][32]), const struct work *w, uint8_t ends[CHAINS][32]) {
    double least = 1e9;
    for (int run = 0; run < RUNS; run++) {
        struct timespec a, b;
        clock_gettime(CLOCK_MONOTONIC, &a);
        walk_all(w, ends);
        clock_gettime(CLOCK_MONOTONIC, &b);
        double took = (b.tv_sec - a.tv_sec) * 1e6 + (b.tv_nsec - a.tv_nsec) / 1e3;
        if (took < least)
            least = took;
    }
    return least;
}

int main(void) {
    double openssl = 0, vectors = 0;
    for (uint32_t m = 0; m < MESSAGES; m++) {
        struct work w;
        uint8_t hash[32], one[CHAINS][32], other[CHAINS][32];
        int sum = 0;
        SHA256((uint8_t *)&m, 4, hash);
        memcpy(w.key_id, hash, 16);
        w.q = m;
        for (int i = 0; i < 32; i++) {
            w.digit[i] = hash[i];
            sum += 255 - hash[i];
        }
        w.digit[32] = sum >> 8 & 255, w.digit[33] = sum & 255;
        for (int i = 0; i < CHAINS; i++) {
            uint8_t name[2] = {m, i};
            SHA256(name, 2, w.start[i]);
        }
        openssl += least_of(by_openssl, &w, one);
        vectors += least_of(by_lanes, &w, other);
        if (memcmp(one, other, sizeof one) != 0) {
            puts("the two disagree");
            return 1;
        }
    }
    printf("eight lanes %.0f us, %s's block function %.0f us\n", vectors / MESSAGES, OpenSSL_version(OPENSSL_VERSION), openssl / MESSAGES);
    return 0;
}
