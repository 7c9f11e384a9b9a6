/* BLAKE3 in the words of its specification, and slowly: the model that fuzz.c has beside the library's sums, and
 * from which exports.c has the sums of its longer messages. It shares nothing with the library. */
#ifndef BLAKE3_MODEL_H
#define BLAKE3_MODEL_H

#include <stddef.h>
#include <stdint.h>
#include <string.h>

enum { MODEL_BLOCK = 64, MODEL_CHUNK = 1024 };
enum { CHUNK_START = 1, CHUNK_END = 2, PARENT = 4, ROOT = 8 };
enum { KEYED_HASH = 16, DERIVE_CONTEXT = 32, DERIVE_MATERIAL = 64 };

static const uint32_t model_iv[8] = {0x6a09e667, 0xbb67ae85, 0x3c6ef372, 0xa54ff53a,
                                     0x510e527f, 0x9b05688c, 0x1f83d9ab, 0x5be0cd19};

/* What goes into one compression; `counter` is the chunk's number, or the output block's at the root. */
typedef struct {
    uint32_t chain[8];
    uint8_t block[MODEL_BLOCK];
    uint64_t counter;
    uint32_t length, flags;
} model_node;

static uint32_t model_word(const uint8_t *at) {
    return at[0] | (uint32_t)at[1] << 8 | (uint32_t)at[2] << 16 | (uint32_t)at[3] << 24;
}

static void model_put(uint8_t *at, uint32_t word) {
    for (int i = 0; i < 4; i++) at[i] = (uint8_t)(word >> 8 * i);
}

static uint32_t model_turn(uint32_t word, int by) { return word >> by | word << (32 - by); }

static void model_mix(uint32_t *v, int a, int b, int c, int d, uint32_t x, uint32_t y) {
    v[a] += v[b] + x, v[d] = model_turn(v[d] ^ v[a], 16);
    v[c] += v[d], v[b] = model_turn(v[b] ^ v[c], 12);
    v[a] += v[b] + y, v[d] = model_turn(v[d] ^ v[a], 8);
    v[c] += v[d], v[b] = model_turn(v[b] ^ v[c], 7);
}

/* The 64 bytes of a compression, of which the first 32 are the node's chaining value. */
static void model_compress(const model_node *node, uint8_t out[MODEL_BLOCK]) {
    static const uint8_t order[16] = {2, 6, 3, 10, 7, 0, 4, 13, 1, 11, 12, 5, 9, 14, 15, 8};
    uint32_t v[16], m[16], was[16];
    for (int i = 0; i < 8; i++) v[i] = node->chain[i], v[8 + i] = model_iv[i];
    v[12] = (uint32_t)node->counter, v[13] = (uint32_t)(node->counter >> 32);
    v[14] = node->length, v[15] = node->flags;
    for (int i = 0; i < 16; i++) m[i] = model_word(node->block + 4 * i);
    for (int round = 0; round < 7; round++) {
        for (int i = 0; i < 4; i++) model_mix(v, i, 4 + i, 8 + i, 12 + i, m[2 * i], m[2 * i + 1]);
        for (int i = 0; i < 4; i++)
            model_mix(v, i, 4 + (i + 1) % 4, 8 + (i + 2) % 4, 12 + (i + 3) % 4, m[8 + 2 * i], m[9 + 2 * i]);
        memcpy(was, m, sizeof m);
        for (int i = 0; i < 16; i++) m[i] = was[order[i]];
    }
    for (int i = 0; i < 8; i++) {
        model_put(out + 4 * i, v[i] ^ v[8 + i]);
        model_put(out + 32 + 4 * i, v[8 + i] ^ node->chain[i]);
    }
}

/* The last compression of a chunk, before it is known to be the root or not. */
static model_node model_chunk(const uint32_t *key, uint32_t mode, const uint8_t *bytes, size_t len,
                              uint64_t at) {
    model_node node = {{0}, {0}, at, 0, mode | CHUNK_START};
    uint8_t out[MODEL_BLOCK];
    memcpy(node.chain, key, sizeof node.chain);
    for (; len > MODEL_BLOCK; bytes += MODEL_BLOCK, len -= MODEL_BLOCK, node.flags = mode) {
        node.length = MODEL_BLOCK;
        memcpy(node.block, bytes, MODEL_BLOCK);
        model_compress(&node, out);
        for (int i = 0; i < 8; i++) node.chain[i] = model_word(out + 4 * i);
    }
    memset(node.block, 0, MODEL_BLOCK);
    if (len) memcpy(node.block, bytes, len);
    node.length = (uint32_t)len, node.flags |= CHUNK_END;
    return node;
}

/* The last compression of a tree whose first chunk has this number. Its left side has as many chunks as the
 * largest power of two that leaves something for the right. */
static model_node model_tree(const uint32_t *key, uint32_t mode, const uint8_t *bytes, size_t len,
                             uint64_t at) {
    if (len <= MODEL_CHUNK) return model_chunk(key, mode, bytes, len, at);
    size_t left = MODEL_CHUNK;
    while (2 * left < len) left *= 2;
    model_node sides[2] = {model_tree(key, mode, bytes, left, at),
                           model_tree(key, mode, bytes + left, len - left, at + left / MODEL_CHUNK)};
    model_node node = {{0}, {0}, 0, MODEL_BLOCK, mode | PARENT};
    memcpy(node.chain, key, sizeof node.chain);
    for (int side = 0; side < 2; side++) {
        uint8_t out[MODEL_BLOCK];
        model_compress(&sides[side], out);
        memcpy(node.block + 32 * side, out, 32);
    }
    return node;
}

/* An output of any length: the root is compressed once for each 64 bytes. */
static void model_sum(const uint32_t *key, uint32_t mode, const uint8_t *bytes, size_t len, uint8_t *out,
                      size_t out_len) {
    model_node root = model_tree(key, mode, bytes, len, 0);
    root.flags |= ROOT, root.counter = 0;
    for (; out_len > 0; root.counter++) {
        uint8_t block[MODEL_BLOCK];
        size_t fits = out_len < MODEL_BLOCK ? out_len : MODEL_BLOCK;
        model_compress(&root, block);
        memcpy(out, block, fits);
        out += fits, out_len -= fits;
    }
}

/* The same under a key of 32 bytes. */
static inline void model_sum_by(const uint8_t *key, uint32_t mode, const uint8_t *bytes, size_t len,
                                uint8_t *out, size_t out_len) {
    uint32_t words[8];
    for (int i = 0; i < 8; i++) words[i] = model_word(key + 4 * i);
    model_sum(words, mode, bytes, len, out, out_len);
}

/* The sum that packets carry. */
static inline void model_plain_sum(const uint8_t *bytes, size_t len, uint8_t out[32]) {
    model_sum(model_iv, 0, bytes, len, out, 32);
}

static inline void model_keyed_hash(const uint8_t *key, const uint8_t *bytes, size_t len, uint8_t *out,
                                    size_t out_len) {
    model_sum_by(key, KEYED_HASH, bytes, len, out, out_len);
}

static inline void model_derive_key(const uint8_t *context, size_t context_len, const uint8_t *bytes,
                                    size_t len, uint8_t *out, size_t out_len) {
    uint8_t key[32];
    model_sum(model_iv, DERIVE_CONTEXT, context, context_len, key, sizeof key);
    model_sum_by(key, DERIVE_MATERIAL, bytes, len, out, out_len);
}

#endif
