/* The lookups of crates/lookup and crates/quick in plain C, with the same checks: what these cost there. Not proved. */
#include <stddef.h>
#include <stdint.h>
#include <string.h>

enum { HEADER_SIZE = 32, BRANCH_SIZE = 24, LEAF_SIZE = 32, TYPE_BRANCH = 1, TYPE_LEAF = 2, LEVELS = 16 };

/* The bytes of a key. */
struct key {
    const uint8_t *start;
    uint64_t length;
};

/* Two numbers that stand to each other as two keys do. */
struct pair {
    uint64_t a, b;
};

/* The number of the eight bytes at `s`, the lowest first. */
static inline uint64_t u64_at(const uint8_t *s) {
    uint64_t x;
    memcpy(&x, s, 8);
    return x;
}

/* Eight bytes of each of two keys, from byte `i` on, as numbers with the highest byte first. */
static inline struct pair words_at(struct key a, struct key b, uint64_t i) {
    return (struct pair){__builtin_bswap64(u64_at(a.start + i)), __builtin_bswap64(u64_at(b.start + i))};
}

/* What two keys first differ in: words, the last overlapping the one before it, or bytes of short keys, or lengths. */
static inline struct pair order_of(struct key a, struct key b) {
    struct pair lengths = {a.length, b.length};
    uint64_t n = a.length < b.length ? a.length : b.length;
    if (n < 8) {
        for (uint64_t i = 0; i < n; i++)
            if (a.start[i] != b.start[i])
                return (struct pair){a.start[i], b.start[i]};
        return lengths;
    }
    for (uint64_t i = 0; i < n - 8; i += 8) {
        struct pair words = words_at(a, b, i);
        if (words.a != words.b)
            return words;
    }
    struct pair last = words_at(a, b, n - 8);
    return last.a != last.b ? last : lengths;
}

/* The key of the element at `e`. */
static inline struct key key_of(const uint8_t *e, int leaf) {
    return (struct key){e + u64_at(e + (leaf ? 8 : 16)), u64_at(e + (leaf ? 16 : 8))};
}

/* Whether an image of `len` bytes has sizes that are not allowed, or too few bytes for them. */
static inline int sizes_bad(size_t len, uint64_t p, uint64_t n) {
    return p < 1024 || p > 65536 || p % 8 != 0 || n < 2 || n > 32768 || len < n * p;
}

/* The block of page `q`, by rules 2 and 4, or none. */
static inline const uint8_t *block_of(const uint8_t *image, uint64_t p, uint64_t n, uint64_t q) {
    if (q < 2 || q >= n)
        return NULL;
    const uint8_t *b = image + q * p;
    if (u64_at(b) != q || (b[8] != TYPE_BRANCH && b[8] != TYPE_LEAF) || u64_at(b + 24) >= n - q)
        return NULL;
    return b;
}

/* Whether the table of a block of `size` bytes breaks rule 5. */
static inline int table_bad(uint64_t size, uint64_t count, int leaf, int empty) {
    return (count == 0 && !empty) || count > (size - HEADER_SIZE) / (leaf ? LEAF_SIZE : BRANCH_SIZE);
}

/* Whether the element at `at` of a block of `size` bytes, whose table ends at `end`, breaks rule 6. */
static inline int element_bad(const uint8_t *b, uint64_t size, uint64_t end, uint64_t at, int leaf) {
    const uint8_t *e = b + at;
    uint64_t pos = u64_at(e + (leaf ? 8 : 16)), length = u64_at(e + (leaf ? 16 : 8));
    uint64_t value = leaf ? u64_at(e + 24) : 0, rest = size - at - pos;
    if (pos - (end - at) > size - end || length > rest || value > rest - length)
        return 1;
    return leaf && e[0] != 0 && (e[0] != 1 || value != 16);
}

/* Whether a block of `size` bytes keeps rules 5 to 7: one pass over its elements. */
static inline int sound(const uint8_t *b, uint64_t size, uint64_t count, int leaf, int empty) {
    const uint64_t stride = leaf ? LEAF_SIZE : BRANCH_SIZE;
    if (table_bad(size, count, leaf, empty))
        return 0;
    const uint64_t end = HEADER_SIZE + stride * count;
    struct key before = {b, 0};
    for (uint64_t at = HEADER_SIZE; at < end; at += stride) {
        if (element_bad(b, size, end, at, leaf))
            return 0;
        struct key key = key_of(b + at, leaf);
        struct pair order = order_of(before, key);
        if (at != HEADER_SIZE && order.a >= order.b)
            return 0;
        before = key;
    }
    return 1;
}

/*
 * The element of a block that has the key, by halving, or else the one before its place; `found` says which. In a block
 * that was not judged, each element looked at is tried by rule 6, and there is none at a breach.
 */
static inline const uint8_t *find(const uint8_t *b, uint64_t size, uint64_t count, int leaf, int judged, struct key key,
                                  int *found) {
    const uint64_t stride = leaf ? LEAF_SIZE : BRANCH_SIZE, end = HEADER_SIZE + stride * count;
    uint64_t lo = 0, hi = count;
    *found = 0;
    while (lo < hi && !*found) {
        uint64_t mid = lo + (hi - lo) / 2, at = HEADER_SIZE + stride * mid;
        if (!judged && element_bad(b, size, end, at, leaf))
            return NULL;
        struct pair order = order_of(key_of(b + at, leaf), key);
        *found = order.a == order.b;
        if (order.a <= order.b)
            lo = mid + 1;
        else
            hi = mid;
    }
    return b + HEADER_SIZE + stride * (lo ? lo - 1 : 0);
}

/* Writes the fields of a leaf's element that was found. */
static inline void give(uint64_t answer[7], const uint8_t *image, const uint8_t *e) {
    memcpy(answer, (uint64_t[]){1, e[0], e + u64_at(e + 8) + u64_at(e + 16) - image, u64_at(e + 24)}, 32);
}

/* The answer of tyvarmos_lookup, in the same fields, but for a breach: whichever it is, 1 with all fields 0. */
uint64_t limit_lookup(const uint8_t *image, size_t len, uint64_t p, uint64_t n, uint64_t root, const uint8_t *key,
                      size_t key_len, uint64_t answer[7]) {
    struct key wanted = {key, key_len};
    memset(answer, 0, 7 * sizeof *answer);
    if (sizes_bad(len, p, n))
        return 1;
    uint64_t q = root;
    int found;
    for (int level = 1; level <= LEVELS; level++) {
        const uint8_t *b = block_of(image, p, n, q);
        if (!b)
            return 1;
        uint64_t count = u64_at(b + 16), size = (u64_at(b + 24) + 1) * p;
        if (b[8] == TYPE_LEAF) {
            if (!sound(b, size, count, 1, level == 1))
                return 1;
            const uint8_t *e = find(b, size, count, 1, 1, wanted, &found);
            if (found)
                give(answer, image, e);
            return 0;
        }
        if (!sound(b, size, count, 0, 0))
            return 1;
        q = u64_at(find(b, size, count, 0, 1, wanted, &found));
    }
    return 1;
}

/* The same of tyvarmos_quick. */
uint64_t limit_quick(const uint8_t *image, size_t len, uint64_t p, uint64_t n, uint64_t root, const uint8_t *key,
                     size_t key_len, uint64_t answer[7]) {
    struct key wanted = {key, key_len};
    memset(answer, 0, 7 * sizeof *answer);
    if (sizes_bad(len, p, n))
        return 1;
    uint64_t q = root;
    int found;
    for (int level = 1; level <= LEVELS; level++) {
        const uint8_t *b = block_of(image, p, n, q);
        if (!b)
            return 1;
        uint64_t count = u64_at(b + 16), size = (u64_at(b + 24) + 1) * p;
        if (b[8] == TYPE_LEAF) {
            if (table_bad(size, count, 1, level == 1))
                return 1;
            const uint8_t *e = find(b, size, count, 1, 0, wanted, &found);
            if (!e)
                return 1;
            if (found)
                give(answer, image, e);
            return 0;
        }
        if (table_bad(size, count, 0, 0))
            return 1;
        const uint8_t *e = find(b, size, count, 0, 0, wanted, &found);
        if (!e)
            return 1;
        q = u64_at(e);
    }
    return 1;
}
