/*
 * tyvarmos.h: the C functions of libshard.a, which judge an image of a jammdb 0.11.0 file and look up keys in it.
 *
 * What each call answers is proved for every input: docs/PROMISES.md, "shard". Link with libshard.a, which needs
 * memcpy and memset and nothing else: cc program.c libshard.a
 *
 * Every call returns a number, one of enum tyvarmos_number, and writes its answer to a buffer that the caller lends.
 * TYVARMOS_DONE means that the answer is there. Any other number is a refusal; it names the rule that was broken.
 *
 *   uint64_t answer[TYVARMOS_JUDGE_FIELDS];
 *   uint64_t number = tyvarmos_judge(image, length, 1024, 146, 65, 66, answer, sizeof answer);
 *   if (number == TYVARMOS_DONE)
 *       printf("%" PRIu64 " entries\n", answer[TYVARMOS_JUDGE_ENTRIES]);
 *   else
 *       printf("page %" PRIu64 ": %" PRIu64 "\n", answer[TYVARMOS_JUDGE_PAGE], number);
 *
 * Machine:   64-bit and little-endian only.
 * Bytes:     A run of bytes passes as its start and its length. No alignment is needed. A length of 0 is fine, and the
 *            start is not looked at then: it may be NULL.
 * Numbers:   Any may be given. What does not fit is refused.
 * Answer:    Fields of 8 bytes, little-endian, at the indexes named below. A buffer of fewer bytes than the fields take
 *            is refused with TYVARMOS_GEOMETRY and stays as it was; bytes after the fields stay. On a refusal the page
 *            and the element that broke the rule are in their fields, 0 where it names none, and all others are 0 but
 *            for the common field.
 * Common:    Where a key is out of order (6) or out of its range (7), this field has how many bytes it has in common
 *            with the other key, from the first on. For 6 that is the key before it; for 7 the end of the range that
 *            it crosses, the lower end where the key is below that, and else the upper end. Bytes count from 0, so it is
 *            also the index of the first byte that differs, or where one of the keys ends; of equal keys it is their
 *            length. It is 0 for the ids of a freelist, with every other number, and where nothing is refused.
 * Overlap:   The answer buffer must not overlap the other bytes. Those are only read, and may overlap each other.
 * Threads:   The calls keep no state, allocate nothing and make no system call. Any number of threads may call them, on
 *            the same bytes too, as long as nobody writes to these. If another process changes a mapped file, that is a
 *            write: read the file into memory where it may happen.
 * Stack:     The judge calls itself for each level of the tree, 16 at most, and used less than 20,000 bytes for the
 *            deepest; TYVARMOS_JUDGE_STACK is more than enough, and so is a thread's default, musl's 131,072 too. The
 *            others used less than 1,024.
 * Time:      Lookup reads the blocks on the way to the key, the judge every block of the tree, each once. Quick reads
 *            little of each block on the way.
 */
#ifndef TYVARMOS_H
#define TYVARMOS_H

#include <stddef.h>
#include <stdint.h>

#if UINTPTR_MAX != UINT64_MAX || (defined(__BYTE_ORDER__) && __BYTE_ORDER__ != __ORDER_LITTLE_ENDIAN__)
#error "libshard.a is for 64-bit, little-endian machines"
#endif

#ifdef __cplusplus
extern "C" {
#endif

/* The numbers. The four calls here answer 0 to 9, 11 and 13. Later versions may add some. */
enum tyvarmos_number {
    TYVARMOS_DONE = 0,             /* the answer is there */
    TYVARMOS_GEOMETRY = 1,         /* a page size or page count that is not allowed, or too few bytes; names no page */
    TYVARMOS_PAGE_NUMBER = 2,      /* a page number outside 2 to page_count - 1 */
    TYVARMOS_HEADER = 3,           /* a header that is not that of the page wanted */
    TYVARMOS_TABLE = 4,            /* a count of elements that cannot be */
    TYVARMOS_ELEMENT = 5,          /* an element that is not inside its block, or is of no known kind */
    TYVARMOS_ORDER = 6,            /* a key, or a free id, that is not above the one before it */
    TYVARMOS_RANGE = 7,            /* a key outside the range that the branches above give its page */
    TYVARMOS_REACHED_TWICE = 8,    /* a page of two blocks, of one that is named twice, or of one and listed as free */
    TYVARMOS_TOO_DEEP = 9,         /* a tree of more than 16 levels */
    TYVARMOS_OUTPUT_TOO_SHORT = 10,
    TYVARMOS_ARGUMENT = 11,        /* of tyvarmos_meta: the meta page is one of another page size */
    TYVARMOS_FULL = 12,
    TYVARMOS_HASH = 13,            /* the hash of the meta page is wrong */
    TYVARMOS_CONFLICT = 14,
    TYVARMOS_NODE_TOO_LARGE = 15
};

/* The fields of tyvarmos_lookup's answer, and of tyvarmos_quick's. */
enum tyvarmos_lookup_field {
    TYVARMOS_LOOKUP_FOUND = 0,     /* 1 if the key is there, and else 0 */
    TYVARMOS_LOOKUP_KIND = 1,      /* 0 for a value that somebody put there, 1 for a bucket */
    TYVARMOS_LOOKUP_PLACE = 2,     /* where in the image the value starts */
    TYVARMOS_LOOKUP_LENGTH = 3,    /* how many bytes it has; a bucket's has 16: its root page, then its next number */
    TYVARMOS_LOOKUP_PAGE = 4,      /* of a refusal: the page */
    TYVARMOS_LOOKUP_ELEMENT = 5,   /* of a refusal: the element, counted from 0 */
    TYVARMOS_LOOKUP_COMMON = 6,    /* of TYVARMOS_ORDER: the bytes that two keys have in common */
    TYVARMOS_LOOKUP_FIELDS = 7     /* so 56 bytes are the least */
};

/*
 * Looks up a key in the tree under root_page. Every block met on the way is judged first, and no other byte is read.
 *
 * The image is page_count pages of page_size bytes; bytes after them are not read. A key may be any bytes, none too. On
 * an image, page size, page count and root page for which tyvarmos_judge has returned TYVARMOS_DONE, and whose bytes
 * have not changed since, it returns TYVARMOS_DONE for every key, and finds just the keys that the tree holds.
 */
uint64_t tyvarmos_lookup(const void *image, size_t image_len, uint64_t page_size, uint64_t page_count,
                         uint64_t root_page, const void *key, size_t key_len, void *answer, size_t answer_len);

/*
 * Looks up a key as tyvarmos_lookup does, with the same fields, in an image that was judged. Of a block on the way only
 * the header and few elements are read and judged: those that halving comes by, at most as many as the count of elements
 * has binary digits. Of each it reads the numbers and the key, of a branch also the number of the child to go to.
 *
 * On an image, page size, page count and root page for which tyvarmos_judge has returned TYVARMOS_DONE, and whose bytes
 * have not changed since, it answers what tyvarmos_lookup answers, for every key. On any other it ends all the same, and
 * answers the same wherever tyvarmos_lookup returns TYVARMOS_DONE. But it may find or miss a key where tyvarmos_lookup
 * would refuse: of elements that it does not come by it sees nothing, and of keys in the wrong order neither. It never
 * returns TYVARMOS_ORDER, and the common field is 0. So judge first, or use tyvarmos_lookup.
 */
uint64_t tyvarmos_quick(const void *image, size_t image_len, uint64_t page_size, uint64_t page_count,
                        uint64_t root_page, const void *key, size_t key_len, void *answer, size_t answer_len);

/* The fields of tyvarmos_judge's answer. */
enum tyvarmos_judge_field {
    TYVARMOS_JUDGE_ENTRIES = 0,    /* how many leaf entries the tree has */
    TYVARMOS_JUDGE_PAGES = 1,      /* how many pages the blocks of the tree and of the freelist have */
    TYVARMOS_JUDGE_PAGE = 2,       /* of a refusal: the page */
    TYVARMOS_JUDGE_ELEMENT = 3,    /* of a refusal: the element or the free id, counted from 0 */
    TYVARMOS_JUDGE_COMMON = 4,     /* of TYVARMOS_ORDER and TYVARMOS_RANGE: the bytes that two keys have in common */
    TYVARMOS_JUDGE_FIELDS = 5      /* so 40 bytes are the least */
};

/* Bytes of stack that are enough for tyvarmos_judge, by a measurement on x86-64. */
#define TYVARMOS_JUDGE_STACK 196608

/*
 * Judges the tree under root_page and the freelist page: TYVARMOS_DONE if they are sound, and else the first breach. The
 * trees of buckets are not part of it; judge each by its own root page.
 *
 * A block's overflow pages are part of it, and no page may be used twice: by two blocks, by one that is named twice, or
 * by one and the freelist's ids. TYVARMOS_REACHED_TWICE names the lowest page of a block that was used before, with
 * element 0, or freelist_page and the index of a free id. Where it names freelist_page and element 0, it is about that
 * page if it is part of a block of the tree, and else about the first free id.
 */
uint64_t tyvarmos_judge(const void *image, size_t image_len, uint64_t page_size, uint64_t page_count,
                        uint64_t root_page, uint64_t freelist_page, void *answer, size_t answer_len);

/* The fields of tyvarmos_meta's answer. On a refusal all are 0. */
enum tyvarmos_meta_field {
    TYVARMOS_META_META_PAGE = 0,   /* the page that the meta was taken from, 0 or 1 */
    TYVARMOS_META_PAGE_SIZE = 1,
    TYVARMOS_META_ROOT_PAGE = 2,
    TYVARMOS_META_NEXT_INT = 3,    /* the next number that the main tree would give out */
    TYVARMOS_META_PAGE_COUNT = 4,
    TYVARMOS_META_FREELIST_PAGE = 5,
    TYVARMOS_META_TX_ID = 6,       /* the transaction that wrote it */
    TYVARMOS_META_FIELDS = 7
};

/*
 * Reads the newer of a file's two meta pages that can be used. With a page_size of 0 the size is found; then the first
 * 131,072 bytes of the file are enough, two pages of the greatest size. The answer's numbers are what the other calls
 * take. On a refusal the number is meta page 0's: TYVARMOS_HEADER, TYVARMOS_HASH, or TYVARMOS_ARGUMENT for a page size
 * other than page_size or, with 0, one that is not allowed; TYVARMOS_GEOMETRY for fewer bytes than two pages.
 */
uint64_t tyvarmos_meta(const void *image, size_t image_len, uint64_t page_size, void *answer, size_t answer_len);

#ifdef __cplusplus
}
#endif

#endif
