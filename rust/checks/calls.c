/* Holds the C functions to what the header says of bytes, lengths, answers and threads. */
#define _POSIX_C_SOURCE 200809L
#include <pthread.h>
#include <stdio.h>
#include <stdlib.h>
#include <string.h>

#include "tyvarmos.h"

enum { MOST = 1 << 20, THREADS = 4, TIMES = 500 };

/* A lookup, full or quick. */
typedef uint64_t call(const void *, size_t, uint64_t, uint64_t, uint64_t, const void *, size_t, void *, size_t);

static call *const LOOKUPS[] = {tyvarmos_lookup, tyvarmos_quick};
static call *asked;
static unsigned char bytes[MOST];
static size_t length;
static uint64_t meta[TYVARMOS_META_FIELDS];
static int failed;

#define HOLDS(what)                                                    \
    do {                                                               \
        if (!(what)) {                                                 \
            printf("%s:%d: does not hold: %s\n", __FILE__, __LINE__, #what); \
            failed = 1;                                                \
        }                                                              \
    } while (0)

/* The judge of the main tree in these bytes. */
static uint64_t judge(const void *image, size_t held, void *answer, size_t room)
{
    return tyvarmos_judge(image, held, meta[TYVARMOS_META_PAGE_SIZE], meta[TYVARMOS_META_PAGE_COUNT],
                          meta[TYVARMOS_META_ROOT_PAGE], meta[TYVARMOS_META_FREELIST_PAGE], answer, room);
}

/* The lookup that is asked, in the main tree of these bytes. */
static uint64_t lookup(const void *image, size_t held, const void *key, size_t key_length, void *answer, size_t room)
{
    return asked(image, held, meta[TYVARMOS_META_PAGE_SIZE], meta[TYVARMOS_META_PAGE_COUNT],
                 meta[TYVARMOS_META_ROOT_PAGE], key, key_length, answer, room);
}

static void hold_the_fields(void)
{
    uint64_t judged[TYVARMOS_JUDGE_FIELDS], found[TYVARMOS_LOOKUP_FIELDS];
    HOLDS(meta[TYVARMOS_META_META_PAGE] == 1 && meta[TYVARMOS_META_PAGE_SIZE] == 1024);
    HOLDS(meta[TYVARMOS_META_ROOT_PAGE] == 65 && meta[TYVARMOS_META_NEXT_INT] == 4);
    HOLDS(meta[TYVARMOS_META_PAGE_COUNT] == 146 && meta[TYVARMOS_META_FREELIST_PAGE] == 66);
    HOLDS(meta[TYVARMOS_META_TX_ID] == 10);
    HOLDS(judge(bytes, length, judged, sizeof judged) == TYVARMOS_DONE);
    HOLDS(judged[TYVARMOS_JUDGE_ENTRIES] == 4 && judged[TYVARMOS_JUDGE_PAGES] == 2);
    HOLDS(judged[TYVARMOS_JUDGE_PAGE] == 0 && judged[TYVARMOS_JUDGE_ELEMENT] == 0);
    HOLDS(judged[TYVARMOS_JUDGE_COMMON] == 0 && sizeof judged == 40);
    HOLDS(lookup(bytes, length, "world", 5, found, sizeof found) == TYVARMOS_DONE);
    HOLDS(found[TYVARMOS_LOOKUP_FOUND] == 1 && found[TYVARMOS_LOOKUP_KIND] == 1);
    HOLDS(found[TYVARMOS_LOOKUP_LENGTH] == 16);
    HOLDS(found[TYVARMOS_LOOKUP_COMMON] == 0 && sizeof found == 56);
    HOLDS(memcmp(bytes + found[TYVARMOS_LOOKUP_PLACE] - 5, "world", 5) == 0);
}

static void hold_empty_runs(void)
{
    uint64_t found[TYVARMOS_LOOKUP_FIELDS];
    HOLDS(lookup(NULL, 0, "world", 5, found, sizeof found) == TYVARMOS_GEOMETRY);
    HOLDS(judge(NULL, 0, found, sizeof found) == TYVARMOS_GEOMETRY);
    HOLDS(tyvarmos_meta(NULL, 0, 0, found, sizeof found) == TYVARMOS_GEOMETRY);
    HOLDS(lookup(bytes, length, NULL, 0, found, sizeof found) == TYVARMOS_DONE && found[TYVARMOS_LOOKUP_FOUND] == 0);
    HOLDS(lookup(bytes, length, "world", 5, NULL, 0) == TYVARMOS_GEOMETRY);
}

static void hold_the_answer_buffer(void)
{
    unsigned char room[64], before[64];
    memset(room, 0xA5, sizeof room);
    memcpy(before, room, sizeof room);
    HOLDS(lookup(bytes, length, "world", 5, room, 8 * TYVARMOS_LOOKUP_FIELDS - 1) == TYVARMOS_GEOMETRY);
    HOLDS(judge(bytes, length, room, 8 * TYVARMOS_JUDGE_FIELDS - 1) == TYVARMOS_GEOMETRY);
    HOLDS(tyvarmos_meta(bytes, length, 0, room, 8 * TYVARMOS_META_FIELDS - 1) == TYVARMOS_GEOMETRY);
    HOLDS(memcmp(room, before, sizeof room) == 0);
    HOLDS(judge(bytes, length, room, sizeof room) == TYVARMOS_DONE);
    HOLDS(memcmp(room, before, 8 * TYVARMOS_JUDGE_FIELDS) != 0);
    HOLDS(memcmp(room + 40, before + 40, sizeof room - 40) == 0);
}

static void hold_any_alignment(void)
{
    static unsigned char moved[MOST + 8];
    unsigned char room[64];
    uint64_t entries;
    int shift;
    for (shift = 1; shift < 8; shift++) {
        memcpy(moved + shift, bytes, length);
        HOLDS(judge(moved + shift, length, room + shift, 40) == TYVARMOS_DONE);
        memcpy(&entries, room + shift + 8 * TYVARMOS_JUDGE_ENTRIES, sizeof entries);
        HOLDS(entries == 4);
    }
}

static void hold_refusals(void)
{
    static unsigned char damaged[MOST];
    uint64_t judged[TYVARMOS_JUDGE_FIELDS];
    memcpy(damaged, bytes, length);
    damaged[66 * 1024 + 16] = 1;
    damaged[66 * 1024 + 32] = 65;
    HOLDS(judge(damaged, length, judged, sizeof judged) == TYVARMOS_REACHED_TWICE);
    HOLDS(judged[TYVARMOS_JUDGE_PAGE] == 66 && judged[TYVARMOS_JUDGE_ELEMENT] == 0);
    HOLDS(judged[TYVARMOS_JUDGE_ENTRIES] == 0 && judged[TYVARMOS_JUDGE_PAGES] == 0);
    HOLDS(judged[TYVARMOS_JUDGE_COMMON] == 0);
    memset(damaged, 0, 2048);
    HOLDS(tyvarmos_meta(damaged, length, 0, judged, sizeof judged) == TYVARMOS_GEOMETRY);
    HOLDS(tyvarmos_meta(damaged, length, 0, meta, sizeof meta) == TYVARMOS_HEADER);
}

/* The bucket world: one leaf, pages 97 to 101. */
static void hold_overflow_pages(void)
{
    static unsigned char damaged[MOST];
    uint64_t judged[TYVARMOS_JUDGE_FIELDS];
    memcpy(damaged, bytes, length);
    HOLDS(tyvarmos_judge(damaged, length, 1024, 146, 97, 66, judged, sizeof judged) == TYVARMOS_DONE);
    HOLDS(judged[TYVARMOS_JUDGE_ENTRIES] == 2 && judged[TYVARMOS_JUDGE_PAGES] == 6);
    damaged[66 * 1024 + 32 + 8 * 20] = 98;
    HOLDS(tyvarmos_judge(damaged, length, 1024, 146, 97, 66, judged, sizeof judged) == TYVARMOS_REACHED_TWICE);
    HOLDS(judged[TYVARMOS_JUDGE_PAGE] == 66 && judged[TYVARMOS_JUDGE_ELEMENT] == 20);
    damaged[66 * 1024 + 24] = 40;
    HOLDS(tyvarmos_judge(damaged, length, 1024, 146, 97, 66, judged, sizeof judged) == TYVARMOS_REACHED_TWICE);
    HOLDS(judged[TYVARMOS_JUDGE_PAGE] == 97 && judged[TYVARMOS_JUDGE_ELEMENT] == 0);
}

/* The bucket accounts: root 15, whose element 3 is account-0136, at byte 15668, and names leaf 8, which starts with it. */
static void hold_where_keys_part(void)
{
    static unsigned char damaged[MOST];
    uint64_t judged[TYVARMOS_JUDGE_FIELDS], found[TYVARMOS_LOOKUP_FIELDS];
    memcpy(damaged, bytes, length);
    damaged[15668 + 11] = '7';
    HOLDS(tyvarmos_judge(damaged, length, 1024, 146, 15, 66, judged, sizeof judged) == TYVARMOS_RANGE);
    HOLDS(judged[TYVARMOS_JUDGE_PAGE] == 8 && judged[TYVARMOS_JUDGE_ELEMENT] == 0);
    HOLDS(judged[TYVARMOS_JUDGE_COMMON] == 11);
    damaged[15668 + 9] = '0';
    HOLDS(tyvarmos_judge(damaged, length, 1024, 146, 15, 66, judged, sizeof judged) == TYVARMOS_ORDER);
    HOLDS(judged[TYVARMOS_JUDGE_PAGE] == 15 && judged[TYVARMOS_JUDGE_ELEMENT] == 3);
    HOLDS(judged[TYVARMOS_JUDGE_COMMON] == 10);
    HOLDS(tyvarmos_lookup(damaged, length, 1024, 146, 15, "a", 1, found, sizeof found) == TYVARMOS_ORDER);
    HOLDS(found[TYVARMOS_LOOKUP_PAGE] == 15 && found[TYVARMOS_LOOKUP_ELEMENT] == 3);
    HOLDS(found[TYVARMOS_LOOKUP_COMMON] == 10 && found[TYVARMOS_LOOKUP_PLACE] == 0);
}

/* Root pages that are none, and sizes that are not allowed. */
static void hold_any_numbers(void)
{
    const uint64_t roots[] = {0, 1, 146, UINT64_MAX};
    uint64_t found[TYVARMOS_LOOKUP_FIELDS];
    int i;
    for (i = 0; i < 4; i++) {
        HOLDS(asked(bytes, length, 1024, 146, roots[i], "world", 5, found, sizeof found) == TYVARMOS_PAGE_NUMBER);
        HOLDS(found[TYVARMOS_LOOKUP_PAGE] == roots[i] && found[TYVARMOS_LOOKUP_FOUND] == 0);
    }
    HOLDS(asked(bytes, length, 1020, 146, 65, "world", 5, found, sizeof found) == TYVARMOS_GEOMETRY);
    HOLDS(asked(bytes, length, 1024, 1, 65, "world", 5, found, sizeof found) == TYVARMOS_GEOMETRY);
    HOLDS(asked(bytes, length, 1024, length / 1024 + 1, 65, "world", 5, found, sizeof found) == TYVARMOS_GEOMETRY);
    HOLDS(asked(bytes, length, UINT64_MAX, UINT64_MAX, 65, "world", 5, found, sizeof found) == TYVARMOS_GEOMETRY);
}

/* The main tree: leaf 65 of accounts, auctions, characters and world, of which halving comes by characters first. */
static void hold_what_quick_passes_by(void)
{
    static unsigned char damaged[MOST];
    uint64_t found[TYVARMOS_LOOKUP_FIELDS];
    memcpy(damaged, bytes, length);
    damaged[65 * 1024 + 32] = 255;
    HOLDS(tyvarmos_lookup(damaged, length, 1024, 146, 65, "world", 5, found, sizeof found) == TYVARMOS_ELEMENT);
    HOLDS(tyvarmos_quick(damaged, length, 1024, 146, 65, "world", 5, found, sizeof found) == TYVARMOS_DONE);
    HOLDS(found[TYVARMOS_LOOKUP_FOUND] == 1 && found[TYVARMOS_LOOKUP_KIND] == 1);
    HOLDS(tyvarmos_quick(damaged, length, 1024, 146, 65, "accounts", 8, found, sizeof found) == TYVARMOS_ELEMENT);
    HOLDS(found[TYVARMOS_LOOKUP_PAGE] == 65 && found[TYVARMOS_LOOKUP_ELEMENT] == 0);
    HOLDS(found[TYVARMOS_LOOKUP_FOUND] == 0 && found[TYVARMOS_LOOKUP_COMMON] == 0);
}

static void *look_many_times(void *word)
{
    uint64_t found[TYVARMOS_LOOKUP_FIELDS], judged[TYVARMOS_JUDGE_FIELDS];
    int *good = (int *)word, i;
    for (i = 0; i < TIMES; i++)
        *good += lookup(bytes, length, "world", 5, found, sizeof found) == TYVARMOS_DONE && found[0] == 1 &&
                 judge(bytes, length, judged, sizeof judged) == TYVARMOS_DONE;
    return NULL;
}

static void hold_threads(void)
{
    pthread_t threads[THREADS];
    int good[THREADS] = {0}, i;
    for (i = 0; i < THREADS; i++)
        HOLDS(pthread_create(&threads[i], NULL, look_many_times, &good[i]) == 0);
    for (i = 0; i < THREADS; i++) {
        pthread_join(threads[i], NULL);
        HOLDS(good[i] == TIMES);
    }
}

int main(int count, char **words)
{
    FILE *file = count == 2 ? fopen(words[1], "rb") : NULL;
    int i;
    if (file == NULL)
        return 66;
    length = fread(bytes, 1, sizeof bytes, file);
    fclose(file);
    HOLDS(tyvarmos_meta(bytes, length, 0, meta, sizeof meta) == TYVARMOS_DONE);
    for (i = 0; i < 2; i++) {
        asked = LOOKUPS[i];
        hold_the_fields();
        hold_empty_runs();
        hold_the_answer_buffer();
        hold_any_numbers();
        hold_threads();
    }
    hold_any_alignment();
    hold_overflow_pages();
    hold_where_keys_part();
    hold_what_quick_passes_by();
    hold_refusals();
    return failed;
}
