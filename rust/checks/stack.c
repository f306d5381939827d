/*
 * Measures how much stack each call takes, on a tree of every depth up to one too many, and fails where the header
 * says that it is less, or promises less. A thread runs on a stack filled with a pattern; what it changed is what it used.
 */
#define _POSIX_C_SOURCE 200809L
#include <inttypes.h>
#include <pthread.h>
#include <stdio.h>
#include <stdlib.h>
#include <string.h>

#include "tyvarmos.h"

enum { PAGE = 1024, PAGES = 20, ROOT = 2, FREELIST = 19, DEEPEST = 17, STACK = 1 << 20, PATTERN = 0xA5, LITTLE = 1024, DEEP = 20000 };
enum call { NOTHING, LOOKUP, QUICK, META, JUDGE, CALLS };

static unsigned char image[PAGES * PAGE];
static uint64_t answer[TYVARMOS_META_FIELDS], number;

static void put(unsigned char *at, uint64_t value)
{
    memcpy(at, &value, sizeof value);
}

/* Makes an image of so many levels, with one key. */
static void make(int levels)
{
    int level;
    memset(image, 0, sizeof image);
    for (level = 1; level <= levels; level++) {
        uint64_t page = ROOT + (uint64_t)level - 1;
        unsigned char *block = image + page * PAGE, *element = block + 32;
        int leaf = level == levels;
        put(block, page);
        block[8] = leaf ? 2 : 1;
        put(block + 16, 1);
        put(element, leaf ? 0 : page + 1);
        put(element + 8, leaf ? 32 : 1);
        put(element + 16, leaf ? 1 : 24);
        element[leaf ? 32 : 24] = 'k';
    }
    put(image + FREELIST * PAGE, FREELIST);
    image[FREELIST * PAGE + 8] = 4;
}

static void *run(void *word)
{
    enum call call = *(enum call *)word;
    number = 0;
    if (call == LOOKUP)
        number = tyvarmos_lookup(image, sizeof image, PAGE, PAGES, ROOT, "k", 1, answer, sizeof answer);
    if (call == QUICK)
        number = tyvarmos_quick(image, sizeof image, PAGE, PAGES, ROOT, "k", 1, answer, sizeof answer);
    if (call == META)
        number = tyvarmos_meta(image, sizeof image, 0, answer, sizeof answer);
    if (call == JUDGE)
        number = tyvarmos_judge(image, sizeof image, PAGE, PAGES, ROOT, FREELIST, answer, sizeof answer);
    return NULL;
}

/* The bytes of stack that a thread with this call changes. */
static size_t used(enum call call)
{
    void *stack = NULL;
    pthread_attr_t attributes;
    pthread_t thread;
    size_t untouched = 0;
    if (posix_memalign(&stack, 65536, STACK) != 0)
        exit(1);
    memset(stack, PATTERN, STACK);
    pthread_attr_init(&attributes);
    if (pthread_attr_setstack(&attributes, stack, STACK) != 0 || pthread_create(&thread, &attributes, run, &call) != 0)
        exit(1);
    pthread_join(thread, NULL);
    while (untouched < STACK && ((unsigned char *)stack)[untouched] == PATTERN)
        untouched++;
    free(stack);
    return STACK - untouched;
}

int main(void)
{
    size_t most[CALLS] = {0, 0, 0, 0, 0};
    int levels, call;
    for (levels = 1; levels <= DEEPEST; levels++) {
        size_t thread;
        make(levels);
        thread = used(NOTHING);
        for (call = LOOKUP; call <= JUDGE; call++) {
            size_t own = used((enum call)call) - thread;
            if (call != META && number != (levels == DEEPEST ? (uint64_t)TYVARMOS_TOO_DEEP : (uint64_t)TYVARMOS_DONE)) {
                printf("%d levels: %" PRIu64 "\n", levels, number);
                return 1;
            }
            if (own > most[call])
                most[call] = own;
        }
    }
    printf("bytes of stack: lookup %zu, quick %zu, meta %zu, judge %zu\n", most[LOOKUP], most[QUICK], most[META],
           most[JUDGE]);
    return most[LOOKUP] > LITTLE || most[QUICK] > LITTLE || most[META] > LITTLE || most[JUDGE] >= DEEP ||
           most[JUDGE] > TYVARMOS_JUDGE_STACK;
}
