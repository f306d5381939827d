/*
 * Writes the value of a key in a bucket of a jammdb file, after judging the main tree and the bucket's.
 *
 *   cc -I include examples/lookup.c target/staticlib/libshard.a -o target/lookup
 *   target/lookup examples/shard.db world motto
 *
 * Exit status: 0 found, 1 absent, 2 refused, 66 a file that cannot be read.
 */
#include <inttypes.h>
#include <stdio.h>
#include <stdlib.h>
#include <string.h>

#include "tyvarmos.h"

struct bytes {
    unsigned char *start;
    size_t length;
};

/*
 * Says why the file is refused, by the last three fields of an answer, and ends the program. A 7 is always about two
 * keys; a 6 may be about free ids, which have nothing in common.
 */
static void refuse(const char *call, uint64_t number, const uint64_t *named)
{
    fprintf(stderr, "%s: %" PRIu64 ", page %" PRIu64 ", element %" PRIu64, call, number, named[0], named[1]);
    if (number == TYVARMOS_RANGE || named[2] > 0)
        fprintf(stderr, ", bytes in common from the first on: %" PRIu64, named[2]);
    fprintf(stderr, "\n");
    exit(2);
}

/* The whole file; ends the program where it cannot be read. */
static struct bytes read_file(const char *name)
{
    struct bytes bytes = {NULL, 0};
    FILE *file = fopen(name, "rb");
    long end = -1;
    if (file != NULL && fseek(file, 0, SEEK_END) == 0)
        end = ftell(file);
    if (end >= 0 && fseek(file, 0, SEEK_SET) == 0) {
        bytes.start = (unsigned char *)malloc((size_t)end + 1);
        if (bytes.start != NULL)
            bytes.length = fread(bytes.start, 1, (size_t)end, file);
    }
    if (bytes.start == NULL || bytes.length != (size_t)end) {
        perror(name);
        exit(66);
    }
    fclose(file);
    return bytes;
}

/* The value of a key in a tree that is judged first; ends the program where it is refused or the key absent. */
static struct bytes find(struct bytes file, const uint64_t *meta, uint64_t root_page, const char *key, uint64_t kind)
{
    uint64_t page_size = meta[TYVARMOS_META_PAGE_SIZE], page_count = meta[TYVARMOS_META_PAGE_COUNT];
    uint64_t freelist_page = meta[TYVARMOS_META_FREELIST_PAGE], number;
    uint64_t judged[TYVARMOS_JUDGE_FIELDS], looked[TYVARMOS_LOOKUP_FIELDS];
    struct bytes value;
    number = tyvarmos_judge(file.start, file.length, page_size, page_count, root_page, freelist_page, judged,
                            sizeof judged);
    if (number != TYVARMOS_DONE)
        refuse("judge", number, judged + TYVARMOS_JUDGE_PAGE);
    number = tyvarmos_lookup(file.start, file.length, page_size, page_count, root_page, key, strlen(key), looked,
                             sizeof looked);
    if (number != TYVARMOS_DONE)
        refuse("lookup", number, looked + TYVARMOS_LOOKUP_PAGE);
    if (looked[TYVARMOS_LOOKUP_FOUND] == 0 || looked[TYVARMOS_LOOKUP_KIND] != kind) {
        fprintf(stderr, "there is no %s %s\n", kind == 0 ? "key" : "bucket", key);
        exit(1);
    }
    value.start = file.start + looked[TYVARMOS_LOOKUP_PLACE];
    value.length = (size_t)looked[TYVARMOS_LOOKUP_LENGTH];
    return value;
}

int main(int count, char **words)
{
    const uint64_t nothing[3] = {0, 0, 0};
    uint64_t meta[TYVARMOS_META_FIELDS], number, root_page;
    struct bytes file, bucket, value;
    if (count != 4) {
        fprintf(stderr, "usage: lookup FILE BUCKET KEY\n");
        return 64;
    }
    file = read_file(words[1]);
    number = tyvarmos_meta(file.start, file.length, 0, meta, sizeof meta);
    if (number != TYVARMOS_DONE)
        refuse("meta", number, nothing);
    bucket = find(file, meta, meta[TYVARMOS_META_ROOT_PAGE], words[2], 1);
    memcpy(&root_page, bucket.start, sizeof root_page);
    value = find(file, meta, root_page, words[3], 0);
    fwrite(value.start, 1, value.length, stdout);
    free(file.start);
    return 0;
}
