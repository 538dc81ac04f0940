/* Types letters through the C interface, as `bench endings` of crates/bench types them through the library: one letter an edit, at the end
 * of the text, a line feed after each 59.
 *
 *     c_interface EDITS [timed]     the length of the text, and with `timed` the microseconds
 */
#define _POSIX_C_SOURCE 199309L
#include "zedbuf.h"

#include <stdio.h>
#include <stdlib.h>
#include <string.h>
#include <time.h>

/* Bytes and entries of the buffer, more than are typed. */
static const uint64_t LIMIT = 1ull << 32;

static double seconds(void)
{
    struct timespec now;
    clock_gettime(CLOCK_PROCESS_CPUTIME_ID, &now);
    return (double)now.tv_sec + (double)now.tv_nsec * 1e-9;
}

static void expect(zedbuf_answer answer)
{
    if (answer.code != ZEDBUF_DONE) {
        fprintf(stderr, "code %u\n", (unsigned)answer.code);
        exit(1);
    }
}

static uint64_t type_all(unsigned long edits)
{
    zedbuf_buffer buffer = {0};
    uint64_t length = 0;
    expect(zedbuf_open(&buffer, 1, (const uint8_t *)"", 0, LIMIT, LIMIT, 0));
    for (unsigned long n = 0; n < edits; n++) {
        zedbuf_change change = {.start = length, .end = length, .text_len = 1};
        expect(zedbuf_edit(&buffer, &change, 1, (const uint8_t *)(n % 60 == 59 ? "\n" : "a"), 1));
        length++;
    }
    zedbuf_close(&buffer);
    return length;
}

int main(int count, char **words)
{
    unsigned long edits = count > 1 ? strtoul(words[1], NULL, 10) : 100000;
    double start = seconds();
    uint64_t length = type_all(edits);
    printf("TypeAsIs %llu", (unsigned long long)length);
    if (count > 2 && strcmp(words[2], "timed") == 0) {
        printf(" %.0f", (seconds() - start) * 1e6);
    }
    printf("\n");
    return 0;
}
