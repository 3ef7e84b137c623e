/*
 * Lists the files of a tape set and prints the records of the first, a line each:
 *
 *     gcc -std=c99 example.c -ltardorelga -o example && ./example samples/messages.tgi
 */
#include <inttypes.h>
#include <stdio.h>

#include "tardorelga.h"

/* One byte more than the longest image, so that a longer one is seen to be one. */
static uint8_t image[TARDORELGA_LONGEST_IMAGE + 1];
static uint8_t join[TARDORELGA_LONGEST_RECORD];

/* Reads the image, and gives its length, or says why it can't be read. */
static int read_image(const char *name, size_t *len)
{
    FILE *file = fopen(name, "rb");
    if (file == NULL) {
        perror(name);
        return 0;
    }
    *len = fread(image, 1, sizeof image, file);
    if (ferror(file)) {
        perror(name);
        fclose(file);
        return 0;
    }
    fclose(file);
    return 1;
}

/*
 * A line a file: its sequence number and identifier from HDR1, its format from HDR2, how many records and
 * record bytes it has.
 */
static void list_files(size_t len, tardorelga_begun file)
{
    while (file.verdict.number == TARDORELGA_DONE) {
        const char *hdr1 = (const char *) image + file.first;
        const char *hdr2 = (const char *) image + file.second;
        tardorelga_facts facts = tardorelga_count(image, len, file.walk);
        printf("%.4s %.17s %c %" PRIu64 " %" PRIu64 "\n", hdr1 + 31, hdr1 + 4, hdr2[4],
               facts.records, facts.bytes);
        file = tardorelga_next_file(image, len, file.first, file.second);
    }
}

/* A record of several segments was joined in the lent buffer; any other is a part of the image. */
static void print_records(size_t len, tardorelga_walk walk)
{
    tardorelga_stepped step = tardorelga_step(image, len, walk, join, sizeof join);
    while (step.number == TARDORELGA_DONE) {
        fwrite(step.joined ? join : image + step.start, 1, (size_t) step.len, stdout);
        putchar('\n');
        step = tardorelga_step(image, len, step.walk, join, sizeof join);
    }
}

int main(int count, char **words)
{
    size_t len;
    tardorelga_begun first;

    if (count != 2) {
        fprintf(stderr, "usage: example IMAGE\n");
        return 2;
    }
    if (!read_image(words[1], &len))
        return 2;
    /* The set is checked here, once. */
    first = tardorelga_begin(image, len, 1);
    if (first.verdict.number != TARDORELGA_DONE) {
        fprintf(stderr, "%s: refused %" PRIu32 " at item %" PRIu32 " byte %" PRIu32 "\n", words[1],
                first.verdict.number, first.verdict.item, first.verdict.byte);
        return 1;
    }
    list_files(len, first);
    print_records(len, first.walk);
    return fflush(stdout) == 0 ? 0 : 2;
}
