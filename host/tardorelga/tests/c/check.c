/* Says of the image on standard input what each function of the library answers. */
#include <inttypes.h>
#include <stdio.h>
#include <string.h>

#include "tardorelga.h"

static uint8_t image[8192];
static uint8_t buffer[8192];
static uint8_t again[8192];
static uint64_t lengths[TARDORELGA_MOST_REELS];

static void say_verdict(tardorelga_verdict verdict)
{
    if (verdict.number == TARDORELGA_DONE)
        puts("accepted");
    else
        printf("refused %" PRIu32 " at item %" PRIu32 " byte %" PRIu32 "\n", verdict.number,
               verdict.item, verdict.byte);
}

static void say_part(uint32_t joined, uint64_t start, uint64_t len)
{
    const uint8_t *part = joined ? buffer : image + start;
    printf("%s %.*s\n", joined ? "joined" : "image", (int) len, (const char *) part);
}

/* All records of the first file by number, with a buffer of so many bytes. */
static void say_records(size_t image_len, size_t join_len)
{
    uint64_t record;
    for (record = 1;; record++) {
        tardorelga_found found = tardorelga_record(image, image_len, 1, record, buffer, join_len);
        if (found.verdict.number == TARDORELGA_DONE) {
            say_part(found.joined, found.start, found.len);
            continue;
        }
        printf("record %" PRIu64 " ", record);
        say_verdict(found.verdict);
        if (found.verdict.number != TARDORELGA_SHORT_BUFFER)
            return;
    }
}

/* The parts of the image that several steps at once give. */
static uint64_t starts[2], lens[2];

static void say_row(uint64_t count)
{
    uint64_t i;
    printf("row %" PRIu64, count);
    for (i = 0; i < count; i++)
        printf(" %" PRIu64 " %" PRIu64, starts[i], lens[i]);
    putchar('\n');
}

/* All records of the first file by walk. */
static void say_walk(size_t image_len)
{
    tardorelga_begun begun = tardorelga_begin(image, image_len, 1);
    tardorelga_walk walk = begun.walk;
    if (begun.verdict.number != TARDORELGA_DONE) {
        printf("walk ");
        say_verdict(begun.verdict);
        return;
    }
    say_row(tardorelga_steps(image, image_len, walk, starts, 2, lens, 2).count);
    for (;;) {
        tardorelga_stepped step = tardorelga_step(image, image_len, walk, buffer, sizeof buffer);
        if (step.number != TARDORELGA_DONE) {
            printf("step %" PRIu32 "\n", step.number);
            return;
        }
        say_part(step.joined, step.start, step.len);
        walk = step.walk;
    }
}

/* What the labels of the first file say of it, and how much it holds. */
static void say_file(size_t image_len)
{
    tardorelga_begun file = tardorelga_begin(image, image_len, 1);
    tardorelga_facts facts = tardorelga_count(image, image_len, file.walk);
    if (file.verdict.number == TARDORELGA_DONE)
        printf("file %.6s %c ", (const char *) image + file.first + 4, image[file.second + 4]);
    printf("holds %" PRIu64 " %" PRIu64 "\n", facts.records, facts.bytes);
}

static void say_listing(size_t image_len)
{
    tardorelga_written text = tardorelga_listing(image, image_len, buffer, 9);
    printf("listing %" PRIu64 " ", text.len);
    say_verdict(text.verdict);
    text = tardorelga_listing(image, image_len, buffer, sizeof buffer);
    printf("%.*s", (int) text.len, (const char *) buffer);
}

static void say_rewritten(size_t image_len)
{
    static const uint8_t names[] = {'R', 'E', 'E', 'L', '0', '1'};
    tardorelga_written written =
        tardorelga_rewrite(image, image_len, 9, names, sizeof names, buffer, sizeof buffer);
    printf("rewritten %" PRIu64 " ", written.len);
    say_verdict(written.verdict);
}

/* The image as SIMH tape files, in so many bytes and so many lengths. */
static tardorelga_tapes say_tapes(size_t image_len, size_t out_len, size_t lengths_len)
{
    tardorelga_tapes tapes =
        tardorelga_to_simh(image, image_len, buffer, out_len, lengths, lengths_len);
    printf("tapes %" PRIu64 " %" PRIu64 " ", tapes.len, tapes.files);
    say_verdict(tapes.verdict);
    return tapes;
}

/* The tape files as an image again: these, and these but for the last byte. */
static void say_back(size_t image_len, tardorelga_tapes tapes)
{
    tardorelga_written back =
        tardorelga_from_simh(buffer, tapes.len, lengths, tapes.files, again, sizeof again);
    int same = back.len == image_len && memcmp(again, image, image_len) == 0;
    printf("back %" PRIu64 " %s ", back.len, same ? "same" : "other");
    say_verdict(back.verdict);
    if (tapes.files == 0)
        return;
    lengths[tapes.files - 1]--;
    back = tardorelga_from_simh(buffer, tapes.len - 1, lengths, tapes.files, again, sizeof again);
    printf("back %" PRIu64 " ", back.len);
    say_verdict(back.verdict);
}

/* The set of one file and one record, written into a buffer of so many bytes. */
static void say_written(size_t out_len)
{
    static const char file[] = "LEDGER           000100 85335 00000F0002000010";
    static const uint64_t counts[] = {1}, lengths[] = {10};
    tardorelga_written written = tardorelga_write(
        (const uint8_t *) "SET001", 6, (const uint8_t *) file, 46, counts, 1, lengths, 1,
        (const uint8_t *) "0123456789", 10, 1, (const uint8_t *) "GATE01", 6, buffer, out_len);
    printf("written %" PRIu64 " ", written.len);
    say_verdict(written.verdict);
    if (written.verdict.number == TARDORELGA_DONE)
        printf("read back ");
    if (written.verdict.number == TARDORELGA_DONE)
        say_verdict(tardorelga_check(buffer, written.len));
}

int main(void)
{
    size_t image_len = fread(image, 1, sizeof image, stdin);
    tardorelga_verdict verdict = tardorelga_check(image, image_len);

    say_verdict(verdict);
    say_records(image_len, 0);
    say_records(image_len, sizeof buffer);
    say_walk(image_len);
    say_file(image_len);
    say_listing(image_len);
    say_rewritten(image_len);
    say_tapes(image_len, 9, 16);
    say_tapes(image_len, sizeof buffer, 0);
    say_back(image_len, say_tapes(image_len, sizeof buffer, 16));
    say_written(447);
    say_written(448);
    return verdict.number != TARDORELGA_DONE;
}
