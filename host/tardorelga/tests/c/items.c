/* Says of the bytes on standard input which items and files seem to stand where, and which fields labels have. */
#include <inttypes.h>
#include <stdio.h>

#include "tardorelga.h"

static uint8_t image[8192];

static const char *name_of(uint32_t kind)
{
    switch (kind) {
    case TARDORELGA_KIND_OTHER: return "no label";
    case TARDORELGA_KIND_VOL: return "VOL";
    case TARDORELGA_KIND_UVL: return "UVL";
    case TARDORELGA_KIND_HDR: return "HDR";
    case TARDORELGA_KIND_UHL: return "UHL";
    case TARDORELGA_KIND_EOF: return "EOF";
    case TARDORELGA_KIND_EOV: return "EOV";
    case TARDORELGA_KIND_UTL: return "UTL";
    case TARDORELGA_KIND_DATA_BLOCK: return "data block";
    case TARDORELGA_KIND_TAPE_MARK: return "tape mark";
    case TARDORELGA_KIND_END_OF_REEL: return "end of reel";
    case TARDORELGA_KIND_END_OF_IMAGE: return "end";
    case TARDORELGA_KIND_TORN: return "torn";
    default: return "unknown";
    }
}

/* The positions at which the fields of an item begin. */
static void say_fields(tardorelga_item item)
{
    uint32_t byte;
    for (byte = 1; byte <= TARDORELGA_LABEL; byte++)
        if (tardorelga_field_at(item.kind, item.number, byte) == byte)
            printf(" %" PRIu32, byte);
}

static void say_items(size_t image_len)
{
    uint64_t at = TARDORELGA_FIRST_ITEM;
    uint32_t group = TARDORELGA_GROUP_LABELS;
    for (;;) {
        tardorelga_item item = tardorelga_item_at(image, image_len, at, group);
        printf("%s %" PRIu32 ", %" PRIu64 " at %" PRIu64 ", %" PRIu32 ":", name_of(item.kind),
               item.number, item.len, item.start, item.group);
        say_fields(item);
        putchar('\n');
        if (item.kind == TARDORELGA_KIND_END_OF_IMAGE || item.kind == TARDORELGA_KIND_TORN)
            return;
        at = item.behind;
        group = item.group;
    }
}

static void say_files(size_t image_len)
{
    tardorelga_begun file = tardorelga_first_file(image, image_len);
    while (file.verdict.number == TARDORELGA_DONE) {
        printf("file at %" PRIu64 " and %" PRIu64 "\n", file.first, file.second);
        file = tardorelga_next_file(image, image_len, file.first, file.second);
    }
    printf("files end with %" PRIu32 "\n", file.verdict.number);
}

int main(void)
{
    size_t image_len = fread(image, 1, sizeof image, stdin);
    say_items(image_len);
    say_files(image_len);
    return 0;
}
