/*
 * Labelled magnetic tape sets (ECMA-13, 4th edition, Label Standard Version 4): checked, read, written,
 * put into normal form, and taken from SIMH tape files and back. Link with libtardorelga.a, or where it is
 * installed, with the flags of pkg-config --cflags --libs tardorelga.
 *
 * The functions keep no state and allocate nothing, so that any number of threads may call them at once.
 * Each answers for any bytes and any numbers whatever.
 *
 * Lent buffers
 *   A buffer is a pointer and a length. It stays the caller's: the library uses it during the call alone
 *   and keeps no pointer into it. The pointer is never NULL, not even where the length is 0. Bytes need
 *   no alignment; numbers of 64 bits have their own. Through a pointer to const the library only reads,
 *   and nobody may write to such a buffer until the call is back. A buffer to write to may not overlap
 *   any other buffer of the call, and nobody else may use it until the call is back.
 *   With a refusal every byte and every number of every lent buffer is as it was, and places, lengths and
 *   counts are 0. Else only those of the answer change, at the front of the buffer; what is behind them
 *   stays.
 */
#ifndef TARDORELGA_H
#define TARDORELGA_H

#include <stddef.h>
#include <stdint.h>

/* The version of this header and of the archive that goes with it. */
#define TARDORELGA_VERSION_MAJOR 0
#define TARDORELGA_VERSION_MINOR 1
#define TARDORELGA_VERSION_PATCH 0
#define TARDORELGA_VERSION "0.1.0"

/*
 * Numbers given back
 *
 *    0  DONE
 *    1  NO_IMAGE       under five bytes, or mark or version wrong
 *    2  TORN_ITEM      a bad length, an item cut short, no reel, more than 16, no end of reel at the end
 *    3  OUT_OF_ORDER   an item, or the end of the image, where the order of a reel forbids it
 *    4  WRONG_FIELD    a label field with a wrong content
 *    5  NO_ACCESS      a volume or file that is not accessible to all
 *    6  CROSS_CHECK    labels, counts or names that don't agree with each other
 *    7  WRONG_BLOCK    a data block that can't be cut into units, or is too long
 *    8  WRONG_SEGMENT  segments out of turn, a record of them that is too long, or one that is never ended
 *    9  OVER_LIMIT     an image over 16,777,215 bytes, a 65th file, more than 16 reel names
 *   10  SHORT_BUFFER   a lent buffer or list that is too short
 *   11  ILLEGAL_SHEET  an illegal order sheet
 *   12  FEW_REELS      too few reel names
 *   13  NOT_THERE      no such file or record, or no further step of a walk
 *   14  LONG_IMAGE     an image to be written that would pass 16,777,215 bytes
 *   15  TORN_TAPE      a torn SIMH tape file: a word or block cut short, a length that is none of a good
 *                      record, unequal lengths of a record, a pad byte that is not 0, no end of the medium or
 *                      bytes behind it; or lengths that don't add up
 */
#define TARDORELGA_DONE 0
#define TARDORELGA_NO_IMAGE 1
#define TARDORELGA_TORN_ITEM 2
#define TARDORELGA_OUT_OF_ORDER 3
#define TARDORELGA_WRONG_FIELD 4
#define TARDORELGA_NO_ACCESS 5
#define TARDORELGA_CROSS_CHECK 6
#define TARDORELGA_WRONG_BLOCK 7
#define TARDORELGA_WRONG_SEGMENT 8
#define TARDORELGA_OVER_LIMIT 9
#define TARDORELGA_SHORT_BUFFER 10
#define TARDORELGA_ILLEGAL_SHEET 11
#define TARDORELGA_FEW_REELS 12
#define TARDORELGA_NOT_THERE 13
#define TARDORELGA_LONG_IMAGE 14
#define TARDORELGA_TORN_TAPE 15

/*
 * Limits
 *
 * LONGEST_IMAGE    bytes of an image
 * LONGEST_RECORD   bytes of a record: a joining buffer of so many takes any
 * LONGEST_LISTING  bytes of a listing
 * MOST_FILES       files of a set
 * MOST_REELS       reels of a set
 * HIGHEST_QUOTA    data blocks that an order sheet may allow a reel
 */
#define TARDORELGA_LONGEST_IMAGE 16777215
#define TARDORELGA_LONGEST_RECORD 99999
#define TARDORELGA_LONGEST_LISTING 4096
#define TARDORELGA_MOST_FILES 64
#define TARDORELGA_MOST_REELS 16
#define TARDORELGA_HIGHEST_QUOTA 999999

/* Widths: bytes of a label, of a file on an order sheet, and of a set identifier or reel name. */
#define TARDORELGA_LABEL 80
#define TARDORELGA_FILE_ENTRY 46
#define TARDORELGA_NAME 6

#ifdef __cplusplus
extern "C" {
#endif

/*
 * An answer: a number, and the place of the first fault of an image.
 *
 * item    for 2 to 9 the number of the item at fault, from 0 over the whole image, tape marks and ends of
 *         reels counted too; 0 for 0, 1 and 10 to 14, and for an image that is too long. For 15 the number
 *         that the item would have in the image, or 4,294,967,295 for a higher one; 0 for lengths that
 *         don't add up. For 2 on tape files 0.
 * byte    for 4, 5 and 6 the byte position, from 1, at which the lowest wrong field begins; else 0.
 */
typedef struct tardorelga_verdict {
    uint32_t number;
    uint32_t item;
    uint32_t byte;
} tardorelga_verdict;

/* Checks the image of a set: 0 to 9. It takes time linear in the length. */
tardorelga_verdict tardorelga_check(const uint8_t *image, size_t image_len);

/*
 * Where a record is, its len bytes: with joined 0 at image + start, with joined 1 at the front of the
 * joining buffer (and start is 0).
 */
typedef struct tardorelga_found {
    tardorelga_verdict verdict;
    uint32_t joined;
    uint64_t start;
    uint64_t len;
} tardorelga_found;

/*
 * Record number record of file number file, both from 1: the image's own number, then 13, then 10. A record
 * of one unit is a part of the image; only one of several segments is joined, and needs a buffer of its
 * length at least (99,999 bytes are enough for any).
 */
tardorelga_found tardorelga_record(const uint8_t *image, size_t image_len, uint64_t file,
                                   uint64_t record, uint8_t *join, size_t join_len);

/*
 * A walk over the records of one file, by value: format, record length and offset length of the file, the
 * place in the image of what is left of the current block, and how many bytes of it are left.
 */
typedef struct tardorelga_walk {
    uint32_t format;
    uint32_t size;
    uint64_t offset;
    uint64_t at;
    uint64_t left;
} tardorelga_walk;

/*
 * A file: the places in the image of its first HDR1 and HDR2 label, 80 bytes each, and the walk before its
 * first record; with a refusal all is 0. Of a set that was not checked only HDR2 is sure to be there.
 */
typedef struct tardorelga_begun {
    tardorelga_verdict verdict;
    uint64_t first;
    uint64_t second;
    tardorelga_walk walk;
} tardorelga_begun;

/* File number file, from 1: the image's own number, then 13. */
tardorelga_begun tardorelga_begin(const uint8_t *image, size_t image_len, uint64_t file);

/*
 * The first file of an image, whatever its bytes: the set is not checked, and the file is where the first
 * header labels seem to stand. 13 where there is none. In a set that is refused HDR2 may stand without HDR1:
 * then first is image_len, where nothing is to be read.
 */
tardorelga_begun tardorelga_first_file(const uint8_t *image, size_t image_len);

/*
 * The file behind the one whose HDR1 and HDR2 stand at these places, which are first and second of the
 * answer before; behind the last one 13. The set is not checked: after tardorelga_begin(image, image_len,
 * 1) has accepted it, the files come one by one in one pass. The places may be anything; where no HDR1 comes
 * before the next HDR2, which no accepted set has, first is the one that was handed in, be it in the image
 * or not.
 */
tardorelga_begun tardorelga_next_file(const uint8_t *image, size_t image_len, uint64_t first,
                                      uint64_t second);

/*
 * A step: number 0, 10 or 13; the record as in tardorelga_found; and the walk moved on, or with 10 and 13
 * the walk that was handed in.
 */
typedef struct tardorelga_stepped {
    uint32_t number;
    uint32_t joined;
    uint64_t start;
    uint64_t len;
    tardorelga_walk walk;
} tardorelga_stepped;

/*
 * The next record of a walk over this image; behind the last one 13. The numbers of the walk may be
 * anything: 13 where no whole record, by these numbers, stands at its place.
 */
tardorelga_stepped tardorelga_step(const uint8_t *image, size_t image_len, tardorelga_walk walk,
                                   uint8_t *join, size_t join_len);

/* How many steps were taken, and the walk behind them. */
typedef struct tardorelga_row {
    uint64_t count;
    tardorelga_walk walk;
} tardorelga_row;

/*
 * As many steps at once as both lists have room for, as long as each gives a part of the image: its start
 * and its len go to the next place of the two lists, what is behind these stays. It stops before a record
 * that must be joined and behind the last one: with less than a full list tardorelga_step, from the walk of
 * the answer, says which.
 */
tardorelga_row tardorelga_steps(const uint8_t *image, size_t image_len, tardorelga_walk walk,
                                uint64_t *starts, size_t starts_len, uint64_t *lens, size_t lens_len);

/* A number of records, and of the bytes of all of them. */
typedef struct tardorelga_facts {
    uint64_t records;
    uint64_t bytes;
} tardorelga_facts;

/*
 * Counts the records from a walk on: those that steps with a long enough buffer would hand out before 13.
 * From a file's beginning these are all its records.
 */
tardorelga_facts tardorelga_count(const uint8_t *image, size_t image_len, tardorelga_walk walk);

/* What was written: len bytes at the front of the buffer. */
typedef struct tardorelga_written {
    tardorelga_verdict verdict;
    uint64_t len;
} tardorelga_written;

/*
 * Writes the listing of a set, a line a file, or the line that says why the image is refused: 0 or 10.
 * 4,096 bytes are enough for any image.
 */
tardorelga_written tardorelga_listing(const uint8_t *image, size_t image_len, uint8_t *out,
                                      size_t out_len);

/*
 * Writes an order sheet as the image of a set: 9, 11, 12, 14, then 10.
 *
 * set      the set identifier, 6 bytes.
 * files    46 bytes a file, as in its labels: file identifier (17), generation (4), version (2), creation
 *          date (6), expiration date (6), format (1), block length (5), record length (5).
 * counts   the number of records of each file.
 * lengths  the length of each record, over all files.
 * data     the bytes of all records, end to end.
 * quota    the data blocks that a reel may hold, 1 to 999,999.
 * names    6 bytes a reel name, 1 to 16 of them.
 */
tardorelga_written tardorelga_write(const uint8_t *set, size_t set_len, const uint8_t *files,
                                    size_t files_len, const uint64_t *counts, size_t counts_len,
                                    const uint64_t *lengths, size_t lengths_len,
                                    const uint8_t *data, size_t data_len, uint64_t quota,
                                    const uint8_t *names, size_t names_len, uint8_t *out,
                                    size_t out_len);

/*
 * Writes the meaning of a set in its one normal form, on these reels: the image's own number, then those
 * of tardorelga_write.
 */
tardorelga_written tardorelga_rewrite(const uint8_t *image, size_t image_len, uint64_t quota,
                                      const uint8_t *names, size_t names_len, uint8_t *out,
                                      size_t out_len);

/*
 * Writes the image of SIMH tape files, one a reel: 15 over all files, then 2 for no file or a 17th, 14,
 * then 10. An image is never longer than 5 + tape_len bytes. Nothing but the items is looked at:
 * tardorelga_check says of the image whether the set is accepted.
 *
 * tape     the bytes of all files, end to end.
 * lengths  the length of each file.
 */
tardorelga_written tardorelga_from_simh(const uint8_t *tape, size_t tape_len,
                                        const uint64_t *lengths, size_t lengths_len, uint8_t *out,
                                        size_t out_len);

/*
 * What was written: len bytes of tape files, end to end, at the front of the buffer, and at the front of
 * the list the length of each of these files.
 */
typedef struct tardorelga_tapes {
    tardorelga_verdict verdict;
    uint64_t len;
    uint64_t files;
} tardorelga_tapes;

/*
 * Writes the reels of an image as SIMH tape files: 9, 1, 2, then 10 where the buffer or the list is too
 * short. The files are never longer than image_len * 5 / 2 bytes, and 16 lengths are enough. Nothing but
 * the items is looked at: what tardorelga_check refuses with 3 to 8, or for a 65th file, is converted.
 */
tardorelga_tapes tardorelga_to_simh(const uint8_t *image, size_t image_len, uint8_t *out,
                                    size_t out_len, uint64_t *lengths, size_t lengths_len);

/*
 * Kinds of items. OTHER is a block that is no label where one is due; UVL, UHL and UTL are labels of users;
 * END_OF_IMAGE is at or past the end of the image; TORN is a bad length, or an item cut short.
 */
#define TARDORELGA_KIND_OTHER 0
#define TARDORELGA_KIND_VOL 1
#define TARDORELGA_KIND_UVL 2
#define TARDORELGA_KIND_HDR 3
#define TARDORELGA_KIND_UHL 4
#define TARDORELGA_KIND_EOF 5
#define TARDORELGA_KIND_EOV 6
#define TARDORELGA_KIND_UTL 7
#define TARDORELGA_KIND_DATA_BLOCK 8
#define TARDORELGA_KIND_TAPE_MARK 9
#define TARDORELGA_KIND_END_OF_REEL 10
#define TARDORELGA_KIND_END_OF_IMAGE 11
#define TARDORELGA_KIND_TORN 12

/* Groups of items: where labels are due, behind header labels of a file, and its data. */
#define TARDORELGA_GROUP_LABELS 0
#define TARDORELGA_GROUP_HEADER 1
#define TARDORELGA_GROUP_DATA 2

/* The place of the first item of an image; its group is TARDORELGA_GROUP_LABELS. */
#define TARDORELGA_FIRST_ITEM 5

/*
 * An item of an image.
 *
 * kind    one of TARDORELGA_KIND_..
 * number  of a numbered label, such as 1 of VOL1; else 0.
 * group   the group of the item behind it.
 * start   the place of the block's bytes, len of them. For TORN the place that was asked for, and all the
 *         bytes that are left. For an item without bytes the same as behind.
 * behind  the place of the item behind it; for TORN the end of the image. For END_OF_IMAGE the place that
 *         was asked for, which may be past the end.
 */
typedef struct tardorelga_item {
    uint32_t kind;
    uint32_t number;
    uint32_t group;
    uint64_t start;
    uint64_t len;
    uint64_t behind;
} tardorelga_item;

/*
 * What stands at a place between two items, whatever the bytes: the first item is at
 * TARDORELGA_FIRST_ITEM, the next one at behind of the answer, with its group. The set is not checked, and
 * place and group may be anything.
 */
tardorelga_item tardorelga_item_at(const uint8_t *image, size_t image_len, uint64_t at,
                                   uint32_t group);

/*
 * The field of a label of this kind and number, as tardorelga_item_at gives them, in which byte position
 * byte, from 1, stands: the position of its first byte. 0 where there is none: behind position 80, and in an
 * item of which no field is known. The numbers may be anything.
 */
uint32_t tardorelga_field_at(uint32_t kind, uint32_t number, uint32_t byte);

#ifdef __cplusplus
}
#endif

#endif
