//! What `--help` prints; the first line of each is its usage.

pub const ALL: &str = "usage: tardorelga COMMAND ..

Labelled magnetic tape sets (ECMA-13, label standard version 4), checked, read and written by a library
whose answers are proved. The commands:

    check FILE..           says of each image whether it is accepted, or why and where it is not
    list FILE              prints the files of a set
    show FILE [ITEM]       prints the items of a set, labels with their fields, and marks what is wrong
    record FILE N R        prints record R of file N
    records FILE N         prints all records of file N
    unpack FILE DIR        takes a set apart into files of records and an order sheet
    pack SHEET -o OUT      writes the image of an order sheet
    rewrite FILE ..        writes the normal form of a set
    import REEL.. -o OUT   writes the image of a set whose reels are tape files of SIMH
    export FILE -o NAME    writes the reels of a set as tape files of SIMH

Every other command that reads a set takes its reels in SIMH's form too, behind --simh: check --simh REEL..
tardorelga COMMAND --help tells more of a command, tardorelga --version prints the version.
A file named - is standard input or output.
Exit status: 0 done, 1 the set or the sheet was refused, 2 it was called wrongly or the system failed.
";

pub const CHECK: &str =
    "usage: tardorelga check [-r] [--json | --quiet] (FILE.. | --simh REEL..)

Checks the image of a tape set in each FILE, and prints a line a file:
    FILE: accepted, FILES files, RECORDS records, BYTES bytes
    FILE: refused NUMBER at item ITEM byte BYTE: what the number says, and the field it is about
Items are counted from 0 over the whole image, bytes of a label from 1. The exit status is 0 where all are
accepted, 1 where one is refused, 2 where one can't be read or none is there to check.

    -r        a FILE may be a folder: checks all files below it whose names end in .tgi, and prints totals
    --json    prints a JSON object a line instead
    --quiet   prints no line: the exit status tells
    --simh    checks one set, whose reels are the files REEL.. in SIMH's form, in this order
";

pub const LIST: &str = "usage: tardorelga list [--json] (FILE | --simh REEL..)

Prints a line for each file of the set in FILE: its number, identifier and format, how many records and how
many record bytes it has. Of a refused set it prints only the line that says so.

    --json    prints a JSON object instead, with set, reels, and all fields of each file
    --simh    the set's reels are the files REEL.. in SIMH's form, in this order
";

pub const SHOW: &str =
    "usage: tardorelga show [--all] [--json] (FILE [ITEM] | --simh REEL..) [--item ITEM]

Prints the items of the image in FILE, a line each: number, kind and length; of a label the fields too, with
their positions and names. Many data blocks in a row share a line. Where the set is refused, arrows mark the
wrong item and field, and what is behind is left out. A byte that is not printable is \\xNN. With ITEM it
prints this one, a block as a dump in hexadecimal and text. The exit status is 0 where the set is accepted,
1 where it is refused, 2 where it can't be read or has no such item.

    --all        gives each data block a line, and shows what is behind a wrong item too
    --item ITEM  prints this item alone, counted from 0
    --json       prints a JSON object instead
    --simh       the set's reels are the files REEL.. in SIMH's form, in this order
";

pub const RECORD: &str = "usage: tardorelga record [--hex | --lines] (FILE | --simh REEL..) N R

Prints record R of file N of the set in FILE, both counted from 1: its bytes and nothing else.

    --hex     prints two hexadecimal digits a byte, and a line feed
    --lines   prints a line feed behind the record
    --simh    the set's reels are the files REEL.. in SIMH's form, in this order
";

pub const RECORDS: &str = "usage: tardorelga records [--hex | --lines] (FILE | --simh REEL..) N

Prints the records of file N, counted from 1, of the set in FILE: their bytes one behind the other.

    --hex     prints a line a record, two hexadecimal digits a byte
    --lines   prints a line feed behind each record
    --simh    the set's reels are the files REEL.. in SIMH's form, in this order
";

pub const UNPACK: &str = "usage: tardorelga unpack [--hex | --lines] [--quota Q] [--reels A,B,..] \
    (FILE | --simh REEL..) DIR

Writes the records of each file of the set in FILE into the folder DIR, and an order sheet beside them, of
which tardorelga pack DIR/sheet makes the set's normal form. DIR is made, or may be there and empty; it
appears whole or not at all.

    --hex           writes a line a record, two hexadecimal digits a byte
    --lines         writes a line a record; no record may hold a line feed then
    --quota Q       the quota on the sheet, 1 to 999999, else 999999
    --reels A,B,..  the names of 1 to 16 reels on the sheet, else those of the set
    --simh          the set's reels are the files REEL.. in SIMH's form, in this order
";

pub const PACK: &str = "usage: tardorelga pack [--force] [--anywhere] SHEET -o OUT

Writes the image of the order sheet SHEET, a text whose form the manual page tardorelga-sheet(5) tells. A
wrong line is named with its number, and the exit status is 1; a named file that can't be read is status 2.
Names of files on the sheet are looked up in the folder of the sheet, or of a sheet on standard input in the
current one, and may not lead out of it.

    -o OUT      where the image goes; it appears whole or not at all, and must not be there already
    --force     replaces an OUT that is there, and keeps its mode and owner
    --anywhere  names on the sheet may lead anywhere: give it only for a sheet that you trust
";

pub const REWRITE: &str =
    "usage: tardorelga rewrite [--force] (FILE | --simh REEL..) --quota Q --reels A,B,.. -o OUT

Writes the normal form of the set in FILE: two sets of one meaning have the same one.

    --quota Q       how many data blocks a reel may hold, 1 to 999999
    --reels A,B,..  the names of 1 to 16 reels, of which as many as needed are written
    -o OUT          where the image goes; it appears whole or not at all, and must not be there already
    --force         replaces an OUT that is there, and keeps its mode and owner
    --simh          the set's reels are the files REEL.. in SIMH's form, in this order
";

pub const IMPORT: &str = "usage: tardorelga import [--force] REEL.. -o OUT

Writes the image of a set whose reels are the files REEL.. in SIMH's form, in this order; the document
FORMAT.md tells both forms. Labels are not looked at: check says of the image whether the set is accepted. A
file that has anything but good records, tape marks and one end of the medium at its end is refused, and
named.

    -o OUT    where the image goes; it appears whole or not at all, and must not be there already
    --force   replaces an OUT that is there, and keeps its mode and owner
";

pub const EXPORT: &str = "usage: tardorelga export [--force] FILE -o NAME

Writes the reels of the image in FILE in SIMH's form, a file each: NAME-1.tap, NAME-2.tap and so on. Where
one of them can't be written, none is left. Labels are not looked at. None of NAME-1.tap to NAME-16.tap may
be there already, since the reel of another set would be taken for one of this.

    -o NAME   how the names of the files begin; - is standard output, for a set of one reel
    --force   replaces files that are there, and keeps their modes and owners; one behind the last reel of
              this set is refused all the same
";
