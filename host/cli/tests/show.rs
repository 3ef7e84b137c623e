//! `show`: the items of any bytes as a person wants to see them, and what is wrong with them marked.

mod common;

use common::{fed, folder, in_json, root, run, sample, shell, terminal, Ran};
use oracle::generate::{damaged, whole, Rng};
use oracle::{check, Answer};

const LEDGER_LABELS: &str = "reel 1
           0  VOL1         80 bytes
              1-4    label name              [VOL1]
              5-10   volume identifier       [GATE01]
              11     accessibility           [ ]
              12-24  reserved field          [             ]
              25-37  implementation          [             ]
              38-51  owner                   [              ]
              52-79  reserved field          [                            ]
              80     label standard version  [4]
           1  HDR1         80 bytes
              1-4    label name              [HDR1]
              5-21   file identifier         [LEDGER           ]
              22-27  set identifier          [SET001]
              28-31  section number          [0001]
              32-35  sequence number         [0001]
              36-39  generation number       [0001]
              40-41  version number          [00]
              42-47  creation date           [ 85335]
              48-53  expiration date         [ 00000]
              54     accessibility           [ ]
              55-60  block count             [000000]
              61-73  implementation          [             ]
              74-80  reserved field          [       ]
           2  HDR2         80 bytes
              1-4    label name              [HDR2]
              5      record format           [F]
              6-10   block length            [00020]
              11-15  record length           [00010]
              16-50  free field              [                                   ]
              51-52  offset length           [00]
              53-80  reserved field          [                            ]
           3  tape mark
           4  data block   10 bytes
           5  tape mark
";

const WRONG_TRAILER: &str = "-->        6  EOF1         80 bytes
              1-4    label name              [EOF1]
              5-21   file identifier         [LEDGER           ]
              22-27  set identifier          [SET001]
              28-31  section number          [0001]
              32-35  sequence number         [0001]
              36-39  generation number       [0001]
              40-41  version number          [00]
              42-47  creation date           [ 85335]
              48-53  expiration date         [ 00000]
              54     accessibility           [ ]
-->           55-60  block count             [000002]
              61-73  implementation          [             ]
              74-80  reserved field          [       ]
--> refused 6 at item 6 byte 55: labels, counts or names do not agree with each other: the block count of EOF1
";

#[test]
fn a_wrong_field_is_marked_and_what_stands_before_it_is_shown_as_it_is() {
    let ran = run(&["show", "samples/refused-6.tgi"]);
    let behind = "    not shown behind it: 92 bytes; --all shows all\n";
    assert_eq!(ran.text(), [LEDGER_LABELS, WRONG_TRAILER, behind].concat());
    assert_eq!((ran.status, &ran.err[..]), (Some(1), ""));
    let all = run(&["show", "--all", "samples/refused-6.tgi"]);
    assert!(all.text().starts_with(&[LEDGER_LABELS, WRONG_TRAILER].concat()));
    let rest = "           8  tape mark\n           9  tape mark\n          10  end of reel\n          11  end\n";
    assert!(all.text().ends_with(rest), "{}", all.text());
    assert_eq!(all.status, Some(1));
}

#[test]
fn an_accepted_set_is_shown_to_its_end() {
    let ran = run(&["show", "samples/ledger.tgi"]).done();
    assert!(ran.text().starts_with(LEDGER_LABELS));
    assert!(ran.text().ends_with("          10  end of reel\n          11  end\naccepted\n"));
    let reels = run(&["show", "samples/messages.tgi"]).done();
    let headings: Vec<&str> =
        reels.text().lines().filter(|line| line.starts_with("reel")).collect();
    assert_eq!(headings, ["reel 1", "reel 2", "reel 3"]);
    let options = run(&["show", "samples/options.tgi"]).done();
    for line in [
        "  UVL1         80 bytes\n              1-80   text                    [UVL1",
        "  UHL          80 bytes\n",
    ] {
        assert!(options.text().contains(line), "{}", options.text());
    }
}

#[test]
fn one_item_is_shown_in_full() {
    let block = "           4  data block   24 bytes  at offset 260 of the image\n\
                 \x20              1  30 30 30 31 34 4c 49 4e 45 20 4f 50 45 4e 31 30  |00014LINE OPEN10|\n\
                 \x20             17  30 31 30 46 4c 4f 4f 44                          |010FLOOD|\n";
    assert_eq!(run(&["show", "samples/messages.tgi", "4"]).done().text(), block);
    assert_eq!(run(&["show", "samples/messages.tgi", "--item", "4"]).done().text(), block);
    let reels: Vec<String> =
        (1..=3).map(|number| format!("samples/messages-{number}.tap")).collect();
    let mut words: Vec<&str> = vec!["show", "--item", "4", "--simh"];
    words.extend(reels.iter().map(String::as_str));
    assert_eq!(run(&words).done().text(), block);
    let wrong = run(&["show", "samples/refused-6.tgi", "6"]);
    let expected = WRONG_TRAILER.replacen("80 bytes", "80 bytes  at offset 276 of the image", 1);
    assert_eq!((wrong.text(), wrong.status), (&expected[..], Some(1)));
    let good = run(&["show", "samples/refused-6.tgi", "3"]);
    let expected = "           3  tape mark    at offset 257 of the image\n\
                    refused 6 at item 6 byte 55: labels, counts or names do not agree with each other: \
                    the block count of EOF1\n";
    assert_eq!((good.text(), good.status), (expected, Some(1)));
}

#[test]
fn an_item_that_is_not_there_is_told() {
    let none = "samples/ledger.tgi: there is no item 12; the last is 11";
    run(&["show", "samples/ledger.tgi", "12"]).told(2, none);
    let huge = "samples/ledger.tgi: there is no item 18446744073709551615; the last is 11";
    run(&["show", "samples/ledger.tgi", "18446744073709551615"]).told(2, huge);
    let no_image =
        "samples/refused-1.tgi: refused 1 at item 0 byte 0: this is no image of a tape set";
    run(&["show", "samples/refused-1.tgi", "0"]).told(1, no_image);
}

#[test]
fn wrong_words_are_told() {
    let usage =
        "usage: tardorelga show [--all] [--json] (FILE [ITEM] | --simh REEL..) [--item ITEM]";
    run(&["show"]).told(2, &format!("no file is named\n{usage}"));
    run(&["show", "--simh"]).told(2, &format!("no reel is named\n{usage}"));
    run(&["show", "x", "one"]).told(2, &format!("ITEM is a number, not \"one\"\n{usage}"));
    run(&["show", "x", "1", "2"]).told(2, &format!("one word too many: \"2\"\n{usage}"));
    run(&["show", "x", "1", "--item", "2"]).told(2, &format!("one word too many: \"1\"\n{usage}"));
    run(&["show", "none"]).told(2, "none: No such file or directory");
    run(&["show", "samples"]).told(2, "samples: Is a directory");
}

/// A set of one file with so many blocks of a record each.
fn blocks(count: usize) -> Vec<u8> {
    let sheet =
        "set SET001\nquota 999\nreel GATE01\nfile A\nformat F\nblock-length 5\nrecord-length 5\n";
    let sheet = format!("{sheet}{}", "text ABCDE\n".repeat(count));
    fed(&["pack", "-", "-o", "-"], sheet.as_bytes()).done().out
}

#[test]
fn many_data_blocks_share_a_line() {
    let few = fed(&["show", "-"], &blocks(4)).done();
    assert_eq!(few.text().matches("  data block   5 bytes\n").count(), 4);
    let many = fed(&["show", "-"], &blocks(300)).done();
    assert!(many.text().contains("\n       4-303  data blocks  300 blocks, 1500 bytes\n"));
    assert_eq!(many.text().matches("data block").count(), 1);
    let all = fed(&["show", "--all", "-"], &blocks(300)).done();
    assert_eq!(all.text().matches("  data block   5 bytes\n").count(), 300);
}

#[test]
fn a_wrong_block_among_many_has_a_line_of_its_own_and_a_dump() {
    let mut image = blocks(300);
    let start = image.windows(5).position(|bytes| bytes == b"ABCDE").unwrap();
    let wrong = start + 8 * 100;
    image[wrong..wrong + 5].copy_from_slice(b"^^^^^");
    let ran = fed(&["show", "-"], &image);
    let marked = "       4-103  data blocks  100 blocks, 500 bytes\n\
                  -->      104  data block   5 bytes\n\
                  \x20              1  5e 5e 5e 5e 5e                                   |^^^^^|\n\
                  --> refused 7 at item 104 byte 0: a data block is too long, or cannot be cut into records\n";
    assert!(ran.text().contains(marked), "{}", ran.text());
    assert!(ran.text().ends_with(" bytes; --all shows all\n"));
}

#[test]
fn of_a_long_wrong_block_the_first_bytes_are_dumped() {
    let block = [&[0, 1, 0x2D][..], &[b'^'; 301]].concat();
    let image = [b"TGI\0\x01", &block[..], b"\xFF\xFF\xFF"].concat();
    let ran = fed(&["show", "-"], &image);
    assert_eq!(ran.text().matches("|^^^^^^^^^^^^^^^^|").count(), 16);
    assert!(ran.text().contains("\n              45 more bytes: --item 0 shows all\n"));
    let full = fed(&["show", "-", "0"], &image);
    assert_eq!(full.text().matches("|^^^^^^^^^^^^^^^^|").count(), 18);
    assert!(full.text().contains("             289  5e"), "{}", full.text());
}

#[test]
fn what_is_no_image_is_shown_as_far_as_it_goes() {
    let ran = fed(&["show", "-"], b"\x7fELF\x1b[31m");
    let expected = "-->           head\n\
                    \x20              1  7f 45 4c 46 1b 5b 33 31 6d                       |.ELF.[31m|\n\
                    --> refused 1 at item 0 byte 0: this is no image of a tape set\n";
    assert_eq!((ran.text(), ran.status), (expected, Some(1)));
    let long = fed(&["show", "-"], &[b'A'; 1000]);
    assert!(long.text().ends_with("    not shown behind it: 744 bytes; --all shows all\n"));
    let all = fed(&["show", "--all", "-"], &[b'A'; 1000]);
    assert_eq!(all.text().matches("|AAAAAAAAAAAAAAAA|").count(), 62);
    assert!(all.text().contains("             993  41 41 41 41 41 41 41 41  "));
    let empty = fed(&["show", "-"], b"");
    assert!(empty.text().starts_with("-->           head\n--> refused 1 at item 0 byte 0: "));
    let torn = fed(&["show", "-"], b"TGI\0\x01\0\0\x09A\x1b]");
    let expected = "reel 1\n\
                    -->        0  torn         6 bytes  at offset 5 of the image\n\
                    \x20              1  00 00 09 41 1b 5d                                |...A.]|\n\
                    --> refused 2 at item 0 byte 0: an item is torn, or there are not 1 to 16 reels with an end each\n";
    assert_eq!((torn.text(), torn.status), (expected, Some(1)));
}

#[test]
fn an_endless_input_is_shown_up_to_the_limit() {
    let d = folder("show-endless");
    let ran = shell("$T show - < /dev/zero", &d);
    let ending =
        "--> refused 9 at item 0 byte 0: over a limit: 16777215 bytes, 64 files, 16 reels\n    \
                  not shown behind it: 16776960 bytes; --all shows all\n    \
                  what is behind the first 16777216 bytes was not read\n";
    assert!(ran.text().ends_with(ending), "{}", ran.text());
    assert_eq!((arrows(&ran), ran.status), (vec!["head".into(), "refused 9".into()], Some(1)));
}

/// The lines with an arrow: number of the item, positions of the field, and the number of the refusal.
fn arrows(ran: &Ran) -> Vec<String> {
    let marked = ran.text().lines().filter_map(|line| line.strip_prefix("-->"));
    let word = |line: &str| match line.trim_start().strip_prefix("refused ") {
        Some(rest) => format!("refused {}", rest.split(' ').next().unwrap()),
        None => line.split_whitespace().next().unwrap().to_string(),
    };
    marked.map(word).collect()
}

/// What is to be marked by the verdict of the independent program.
fn due(Answer { number, item, byte }: Answer) -> Vec<String> {
    let of_the_whole = number == 1 || number == 9 && item == 0;
    let item = if of_the_whole { "head".into() } else { item.to_string() };
    let field = (byte > 0).then(|| byte.to_string());
    let refused = format!("refused {number}");
    [Some(item), field, Some(refused)].into_iter().flatten().collect()
}

/// It ends, prints nothing that moves a cursor, and marks exactly the item and the field of the verdict.
fn shows(image: &[u8], words: &[&str]) {
    let ran = fed(&[&["show", "-"], words].concat(), image);
    let is_plain = |&byte: &u8| byte == b'\n' || (b' '..=b'~').contains(&byte);
    assert!(ran.out.iter().all(is_plain) && ran.err.is_empty(), "{image:02x?}");
    let verdict = check(image);
    assert_eq!(ran.status, Some(i32::from(!verdict.is_done())), "{image:02x?}");
    let mut marked = arrows(&ran);
    if let Some(field) = marked.get_mut(1).filter(|_| verdict.byte > 0) {
        field.truncate(field.find('-').unwrap_or(field.len()));
    }
    assert_eq!(marked, if verdict.is_done() { vec![] } else { due(verdict) }, "{image:02x?}");
    assert_eq!(ran.text().ends_with("\naccepted\n"), verdict.is_done());
}

#[test]
fn every_sample_is_marked_where_its_verdict_says() {
    for name in common::names_in(&root().join("samples")) {
        if name.ends_with(".tgi") {
            shows(&sample(&name), &[]);
            shows(&sample(&name), &["--all"]);
        }
    }
}

#[test]
fn every_length_of_a_set_is_shown() {
    for image in [sample("ledger.tgi"), sample("messages.tgi")] {
        (0..=image.len()).for_each(|len| shows(&image[..len], &[]));
    }
}

#[test]
fn damaged_sets_are_shown() {
    let mut rng = Rng::new(41);
    for number in 0..400 {
        shows(&damaged(&mut rng), if number % 2 == 0 { &[] } else { &["--all"] });
    }
}

#[test]
fn any_bytes_are_shown() {
    let mut rng = Rng::new(42);
    for number in 0..400 {
        let mut image = match number % 4 {
            0 => (0..rng.below(600)).map(|_| rng.byte()).collect(),
            1 => [b"TGI\0\x01".to_vec(), (0..rng.below(600)).map(|_| rng.byte() & 1).collect()]
                .concat(),
            _ => whole(&mut rng),
        };
        for _ in 0..rng.below(4) {
            let at = rng.below(image.len().max(1));
            image.get_mut(at).into_iter().for_each(|byte| *byte = rng.byte());
        }
        shows(&image, if rng.one_in(2) { &[] } else { &["--all"] });
    }
}

#[test]
fn every_byte_can_be_told_from_what_is_printed() {
    let image = sample("options.tgi");
    let user = image.windows(3).position(|bytes| bytes == b"UHL").unwrap();
    for first in [0, 76, 152, 180] {
        let mut image = image.clone();
        let bytes: Vec<u8> = (first..=255).take(76).collect();
        image[user + 4..user + 4 + bytes.len()].copy_from_slice(&bytes);
        let ran = fed(&["show", "-"], &image).done();
        let lines: Vec<&str> = ran.text().lines().collect();
        let at = lines.iter().position(|line| line.contains("  UHL  ")).unwrap();
        let value = lines[at + 3].split_once('[').unwrap().1.strip_suffix(']').unwrap();
        assert_eq!(&unescaped(value)[..bytes.len()], bytes);
    }
}

fn unescaped(text: &str) -> Vec<u8> {
    let mut bytes = Vec::new();
    let mut rest = text.bytes();
    while let Some(byte) = rest.next() {
        bytes.push(match (byte, rest.clone().next()) {
            (b'\\', Some(b'x')) => {
                let digits: Vec<u8> = rest.by_ref().skip(1).take(2).collect();
                u8::from_str_radix(std::str::from_utf8(&digits).unwrap(), 16).unwrap()
            }
            (b'\\', _) => rest.next().expect("a second backslash"),
            _ => byte,
        });
    }
    bytes
}

#[test]
fn reels_are_shown_as_their_image_is() {
    let image = run(&["show", "samples/messages.tgi"]).done();
    let [a, b, c] = [1, 2, 3].map(|number| format!("samples/messages-{number}.tap"));
    assert_eq!(run(&["show", "--simh", &a, &b, &c]).done().out, image.out);
    let torn = run(&["show", "--simh", "samples/ledger.tgi"]);
    let why = format!("refused 15 at item 0 byte 0: {}", common::TORN);
    torn.told(1, &format!("samples/ledger.tgi: {why}"));
}

#[test]
fn there_is_colour_on_a_terminal_that_wants_it_and_nowhere_else() {
    let plain = run(&["show", "samples/refused-6.tgi"]);
    let on_terminal = |variables: &[(&str, &str)]| {
        terminal::start(&["show", "samples/refused-6.tgi"], variables).text()
    };
    let colour = on_terminal(&[("TERM", "xterm")]);
    assert!(
        colour.contains("\x1b[1;31m-->           55-60  block count             [000002]\x1b[0m\n")
    );
    let stripped = ["\x1b[1;31m", "\x1b[1m", "\x1b[0m"]
        .iter()
        .fold(colour.clone(), |text, code| text.replace(code, ""));
    assert_eq!(stripped, plain.text());
    assert_eq!(on_terminal(&[("TERM", "xterm"), ("NO_COLOR", "")]), colour);
    let piped = shell("TERM=xterm $T show samples/refused-6.tgi", &folder("show-piped"));
    assert_eq!(piped.text(), plain.text());
    for unwanted in [&[("TERM", "xterm"), ("NO_COLOR", "1")][..], &[("TERM", "dumb")], &[]] {
        assert_eq!(on_terminal(unwanted), plain.text(), "{unwanted:?}");
    }
}

#[test]
fn json_has_the_items_with_their_fields() {
    let ran = run(&["show", "--json", "samples/messages.tgi"]).done();
    assert_eq!(ran.text().lines().count(), 1);
    let found = |expression: &str| in_json(&ran.out, expression);
    assert_eq!(
        found("v['file'], v['accepted'], v['set']"),
        "('samples/messages.tgi', True, 'NIGHT7')"
    );
    assert_eq!(found("v['reels']"), "['GATE01', 'GATE02', 'GATE03']");
    assert_eq!(found("[i['item'] for i in v['items']] == list(range(43))"), "True");
    assert_eq!(found("v['items'][4]"), "{'item': 4, 'kind': 'data block', 'at': 260, 'bytes': 24}");
    let field = "[f for f in v['items'][2]['fields'] if f['name'] == 'block length']";
    assert_eq!(found(field), "[{'byte': 6, 'bytes': 5, 'name': 'block length', 'value': '00024'}]");
    let one = run(&["show", "--json", "samples/messages.tgi", "4"]).done();
    let value = "[(i['item'], i['value']) for i in v['items']]";
    assert_eq!(in_json(&one.out, value), "[(4, '00014LINE OPEN10010FLOOD')]");
}

#[test]
fn json_of_a_refused_set_has_the_verdict_and_marks() {
    let ran = run(&["show", "--json", "samples/refused-6.tgi"]);
    let found = |expression: &str| in_json(&ran.out, expression);
    assert_eq!(found("v['accepted'], v['number'], v['item'], v['byte']"), "(False, 6, 6, 55)");
    assert_eq!(found("v['words']"), "labels, counts or names do not agree with each other");
    assert_eq!(found("v['label'], v['field'], v['not_shown']"), "('EOF1', 'block count', 92)");
    assert_eq!(found("[i['item'] for i in v['items'] if 'wrong' in i]"), "[6]");
    let wrong = "[f['byte'] for i in v['items'] for f in i.get('fields', []) if 'wrong' in f]";
    assert_eq!((found(wrong), found("len(v['items'])")), ("[55]".into(), "7".into()));
    let all = run(&["show", "--json", "--all", "samples/refused-6.tgi"]);
    assert_eq!(in_json(&all.out, "len(v['items']), v['not_shown']"), "(12, 0)");
    let none = fed(&["show", "--json", "-"], b"no image");
    assert_eq!(in_json(&none.out, "v['number'], v['items'], v['not_shown']"), "(1, [], 8)");
    let torn = run(&["show", "--json", "--simh", "samples/ledger.tgi"]);
    assert_eq!(in_json(&torn.out, "v['tapes'], v['number']"), "(['samples/ledger.tgi'], 15)");
    assert_eq!(
        (ran.status, all.status, none.status, torn.status),
        (Some(1), Some(1), Some(1), Some(1))
    );
}

#[test]
fn json_keeps_every_byte() {
    let bytes: Vec<u8> = (0..=255).collect();
    let image = [b"TGI\0\x01\0\x01\0", &bytes[..], b"\xFF\xFF\xFF"].concat();
    let ran = fed(&["show", "--json", "-", "0"], &image);
    assert!(ran.out.is_ascii());
    let value = "v['items'][0]['value'].encode('latin-1') == bytes(range(256))";
    assert_eq!(in_json(&ran.out, value), "True");
}
