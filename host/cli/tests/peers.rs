//! Tape files of the SIMH emulator itself (Debian's package `simh`): what we export is read by it, and what
//! it writes is imported. It is no test of the usual harness, which would call one that can't be run passed:
//! each claim is printed with what was found, or as not shown where its program is not installed.

mod common;

use common::{folder, import, reels_named, root, run, shell, TORN};
use oracle::tape::{Item, Tape};
use std::env;
use std::fs;
use std::path::{Path, PathBuf};
use std::process::Command;

const ACCEPTED: [&str; 4] = ["ledger", "messages", "new-year", "options"];
const END: [u8; 4] = [0xFF; 4];

/// A program of the peer, what is claimed of it, and what shows it and tells how much was compared.
type Claim = (&'static str, &'static str, fn() -> String);

const CLAIMS: [Claim; 5] = [
    ("mtdump", "mtdump lists the items of what we export at their places", mtdump_lists),
    ("pdp11", "a simulated PDP-11 with a TK50 copies what we export byte for byte", tk50_copies),
    ("pdp11", "the pad byte that this PDP-11 leaves behind an odd block is refused", tk50_pads),
    ("pdp11", "a reel of a PDP-11 with a TM11 has no end, and is taken with one", tm11_copies),
    ("mtcvtv23", "a reel of mtcvtv23 has no end, and is taken with one", mtcvtv23_converts),
];

fn main() {
    for (program, what, show) in CLAIMS {
        match installed(program) {
            true => println!("peers: {what}: {}", show()),
            false => println!(
                "peers: NOT SHOWN, since {program} is not installed (Debian: apt-get install simh): {what}"
            ),
        }
    }
}

fn installed(program: &str) -> bool {
    let path = env::var_os("PATH").unwrap_or_default();
    env::split_paths(&path).any(|folder| folder.join(program).is_file())
}

/// The reels of an image, exported.
fn exported(image: &Path, folder: &Path) -> Vec<PathBuf> {
    let name = folder.join(image.file_stem().expect("a name"));
    run(&["export", image.to_str().unwrap(), "-o", name.to_str().unwrap()]).done();
    reels_named(&name)
}

fn sample(name: &str) -> PathBuf {
    root().join("samples").join(name).with_extension("tgi")
}

/// What each reel of an image holds, as the independent program reads it: lengths of blocks, 0 for a mark.
fn lengths(image: &[u8]) -> Vec<Vec<usize>> {
    let mut tape = Tape::open(image).expect("a head");
    let mut reels = vec![Vec::new()];
    while let Some(item) = tape.next_item().expect("a good item") {
        match item {
            Item::Block(block) => reels.last_mut().unwrap().push(block.len()),
            Item::TapeMark => reels.last_mut().unwrap().push(0),
            Item::EndOfReel => reels.push(Vec::new()),
        }
    }
    reels.pop();
    reels
}

/// What `mtdump` lists of a reel: the place of each item, and its length or 0.
fn listed(reel: &Path) -> Vec<(usize, usize)> {
    let output = Command::new("mtdump").arg(reel).output().expect("mtdump");
    let text = String::from_utf8(output.stdout).expect("text");
    let number = |text: &str, behind: &str| -> usize {
        let digits = text.split(behind).nth(1).expect("a number").split([',', ' ']).next();
        digits.unwrap().parse().expect("a number")
    };
    let item = |line: &str| match line.contains(", record ") {
        true => (number(line, "position "), number(line, "length = ")),
        false => (number(line, "position "), 0),
    };
    text.lines().filter(|line| line.starts_with("Obj ")).map(item).collect()
}

/// The items of a reel with their places in SIMH's form, up to two marks in a row: `mtdump` reads no further.
fn placed(lengths: &[usize]) -> Vec<(usize, usize)> {
    let mut items: Vec<(usize, usize)> = Vec::new();
    let mut at = 0;
    for &length in lengths {
        let second_mark = length == 0 && items.last().is_some_and(|last| last.1 == 0);
        items.push((at, length));
        if second_mark {
            break;
        }
        at += if length == 0 { 4 } else { 8 + length + length % 2 };
    }
    items
}

fn mtdump_lists() -> String {
    let d = folder("peer-mtdump");
    let (mut reels, mut items) = (0, 0);
    for name in ACCEPTED {
        let lengths = lengths(&fs::read(sample(name)).unwrap());
        let files = exported(&sample(name), &d);
        assert_eq!(files.len(), lengths.len(), "{name}");
        for (file, lengths) in files.iter().zip(&lengths) {
            let listed = listed(file);
            assert_eq!(listed, placed(lengths), "{name}");
            reels += 1;
            items += listed.len();
        }
    }
    format!("{items} items of {reels} reels")
}

/// A machine with two drives, and a program that copies the tape on the first to the second.
struct Machine {
    /// The machine and the drive, whose first unit is read and whose second is written.
    set: &'static [&'static str],
    drive: &'static str,
    /// Places and instructions in octal; what else stands in memory.
    program: &'static str,
    memory: &'static [&'static str],
    /// Where the program halts when all is copied; elsewhere it halts where something is wrong.
    done: &'static str,
}

/// The controller of a TK50 takes packets: 11 mounts a unit, 41 reads a block, 42 writes one, 44 writes a tape
/// mark, 22 erases the rest, which writes the end of the medium. A read ends with 16 at a tape mark, with 10
/// at the end of the medium.
const TK50: Machine = Machine {
    set: &["set cpu 11/73", "set tq enable"],
    drive: "tq",
    program: "
        1000 CLR @#174500
        1004 BIT #4000,@#174502
        1012 BEQ 1004
        1014 MOV #100000,@#174502
        1022 BIT #10000,@#174502
        1030 BEQ 1022
        1032 MOV #2010,@#174502
        1040 BIT #20000,@#174502
        1046 BEQ 1040
        1050 CLR @#174502
        1054 BIT #40000,@#174502
        1062 BEQ 1054
        1064 MOV #1,@#174502
        1072 TST @#174502
        1076 BNE 1072
        1100 MOV #11,R0
        1104 CLR R1
        1106 JSR PC,@#1300
        1112 INC R1
        1114 JSR PC,@#1300
        1120 MOV #41,R0
        1124 CLR R1
        1126 MOV #150000,R2
        1132 JSR PC,@#1300
        1136 INC R1
        1140 BIC #177740,R3
        1144 BEQ 1164
        1146 CMP R3,#16
        1152 BEQ 1172
        1154 CMP R3,#10
        1160 BEQ 1212
        1162 HALT
        1164 MOV #42,R0
        1170 BR 1176
        1172 MOV #44,R0
        1176 JSR PC,@#1300
        1202 BIC #177740,R3
        1206 BEQ 1120
        1210 HALT
        1212 MOV #22,R0
        1216 JSR PC,@#1300
        1222 BIC #177740,R3
        1226 BNE 1210
        1230 HALT
        1300 MOV R1,@#2110
        1304 MOV R0,@#2114
        1310 MOV R2,@#2120
        1314 MOV #2204,@#2010
        1322 MOV #100000,@#2012
        1330 MOV #2104,@#2014
        1336 MOV #100000,@#2016
        1344 TST @#174500
        1350 TST @#2012
        1354 BMI 1350
        1356 MOV @#2216,R3
        1362 MOV @#2220,R2
        1366 RTS PC",
    // The length of a packet, for whom it is, that it clears the last exception, and where the block goes.
    memory: &["2100 44", "2102 400", "2116 20000", "2124 4000", "sp 1000"],
    done: "001232",
};

/// A TM11 takes commands in a register: read, write, write a tape mark. It can't write the end of the medium.
const TM11: Machine = Machine {
    set: &["set cpu 11/40", "set tm enable"],
    drive: "tm",
    program: "
        1000 MOV #30000,@#172524
        1006 MOV #4000,@#172526
        1014 MOV #60003,@#172522
        1022 TSTB @#172522
        1026 BPL 1022
        1030 BIT #40000,@#172520
        1036 BNE 1110
        1040 BIT #400,@#172520
        1046 BNE 1134
        1050 TST @#172522
        1054 BMI 1132
        1056 MOV #30000,R0
        1062 SUB @#172524,R0
        1066 MOV R0,@#172524
        1072 MOV #4000,@#172526
        1100 MOV #60405,@#172522
        1106 BR 1116
        1110 MOV #60407,@#172522
        1116 TSTB @#172522
        1122 BPL 1116
        1124 TST @#172522
        1130 BPL 1000
        1132 HALT
        1134 HALT",
    memory: &[],
    done: "001136",
};

impl Machine {
    /// Copies a reel on the simulated machine, and gives the copy.
    fn copied(&self, reel: &Path) -> PathBuf {
        let copy = reel.with_extension(format!("{}.tap", self.drive));
        let drive = self.drive;
        let lines = self.program.lines().map(str::trim).filter(|line| !line.is_empty());
        let script: Vec<String> = [
            self.set.iter().map(|line| line.to_string()).collect(),
            vec![format!("attach -e {drive}0 {}", name(reel))],
            vec![format!("attach {drive}1 {}", name(&copy))],
            lines.map(|line| format!("deposit -m {line}")).collect(),
            self.memory.iter().map(|line| format!("deposit {line}")).collect(),
            vec!["run 1000".into(), "quit".into()],
        ]
        .concat();
        let folder = reel.parent().expect("a folder");
        fs::write(folder.join("copy.do"), script.join("\n") + "\n").unwrap();
        // A program that hangs is ended by the limit on its time.
        let ran = shell("cd $D && ulimit -t 60 && pdp11 copy.do < /dev/null", folder);
        let halted = format!("HALT instruction, PC: {} ", self.done);
        assert!(ran.text().contains(&halted), "{drive}: {}{}", ran.text(), ran.err);
        copy
    }
}

fn name(path: &Path) -> &str {
    path.file_name().and_then(|name| name.to_str()).expect("a name")
}

/// A set of four reels with blocks of 32,720 bytes.
fn large(folder: &Path) -> PathBuf {
    let data: Vec<u8> = (0..25_000 * 80_u64).map(|i| (i * i % 64) as u8).collect();
    fs::write(folder.join("data"), data).unwrap();
    let sheet = "set BIG001\nquota 20\nreel A\nreel B\nreel C\nreel D\nfile BIG\nformat F\n\
                 block-length 32720\nrecord-length 80\ndata data each 80\n";
    fs::write(folder.join("sheet"), sheet).unwrap();
    shell("$T pack $D/sheet -o $D/large.tgi", folder).done();
    folder.join("large.tgi")
}

/// All blocks of these sets have an even length.
fn tk50_copies() -> String {
    let d = folder("peer-copy");
    let even = ["ledger", "new-year", "options"].map(sample);
    let (mut count, mut bytes) = (0, 0);
    for image in even.into_iter().chain([large(&d)]) {
        let reels = exported(&image, &d);
        let copies: Vec<PathBuf> = reels.iter().map(|reel| TK50.copied(reel)).collect();
        for (reel, copy) in reels.iter().zip(&copies) {
            let copy = fs::read(copy).unwrap();
            assert!(copy == fs::read(reel).unwrap(), "{}", reel.display());
            count += 1;
            bytes += copy.len();
        }
        assert!(import(&copies).done().out == fs::read(&image).unwrap(), "{}", image.display());
    }
    format!("{count} reels, {bytes} bytes")
}

/// It leaves what it had in memory in the byte behind an odd block, which the form wants to be 0: the reel
/// is refused at that block, and taken where the byte is 0.
fn tk50_pads() -> String {
    let d = folder("peer-pad");
    let mut reels = exported(&sample("messages"), &d);
    let third = fs::read(&reels[2]).unwrap();
    reels[2] = TK50.copied(&reels[2]);
    let mut copy = fs::read(&reels[2]).unwrap();
    let other: Vec<usize> = (0..third.len()).filter(|&at| copy[at] != third[at]).collect();
    // Behind the block of 23 bytes at 690, the 14th item of its reel and the 36th of the set.
    assert_eq!((copy.len(), &other[..], copy[717]), (914, &[717][..], b' '));
    let why = format!("{}: refused 15 at item 35 byte 0: {TORN}", reels[2].display());
    import(&reels).told(1, &why);
    copy[717] = 0;
    fs::write(&reels[2], copy).unwrap();
    assert_eq!(import(&reels).done().out, fs::read(sample("messages")).unwrap());
    "1 reel".into()
}

/// Such a reel is refused at the number behind its last item, and taken with the end added.
fn is_taken_with_an_end(reel: &Path, image: &Path) {
    let bytes = fs::read(image).unwrap();
    let items = lengths(&bytes)[0].len();
    let without = fs::read(reel).unwrap();
    let why = format!("{}: refused 15 at item {items} byte 0: {TORN}", reel.display());
    import(&[reel]).told(1, &why);
    fs::write(reel, [&without[..], &END].concat()).unwrap();
    assert_eq!(import(&[reel]).done().out, bytes);
}

fn tm11_copies() -> String {
    let d = folder("peer-no-end");
    for name in ["ledger", "options"] {
        let reel = &exported(&sample(name), &d)[0];
        is_taken_with_an_end(&TM11.copied(reel), &sample(name));
    }
    "2 reels".into()
}

/// A tape in the form of two-byte lengths, which `mtcvtv23` turns into SIMH's.
fn mtcvtv23_converts() -> String {
    let d = folder("peer-mtcvtv23");
    for name in ["ledger", "options"] {
        let image = fs::read(sample(name)).unwrap();
        let mut tape = Tape::open(&image).expect("a head");
        let mut bytes = Vec::new();
        while let Some(item) = tape.next_item().expect("a good item") {
            let block: &[u8] = match item {
                Item::Block(block) => block,
                Item::TapeMark => b"",
                Item::EndOfReel => break,
            };
            bytes.extend((block.len() as u16).to_le_bytes());
            bytes.extend(block);
            bytes.extend(&[0][..block.len() % 2]);
        }
        fs::write(d.join(name).with_extension("tpc"), bytes).unwrap();
        assert_eq!(shell(&format!("cd $D && mtcvtv23 {name}.tpc"), &d).status, Some(0));
        is_taken_with_an_end(&d.join(name).with_extension("tap"), &sample(name));
    }
    "2 reels".into()
}
