//! Prepared files, and the line for each pair of them.

use crate::program::Program;
use std::ffi::OsStr;
use std::os::unix::ffi::OsStrExt;

const EXAMPLE: [u8; 10] = [0x62, 0x04, 0x34, 0x12, 0x62, 0x05, 0x78, 0x56, 0x34, 0x12];
const MOV16: [u8; 4] = [0x62, 0x04, 0x34, 0x12];
const NO_TEXT: &[u8] = b"no \xFF text";
const LETTERS: &str = "exámple";

/// What is tested, the two names, and the line.
type Case = (&'static str, &'static str, &'static str, &'static str);

#[rustfmt::skip]
const ANSWERS: [Case; 29] = [
    ("equal files", "example", "copy", "same"),
    ("the same file twice", "example", "example", "same"),
    ("both empty", "empty", "nothing", "same"),
    ("the first empty", "empty", "example", "0000 ended 1"),
    ("the second empty", "example", "empty", "0000 ended 2"),
    ("the first ends first", "start", "example", "0004 ended 1"),
    ("the second ends first", "example", "start", "0004 ended 2"),
    ("another immediate", "example", "immediate", "0004 immediate"),
    ("another destination", "destination", "example", "0004 destination"),
    ("a longer mov", "start", "long start", "0000 length"),
    ("another instruction", "example", "swapped", "0000 instruction"),
    ("cut short in the first, an odd length", "odd", "example", "0004 refused 2 1"),
    ("cut short in the second, an odd length", "example", "odd", "0004 refused 2 2"),
    ("cut short in both, equal files", "odd", "odd", "0004 refused 2 1"),
    ("one byte in both", "one byte", "one byte", "0000 refused 2 1"),
    ("cut short in the second, where the first has ended", "start", "odd", "0004 refused 2 2"),
    ("no diagram in the first, where the second has ended", "no diagram", "start", "0004 refused 3 1"),
    ("no diagram in the second", "example", "no diagram", "0004 refused 3 2"),
    ("no diagram in the first, no meaning in the second", "no diagram", "no meaning", "0004 refused 3 1"),
    ("no meaning in the first, no diagram in the second", "no meaning", "no diagram", "0004 refused 4 1"),
    ("no meaning in the second, cut short in the first", "odd", "no meaning", "0004 refused 2 1"),
    ("no meaning in the second", "example", "no meaning", "0004 refused 4 2"),
    ("a difference before a refusal", "no diagram", "swapped", "0000 instruction"),
    ("8,192 bytes each", "longest", "longest", "same"),
    ("8,192 bytes, the last instruction different", "longest", "longest but", "1FFC immediate"),
    ("8,192 bytes, and all but the last instruction", "longest but one", "longest", "1FFC ended 1"),
    ("8,193 bytes in the first", "long", "longest", "0000 refused 1 1"),
    ("8,193 bytes in the second", "longest", "long", "0000 refused 1 2"),
    ("8,193 bytes in both", "long", "long", "0000 refused 1 1"),
];

#[rustfmt::skip]
const FILES: [Case; 28] = [
    ("a long second, a first that is refused at 0000", "one byte", "long", "0000 refused 1 2"),
    ("65,540 bytes in the first, of which 16 bits are 4", "longer", "start", "0000 refused 1 1"),
    ("65,536 bytes in the second", "empty", "as long", "0000 refused 1 2"),
    ("the first is missing", "none", "example", "0000 refused 1 1"),
    ("the second is missing", "example", "none", "0000 refused 1 2"),
    ("both are missing", "none", "none", "0000 refused 1 1"),
    ("the first is missing, the second long", "none", "long", "0000 refused 1 1"),
    ("the first is long, the second missing", "long", "none", "0000 refused 1 1"),
    ("the second is missing, the first refused at 0000", "one byte", "none", "0000 refused 1 2"),
    ("the second is missing, the first empty", "empty", "none", "0000 refused 1 2"),
    ("the first is a directory", "folder", "example", "0000 refused 1 1"),
    ("the second is a directory", "example", "folder", "0000 refused 1 2"),
    ("both are directories", "folder", "folder", "0000 refused 1 1"),
    ("a file in a directory", "folder/example", "example", "same"),
    ("a file below a file", "example", "example/example", "0000 refused 1 2"),
    ("a name with spaces", " a  kernel ", "example", "same"),
    ("a name that begins with -", "-x", "example", "same"),
    ("a name that begins with - after ./", "./-x", "immediate", "0004 immediate"),
    ("a name that is -", "example", "-", "same"),
    ("a name that is --", "--", "-x", "same"),
    ("a name with a line feed", "example", "line\nfeed", "same"),
    ("no name at all in the first", "", "example", "0000 refused 1 1"),
    ("no name at all in the second", "example", "", "0000 refused 1 2"),
    ("a file without an end in the first", "/dev/zero", "example", "0000 refused 1 1"),
    ("a file without an end in the second", "example", "/dev/zero", "0000 refused 1 2"),
    ("the empty device", "/dev/null", "example", "0000 ended 1"),
    ("a link to a file", "link", "example", "same"),
    ("a link to nothing", "example", "lost", "0000 refused 1 2"),
];

pub fn files(program: &Program) {
    let mut longest = MOV16.repeat(2048);
    let example_with = |end: &[u8]| [&MOV16, end].concat();
    for name in ["example", "copy", " a  kernel ", "-x", "-", "--", "line\nfeed"] {
        program.write(name, &EXAMPLE);
    }
    program.write(OsStr::from_bytes(NO_TEXT), &EXAMPLE);
    program.write(LETTERS, &EXAMPLE);
    std::fs::create_dir(program.folder.join("folder")).expect("a folder");
    program.write("folder/example", &EXAMPLE);
    for (name, to) in [("link", "example"), ("lost", "none")] {
        std::os::unix::fs::symlink(to, program.folder.join(name)).expect("a link");
    }
    program.write("immediate", &example_with(&[0x62, 0x05, 0x79, 0x56, 0x34, 0x12]));
    program.write("destination", &example_with(&[0x62, 0x09, 0x78, 0x56, 0x34, 0x12]));
    program.write("swapped", &[&EXAMPLE[4..], &MOV16].concat());
    program.write("start", &MOV16);
    program.write("long start", &[0x62, 0x84, 0x34, 0x12, 0x00, 0x00]);
    program.write("empty", &[]);
    program.write("nothing", &[]);
    program.write("one byte", &[0x62]);
    program.write("odd", &EXAMPLE[..9]);
    program.write("no diagram", &example_with(&[0x88, 0x00]));
    program.write("no meaning", &example_with(&[0x72, 0x0B, 0x05, 0x00]));
    program.write("longer", &MOV16.repeat(16385));
    program.write("as long", &MOV16.repeat(16384));
    program.write("longest", &longest);
    program.write("longest but one", &longest[..8188]);
    longest[8191] ^= 1;
    program.write("longest but", &longest);
    longest.push(0x62);
    program.write("long", &longest);
}

pub fn outcomes(program: &Program) -> Vec<(String, Result<String, String>)> {
    let told = |(what, outcome, line): (&str, Result<(), String>, &str)| {
        (what.to_string(), outcome.map(|()| format!("`{line}`")))
    };
    let tables = ANSWERS.iter().chain(&FILES);
    let named = tables.map(|(what, first, second, line)| (*what, program.prints(first, second, line), *line));
    named.chain(others(program)).map(told).collect()
}

/// What the tables can't name.
fn others(program: &Program) -> [(&'static str, Result<(), String>, &'static str); 8] {
    let whole = program.folder.join("example");
    let pieces: [&[u8]; 3] = [&EXAMPLE[..3], &EXAMPLE[3..4], &EXAMPLE[4..]];
    let (long, longer) = ([&[0x62; 8192][..], &[0x62]], "k".repeat(300));
    let far = format!("{}example", "./".repeat(300));
    let (first, second) = ("0000 refused 1 1", "0000 refused 1 2");
    [
        ("a name from the root", program.prints(&whole, "copy", "same"), "same"),
        ("a name of other letters than ASCII's", program.prints("example", LETTERS, "same"), "same"),
        // std opens no file by such a name; the launcher opens it (tests/parts/compare)
        ("a name that is no text", program.prints("example", OsStr::from_bytes(NO_TEXT), second), second),
        ("a name of 607 characters", program.prints("example", &far, "same"), "same"),
        ("a name that no file can have", program.prints("example", &longer, second), second),
        ("a pipe, in pieces", program.prints_from_pieces(["/dev/stdin", "copy"], &pieces, "same"), "same"),
        (
            "a pipe with nothing",
            program.prints_from_pieces(["copy", "/dev/stdin"], &[], "0000 ended 2"),
            "0000 ended 2",
        ),
        ("a pipe, too long", program.prints_from_pieces(["/dev/stdin", "copy"], &long, first), first),
    ]
}
