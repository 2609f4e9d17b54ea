//! The command line.

use std::io::Write;
use std::path::PathBuf;
use std::process::{Command, Output, Stdio};

fn second(arguments: &[&str], input: &[u8]) -> Output {
    let mut child = Command::new(env!("CARGO_BIN_EXE_second"))
        .args(arguments)
        .stdin(Stdio::piped())
        .stdout(Stdio::piped())
        .stderr(Stdio::piped())
        .spawn()
        .unwrap();
    // It may end before it has read everything.
    let _ = child.stdin.take().unwrap().write_all(input);
    child.wait_with_output().unwrap()
}

fn text(bytes: &[u8]) -> &str {
    std::str::from_utf8(bytes).unwrap()
}

/// A file of this test's own in the build's directory for such files.
fn file(name: &str, content: &[u8]) -> PathBuf {
    let path = PathBuf::from(env!("CARGO_TARGET_TMPDIR")).join(name);
    std::fs::write(&path, content).unwrap();
    path
}

const EXAMPLE: [u8; 8] = [0x01, 0x00, 0x00, 0x04, 0x02, 0x07, 0xA1, 0xEC];
const READING: &str =
    "stop 31 code 0 steps 3 module 0 pc 3 depth 0\n0 0 7 0 0 0 0 0 0 0 0 0 0 0 0 0\n";
/// The last line where no READ is completed.
const NO_INPUTS: &str = "rests on no inputs\n";

#[test]
fn reading() {
    let path = file("example", &EXAMPLE);
    for (arguments, input) in [
        (&["reading"][..], &EXAMPLE[..]),
        (&["reading", path.to_str().unwrap()], &[]),
    ] {
        let output = second(arguments, input);
        let answer = (text(&output.stdout), output.status.code());
        assert_eq!(answer, (&format!("{READING}{NO_INPUTS}")[..], Some(0)));
    }
    assert_eq!(text(&second(&["reading"], &[]).stdout), "refused 1\n");
}

/// A program that reads channel 5, and then channel 1 if that is not 0. Inputs that are
/// not given are 0, and a later one of the same channel holds.
#[test]
fn reading_with_inputs() {
    // LGA 3, LI5, READ, LGW3, JPFC to the RTN, LGA 3, LI1, READ, LI2, LGW3, WRITE, RTN.
    let code = [
        &[0o025, 3, 5, 0o240, 0o103, 0o032, 8][..],
        &[0o025, 3, 1, 0o240, 2, 0o103, 0o241, 0o354],
    ]
    .concat();
    let image = [&[1, 1, 0, 1, 0, code.len() as u8], &code[..]].concat();
    let check = |options: &[&str], steps: u32, output: u16, rests_on: &str| {
        let answer = second(&[&["reading"], options].concat(), &image);
        let zeros = ["0"; 13].join(" ");
        let expected = format!(
            "stop 31 code 0 steps {steps} module 0 pc 14 depth 0\n0 0 {output} {zeros}\n\
             rests on {rests_on}\n"
        );
        assert_eq!(text(&answer.stdout), expected, "{options:?}");
    };
    check(&[], 5, 0, "a guess, inputs not given: 5=0");
    check(&["--input", "5=0"], 5, 0, "inputs given: 5=0");
    check(
        &["--input", "5=7", "--input", "5=0"],
        5,
        0,
        "inputs given: 5=0",
    );
    // What is given and not read is not told.
    let others = ["--input", "1=200", "--input", "0=65535", "--input", "15=1"];
    check(&others, 5, 0, "a guess, inputs not given: 5=0");
    let both = ["--input", "5=7", "--input", "1=200"];
    check(&both, 11, 200, "inputs given: 1=200 5=7");
    let one = "inputs given: 5=7\nrests on a guess, inputs not given: 1=0";
    check(&both[..2], 11, 0, one);
    let output = second(&["reading", "--input", "5=7"], &image[..9]);
    assert_eq!(text(&output.stdout), "refused 3\n");
}

/// The inputs come last, and are those of both runs. The main program reads channel 0
/// into word 2, makes a process at 200 that begins at 40, names it in word 14, and traps
/// with 5; the trap process reads channel 3 and traps, which stops it.
#[test]
fn reading_tells_of_inputs_last() {
    let mut code = vec![2, 0, 0o240];
    for (address, word) in [(200, 128), (202, 40), (204, 221), (205, 4096), (14, 200)] {
        let ([a, b], [c, d]) = (u16::to_be_bytes(address), u16::to_be_bytes(word));
        code.extend([0o022, a, b, 0o022, c, d, 0o160]);
    }
    code.extend([5, 0o304]);
    code.extend([2, 3, 0o240, 0, 0o304]);
    let header = [1, 2, 2, 0, code.len() as u8, 0, 0, 0, 0, 0, 40, 0, 0];
    let image = [&header[..], &code].concat();
    let options = ["--input", "0=9", "--requests", "1", "--after", "20"];
    let output = second(&[&["reading"], &options[..]].concat(), &image);
    let lines: Vec<&str> = text(&output.stdout).lines().skip(2).collect();
    let expected = [
        "requests 1",
        "caught 40 process 131 module 0 pc 39",
        "rests on inputs given: 0=9",
        "rests on a guess, inputs not given: 3=0",
    ];
    assert_eq!(lines, expected);
}

/// With requests a third line has what is left of them. The vectors are zeros, so a
/// line is 35.
#[test]
fn reading_with_requests() {
    let path = file("example-requests", &EXAMPLE);
    let path = path.to_str().unwrap();
    let check = |word: &str, expected: &str| {
        for (arguments, input) in [
            (&["reading", "--requests", word][..], &EXAMPLE[..]),
            (&["reading", "--requests", word, path], &[]),
        ] {
            let output = second(arguments, input);
            let answer = (text(&output.stdout), output.status.code());
            assert_eq!(answer, (expected, Some(0)));
        }
    };
    check("0", &format!("{READING}{NO_INPUTS}"));
    check("255", &format!("{READING}requests 255\n{NO_INPUTS}"));
    let zeros = ["0"; 16].join(" ");
    let failed = |word: &str| {
        format!(
            "stop 35 code 0 steps 0 module 0 pc 0 depth 0\n{zeros}\nrequests {word}\n{NO_INPUTS}"
        )
    };
    check("256", &failed("256"));
    check("65535", &failed("65535"));
    let output = second(&["reading", "--requests", "256"], &[2]);
    assert_eq!(text(&output.stdout), "refused 3\n");
}

/// A caught trap is told in a line. The program makes a process at 200 that begins
/// as it does itself, names it in word 14, and traps with 5: first in process 131, then in
/// the trap process, where it stops.
#[test]
fn reading_tells_of_a_caught_trap() {
    let mut code = Vec::new();
    for (address, word) in [(200, 128), (202, 0), (204, 221), (205, 4096), (14, 200)] {
        let ([a, b], [c, d]) = (u16::to_be_bytes(address), u16::to_be_bytes(word));
        code.extend([0o022, a, b, 0o022, c, d, 0o160]);
    }
    code.extend([0o005, 0o304]);
    let image = [&[1, 0, 0, code.len() as u8], &code[..]].concat();
    let zeros = ["0"; 16].join(" ");
    // Fifteen steps write, one puts 5; the trap; the same again.
    let reading = format!("stop 40 code 5 steps 33 module 0 pc 36 depth 1\n{zeros}\n");
    let caught = "caught 40 process 131 module 0 pc 36\n";
    let output = second(&["reading"], &image);
    let expected = format!("{reading}{caught}{NO_INPUTS}");
    assert_eq!(text(&output.stdout), expected);
    let output = second(&["reading", "--requests", "1", "--after", "9"], &image);
    let expected = format!("{reading}requests 1\n{caught}{NO_INPUTS}");
    assert_eq!(text(&output.stdout), expected);
}

/// Requests that are given after some steps: before the end, or never. Options stand
/// in any order, and the last of a name holds.
#[test]
fn reading_with_requests_later() {
    let outputs = &READING[READING.find('\n').unwrap()..];
    let requests = format!("requests 256\n{NO_INPUTS}");
    let before_end = format!("stop 35 code 0 steps 3 module 0 pc 3 depth 0{outputs}{requests}");
    let never = format!("{READING}{requests}");
    let plain = format!("{READING}{NO_INPUTS}");
    for (arguments, expected) in [
        (&["--after", "3"][..], &plain),
        (&["--requests", "0", "--after", "3"], &plain),
        (&["--requests", "256", "--after", "3"], &before_end),
        (&["--after", "3", "--requests", "256"], &before_end),
        (
            &["--after", "1", "--requests", "256", "--after", "3"],
            &before_end,
        ),
        (&["--requests", "256", "--after", "4"], &never),
        (&["--requests", "256", "--after", "4294967295"], &never),
    ] {
        let output = second(&[&["reading"], arguments].concat(), &EXAMPLE);
        let answer = (text(&output.stdout), output.status.code());
        assert_eq!(answer, (&expected[..], Some(0)), "{arguments:?}");
    }
}

/// The 65,536th byte is seen: with it the image is too long, whatever it says.
/// Without it the image is longer than the desk's map.
#[test]
fn reading_sees_the_last_byte() {
    let image = |length: u16| {
        let mut image = vec![2, 0, 0x7F, 0xFF];
        image.resize(4 + 32_767, 0o336);
        *image.last_mut().unwrap() = 0o354;
        image.push(0);
        image.extend(length.to_be_bytes());
        image.resize(image.len() + usize::from(length), 0o354);
        image
    };
    let longest = image(32_761);
    assert_eq!(longest.len(), 65_535);
    let output = second(&["reading"], &longest);
    assert_eq!(text(&output.stdout), "refused 7\n");
    assert_eq!(
        text(&second(&["reading"], &image(32_762)).stdout),
        "refused 1\n"
    );
    let longer = [&longest[..], &[0; 100_000]].concat();
    assert_eq!(text(&second(&["reading"], &longer).stdout), "refused 1\n");
}

/// What the command `map` prints of an image.
fn map_of(name: &str, image: &[u8]) -> String {
    let path = file(name, image);
    let output = second(&["map", path.to_str().unwrap()], &[]);
    assert_eq!(output.status.code(), Some(0));
    text(&output.stdout).to_string()
}

#[test]
fn map() {
    assert_eq!(
        map_of("mapped", &EXAMPLE),
        "load 0\nffffffff ffffffff ffffffff ffffffff 00000000 00000001 00000002 00000000\n"
    );
    assert_eq!(map_of("unfit", &[1, 0, 0, 1, 0xC4]), "load 8\n");
    assert_eq!(map_of("short", &[1, 0, 0, 1]), "load 3\n");
    // Lines of eight entries. LI1 and RTN in a procedure with one result.
    let header = ["ffffffff"; 8].join(" ");
    assert_eq!(
        map_of("result", &[1, 2, 1, 0, 2, 0, 0, 0, 1, 0x01, 0xEC]),
        format!("load 0\n{header}\nffffffff 00000020 00000021\n")
    );
    // LI1, LI1, STORE, LI1, LODFW, TRAP: 2 saved, then 3 words.
    assert_eq!(
        map_of("saved", &[1, 0, 0, 6, 0x01, 0x01, 0xB2, 0x01, 0xB0, 0xC4]),
        "load 0\nffffffff ffffffff ffffffff ffffffff 00000000 00000001 00000002 00001100\n\
         00001101 00000003\n"
    );
}

/// For 13 the module, the position and the cause.
#[test]
fn map_of_code_that_is_not_whole() {
    for (code, expected) in [
        ([0o336, 0o021, 0o354], "1: unlisted opcode"),
        ([0o336, 0o336, 0o020], "2: operands outside the code"),
        ([0o042, 2, 0], "0: no such module"),
        ([0o360, 1, 0o354], "0: no such procedure"),
        ([0o336, 0o033, 1], "1: jump to a target outside the code"),
        ([0o336, 0o336, 0o336], "2: next position outside the code"),
    ] {
        // Module 0 returns, module 1 has the code.
        let image = [&[2, 0, 0, 1, 0o354, 0, 0, 3], &code[..]].concat();
        let expected = format!("load 13 module 1 position {expected}\n");
        assert_eq!(map_of("not-whole", &image), expected);
    }
}

/// What the command `archive` prints of an image.
fn form_of(name: &str, image: &[u8]) -> String {
    let path = file(name, image);
    let output = second(&["archive", path.to_str().unwrap()], &[]);
    assert_eq!(output.status.code(), Some(0));
    text(&output.stdout).to_string()
}

/// The number, and the form if the image is accepted. For 13 nothing else is told.
#[test]
fn archive() {
    assert_eq!(form_of("own", &EXAMPLE), "archive 0\n010000040207a1ec\n");
    // A data size of 0, the default procedure, a name of zeros.
    let fields = [&[1, 7, 0, 0, 1][..], &[0; 8], &[0, 4], &[0; 4]].concat();
    let spelled = [&fields, &EXAMPLE[4..]].concat();
    assert_eq!(
        form_of("spelled", &spelled),
        "archive 0\n010000040207a1ec\n"
    );
    // A line has the whole form, however long.
    let nops = [&[1, 0, 1, 0][..], &[0o336; 255], &[0o354]].concat();
    let expected = format!("archive 0\n01000100{}ec\n", "de".repeat(255));
    assert_eq!(form_of("long", &nops), expected);
    assert_eq!(form_of("empty", &[]), "archive 1\n");
    assert_eq!(form_of("cut", &[1, 0, 0, 1]), "archive 3\n");
    assert_eq!(form_of("no-depths", &[1, 0, 0, 1, 0xC4]), "archive 8\n");
    assert_eq!(form_of("unlisted", &[1, 0, 0, 1, 0o021]), "archive 13\n");
    assert_eq!(form_of("too-long", &[1; 65_536]), "archive 1\n");
}

#[test]
fn cases_and_expect() {
    let path = file("cases", &[]);
    let path = path.to_str().unwrap();
    let output = second(&["cases", "--seed", "5", "--count", "40", path], &[]);
    assert_eq!(output.status.code(), Some(0));
    let expected: String = second::gen::cases(&second::gen::FULL, 5, 40)
        .enumerate()
        .map(|(i, case)| format!("case {i}\n{}", second::case::replay(&case, &mut ())))
        .collect();
    let output = second(&["expect", path], &[]);
    assert_eq!(output.status.code(), Some(0));
    assert_eq!(text(&output.stdout), expected);
}

/// Small cases are written and their coverage is judged from the file.
#[test]
fn small_cases_and_their_coverage() {
    let path = file("cases-small", &[]);
    let path = path.to_str().unwrap();
    let write = |count: &str| {
        let arguments = ["cases", "--small", "--seed", "20", "--count", count, path];
        assert_eq!(second(&arguments, &[]).status.code(), Some(0));
        second(&["coverage", path], &[])
    };
    let output = write("3008");
    assert_eq!(output.status.code(), Some(0));
    assert!(text(&output.stdout).starts_with("cases 3008\n"));
    assert!(text(&output.stdout).ends_with("all opcodes, stops and refusals are covered\n"));
    let output = write("1");
    assert_eq!(output.status.code(), Some(1));
    assert!(text(&output.stdout).contains("missing: load never answered 8\n"));
    let sum = "missing: no stops of UADD with 37 with the result 65536\n";
    assert!(text(&output.stdout).contains(sum));
    let line = "missing: no steps of line 8\n";
    assert!(text(&output.stdout).contains(line));
    let read = "missing: no READs of channel 8\n";
    assert!(text(&output.stdout).contains(read));
    for kind in [
        "of the most modules accepted by load",
        "refused with 2 for a count of 22",
        "of one byte refused with 3 for 21",
    ] {
        let missing = format!("missing: no images {kind}\n");
        assert!(text(&output.stdout).contains(&missing));
    }
    for kind in [
        "modules written with the bit map 0 for 7",
        "forms written of 65535 bytes",
        "archive without output refused with 8",
    ] {
        let missing = format!("missing: no {kind}\n");
        assert!(text(&output.stdout).contains(&missing));
    }
}

/// A file of another version is refused, and the message says so.
#[test]
fn other_versions_of_cases_are_refused() {
    let mut cases = second::case::encode(&[]);
    assert_eq!(cases, [0x4D, 0x43, 0, 5, 0, 0, 0, 0]);
    for (version, message) in [
        (4, "cases of version 4, not of 5"),
        (6, "cases of version 6, not of 5"),
    ] {
        cases[3] = version;
        let path = file("cases-other", &cases);
        for command in ["expect", "coverage"] {
            let output = second(&[command, path.to_str().unwrap()], &[]);
            assert_eq!(output.status.code(), Some(2));
            let expected = format!("second: {}: {message}\n", path.display());
            assert_eq!(text(&output.stderr), expected);
        }
    }
}

#[test]
fn coverage_that_misses_something_fails() {
    let output = second(&["coverage", "--seed", "1", "--cases", "1"], &[]);
    assert_eq!(output.status.code(), Some(1));
    assert!(text(&output.stdout).contains("missing: load never answered 8\n"));
    let narrower = "missing: no images refused with 8 only for a return with one word too many\n";
    assert!(text(&output.stdout).contains(narrower));
    let fault = "missing: no images refused with 13 for unlisted opcode\n";
    assert!(text(&output.stdout).contains(fault));
    let carry = "missing: opcode 270 UADD never stopped with 37\n";
    assert!(text(&output.stdout).contains(carry));
}

#[test]
fn errors_are_one_line_and_status_2() {
    let no_file = file("cases-not", b"nothing of the kind");
    let no_file = no_file.to_str().unwrap();
    let missing = file("removed", &[]);
    std::fs::remove_file(&missing).unwrap();
    let missing = missing.to_str().unwrap();
    for arguments in [
        &[][..],
        &["unknown"],
        &["reading", "a", "b"],
        &["reading", missing],
        &["reading", "--requests"],
        &["reading", "--requests", ""],
        &["reading", "--requests", "65536"],
        &["reading", "--requests", "-1"],
        &["reading", "--requests", "+1"],
        &["reading", "--requests", "0x100"],
        &["reading", "--requests", "1", missing],
        &["reading", "--requests", "1", "a", "b"],
        &["reading", no_file, "--requests", "1"],
        &["reading", "--after"],
        &["reading", "--after", "-1"],
        &["reading", "--after", "4294967296"],
        &["reading", "--requests", "1", "--after"],
        &["reading", "--requests", "--after", "1"],
        &["reading", "--input"],
        &["reading", "--input", ""],
        &["reading", "--input", "="],
        &["reading", "--input", "1"],
        &["reading", "--input", "1="],
        &["reading", "--input", "=1"],
        &["reading", "--input", "16=1"],
        &["reading", "--input", "1=65536"],
        &["reading", "--input", "-1=1"],
        &["reading", "--input", "1=-1"],
        &["reading", "--input", "1=+1"],
        &["reading", "--input", "1=0x1"],
        &["reading", "--input", "1 = 1"],
        &["reading", "--input", "1=1=1"],
        &["reading", "--input", "1=1,2=2"],
        &["reading", "--input", "1=1", "--input"],
        &["reading", "--input", "1=1", missing],
        &["reading", no_file, "--input", "1=1"],
        &["reading", "--seed", "1"],
        &["map"],
        &["map", missing],
        &["archive"],
        &["archive", missing],
        &["archive", no_file, no_file],
        &["coverage", "--seed"],
        &["coverage", "--seed", "x"],
        &["coverage", "--count", "1"],
        &["coverage", missing],
        &["coverage", no_file],
        &["coverage", "--small", no_file],
        &["cases"],
        &["cases", "a", "b"],
        &["expect"],
        &["expect", missing],
        &["expect", no_file],
        &["speed", "extra"],
    ] {
        let output = second(arguments, &[]);
        assert_eq!(output.status.code(), Some(2), "{arguments:?}");
        assert_eq!(text(&output.stdout), "", "{arguments:?}");
        let message = text(&output.stderr);
        assert!(message.starts_with("second: "), "{message}");
        assert_eq!(message.matches('\n').count(), 1, "{message}");
    }
}

#[test]
fn help_names_every_command() {
    let output = second(&["--help"], &[]);
    assert_eq!(output.status.code(), Some(0));
    for command in [
        "reading", "map", "archive", "coverage", "cases", "expect", "speed",
    ] {
        assert!(text(&output.stdout).contains(&format!("second {command}")));
    }
}
