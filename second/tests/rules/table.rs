//! The table of 256 rows.

use second::opcode::{listed, row};

#[test]
fn the_row_rule_holds() {
    for opcode in 0..=255 {
        let row = row(opcode);
        if row.length == 0 {
            assert_eq!((row.taken, row.left, row.mnemonic), (0, 0, ""));
        } else {
            // Since A.1: LID alone is longer than 3, DADD and DSUB alone take 4.
            let longest = if opcode == 0o023 { 5 } else { 3 };
            let most_taken = 3 + u8::from(opcode == 0o210 || opcode == 0o211);
            assert!(row.length <= longest && row.taken <= most_taken && row.left <= 2);
            assert!(!row.mnemonic.is_empty());
        }
    }
}

/// The rows of A.1 and A.5: length, taken, left. Those of LODFW and STORE do not
/// say what is saved and restored.
#[test]
fn the_rows_of_later_opcodes() {
    let expected = [
        (0o023, "LID", 5, 0, 2),
        (0o041, "LLD", 2, 0, 2),
        (0o043, "LED", 3, 0, 2),
        (0o061, "SLD", 2, 2, 0),
        (0o063, "SED", 3, 2, 0),
        (0o101, "LGD", 2, 0, 2),
        (0o121, "SGD", 2, 2, 0),
        (0o201, "LSD", 2, 1, 2),
        (0o202, "LSD0", 1, 1, 2),
        (0o210, "DADD", 1, 4, 2),
        (0o211, "DSUB", 1, 4, 2),
        (0o221, "SSD", 2, 3, 0),
        (0o222, "SSD0", 1, 3, 0),
        (0o260, "LODFW", 1, 1, 1),
        (0o262, "STORE", 1, 0, 0),
    ];
    for (opcode, mnemonic, length, taken, left) in expected {
        let row = row(opcode);
        assert_eq!(row.mnemonic, mnemonic);
        assert_eq!((row.length, row.taken, row.left), (length, taken, left));
    }
}

#[test]
fn the_listed_opcodes() {
    // 186 of the base, 13 of A.1 and 2 of A.5.
    assert_eq!(listed().count(), 201);
    let unlisted = [
        0o021, 0o203, 0o204, 0o207, 0o212, 0o217, 0o223, 0o224, 0o227, 0o237, 0o242, 0o244, 0o246,
        0o247, 0o250, 0o251, 0o257, 0o261, 0o263, 0o264, 0o266, 0o267, 0o300, 0o303, 0o307, 0o324,
        0o325, 0o326, 0o334, 0o335, 0o337, 0o340, 0o347, 0o352, 0o357,
    ];
    for opcode in unlisted {
        assert_eq!(row(opcode).length, 0, "{opcode:03o}");
    }
}

#[test]
fn the_mnemonics_are_the_published_ones() {
    let expected = [
        (0o000, "LI0"),
        (0o017, "LI15"),
        (0o057, "LLW15"),
        (0o102, "LGW2"),
        (0o117, "LGW15"),
        (0o137, "SGW15"),
        (0o157, "LSW15"),
        (0o177, "SSW15"),
        (0o206, "LXW"),
        (0o226, "SXW"),
        (0o277, "SHR"),
        (0o317, "NEG"),
        (0o333, "DIV"),
        (0o372, "CL10"),
        (0o373, "CL11"),
        (0o377, "CL15"),
    ];
    for (opcode, mnemonic) in expected {
        assert_eq!(row(opcode).mnemonic, mnemonic);
    }
}
