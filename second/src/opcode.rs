//! "A table of 256 rows gives each opcode its length, words taken and words
//! left; a used row has length 1 to 3, at most 3 taken and 2 left, an unused
//! row length 0." A.1: "Table rows may now have length 5 and take 4 words." The
//! mnemonics are those of the published table.

/// One row of the table.
#[derive(Clone, Copy, Debug, PartialEq, Eq)]
pub struct Row {
    /// Bytes of the instruction, operands included; 0 in an unused row.
    pub length: u8,
    /// Words taken from the operand stack.
    pub taken: u8,
    /// Words put on the operand stack.
    pub left: u8,
    /// The published name; empty in an unused row.
    pub mnemonic: &'static str,
}

const UNUSED: Row = Row {
    length: 0,
    taken: 0,
    left: 0,
    mnemonic: "",
};

/// Opcodes that the depth rules or the generator treat by themselves.
pub const JPC: u8 = 0o030;
pub const JP: u8 = 0o031;
pub const JPFC: u8 = 0o032;
pub const JPF: u8 = 0o033;
pub const JPBC: u8 = 0o034;
pub const JPB: u8 = 0o035;
pub const ORJP: u8 = 0o036;
pub const ANDJP: u8 = 0o037;
pub const LLA: u8 = 0o024;
pub const LGA: u8 = 0o025;
pub const LSA: u8 = 0o026;
pub const LEA: u8 = 0o027;
pub const LEW: u8 = 0o042;
pub const SEW: u8 = 0o062;
pub const LIB: u8 = 0o020;
pub const LIW: u8 = 0o022;
pub const LID: u8 = 0o023;
pub const LLD: u8 = 0o041;
pub const LED: u8 = 0o043;
pub const SLD: u8 = 0o061;
pub const SED: u8 = 0o063;
pub const LGD: u8 = 0o101;
pub const SGD: u8 = 0o121;
pub const LSD: u8 = 0o201;
pub const LSD0: u8 = 0o202;
pub const DADD: u8 = 0o210;
pub const DSUB: u8 = 0o211;
pub const LSW0: u8 = 0o140;
pub const SSW0: u8 = 0o160;
pub const SSD: u8 = 0o221;
pub const SSD0: u8 = 0o222;
pub const READ: u8 = 0o240;
pub const WRITE: u8 = 0o241;
pub const TRA: u8 = 0o256;
pub const LODFW: u8 = 0o260;
pub const STORE: u8 = 0o262;
pub const UADD: u8 = 0o270;
pub const USUB: u8 = 0o271;
pub const UMUL: u8 = 0o272;
pub const UDIV: u8 = 0o273;
pub const TRAP: u8 = 0o304;
pub const CHKZ: u8 = 0o306;
pub const ABS: u8 = 0o316;
pub const XOR: u8 = 0o321;
pub const AND: u8 = 0o322;
pub const NOP: u8 = 0o336;
pub const ENTR: u8 = 0o353;
pub const RTN: u8 = 0o354;
pub const CX: u8 = 0o355;
pub const CI: u8 = 0o356;
pub const CL: u8 = 0o360;
pub const CL1: u8 = 0o361;
pub const CL15: u8 = 0o377;

/// The loads and stores of a pair of words.
pub const PAIRS: [u8; 10] = [LLD, LED, LGD, LSD, LSD0, SLD, SED, SGD, SSD, SSD0];

/// The instructions whose first operand names a module.
pub const NAMING: [u8; 6] = [LEA, LEW, LED, SEW, SED, CX];

/// The table, indexed by opcode.
pub const TABLE: [Row; 256] = build();

/// Gives consecutive opcodes from `first` the same length, taken and left.
const fn set(
    mut table: [Row; 256],
    first: usize,
    (length, taken, left): (u8, u8, u8),
    mnemonics: &[&'static str],
) -> [Row; 256] {
    let mut i = 0;
    while i < mnemonics.len() {
        table[first + i] = Row {
            length,
            taken,
            left,
            mnemonic: mnemonics[i],
        };
        i += 1;
    }
    table
}

const fn build() -> [Row; 256] {
    let t = [UNUSED; 256];
    // Literals and addresses.
    let t = set(
        t,
        0o000,
        (1, 0, 1),
        &[
            "LI0", "LI1", "LI2", "LI3", "LI4", "LI5", "LI6", "LI7", "LI8", "LI9", "LI10", "LI11",
            "LI12", "LI13", "LI14", "LI15",
        ],
    );
    let t = set(t, 0o020, (2, 0, 1), &["LIB"]);
    let t = set(t, 0o022, (3, 0, 1), &["LIW"]);
    let t = set(t, 0o023, (5, 0, 2), &["LID"]);
    let t = set(t, 0o024, (2, 0, 1), &["LLA", "LGA"]);
    let t = set(t, 0o026, (2, 1, 1), &["LSA"]);
    let t = set(t, 0o027, (3, 0, 1), &["LEA"]);
    // Jumps. "The rows of 036 and 037 say 1 left, which holds where they jump."
    let t = set(t, 0o030, (3, 1, 0), &["JPC"]);
    let t = set(t, 0o031, (3, 0, 0), &["JP"]);
    let t = set(t, 0o032, (2, 1, 0), &["JPFC"]);
    let t = set(t, 0o033, (2, 0, 0), &["JPF"]);
    let t = set(t, 0o034, (2, 1, 0), &["JPBC"]);
    let t = set(t, 0o035, (2, 0, 0), &["JPB"]);
    let t = set(t, 0o036, (2, 1, 1), &["ORJP", "ANDJP"]);
    // Load word.
    let t = set(t, 0o040, (2, 0, 1), &["LLW"]);
    let t = set(t, 0o042, (3, 0, 1), &["LEW"]);
    let t = set(
        t,
        0o044,
        (1, 0, 1),
        &[
            "LLW4", "LLW5", "LLW6", "LLW7", "LLW8", "LLW9", "LLW10", "LLW11", "LLW12", "LLW13",
            "LLW14", "LLW15",
        ],
    );
    let t = set(t, 0o100, (2, 0, 1), &["LGW"]);
    let t = set(
        t,
        0o102,
        (1, 0, 1),
        &[
            "LGW2", "LGW3", "LGW4", "LGW5", "LGW6", "LGW7", "LGW8", "LGW9", "LGW10", "LGW11",
            "LGW12", "LGW13", "LGW14", "LGW15",
        ],
    );
    let t = set(
        t,
        0o140,
        (1, 1, 1),
        &[
            "LSW0", "LSW1", "LSW2", "LSW3", "LSW4", "LSW5", "LSW6", "LSW7", "LSW8", "LSW9",
            "LSW10", "LSW11", "LSW12", "LSW13", "LSW14", "LSW15",
        ],
    );
    let t = set(t, 0o200, (2, 1, 1), &["LSW"]);
    let t = set(t, 0o205, (1, 2, 1), &["LXB", "LXW"]);
    // Store word.
    let t = set(t, 0o060, (2, 1, 0), &["SLW"]);
    let t = set(t, 0o062, (3, 1, 0), &["SEW"]);
    let t = set(
        t,
        0o064,
        (1, 1, 0),
        &[
            "SLW4", "SLW5", "SLW6", "SLW7", "SLW8", "SLW9", "SLW10", "SLW11", "SLW12", "SLW13",
            "SLW14", "SLW15",
        ],
    );
    let t = set(t, 0o120, (2, 1, 0), &["SGW"]);
    let t = set(
        t,
        0o122,
        (1, 1, 0),
        &[
            "SGW2", "SGW3", "SGW4", "SGW5", "SGW6", "SGW7", "SGW8", "SGW9", "SGW10", "SGW11",
            "SGW12", "SGW13", "SGW14", "SGW15",
        ],
    );
    let t = set(
        t,
        0o160,
        (1, 2, 0),
        &[
            "SSW0", "SSW1", "SSW2", "SSW3", "SSW4", "SSW5", "SSW6", "SSW7", "SSW8", "SSW9",
            "SSW10", "SSW11", "SSW12", "SSW13", "SSW14", "SSW15",
        ],
    );
    let t = set(t, 0o220, (2, 2, 0), &["SSW"]);
    let t = set(t, 0o225, (1, 3, 0), &["SXB", "SXW"]);
    // Load and store a pair of words; sum and difference of two pairs.
    let t = set(t, 0o041, (2, 0, 2), &["LLD"]);
    let t = set(t, 0o043, (3, 0, 2), &["LED"]);
    let t = set(t, 0o101, (2, 0, 2), &["LGD"]);
    let t = set(t, 0o201, (2, 1, 2), &["LSD"]);
    let t = set(t, 0o202, (1, 1, 2), &["LSD0"]);
    let t = set(t, 0o061, (2, 2, 0), &["SLD"]);
    let t = set(t, 0o063, (3, 2, 0), &["SED"]);
    let t = set(t, 0o121, (2, 2, 0), &["SGD"]);
    let t = set(t, 0o221, (2, 3, 0), &["SSD"]);
    let t = set(t, 0o222, (1, 3, 0), &["SSD0"]);
    let t = set(t, 0o210, (1, 4, 2), &["DADD", "DSUB"]);
    // Channels, checks, unsigned arithmetic.
    let t = set(t, 0o240, (1, 2, 0), &["READ", "WRITE"]);
    let t = set(t, 0o245, (1, 3, 1), &["UCHK"]);
    let t = set(t, 0o252, (1, 2, 1), &["ULSS", "ULEQ", "UGTR", "UGEQ"]);
    let t = set(t, 0o256, (2, 2, 0), &["TRA"]);
    // They save and restore up to 16 words, which no row can say.
    let t = set(t, 0o260, (1, 1, 1), &["LODFW"]);
    let t = set(t, 0o262, (1, 0, 0), &["STORE"]);
    let t = set(t, 0o265, (1, 1, 2), &["COPT"]);
    let t = set(
        t,
        0o270,
        (1, 2, 1),
        &["UADD", "USUB", "UMUL", "UDIV", "UMOD", "ROR", "SHL", "SHR"],
    );
    let t = set(t, 0o304, (1, 1, 0), &["TRAP"]);
    let t = set(t, 0o305, (1, 3, 1), &["CHK"]);
    let t = set(t, 0o306, (1, 2, 1), &["CHKZ"]);
    // Signed arithmetic and logic.
    let t = set(
        t,
        0o310,
        (1, 2, 1),
        &["EQL", "NEQ", "LSS", "LEQ", "GTR", "GEQ"],
    );
    let t = set(t, 0o316, (1, 1, 1), &["ABS", "NEG"]);
    let t = set(t, 0o320, (1, 2, 1), &["OR", "XOR", "AND"]);
    let t = set(t, 0o323, (1, 1, 1), &["COM"]);
    let t = set(t, 0o327, (1, 1, 1), &["NOT"]);
    let t = set(t, 0o330, (1, 2, 1), &["ADD", "SUB", "MUL", "DIV"]);
    let t = set(t, 0o336, (1, 0, 0), &["NOP"]);
    // Procedures. The results of a callee are its record's, not the row's.
    let t = set(t, 0o350, (2, 0, 1), &["GB"]);
    let t = set(t, 0o351, (1, 0, 1), &["GB1"]);
    let t = set(t, 0o353, (2, 0, 0), &["ENTR"]);
    let t = set(t, 0o354, (1, 0, 0), &["RTN"]);
    let t = set(t, 0o355, (3, 0, 0), &["CX"]);
    let t = set(t, 0o356, (2, 1, 0), &["CI"]);
    let t = set(t, 0o360, (2, 0, 0), &["CL"]);
    // "octal 372 is CL10, 373 is CL11"
    set(
        t,
        0o361,
        (1, 0, 0),
        &[
            "CL1", "CL2", "CL3", "CL4", "CL5", "CL6", "CL7", "CL8", "CL9", "CL10", "CL11", "CL12",
            "CL13", "CL14", "CL15",
        ],
    )
}

/// The row of an opcode.
pub fn row(opcode: u8) -> &'static Row {
    static ROWS: [Row; 256] = TABLE;
    &ROWS[usize::from(opcode)]
}

/// The listed opcodes in rising order.
pub fn listed() -> impl Iterator<Item = u8> {
    (0..=u8::MAX).filter(|&opcode| row(opcode).length != 0)
}
