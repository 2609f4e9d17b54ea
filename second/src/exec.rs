//! "Instructions": the stepping loop.
//!
//! The loop trusts what was tested before it: the map fits, so an instruction
//! lies in its code with its operands, the words that it takes are on the
//! stack and those it puts find room, and every module and procedure operand
//! exists. What depends on words of the store is tested here.

use crate::api::RunAnswer;
use crate::image::{Procedure, Program};
use crate::machine::Machine;
use crate::number;
use crate::request::{self, HELD, LINES};

/// What a run is lent. The slices have passed run's tests.
pub struct Lent<'a> {
    pub image: &'a [u8],
    pub map: &'a [u32],
    pub store: &'a mut [u16],
    pub outputs: &'a mut [u16; 16],
    pub inputs: &'a [u16; 16],
}

/// Sees each step that is counted.
pub trait Observer {
    /// An instruction is done.
    fn done(&mut self, opcode: u8);
    /// It is a READ of this module: which channel it took, and to which address.
    fn read(&mut self, module: u8, channel: u16, address: u16);
    /// A line is taken.
    fn taken(&mut self, line: u8);
    /// A trap is caught: of the instruction, or of the line that failed. These are
    /// the machine at the trap and the one that goes on.
    fn caught(&mut self, trap: u8, line: Option<u8>, old: &Machine, new: &Machine);
}

/// Sees nothing.
impl Observer for () {
    #[inline(always)]
    fn done(&mut self, _: u8) {}

    #[inline(always)]
    fn read(&mut self, _: u8, _: u16, _: u16) {}

    #[inline(always)]
    fn taken(&mut self, _: u8) {}

    #[inline(always)]
    fn caught(&mut self, _: u8, _: Option<u8>, _: &Machine, _: &Machine) {}
}

/// What the loop uses of the module that it is in.
#[derive(Clone, Copy)]
struct Here<'a> {
    code: &'a [u8],
    procedures: &'a [Procedure],
    /// G.
    base: u16,
}

impl<'a> Here<'a> {
    /// Inlined so that the loop keeps the parts in registers.
    #[inline(always)]
    fn new(program: &'a Program, image: &'a [u8], module: u8) -> Here<'a> {
        let index = usize::from(module);
        Here {
            code: &image[program.modules[index].code_range()],
            procedures: program.procedures(index),
            base: program.modules[index].base as u16,
        }
    }
}

/// Steps until a stop that is no trap, or a trap that is not caught. A.8: a trap that
/// is caught "counts as a step", and the run goes on. It comes before n steps are
/// done, so that one is left for it. The code of 40 is lost, and the bit of a line
/// that failed is kept. The channels are those of all READs of the run.
pub fn execute<O: Observer>(
    program: &Program,
    mut lent: Lent,
    machine: Machine,
    requests: u16,
    n: u32,
    observer: &mut O,
) -> RunAnswer {
    let channels = &mut 0;
    let mut answer = until_stop(program, &mut lent, machine, requests, n, channels, observer);
    loop {
        let line = answer.failed_line(lent.store);
        let Some(resumed) = catch_trap(program, lent.map, lent.store, &answer) else {
            return answer;
        };
        observer.caught(answer.number, line, &answer.machine, &resumed);
        let count = answer.count + 1;
        let (left, n) = (answer.requests, n - count);
        answer = until_stop(program, &mut lent, resumed, left, n, channels, observer);
        answer.count += count;
    }
}

/// Steps until a stop: 30 after n steps, 31 at the end, or a trap. A line that is
/// open comes before the instruction, also before an end or a trap. "A trap or
/// an end leaves everything as before its instruction", so every arm below
/// stops before it alters anything. The channels of its READs are added to the word
/// of the run. Not inlined: the loop wants all registers.
#[inline(never)]
fn until_stop<O: Observer>(
    program: &Program,
    lent: &mut Lent,
    machine: Machine,
    mut requests: u16,
    n: u32,
    channels: &mut u16,
    observer: &mut O,
) -> RunAnswer {
    let &mut Lent {
        image, map, inputs, ..
    } = lent;
    let (store, outputs) = (&mut *lent.store, &mut *lent.outputs);
    let Machine {
        mut module,
        mut p,
        mut l,
        mut s,
        mut h,
        mut m,
        mut stack,
        ..
    } = machine;
    let mut pc = usize::from(machine.pc);
    let mut depth = usize::from(machine.depth);
    let mut here = Here::new(program, image, module);
    let mut left = n;

    // The word `i` places from the top: 1 is the paper's a, 2 its c, 3 its e.
    // The remainder by 16 only spares a bounds test that the map makes idle.
    macro_rules! word {
        ($i:literal) => {
            stack[depth.wrapping_sub($i) % 16]
        };
    }
    macro_rules! put {
        ($word:expr) => {{
            stack[depth % 16] = $word;
            depth += 1;
        }};
    }
    // b, w: the operand byte or word at an offset from the opcode.
    macro_rules! byte {
        ($offset:literal) => {
            here.code[pc + $offset]
        };
    }
    macro_rules! operand_word {
        () => {
            operand_word!(1, 2)
        };
        ($high:literal, $low:literal) => {
            u16::from_be_bytes([byte!($high), byte!($low)])
        };
    }
    // "Address sums are modulo 65,536; one not below W is trap 32."
    macro_rules! at {
        ($base:expr, $offset:expr) => {
            match store.get_mut(usize::from($base.wrapping_add(u16::from($offset)))) {
                Some(word) => word,
                None => break (number::ADDRESS, 0),
            }
        };
    }
    macro_rules! load {
        ($base:expr, $offset:expr, $length:literal) => {{
            let word = *at!($base, $offset);
            put!(word);
            pc += $length;
        }};
    }
    macro_rules! store {
        ($base:expr, $offset:expr, taken $taken:literal, $length:literal) => {{
            *at!($base, $offset) = word!(1);
            depth -= $taken;
            pc += $length;
        }};
    }
    // A.1: "If either address fails, trap 32 is given and neither word is
    // written." The same pair of addresses serves the loads and the stores.
    macro_rules! pair_at {
        ($base:expr, $offset:expr) => {
            match pair(store, $base.wrapping_add(u16::from($offset))) {
                Some(addresses) => addresses,
                None => break (number::ADDRESS, 0),
            }
        };
    }
    // "The high word is at the first address and lies below the low word on
    // the stack."
    macro_rules! load_pair {
        ($base:expr, $offset:expr, taken $taken:literal, $length:literal) => {{
            let (high, low) = pair_at!($base, $offset);
            depth -= $taken;
            put!(store[high]);
            put!(store[low]);
            pc += $length;
        }};
    }
    macro_rules! store_pair {
        ($base:expr, $offset:expr, taken $taken:literal, $length:literal) => {{
            let (high, low) = pair_at!($base, $offset);
            store[high] = word!(2);
            store[low] = word!(1);
            depth -= $taken;
            pc += $length;
        }};
    }
    // Replaces the two top pairs by one.
    macro_rules! two_pairs {
        (|$lower:ident, $upper:ident| $result:expr) => {{
            let $lower = double(word!(4), word!(3));
            let $upper = double(word!(2), word!(1));
            let result: u32 = $result;
            word!(4) = (result >> 16) as u16;
            word!(3) = result as u16;
            depth -= 2;
            pc += 1;
        }};
    }
    // Replaces the top word, or the two top words, by one.
    macro_rules! one {
        (|$a:ident| $result:expr) => {{
            let $a = word!(1);
            word!(1) = $result;
            pc += 1;
        }};
    }
    macro_rules! two {
        (|$c:ident, $a:ident| $result:expr) => {{
            let ($c, $a) = (word!(2), word!(1));
            word!(2) = $result;
            depth -= 1;
            pc += 1;
        }};
    }
    // A result, or None where no word holds it: trap 37.
    macro_rules! in_range {
        ($result:expr) => {
            match $result {
                Some(result) => result as u16,
                None => break (number::RESULT_RANGE, 0),
            }
        };
    }
    macro_rules! base_of {
        ($module:expr) => {
            program.modules[usize::from($module)].base as u16
        };
    }
    // "S+4 above H is 33. Words S, S+1, S+2 become link, L, next position;
    // L = S, S += 4."
    macro_rules! mark {
        ($link:expr, $position:expr) => {{
            let frame = usize::from(s);
            if frame + 4 > usize::from(h) {
                break (number::STACK_LIMIT, 0);
            }
            store[frame..frame + 3].copy_from_slice(&[$link, l, $position as u16]);
            l = s;
            s += 4;
        }};
    }
    // A signed division's zero divisor comes before its range.
    macro_rules! divisor {
        ($a:expr) => {
            if $a == 0 {
                break (number::DIVISOR, 0);
            }
        };
    }
    macro_rules! gather {
        () => {
            Machine {
                module,
                pc: pc as u16,
                depth: depth as u8,
                p,
                l,
                s,
                h,
                m,
                stack,
            }
        };
    }
    // Goes on with the machine that a change of process leaves, or traps.
    macro_rules! resume {
        ($changed:expr) => {
            match $changed {
                Err(trap) => break (trap, 0),
                Ok(resumed) => {
                    Machine {
                        module,
                        p,
                        l,
                        s,
                        h,
                        m,
                        stack,
                        ..
                    } = resumed;
                    pc = usize::from(resumed.pc);
                    depth = usize::from(resumed.depth);
                    here = Here::new(program, image, module);
                }
            }
        };
    }

    let (stop, code) = loop {
        if left == 0 {
            break (number::SPENT, 0);
        }
        // A.7: "Before an instruction, the highest line is taken that is in the
        // requests, not in M and not in store word 3. [...] It counts as a step
        // and clears its bit. [...] A failed transfer is trap 35 with the bit
        // kept."
        if requests & LINES != 0 {
            let open = request::open(requests, m, store[HELD]);
            if let Some(line) = request::highest(open) {
                resume!(take_line(program, map, store, gather!(), line));
                requests &= !request::bit(line);
                observer.taken(line);
                left -= 1;
                continue;
            }
        }
        let opcode = here.code[pc];
        let low = opcode & 0o17;
        match opcode {
            // "000–017 put 0–15. 020 b. 022 w. 024 L+b. 025 G+b. 026 a+b.
            // 027 m b: base m + b."
            0o000..=0o017 => {
                put!(u16::from(low));
                pc += 1;
            }
            0o020 => {
                put!(u16::from(byte!(1)));
                pc += 2;
            }
            0o022 => {
                put!(operand_word!());
                pc += 3;
            }
            // A.1: "LID (023, two operand words, high first)".
            0o023 => {
                put!(operand_word!(1, 2));
                put!(operand_word!(3, 4));
                pc += 5;
            }
            0o024 => {
                put!(l.wrapping_add(u16::from(byte!(1))));
                pc += 2;
            }
            0o025 => {
                put!(here.base.wrapping_add(u16::from(byte!(1))));
                pc += 2;
            }
            0o026 => {
                word!(1) = word!(1).wrapping_add(u16::from(byte!(1)));
                pc += 2;
            }
            0o027 => {
                put!(base_of!(byte!(1)).wrapping_add(u16::from(byte!(2))));
                pc += 3;
            }

            // "Jumps, from the operand's first byte: 030 w signed, if a = 0;
            // 031 w signed, always; 032 b forward, if a = 0; 033 b forward;
            // 034 b back, if a = 0; 035 b back."
            0o030 => {
                depth -= 1;
                pc = if stack[depth % 16] == 0 {
                    (pc + 1).wrapping_add_signed(isize::from(operand_word!() as i16))
                } else {
                    pc + 3
                };
            }
            0o031 => pc = (pc + 1).wrapping_add_signed(isize::from(operand_word!() as i16)),
            0o032 => {
                depth -= 1;
                pc += if stack[depth % 16] == 0 {
                    1 + usize::from(byte!(1))
                } else {
                    2
                };
            }
            0o033 => pc += 1 + usize::from(byte!(1)),
            0o034 => {
                depth -= 1;
                pc = if stack[depth % 16] == 0 {
                    pc + 1 - usize::from(byte!(1))
                } else {
                    pc + 2
                };
            }
            0o035 => pc = pc + 1 - usize::from(byte!(1)),
            // "036 b: a ≠ 0 puts 1 and jumps forward. 037 b: a = 0 puts 0 and
            // jumps forward. The other outcome only takes a."
            0o036 => {
                if word!(1) != 0 {
                    word!(1) = 1;
                    pc += 1 + usize::from(byte!(1));
                } else {
                    depth -= 1;
                    pc += 2;
                }
            }
            0o037 => {
                if word!(1) == 0 {
                    pc += 1 + usize::from(byte!(1));
                } else {
                    depth -= 1;
                    pc += 2;
                }
            }

            // "Load word: 040 L+b, 044–057 L+4..15; 100 G+b, 102–117
            // G+2..15; 042 m b; 140–157 a+0..15; 200 a+b; 206 c+a."
            0o040 => load!(l, byte!(1), 2),
            0o042 => load!(base_of!(byte!(1)), byte!(2), 3),
            0o044..=0o057 => load!(l, low, 1),
            0o100 => load!(here.base, byte!(1), 2),
            0o102..=0o117 => load!(here.base, low, 1),
            0o140..=0o157 => {
                word!(1) = *at!(word!(1), low);
                pc += 1;
            }
            0o200 => {
                word!(1) = *at!(word!(1), byte!(1));
                pc += 2;
            }
            0o206 => {
                word!(2) = *at!(word!(2), word!(1));
                depth -= 1;
                pc += 1;
            }

            // "Store: 060, 064–077, 120, 122–137, 062 likewise, value a;
            // 160–177 and 220 store a at c+0..15 or c+b; 226 stores a at e+c."
            0o060 => store!(l, byte!(1), taken 1, 2),
            0o062 => store!(base_of!(byte!(1)), byte!(2), taken 1, 3),
            0o064..=0o077 => store!(l, low, taken 1, 1),
            0o120 => store!(here.base, byte!(1), taken 1, 2),
            0o122..=0o137 => store!(here.base, low, taken 1, 1),
            0o160..=0o177 => store!(word!(2), low, taken 2, 1),
            0o220 => store!(word!(2), byte!(1), taken 2, 2),
            0o226 => store!(word!(3), word!(2), taken 3, 1),

            // A.1: "LLD 041, LED 043, LGD 101, LSD 201, LSD0 202 [...] Each
            // addresses as its one-word form does, LSD0 and SSD0 with offset
            // 0".
            0o041 => load_pair!(l, byte!(1), taken 0, 2),
            0o043 => load_pair!(base_of!(byte!(1)), byte!(2), taken 0, 3),
            0o101 => load_pair!(here.base, byte!(1), taken 0, 2),
            0o201 => load_pair!(word!(1), byte!(1), taken 1, 2),
            0o202 => load_pair!(word!(1), 0u8, taken 1, 1),
            // "SLD 061, SED 063, SGD 121, SSD 221, SSD0 222 [...] Stores take
            // the address below the value."
            0o061 => store_pair!(l, byte!(1), taken 2, 2),
            0o063 => store_pair!(base_of!(byte!(1)), byte!(2), taken 2, 3),
            0o121 => store_pair!(here.base, byte!(1), taken 2, 2),
            0o221 => store_pair!(word!(3), byte!(1), taken 3, 2),
            0o222 => store_pair!(word!(3), 0u8, taken 3, 1),
            // "DADD 210 and DSUB 211 [...] Sums and differences are modulo 2
            // to the 32nd."
            0o210 => two_pairs!(|lower, upper| lower.wrapping_add(upper)),
            0o211 => two_pairs!(|lower, upper| lower.wrapping_sub(upper)),

            // "205: byte a of the string at c; 225: byte c of the string at e
            // set to a modulo 256. Byte i is in word i div 2, even i the high
            // byte."
            0o205 => {
                let index = word!(1);
                let [high, low] = at!(word!(2), index / 2).to_be_bytes();
                word!(2) = u16::from(if index % 2 == 0 { high } else { low });
                depth -= 1;
                pc += 1;
            }
            0o225 => {
                let index = word!(2);
                let value = word!(1) % 256;
                let word = at!(word!(3), index / 2);
                *word = if index % 2 == 0 {
                    value << 8 | *word & 0x00FF
                } else {
                    *word & 0xFF00 | value
                };
                depth -= 3;
                pc += 1;
            }

            // "270, 271, 272: c plus, minus, times a [...] 273, 274 quotient,
            // remainder; a = 0 is trap 36." A.6: "UADD, USUB and UMUL give trap
            // 37 when the true result lies outside 0 to 65,535."
            0o270 => two!(|c, a| in_range!(c.checked_add(a))),
            0o271 => two!(|c, a| in_range!(c.checked_sub(a))),
            0o272 => two!(|c, a| in_range!(c.checked_mul(a))),
            0o273 => {
                divisor!(word!(1));
                two!(|c, a| c / a)
            }
            0o274 => {
                divisor!(word!(1));
                two!(|c, a| c % a)
            }
            // "252–255 unsigned <, ≤, >, ≥ of c to a. [...] Truth is 1,
            // falsehood 0."
            0o252 => two!(|c, a| u16::from(c < a)),
            0o253 => two!(|c, a| u16::from(c <= a)),
            0o254 => two!(|c, a| u16::from(c > a)),
            0o255 => two!(|c, a| u16::from(c >= a)),

            // "Signed: 330–333 add, subtract, multiply, divide toward zero;
            // 316 absolute, 317 negate. Zero divisor: 36; a result outside
            // −32,768 to 32,767: 37."
            0o330 => two!(|c, a| in_range!((c as i16).checked_add(a as i16))),
            0o331 => two!(|c, a| in_range!((c as i16).checked_sub(a as i16))),
            0o332 => two!(|c, a| in_range!((c as i16).checked_mul(a as i16))),
            0o333 => {
                divisor!(word!(1));
                two!(|c, a| in_range!((c as i16).checked_div(a as i16)))
            }
            0o316 => one!(|a| in_range!((a as i16).checked_abs())),
            0o317 => one!(|a| in_range!((a as i16).checked_neg())),
            // "310, 311 equal, unequal; 312–315 <, ≤, >, ≥."
            0o310 => two!(|c, a| u16::from(c == a)),
            0o311 => two!(|c, a| u16::from(c != a)),
            0o312 => two!(|c, a| u16::from((c as i16) < a as i16)),
            0o313 => two!(|c, a| u16::from(c as i16 <= a as i16)),
            0o314 => two!(|c, a| u16::from(c as i16 > a as i16)),
            0o315 => two!(|c, a| u16::from(c as i16 >= a as i16)),

            // "320 or, 321 exclusive or, 322 and, 323 complement, 327: 1 if
            // a = 0, else 0."
            0o320 => two!(|c, a| c | a),
            0o321 => two!(|c, a| c ^ a),
            0o322 => two!(|c, a| c & a),
            0o323 => one!(|a| !a),
            0o327 => one!(|a| u16::from(a == 0)),
            // "276, 277 shift c left or right by a (16 or more gives 0); 275
            // rotates c right by a modulo 16."
            0o275 => two!(|c, a| c.rotate_right(u32::from(a % 16))),
            0o276 => two!(|c, a| c.checked_shl(u32::from(a)).unwrap_or(0)),
            0o277 => two!(|c, a| c.checked_shr(u32::from(a)).unwrap_or(0)),

            // "305: a high, c low, e stays; signed e outside is trap 38; 245
            // unsigned; 306 a high, c stays, low 0, unsigned."
            0o305 => {
                if !(word!(2) as i16..=word!(1) as i16).contains(&(word!(3) as i16)) {
                    break (number::CHECK, 0);
                }
                depth -= 2;
                pc += 1;
            }
            0o245 => {
                if !(word!(2)..=word!(1)).contains(&word!(3)) {
                    break (number::CHECK, 0);
                }
                depth -= 2;
                pc += 1;
            }
            0o306 => {
                if word!(2) > word!(1) {
                    break (number::CHECK, 0);
                }
                depth -= 1;
                pc += 1;
            }
            // "265 doubles a. 336 nothing."
            0o265 => {
                put!(word!(1));
                pc += 1;
            }
            0o336 => pc += 1,

            // "240: a channel, c address: the store word becomes that input.
            // 241: output channel c becomes a. Channel above 15 is 39, before
            // 32. 304: trap 40 with code a." A.9: "bit i set exactly when a
            // completed READ took input channel i".
            0o240 => {
                let (channel, address) = (word!(1), word!(2));
                let Some(&input) = inputs.get(usize::from(channel)) else {
                    break (number::CHANNEL, 0);
                };
                *at!(address, 0u8) = input;
                *channels |= 1 << channel;
                depth -= 2;
                pc += 1;
                observer.read(module, channel, address);
            }
            0o241 => {
                let Some(output) = outputs.get_mut(usize::from(word!(2))) else {
                    break (number::CHANNEL, 0);
                };
                *output = word!(1);
                depth -= 2;
                pc += 1;
            }
            0o304 => break (number::PROGRAM, word!(1)),

            // "353 b: S+b above H is 33, else S += b. 350 b: from L, b times
            // the word at that address; puts it. 351 is 350 with 1."
            0o353 => {
                let raised = u32::from(s) + u32::from(byte!(1));
                if raised > u32::from(h) {
                    break (number::STACK_LIMIT, 0);
                }
                s = raised as u16;
                pc += 2;
            }
            0o350 => {
                let Some(address) = follow_links(store, l, byte!(1)) else {
                    break (number::ADDRESS, 0);
                };
                put!(address);
                pc += 2;
            }
            0o351 => load!(l, 0u8, 1),

            // "Calls 360 n, 361–377 procedure 1–15, 356 n (a is the link),
            // 355 m n. [...] link (L; a; G for 355), L, next position (+8000
            // hex for 355)"
            0o355 => {
                mark!(here.base, (pc + 3) as u16 + Machine::FAR);
                let number = byte!(2);
                module = byte!(1);
                here = Here::new(program, image, module);
                pc = usize::from(here.procedures[usize::from(number)].entry);
            }
            0o356 => {
                mark!(word!(1), pc + 2);
                depth -= 1;
                pc = usize::from(here.procedures[usize::from(byte!(1))].entry);
            }
            0o360 => {
                mark!(l, pc + 2);
                pc = usize::from(here.procedures[usize::from(byte!(1))].entry);
            }
            0o361..=0o377 => {
                mark!(l, pc + 1);
                pc = usize::from(here.procedures[usize::from(low)].entry);
            }

            // "354: L above H is 34. Word L+2 of 7FFF hex ends. Below 8000 hex
            // it is a position here, else minus 8000 hex in the module whose
            // base is word L. No such module, or no mark equal to the current
            // depth there: 34. S = L, L = word L+1." The result counts of both
            // positions may differ.
            0o354 => {
                if l > h {
                    break (number::RETURN_MARK, 0);
                }
                // H + 24 ≤ W, so the mark lies in the store.
                let frame = usize::from(l);
                let mark = &store[frame..frame + 3];
                let (base, dynamic_link, position) = (mark[0], mark[1], mark[2]);
                if position == Machine::END_MARK {
                    break (number::ENDED, 0);
                }
                if position < Machine::FAR {
                    if !program.is_marked(map, usize::from(module), position, depth as u8) {
                        break (number::RETURN_MARK, 0);
                    }
                    pc = usize::from(position);
                } else {
                    let position = position - Machine::FAR;
                    let Some(target) = marked(program, map, base, position, depth as u8) else {
                        break (number::RETURN_MARK, 0);
                    };
                    module = target;
                    here = Here::new(program, image, module);
                    pc = usize::from(position);
                }
                s = l;
                l = dynamic_link;
            }

            // A.5: "STORE writes the expression stack from S up, top first, then
            // its count, and raises S; beyond H it is trap 33. The depth is
            // then 0."
            0o262 => {
                if usize::from(s) + depth + 1 > usize::from(h) {
                    break (number::STACK_LIMIT, 0);
                }
                s = save(store, s, &stack[..depth]);
                depth = 0;
                pc += 1;
            }
            // "LODFW [...] takes the result, lowers S past the count and the
            // words, restores them and puts the result on top. [...] At run
            // time a count other than the recorded front, or fewer words below
            // S, is trap 34." The front is the one at this position.
            0o260 => {
                let mark = program.mark(map, usize::from(module), pc as u16);
                let front = mark.and_then(|mark| mark.saved.front()).map(usize::from);
                let front = front.expect("the map fits");
                let top = usize::from(s);
                if top < front + 1 || usize::from(store[top - 1]) != front {
                    break (number::RETURN_MARK, 0);
                }
                let result = word!(1);
                let lowest = top - 1 - front;
                copy_reversed(&mut stack[..front], &store[lowest..top - 1]);
                s = lowest as u16;
                depth = front;
                put!(result);
                pc += 1;
            }

            0o256 => resume!(transfer(program, map, store, gather!(), byte!(1) != 0)),

            _ => unreachable!("a marked position holds a listed opcode"),
        }
        observer.done(opcode);
        left -= 1;
    };
    // "zeros above its depth"
    stack[depth..].fill(0);
    RunAnswer {
        number: stop,
        code,
        count: n - left,
        requests,
        channels: *channels,
        machine: gather!(),
    }
}

/// The addresses of a pair's high and low word, if both lie in the store: "the
/// low word's address is one more, modulo 65,536".
#[inline(always)]
fn pair(store: &[u16], first: u16) -> Option<(usize, usize)> {
    let high = usize::from(first);
    let low = usize::from(first.wrapping_add(1));
    (high < store.len() && low < store.len()).then_some((high, low))
}

/// The number whose high and low word these are.
pub fn double(high: u16, low: u16) -> u32 {
    u32::from(high) << 16 | u32::from(low)
}

/// Writes a stack "from S up, top first, then its count"; answers the raised S.
fn save(store: &mut [u16], s: u16, stack: &[u16]) -> u16 {
    let count = usize::from(s) + stack.len();
    copy_reversed(&mut store[usize::from(s)..count], stack);
    store[count] = stack.len() as u16;
    count as u16 + 1
}

/// Fills words with as many others, the last of these first.
fn copy_reversed(to: &mut [u16], from: &[u16]) {
    let words = from.iter().rev();
    to.iter_mut().zip(words).for_each(|(to, &word)| *to = word);
}

/// "from L, b times the word at that address"
fn follow_links(store: &[u16], l: u16, b: u8) -> Option<u16> {
    let mut address = l;
    for _ in 0..b {
        address = *store.get(usize::from(address))?;
    }
    Some(address)
}

/// The module whose base is this word, if the position is marked there with
/// this depth: for returns and transfers.
fn marked(program: &Program, map: &[u32], base: u16, position: u16, depth: u8) -> Option<u8> {
    let module = program.module_at(base)?;
    program
        .is_marked(map, module, position, depth)
        .then_some(module as u8)
}

/// "256 b, TRANSFER: a and c are addresses (32, a first)". Answers the machine
/// after the instruction, or the trap.
#[cold]
fn transfer(
    program: &Program,
    map: &[u32],
    store: &mut [u16],
    machine: Machine,
    change_mask: bool,
) -> Result<Machine, u8> {
    let depth = usize::from(machine.depth) - 2;
    let to = usize::from(machine.stack[depth + 1]);
    let from = usize::from(machine.stack[depth]);
    if to >= store.len() || from >= store.len() {
        return Err(number::ADDRESS);
    }
    // "the remaining stack", "next position"
    let old = Machine {
        pc: machine.pc + 2,
        depth: depth as u8,
        ..machine
    };
    let change = Change {
        to,
        from,
        mask: change_mask,
    };
    change_process(program, map, store, old, change)
}

/// A.7: "It makes a transfer with the mask changed, the target in word 2i, the
/// old process to word 2i + 1, the saved position being the instruction about to
/// run and the whole stack saved."
#[cold]
fn take_line(
    program: &Program,
    map: &[u32],
    store: &mut [u16],
    machine: Machine,
    line: u8,
) -> Result<Machine, u8> {
    let change = Change {
        to: request::target_word(line).into(),
        from: request::old_word(line).into(),
        mask: true,
    };
    change_process(program, map, store, machine, change)
}

/// A.8: "If word 14 is not 0 and not P, traps 32 to 40 write their number to word
/// P + 6 and then transfer as for a line, with words 14 and 15". The machine stands
/// at "the trapping instruction", or where a line's transfer failed at the one "about
/// to run", with the whole stack. Answers the machine that goes on, or None: "30 and
/// 31 are no traps", and "If that transfer would itself fail, the run stops with the
/// first trap and nothing is changed."
fn catch_trap(
    program: &Program,
    map: &[u32],
    store: &mut [u16],
    stop: &RunAnswer,
) -> Option<Machine> {
    let old = stop.machine;
    // "The target and its record are read from the store as before the trap."
    let q = store[Machine::TRAP_TARGET];
    if stop.number < number::ADDRESS || q == 0 || q == old.p {
        return None;
    }
    let restored = read_process(program, map, store, q)?;
    // "the number to P + 6 first, then the save as for a line"
    store[usize::from(old.p) + Machine::TRAP_NUMBER] = stop.number.into();
    save_process(program, store, old, Machine::TRAP_OLD);
    Some(restored)
}

/// What TRANSFER and a line say about a change of process.
struct Change {
    /// The word that names the target.
    to: usize,
    /// The word that the old process goes to.
    from: usize,
    /// Whether M changes.
    mask: bool,
}

/// The change of process that TRANSFER and a line make. `old` has the position
/// and the stack that are saved. Answers the machine that goes on, or the trap.
fn change_process(
    program: &Program,
    map: &[u32],
    store: &mut [u16],
    old: Machine,
    change: Change,
) -> Result<Machine, u8> {
    let q = store[change.to];
    // "If q = P, word c becomes P and no more." A.7: "A target equal to P, also a
    // step, only writes word 2i + 1 and clears the bit."
    if q == old.p {
        store[change.from] = old.p;
        return Ok(old);
    }
    // "reading the store as before the instruction": all of it is read here,
    // before the first write.
    let mut restored = read_process(program, map, store, q).ok_or(number::PROCESS)?;
    if !change.mask {
        restored.m = old.m;
    }
    save_process(program, store, old, change.from);
    Ok(restored)
}

/// "Then save: the remaining stack from S up, top first, then its count; S raised
/// past it; G, L, next position, M, S, H+24 to P..P+5. Word c = P; P = q. [...]
/// Colliding writes keep the last in this order." Word c is the word `from`.
fn save_process(program: &Program, store: &mut [u16], mut old: Machine, from: usize) {
    old.s = save(store, old.s, &old.stack[..usize::from(old.depth)]);
    let base = program.modules[usize::from(old.module)].base as u16;
    let record = [base, old.l, old.pc, old.m, old.s, old.h + Machine::MARGIN];
    store[usize::from(old.p)..][..record.len()].copy_from_slice(&record);
    store[from] = old.p;
}

/// The process whose record is at q, or None where a transfer to it fails: "q+8 ≤ W;
/// words q.. are G, L, position, M, s, v; 24 ≤ v ≤ W; 1 ≤ s ≤ W; k = word s−1,
/// k ≤ 16, k < s; s−1−k ≤ v−24; G a base, position marked k there".
fn read_process(program: &Program, map: &[u32], store: &[u16], q: u16) -> Option<Machine> {
    let record = store.get(usize::from(q)..usize::from(q) + Machine::RECORD)?;
    let &[g, l, position, m, s, v, ..] = record else {
        return None;
    };
    let words = store.len();
    if v < Machine::MARGIN || usize::from(v) > words || s < 1 || usize::from(s) > words {
        return None;
    }
    let k = store[usize::from(s - 1)];
    if k > 16 || k >= s {
        return None;
    }
    let lowest = s - 1 - k;
    let h = v - Machine::MARGIN;
    if lowest > h {
        return None;
    }
    let module = marked(program, map, g, position, k as u8)?;
    // "S = s−1−k, H = v−24, the k words": the lowest is the top.
    let mut stack = [0; 16];
    copy_reversed(&mut stack, &store[usize::from(lowest)..usize::from(s - 1)]);
    Some(Machine {
        module,
        pc: position,
        depth: k as u8,
        p: q,
        l,
        s: lowest,
        h,
        m,
        stack,
    })
}
