//! Cases of A.11: images with fields that are spelled out or not, and outputs of all
//! lengths. And an output for each case of another kind.

use super::literals;
use super::modules::{image_case, plain_modules, spoil};
use super::rng::Rng;
use crate::api::archive;
use crate::assemble::{encode, Source};
use crate::case::{Case, LONGEST};
use crate::forms::REFUSED;
use crate::image::{Procedure, MOST_MODULES, NO_NAME, ONLY_PROCEDURE};
use crate::modules::TOO_MANY;
use crate::number::*;
use crate::opcode::*;

/// How many cases there are in turn.
const TURNS: usize = 3 + PLACES.len() + 2 * REFUSED.len();

/// The cases that come in turn. The map is as long as the image, or longer in turn, if it
/// is not to be too short.
pub fn turn_case(rng: &mut Rng, round: usize) -> Case {
    let turn = round % TURNS;
    let mut case = match turn {
        0..=1 => fields_case(rng, turn),
        2 => most_procedures_case(rng),
        _ if turn < 3 + PLACES.len() => place_case(rng, PLACES[turn - 3]),
        _ => refused_case(rng, turn - 3 - PLACES.len()),
    };
    if case.map_length >= case.image.len() {
        case.map_length = case.image.len() + turn % 2 * rng.within(1, 7);
    }
    case
}

/// Gives a case an output: mostly as long as the form, else somewhat longer, too short or
/// much longer; and any where the image is refused.
pub fn give_output(rng: &mut Rng, case: &mut Case) {
    let image = case.image.len();
    case.output_fill = rng.byte();
    case.output_length = match form_length(case) {
        // A long form is written.
        Some(form) if form > 30_000 => rng.pick(&[form, form + 1, LONGEST]),
        Some(form) => near_form(rng, form, image),
        None => match rng.below(4) {
            0 => 0,
            1 => image,
            2 => rng.below(image + 1),
            _ => image + rng.within(1, 40),
        },
    };
}

fn near_form(rng: &mut Rng, form: usize, image: usize) -> usize {
    match rng.below(16) {
        0 => 0,
        1 => form - 1,
        2 => rng.below(form),
        3 => form + 1,
        4 => form + rng.within(2, 20),
        5 => rng.within(form, image),
        6 => image + rng.within(1, 300),
        _ => form,
    }
}

/// The length of the form, if the image is accepted. The image's own length suffices.
fn form_length(case: &Case) -> Option<usize> {
    let mut map = vec![case.map_fill; case.map_length];
    let answer = archive(&case.image, &mut map, &mut vec![0; case.image.len()]);
    (answer.number == ACCEPTED).then_some(answer.length)
}

/// An image with this output.
fn with_output(rng: &mut Rng, image: Vec<u8>, output_length: usize) -> Case {
    let mut case = image_case(rng, image);
    case.output_fill = rng.byte();
    case.output_length = output_length;
    case
}

/// The same of modules that are accepted, with an output as long as the form.
fn form_case(rng: &mut Rng, modules: &[Source]) -> Case {
    let mut case = with_output(rng, encode(modules), 0);
    case.output_length = form_length(&case).expect("they are sound");
    case
}

/// What a field is: not there, spelled out though it need not be, or of a kind of its own.
#[derive(Clone, Copy)]
enum Field {
    Absent,
    SpelledOut,
    Other(usize),
}

/// One of the three, the last with this kind.
fn field(index: usize, kind: usize) -> Field {
    match index {
        0 => Field::Absent,
        1 => Field::SpelledOut,
        _ => Field::Other(kind),
    }
}

/// A module of these fields. Behind its code nothing is reached.
fn module(rng: &mut Rng, data: Field, procedures: Field, name: Field) -> Source {
    let mut module = match procedures {
        Field::Absent => Source::plain(&[RTN]),
        Field::SpelledOut => of_procedures(rng, vec![ONLY_PROCEDURE]),
        Field::Other(kind) => other_procedures(rng, kind),
    };
    let rest = rng.below(4);
    module.code.extend(bytes(rng, rest));
    module.data_size = match data {
        Field::Other(kind) => other_data(rng, kind),
        _ => 0,
    };
    module.spells_data = !matches!(data, Field::Absent);
    module.name = match name {
        Field::Absent => None,
        Field::SpelledOut => Some(NO_NAME),
        Field::Other(kind) => Some(other_name(rng, kind)),
    };
    module
}

fn bytes(rng: &mut Rng, count: usize) -> Vec<u8> {
    (0..count).map(|_| rng.byte()).collect()
}

/// A byte that is not 0.
fn other_byte(rng: &mut Rng) -> u8 {
    rng.within(1, 255) as u8
}

/// A data size other than 0: by its high byte, by its low byte, by both.
fn other_data(rng: &mut Rng, kind: usize) -> u16 {
    let [high, low] = [rng.pick(&[1, 1, 2]), other_byte(rng)];
    u16::from_be_bytes(match kind % 3 {
        0 => [high, 0],
        1 => [0, low],
        _ => [high, low],
    })
}

/// A name other than zeros: by its first byte, by one between, by its last one, by any.
fn other_name(rng: &mut Rng, kind: usize) -> [u8; 8] {
    let mut name = NO_NAME;
    let at = match kind % 4 {
        0 => 0,
        1 => rng.within(1, 6),
        2 => 7,
        _ => return rng.bits().to_be_bytes().map(|byte| byte | 1),
    };
    name[at] = other_byte(rng);
    name
}

/// Code that takes and gives so many words.
fn piece(rng: &mut Rng, procedure: &Procedure) -> Vec<u8> {
    let (parameters, results) = (procedure.parameters.into(), procedure.results.into());
    match usize::checked_sub(results, parameters) {
        Some(missing) => [literals(rng, missing), vec![RTN]].concat(),
        None => rng.pick(&[&[TRAP][..], &[JPB, 1]]).to_vec(),
    }
}

/// A module of these procedures. Those like the default one share their code; each other
/// one has code of its own.
fn of_procedures(rng: &mut Rng, mut procedures: Vec<Procedure>) -> Source {
    let mut code = Vec::new();
    if procedures.contains(&ONLY_PROCEDURE) {
        code.push(RTN);
    }
    for procedure in procedures.iter_mut().filter(|it| **it != ONLY_PROCEDURE) {
        procedure.entry = code.len() as u16;
        code.extend(piece(rng, procedure));
    }
    Source {
        procedures,
        ..Source::plain(&code)
    }
}

/// A procedure with parameters or results.
fn other_procedure(rng: &mut Rng) -> Procedure {
    Procedure {
        entry: 0,
        parameters: rng.below(4) as u8,
        results: rng.within(1, 4) as u8,
    }
}

/// How many kinds of other procedures there are.
const OTHER_PROCEDURES: usize = 8;

/// Procedures other than the default one: one with another entry, by its high byte and by
/// its low byte, one with parameters, one with results; several, of which the first, the
/// last, all and none are like the default one.
fn other_procedures(rng: &mut Rng, kind: usize) -> Source {
    let (low, several) = (rng.within(1, 20), rng.within(1, 3));
    let with_parameters = Procedure {
        parameters: rng.within(1, 16) as u8,
        ..ONLY_PROCEDURE
    };
    let with_results = Procedure {
        results: rng.within(1, 4) as u8,
        ..ONLY_PROCEDURE
    };
    let others: Vec<Procedure> = (0..several).map(|_| other_procedure(rng)).collect();
    let procedures = match kind % OTHER_PROCEDURES {
        0 => return entered_at(rng, 256),
        1 => return entered_at(rng, low),
        2 => vec![with_parameters],
        3 => vec![with_results],
        4 => [vec![ONLY_PROCEDURE], others].concat(),
        5 => [others, vec![ONLY_PROCEDURE]].concat(),
        6 => vec![ONLY_PROCEDURE; several + 1],
        _ => [vec![with_results], others].concat(),
    };
    of_procedures(rng, procedures)
}

/// One procedure behind bytes that nothing reaches.
fn entered_at(rng: &mut Rng, entry: usize) -> Source {
    let procedure = Procedure {
        entry: entry as u16,
        ..ONLY_PROCEDURE
    };
    let code = [bytes(rng, entry), vec![RTN]].concat();
    Source {
        procedures: vec![procedure],
        ..Source::plain(&code)
    }
}

/// "The run begins at procedure 0 of module 0, which must have no parameters": lets a
/// module come first that has none.
fn set_main(modules: &mut [Source]) {
    let is_main = |module: &Source| {
        let first = module.procedures.first();
        first.is_none_or(|procedure| procedure.parameters == 0)
    };
    let main = modules.iter().position(is_main);
    modules.swap(0, main.expect("some have no parameters"));
}

/// Each field absent, spelled out and other, with each of the others: in two images.
fn fields_case(rng: &mut Rng, half: usize) -> Case {
    let all = (0..27).filter(|fields| usize::from(*fields >= 14) == half);
    let mut modules: Vec<Source> = all
        .map(|fields| {
            let [data, procedures, name] = [fields / 9, fields / 3 % 3, fields % 3];
            module(
                rng,
                field(data, 3 * procedures + name),
                field(procedures, 3 * data + name),
                field(name, 3 * data + procedures),
            )
        })
        .collect();
    rng.shuffle(&mut modules);
    set_main(&mut modules);
    form_case(rng, &modules)
}

/// 255 procedures: all like the default one but for some, one or none.
fn most_procedures_case(rng: &mut Rng) -> Case {
    let mut procedures = vec![ONLY_PROCEDURE; 255];
    for _ in 0..rng.pick(&[0, 1, 20]) {
        procedures[rng.within(1, 254)] = other_procedure(rng);
    }
    let mut modules = some_modules(rng, 3);
    modules[rng.below(3)] = of_procedures(rng, procedures);
    form_case(rng, &modules)
}

/// So many modules of any fields, none of them spelled out without need.
fn some_modules(rng: &mut Rng, count: usize) -> Vec<Source> {
    let mut modules: Vec<Source> = (0..count)
        .map(|_| {
            let [data, procedures, name] = [0; 3].map(|_| {
                let kind = rng.below(16);
                field(rng.pick(&[0, 0, 2]), kind)
            });
            // A long code is not for each of many.
            let procedures = match procedures {
                Field::Other(kind) if kind % OTHER_PROCEDURES == 0 => Field::Other(kind + 1),
                procedures => procedures,
            };
            module(rng, data, procedures, name)
        })
        .collect();
    modules[0].procedures.clear();
    modules[0].code = vec![RTN];
    modules
}

/// Spells out a field that need not be, or several.
fn spell_out(rng: &mut Rng, module: &mut Source) {
    let is_so: [bool; 3] = std::array::from_fn(|_| rng.once_in(2));
    module.spells_data |= is_so[0];
    if is_so[1] && module.procedures.is_empty() {
        module.procedures.push(ONLY_PROCEDURE);
    }
    if is_so[2] {
        module.name.get_or_insert(NO_NAME);
    }
    if !is_spelled_out(module) {
        module.name = Some(NO_NAME);
    }
}

/// Spells out all fields of a module that has none.
pub fn spell_all_out(module: &mut Source) {
    module.spells_data = true;
    module.procedures = vec![ONLY_PROCEDURE];
    module.name = Some(NO_NAME);
}

/// Whether the form is shorter.
fn is_spelled_out(module: &Source) -> bool {
    module.spells_data && module.data_size == 0
        || module.procedures == [ONLY_PROCEDURE]
        || module.name == Some(NO_NAME)
}

/// How many modules there are, which of them are spelled out, and the output.
type Place = (Count, Which, Output);

#[derive(Clone, Copy)]
enum Count {
    One,
    Several,
    Most,
}

#[derive(Clone, Copy)]
enum Which {
    None,
    First,
    Between,
    Last,
    All,
}

#[derive(Clone, Copy)]
enum Output {
    Form,
    OneMore,
    Between,
    Image,
    Longer,
    Nothing,
    OneLess,
    Less,
}

const PLACES: [Place; 11] = [
    (Count::One, Which::First, Output::Form),
    (Count::Several, Which::First, Output::OneMore),
    (Count::Several, Which::Between, Output::Between),
    (Count::Several, Which::Last, Output::Image),
    (Count::Most, Which::First, Output::Longer),
    (Count::Most, Which::Between, Output::OneLess),
    (Count::Most, Which::Last, Output::Form),
    (Count::Several, Which::All, Output::Nothing),
    (Count::Most, Which::All, Output::Less),
    (Count::Several, Which::None, Output::Form),
    (Count::Several, Which::None, Output::OneLess),
];

/// One of the [`PLACES`].
fn place_case(rng: &mut Rng, (count, which, output): Place) -> Case {
    let count = match count {
        Count::One => 1,
        Count::Several => rng.within(3, 6),
        Count::Most => MOST_MODULES,
    };
    let mut modules = match count {
        1 => vec![Source::plain(&[RTN])],
        _ => some_modules(rng, count),
    };
    let chosen = match which {
        Which::None => 0..0,
        Which::First => 0..1,
        Which::Between => {
            let between = rng.within(1, count - 2);
            between..between + 1
        }
        Which::Last => count - 1..count,
        Which::All => 0..count,
    };
    for module in &mut modules[chosen] {
        spell_out(rng, module);
    }
    let mut case = form_case(rng, &modules);
    let (form, image) = (case.output_length, case.image.len());
    case.output_length = match output {
        Output::Form => form,
        Output::OneMore => form + 1,
        // A field has two bytes or more.
        Output::Between => rng.within(form + 1, image - 1),
        Output::Image => image,
        Output::Longer => image + rng.within(1, 100),
        Output::Nothing => 0,
        Output::OneLess => form - 1,
        Output::Less => rng.within(1, form - 2),
    };
    case
}

/// Each refusal of load, without an output and with a long one.
fn refused_case(rng: &mut Rng, turn: usize) -> Case {
    let number = REFUSED[turn / 2];
    let image = refused_image(rng, number);
    let length = match turn % 2 {
        0 => 0,
        _ => image.len() + rng.within(1, 40),
    };
    let mut case = with_output(rng, image, length);
    if number == MAP_SHORT {
        case.map_length = rng.below(case.image.len());
    }
    case
}

/// An image, with fields spelled out, that load refuses so, if need be for its map.
fn refused_image(rng: &mut Rng, number: u8) -> Vec<u8> {
    if number == IMAGE_SIZE {
        return Vec::new();
    }
    let count = rng.pick(&[1, 2, 3, MOST_MODULES]);
    let mut modules = plain_modules(rng, count);
    modules.iter_mut().for_each(|module| spell_out(rng, module));
    let at = rng.below(count);
    let mut image = spoil(rng, modules, at, number);
    if number == MODULE_COUNT {
        image[0] = rng.pick(&[0, TOO_MANY, 255]) as u8;
    }
    image
}
