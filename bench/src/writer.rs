//! The archive form in plain Rust: what the proved writer is timed beside. And images whose fields are spelled out.

use second::number;

/// The fields of a module, as they stand in an image: none, or empty, where a bit does not stand.
#[derive(Clone, Copy, Debug, PartialEq, Eq)]
pub struct Module<'a> {
    data_size: Option<u16>,
    /// The records, one after another.
    procedures: &'a [u8],
    name: &'a [u8],
    code: &'a [u8],
}

/// Bytes of a procedure's record and of a name.
const RECORD: usize = 4;
const NAME: usize = 8;

/// Records of procedures, each as the single default one, and names of which one byte is not 0.
static DEFAULTS: [u8; RECORD * (2 + 7)] = [0; RECORD * (2 + 7)];
static NAMES: [[u8; NAME]; NAME] = {
    let mut names = [[0; NAME]; NAME];
    let mut place = 0;
    while place < NAME {
        names[place][place] = 1;
        place += 1;
    }
    names
};

/// Takes so many bytes off the front.
fn take<'a>(image: &mut &'a [u8], count: usize) -> &'a [u8] {
    let (front, rest) = image.split_at(count);
    *image = rest;
    front
}

fn take_byte(image: &mut &[u8]) -> u8 {
    take(image, 1)[0]
}

fn take_word(image: &mut &[u8]) -> u16 {
    let bytes = take(image, 2);
    u16::from_be_bytes([bytes[0], bytes[1]])
}

/// The modules of an image that load accepts.
pub fn parse(mut image: &[u8]) -> Vec<Module<'_>> {
    let count = take_byte(&mut image);
    let module = |_| {
        let image = &mut image;
        let bits = take_byte(image);
        let data_size = (bits & 1 != 0).then(|| take_word(image));
        let count = if bits & 2 != 0 { take_byte(image) } else { 0 };
        let name = take(image, if bits & 4 != 0 { NAME } else { 0 });
        let code_length = take_word(image);
        Module {
            data_size,
            procedures: take(image, RECORD * usize::from(count)),
            name,
            code: take(image, code_length.into()),
        }
    };
    (0..count).map(module).collect()
}

impl Module<'_> {
    /// With those fields only that the form has.
    pub fn kept(self) -> Self {
        Module {
            data_size: self.data_size.filter(|&size| size != 0),
            procedures: match self.procedures {
                [0, 0, 0, 0] => &[],
                other => other,
            },
            name: match self.name {
                [0, 0, 0, 0, 0, 0, 0, 0] => &[],
                other => other,
            },
            ..self
        }
    }

    /// With each field that the form leaves out spelled out, if `spells` says so of it.
    pub fn spelled(self, mut spells: impl FnMut() -> bool) -> Self {
        let kept = self.kept();
        Module {
            data_size: kept.data_size.or_else(|| spells().then_some(0)),
            procedures: match kept.procedures {
                [] if spells() => &[0; RECORD],
                other => other,
            },
            name: match kept.name {
                [] if spells() => &[0; NAME],
                other => other,
            },
            ..kept
        }
    }

    /// With each field that the form leaves out changed a little, so that the form has it, if `turn` says how: by a number below 8.
    pub fn changed(self, mut turn: impl FnMut() -> Option<usize>) -> Self {
        let kept = self.kept();
        Module {
            data_size: kept.data_size.or_else(|| Some(1 << (2 * turn()?))),
            procedures: match (kept.procedures, turn()) {
                ([], Some(more)) => &DEFAULTS[..RECORD * (2 + more)],
                (other, _) => other,
            },
            name: match (kept.name, turn()) {
                ([], Some(place)) => &NAMES[place],
                (other, _) => other,
            },
            ..kept
        }
    }

    /// The bytes that it takes.
    fn length(&self) -> usize {
        let data = 2 * usize::from(self.data_size.is_some());
        let count = usize::from(!self.procedures.is_empty());
        1 + data + count + self.name.len() + 2 + self.procedures.len() + self.code.len()
    }
}

/// The output, and how much of it is written.
struct Output<'a> {
    bytes: &'a mut [u8],
    length: usize,
}

impl Output<'_> {
    fn put(&mut self, bytes: &[u8]) {
        self.bytes[self.length..][..bytes.len()].copy_from_slice(bytes);
        self.length += bytes.len();
    }

    fn put_module(&mut self, module: &Module) {
        let has_data = module.data_size.is_some();
        let has_procedures = !module.procedures.is_empty();
        let has_name = !module.name.is_empty();
        self.put(&[u8::from(has_data) | u8::from(has_procedures) << 1 | u8::from(has_name) << 2]);
        if let Some(data_size) = module.data_size {
            self.put(&data_size.to_be_bytes());
        }
        if has_procedures {
            self.put(&[(module.procedures.len() / RECORD) as u8]);
        }
        self.put(module.name);
        self.put(&(module.code.len() as u16).to_be_bytes());
        self.put(module.procedures);
        self.put(module.code);
    }
}

fn length<'a>(modules: impl Iterator<Item = Module<'a>>) -> usize {
    1 + modules.map(|module| module.length()).sum::<usize>()
}

/// Writes the image of these modules, and answers its length; none where the output is shorter, and then nothing is written.
fn write<'a>(
    modules: impl ExactSizeIterator<Item = Module<'a>> + Clone,
    output: &mut [u8],
) -> Option<usize> {
    if output.len() < length(modules.clone()) {
        return None;
    }
    let mut output = Output {
        bytes: output,
        length: 0,
    };
    output.put(&[modules.len() as u8]);
    modules.for_each(|module| output.put_module(&module));
    Some(output.length)
}

/// Writes the form of these modules.
pub fn write_form(modules: &[Module], output: &mut [u8]) -> Option<usize> {
    write(modules.iter().map(|module| module.kept()), output)
}

/// The image of these modules.
pub fn encode(modules: &[Module]) -> Vec<u8> {
    let modules = modules.iter().copied();
    let mut image = vec![0; length(modules.clone())];
    write(modules, &mut image).expect("as long as it is");
    image
}

/// The whole call: load of the second interpreter, then the form. Answers the number and the length.
pub fn archive(image: &[u8], map: &mut [u32], output: &mut [u8]) -> (u8, usize) {
    match second::load(image, map).number {
        number::ACCEPTED => match write_form(&parse(image), output) {
            Some(length) => (number::ACCEPTED, length),
            None => (number::OUTPUT_SHORT, 0),
        },
        refusal => (refusal, 0),
    }
}
