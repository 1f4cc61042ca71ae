//! One call, what it must leave behind, and both as the driver frames them.

use crate::model::{self, listing::capital_hex, Refusal};

/// How many canary bytes the driver has beside each buffer and each result.
const CANARY: usize = 32;

/// What a result holds before the call, and afterwards where it is left alone.
pub const PRESET: u64 = 0xA5A5_A5A5_A5A5_A5A5;

#[derive(Clone, Copy, PartialEq, Eq)]
pub enum Kind {
    Read = 1,
    Write = 2,
    Edit = 3,
    ToText = 4,
    ToWords = 5,
    Apart = 6,
    Together = 7,
}

/// How the driver passes the buffers of a call.
#[derive(Clone, Copy)]
pub struct Placing {
    /// Buffers without bytes are null pointers.
    pub null: bool,
    /// Buffers and results begin behind a guard page, instead of ending before one.
    pub behind_guard: bool,
}

impl Placing {
    /// One of the four, in an order that keeps no step with the order of the cases.
    pub fn of(place: usize) -> Placing {
        let mixed = (place as u32).wrapping_mul(0x9E37_79B1) >> 30;
        Placing { null: mixed & 1 == 1, behind_guard: mixed & 2 == 2 }
    }

    fn flags(self) -> u8 {
        let null = if self.null { 0x0F } else { 0 };
        let behind_guard = if self.behind_guard { 0x80 } else { 0 };
        null | behind_guard
    }
}

/// A call with its buffers in the order of the C parameters; words as [`in_bytes`] has them.
#[derive(Clone)]
pub struct Call {
    kind: Kind,
    /// The element's number, or whether an ISIL leads; else 0.
    number: u32,
    pub buffers: Vec<Vec<u8>>,
}

/// The answer, and everything that the call could have changed.
#[derive(Clone, PartialEq, Eq)]
pub struct Outcome {
    pub answer: u32,
    pub results: Vec<u64>,
    pub buffers: Vec<Vec<u8>>,
}

/// A call, the group of cases that it belongs to, and its only right outcome.
pub struct Case {
    pub group: &'static str,
    pub call: Call,
    pub expected: Outcome,
}

impl Call {
    pub fn read(tag: Vec<u8>, sheet: Vec<u8>) -> Call {
        Call { kind: Kind::Read, number: 0, buffers: vec![tag, sheet] }
    }

    pub fn write(sheet: Vec<u8>, tag: Vec<u8>, locks: Vec<u8>) -> Call {
        Call { kind: Kind::Write, number: 0, buffers: vec![sheet, tag, locks] }
    }

    pub fn edit(tag: Vec<u8>, locks: Vec<u8>, number: u32, value: Vec<u8>, old: Vec<u8>) -> Call {
        Call { kind: Kind::Edit, number, buffers: vec![tag, locks, value, old] }
    }

    pub fn to_text(words: &[u16], text: Vec<u8>) -> Call {
        Call { kind: Kind::ToText, number: 0, buffers: vec![in_bytes(words), text] }
    }

    pub fn to_words(text: Vec<u8>, words: &[u16]) -> Call {
        Call { kind: Kind::ToWords, number: 0, buffers: vec![text, in_bytes(words)] }
    }

    /// Taking apart, into the buffers of elements 1, 3 and 4.
    pub fn apart(text: Vec<u8>, isil_leads: u32, [item, isil, set]: [Vec<u8>; 3]) -> Call {
        Call { kind: Kind::Apart, number: isil_leads, buffers: vec![text, item, isil, set] }
    }

    /// Putting elements 1, 3 and 4 together.
    pub fn together([item, isil, set]: [Vec<u8>; 3], text: Vec<u8>) -> Call {
        Call { kind: Kind::Together, number: 0, buffers: vec![item, isil, set, text] }
    }

    /// The outcome by the model. A call that is done writes every result but the place; a refusal writes none but that.
    pub fn outcome(&self) -> Outcome {
        let mut buffers = self.buffers.clone();
        let done = match (self.kind, &mut buffers[..]) {
            (Kind::Read, [tag, sheet]) => model::reading(tag, sheet).map(|used| vec![used]),
            (Kind::Write, [sheet, tag, locks]) => {
                model::writing(sheet, tag, locks).map(|pages| vec![pages]).map_err(Refusal::from)
            }
            (Kind::Edit, [tag, locks, value, old]) => {
                model::editing(tag, locks, self.number, value, old).map(|edited| vec![edited.pages, edited.old_length])
            }
            (Kind::ToText, [words, text]) => {
                model::words_to_text(&in_words(words), text).map(|used| vec![used]).map_err(Refusal::from)
            }
            (Kind::ToWords, [text, buffer]) => {
                let mut words = in_words(buffer);
                let done = model::text_to_words(text, &mut words);
                *buffer = in_bytes(&words);
                done.map(|used| vec![used]).map_err(Refusal::from)
            }
            (Kind::Apart, [text, item, isil, set]) => {
                model::take_apart(text, self.number, [item, isil, set]).map(Vec::from).map_err(Refusal::from)
            }
            (Kind::Together, [item, isil, set, text]) => {
                model::put_together(item, isil, set, text).map(|used| vec![used]).map_err(Refusal::from)
            }
            _ => unreachable!("the constructors give each call its buffers"),
        };
        let mut results = vec![PRESET; self.result_names().len()];
        let (answer, first, written) = match done {
            Ok(given) => (0, 0, given),
            Err(Refusal { number, place }) => (number, results.len() - 1, place.into_iter().collect()),
        };
        results.iter_mut().skip(first).zip(written).for_each(|(result, value)| *result = value as u64);
        Outcome { answer, results, buffers }
    }

    /// The results in the order of the C parameters. The place is the last one, where there is one.
    fn result_names(&self) -> &'static [&'static str] {
        match self.kind {
            Kind::Read => &["used", "place"],
            Kind::Write => &["pages"],
            Kind::Edit => &["pages", "old_used", "place"],
            Kind::ToText | Kind::ToWords | Kind::Together => &["used"],
            Kind::Apart => &["item_used", "isil_used", "set_used"],
        }
    }

    fn buffer_names(&self) -> &'static [&'static str] {
        match self.kind {
            Kind::Read => &["tag", "sheet"],
            Kind::Write => &["sheet", "tag", "locks"],
            Kind::Edit => &["tag", "locks", "value", "old"],
            Kind::ToText => &["words", "text"],
            Kind::ToWords => &["text", "words"],
            Kind::Apart => &["text", "item", "isil", "set"],
            Kind::Together => &["item", "isil", "set", "text"],
        }
    }

    /// The frame for the driver.
    pub fn frame(&self, placing: Placing) -> Vec<u8> {
        let mut frame = vec![self.kind as u8, placing.flags()];
        frame.extend(self.number.to_le_bytes());
        for buffer in &self.buffers {
            frame.extend((buffer.len() as u32).to_le_bytes());
        }
        self.buffers.iter().for_each(|buffer| frame.extend(buffer));
        frame
    }

    /// How long the call is, for finding the shortest that differs.
    pub fn length(&self) -> usize {
        self.buffers.iter().map(Vec::len).sum()
    }

    /// The call in one line; of a buffer that is only filled, its length.
    pub fn describe(&self) -> String {
        let (name, only_filled): (&str, &[&str]) = match self.kind {
            Kind::Read => ("read", &["sheet"]),
            Kind::Write => ("write", &[]),
            Kind::Edit => ("edit", &["old"]),
            Kind::ToText => ("to_text", &["text"]),
            Kind::ToWords => ("to_words", &["words"]),
            Kind::Apart => ("apart", &["item", "isil", "set"]),
            Kind::Together => ("together", &["text"]),
        };
        let mut line = name.to_string();
        line += &match self.kind {
            Kind::Edit => format!(" number={}", self.number),
            Kind::Apart => format!(" isil_leads={}", self.number),
            _ => String::new(),
        };
        for (name, buffer) in self.buffer_names().iter().zip(&self.buffers) {
            let length = if *name == "words" { buffer.len() / 2 } else { buffer.len() };
            line += &match *name {
                _ if only_filled.contains(name) => format!(" {name}[{length}]"),
                "words" => format!(" {name}={}", hex_words(&in_words(buffer))),
                _ => format!(" {name}={}", capital_hex(buffer)),
            };
        }
        line
    }
}

/// The bytes of words in a frame and in a driver's memory: low byte first.
pub fn in_bytes(words: &[u16]) -> Vec<u8> {
    words.iter().flat_map(|word| word.to_le_bytes()).collect()
}

/// The words that these bytes are.
pub fn in_words(bytes: &[u8]) -> Vec<u16> {
    bytes.chunks(2).map(|pair| u16::from_le_bytes([pair[0], pair[1]])).collect()
}

/// Words as the papers print them.
fn hex_words(words: &[u16]) -> String {
    words.iter().map(|word| format!("{word:04X}")).collect::<Vec<_>>().join(" ")
}

/// The canary bytes as the driver sets them.
fn canary() -> [u8; CANARY] {
    std::array::from_fn(|place| 0xC3 ^ (CANARY - place) as u8)
}

impl Outcome {
    /// The refusal, where this is the outcome of one. No result but the place is written then.
    pub fn refusal(&self) -> Option<Refusal> {
        let place = self.results.iter().find(|result| **result != PRESET).map(|place| *place as usize);
        (self.answer != 0).then_some(Refusal { number: self.answer, place })
    }

    /// The outcome as the driver frames it.
    pub fn frame(&self) -> Vec<u8> {
        let mut frame = self.answer.to_le_bytes().to_vec();
        for result in &self.results {
            frame.extend(canary());
            frame.extend(result.to_le_bytes());
        }
        for buffer in &self.buffers {
            frame.extend(canary());
            frame.extend(buffer);
        }
        frame
    }
}

impl Case {
    /// A case whose outcome the model gives.
    pub fn new(group: &'static str, call: Call) -> Case {
        let expected = call.outcome();
        Case { group, call, expected }
    }

    /// The first difference between the right frame and another of the same length, in words.
    pub fn difference(&self, got: &[u8]) -> String {
        let answer = u32::from_le_bytes([got[0], got[1], got[2], got[3]]);
        if answer != self.expected.answer {
            return format!("the answer is {answer} instead of {}", self.expected.answer);
        }
        let mut rest = &got[4..];
        for (name, right) in self.call.result_names().iter().zip(&self.expected.results) {
            if let Some(words) = part_difference(name, &right.to_le_bytes(), &mut rest) {
                return words;
            }
        }
        for (name, right) in self.call.buffer_names().iter().zip(&self.expected.buffers) {
            if let Some(words) = part_difference(name, right, &mut rest) {
                return words;
            }
        }
        "no difference".to_string()
    }
}

/// Compares one result or buffer with its canary, and goes on behind it.
fn part_difference(name: &str, right: &[u8], rest: &mut &[u8]) -> Option<String> {
    let (before, behind) = rest.split_at(CANARY);
    let (got, behind) = behind.split_at(right.len());
    *rest = behind;
    if before != canary() {
        return Some(format!("bytes beside {name} have changed"));
    }
    let place = right.iter().zip(got).position(|(right, got)| right != got)?;
    Some(format!("byte {place} of {name} is {:02X} instead of {:02X}", got[place], right[place]))
}
