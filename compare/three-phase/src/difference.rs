//! What differs, as the report shows it.

use crate::field;
use std::fmt;

/// The answer of one side, the byte of its letter and the bytes it leaves.
#[derive(Clone, Copy)]
pub struct Outcome<'a> {
    pub answer: u32,
    /// 0 for none.
    pub letter: u8,
    pub bytes: &'a [u8],
}

#[derive(Debug)]
pub struct Difference {
    what: String,
    /// Those of plain and of the proved core.
    answers: [u32; 2],
    letters: [u8; 2],
    byte: Option<Byte>,
    input: Vec<u8>,
    /// What both sides did before, from a fresh meter or a page taken over.
    history: Vec<String>,
}

/// The first byte that differs.
#[derive(Debug)]
struct Byte {
    place: usize,
    plain: u8,
    proved: u8,
}

/// How many bytes of the input a report shows.
const SHOWN: usize = 2048;

/// Both sides must give the same answer and letter and leave the same bytes.
/// `input` is the page or the list that they were given, `what` says what was
/// done.
pub fn judge(
    plain: Outcome,
    proved: Outcome,
    input: &[u8],
    what: impl FnOnce() -> String,
) -> Result<(), Box<Difference>> {
    let answers = [plain.answer, proved.answer];
    let letters = [plain.letter, proved.letter];
    if answers[0] == answers[1] && letters[0] == letters[1] && plain.bytes == proved.bytes {
        return Ok(());
    }
    Err(Box::new(Difference {
        what: what(),
        answers,
        letters,
        byte: first_differing(plain.bytes, proved.bytes),
        input: input.to_vec(),
        history: Vec::new(),
    }))
}

fn first_differing(plain: &[u8], proved: &[u8]) -> Option<Byte> {
    let place = plain.iter().zip(proved).position(|(a, b)| a != b)?;
    Some(Byte {
        place,
        plain: plain[place],
        proved: proved[place],
    })
}

impl Difference {
    pub fn after(mut self: Box<Self>, history: Vec<String>) -> Box<Self> {
        self.history = history;
        self
    }

    /// One line, without the input and the history.
    pub fn brief(&self) -> String {
        let answers = self.shown_answers();
        match &self.byte {
            None => format!("{}; {answers}; the bytes agree", self.what),
            Some(byte) => format!("{}; {answers}; {byte}", self.what),
        }
    }

    /// The answers, and the letters where they differ.
    fn shown_answers(&self) -> String {
        let [plain, proved] = self.answers;
        let answers = format!("answers: plain {plain}, proved {proved}");
        let [plain, proved] = self.letters;
        if plain == proved {
            return answers;
        }
        let [plain, proved] = self.letters.map(shown_letter);
        format!("{answers}; letters: plain {plain}, proved {proved}")
    }
}

fn shown_letter(letter: u8) -> String {
    match letter {
        0 => String::from("none"),
        b'a'..=b'h' => char::from(letter).to_string(),
        _ => format!("{letter:#04x}"),
    }
}

impl fmt::Display for Byte {
    fn fmt(&self, f: &mut fmt::Formatter) -> fmt::Result {
        let Byte {
            place,
            plain,
            proved,
        } = self;
        let field = field::name(*place);
        write!(
            f,
            "byte {place} ({field}): plain {plain:#04x}, proved {proved:#04x}"
        )
    }
}

impl fmt::Display for Difference {
    fn fmt(&self, f: &mut fmt::Formatter) -> fmt::Result {
        for (place, step) in self.history.iter().enumerate() {
            writeln!(f, "  {}. {step}", place + 1)?;
        }
        writeln!(f, "  then {}", self.what)?;
        writeln!(f, "  {}", self.shown_answers())?;
        match &self.byte {
            None => writeln!(f, "  the bytes agree")?,
            Some(byte) => writeln!(f, "  first differing {byte}")?,
        }
        write!(f, "  given {} bytes:", self.input.len())?;
        for row in self.input[..self.input.len().min(SHOWN)].chunks(32) {
            write!(f, "\n    ")?;
            for byte in row {
                write!(f, "{byte:02x}")?;
            }
        }
        if self.input.len() > SHOWN {
            write!(f, "\n    ...")?;
        }
        Ok(())
    }
}

#[cfg(test)]
mod tests {
    use super::*;

    #[test]
    fn letters_and_bytes_are_judged() {
        let judged = |letter, bytes: &[u8]| {
            let outcome = |letter, bytes| Outcome {
                answer: 0,
                letter,
                bytes,
            };
            let plain = [7; 60];
            let judged = judge(outcome(b'g', &plain), outcome(letter, bytes), &[], || {
                String::from("call")
            });
            judged.map_err(|difference| difference.brief())
        };
        assert_eq!(judged(b'g', &[7; 60]), Ok(()));
        let letters = "call; answers: plain 0, proved 0; letters: plain g, proved h";
        let other = judged(b'h', &[7; 60]);
        assert_eq!(other, Err(format!("{letters}; the bytes agree")));
        let none = judged(0, &[7; 60]).unwrap_err();
        assert!(none.contains("letters: plain g, proved none"), "{none}");
        let stored = judged(0xff, &[7; 60]).unwrap_err();
        assert!(stored.contains("proved 0xff"), "{stored}");
        let mut bytes = [7; 60];
        bytes[59] = 1;
        let byte = judged(b'g', &bytes).unwrap_err();
        let told = "byte 59 (L2, Exceeded): plain 0x07, proved 0x01";
        assert!(byte.ends_with(told), "{byte}");
    }
}
