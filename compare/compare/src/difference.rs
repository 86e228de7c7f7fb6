//! What differs, as the report shows it.

use crate::field;
use std::fmt;

/// The answer of one side, a call's letter and the bytes it leaves.
pub struct Outcome<'a> {
    pub answer: u32,
    pub letter: Option<char>,
    pub bytes: &'a [u8],
}

#[derive(Debug)]
pub struct Difference {
    what: String,
    /// Those of plain and of pillar.
    answers: [u32; 2],
    letters: [Option<char>; 2],
    byte: Option<Byte>,
    input: Vec<u8>,
}

/// The first byte that differs.
#[derive(Debug)]
struct Byte {
    place: usize,
    plain: u8,
    pillar: u8,
}

/// How many bytes of the input a report shows.
const SHOWN: usize = 2048;

/// Both sides must give the same answer and letter and leave the same bytes.
/// `input` is the page or the list that they were given, `what` says what was
/// done.
pub fn judge(
    plain: Outcome,
    pillar: Outcome,
    input: &[u8],
    what: impl FnOnce() -> String,
) -> Result<(), Box<Difference>> {
    let answers = [plain.answer, pillar.answer];
    let letters = [plain.letter, pillar.letter];
    if answers[0] == answers[1] && letters[0] == letters[1] && plain.bytes == pillar.bytes {
        return Ok(());
    }
    Err(Box::new(Difference {
        what: what(),
        answers,
        letters,
        byte: first_differing(plain.bytes, pillar.bytes),
        input: input.to_vec(),
    }))
}

fn first_differing(plain: &[u8], pillar: &[u8]) -> Option<Byte> {
    let place = plain.iter().zip(pillar).position(|(a, b)| a != b)?;
    Some(Byte {
        place,
        plain: plain[place],
        pillar: pillar[place],
    })
}

impl Difference {
    /// One line, without the input.
    pub fn brief(&self) -> String {
        let answers = self.shown_answers();
        match &self.byte {
            None => format!("{}; {answers}; the bytes agree", self.what),
            Some(byte) => format!("{}; {answers}; {byte}", self.what),
        }
    }

    /// The answers, and the letters where they differ.
    fn shown_answers(&self) -> String {
        let [plain, pillar] = self.answers;
        let answers = format!("answers: plain {plain}, pillar {pillar}");
        let [plain, pillar] = self.letters;
        if plain == pillar {
            return answers;
        }
        let [plain, pillar] = self.letters.map(shown_letter);
        format!("{answers}; letters: plain {plain}, pillar {pillar}")
    }
}

fn shown_letter(letter: Option<char>) -> String {
    letter.map_or(String::from("none"), String::from)
}

impl fmt::Display for Byte {
    fn fmt(&self, f: &mut fmt::Formatter) -> fmt::Result {
        let Byte {
            place,
            plain,
            pillar,
        } = self;
        let field = field::name(*place);
        write!(
            f,
            "byte {place} ({field}): plain {plain:#04x}, pillar {pillar:#04x}"
        )
    }
}

impl fmt::Display for Difference {
    fn fmt(&self, f: &mut fmt::Formatter) -> fmt::Result {
        writeln!(f, "  {}", self.what)?;
        writeln!(f, "  {}", self.shown_answers())?;
        match &self.byte {
            None => writeln!(f, "  the bytes agree")?,
            Some(byte) => writeln!(f, "  first differing {byte}")?,
        }
        write!(f, "  given {} bytes:", self.input.len())?;
        for row in self.input[..self.input.len().min(SHOWN)].chunks(32) {
            write!(f, "\n    ")?;
            for byte in row {
                write!(f, "{byte:02x}")?;
            }
        }
        if self.input.len() > SHOWN {
            write!(f, "\n    ...")?;
        }
        Ok(())
    }
}

#[cfg(test)]
mod tests {
    use super::*;

    fn outcome(letter: Option<char>, bytes: &[u8]) -> Outcome<'_> {
        Outcome {
            answer: 0,
            letter,
            bytes,
        }
    }

    #[test]
    fn letters_and_bytes_are_judged() {
        let judged = |letter, bytes: &[u8]| {
            let plain = outcome(Some('b'), &[7; 40]);
            let judged = judge(plain, outcome(letter, bytes), &[], || String::from("call"));
            judged.map_err(|difference| difference.brief())
        };
        assert_eq!(judged(Some('b'), &[7; 40]), Ok(()));
        let letters = "call; answers: plain 0, pillar 0; letters: plain b, pillar c";
        let other = judged(Some('c'), &[7; 40]);
        assert_eq!(other, Err(format!("{letters}; the bytes agree")));
        let none = judged(None, &[7; 40]).unwrap_err();
        assert!(none.contains("letters: plain b, pillar none"), "{none}");
        let mut bytes = [7; 40];
        bytes[37] = 1;
        let byte = judged(Some('b'), &bytes).unwrap_err();
        assert!(
            byte.ends_with("byte 37 (switch): plain 0x07, pillar 0x01"),
            "{byte}"
        );
    }
}
