//! The letter of a move, and the byte by which the C interface stores it.

/// The move that a call made, by its letter in document 01's table of the switch:
/// b is a remote disconnect from Connected, c one from Ready.
#[derive(Clone, Copy, Debug, PartialEq, Eq)]
pub enum Letter {
    A,
    B,
    C,
    D,
    E,
    F,
    G,
    H,
}

impl Letter {
    /// `a` to `h`.
    pub const fn as_char(self) -> char {
        match self {
            Letter::A => 'a',
            Letter::B => 'b',
            Letter::C => 'c',
            Letter::D => 'd',
            Letter::E => 'e',
            Letter::F => 'f',
            Letter::G => 'g',
            Letter::H => 'h',
        }
    }

    /// The letter that a call stored, 0 for none.
    ///
    /// # Panics
    ///
    /// At any other byte: the archive is then none of this interface.
    pub(crate) fn of_byte(byte: u8) -> Option<Letter> {
        Some(match byte {
            0 => return None,
            b'a' => Letter::A,
            b'b' => Letter::B,
            b'c' => Letter::C,
            b'd' => Letter::D,
            b'e' => Letter::E,
            b'f' => Letter::F,
            b'g' => Letter::G,
            b'h' => Letter::H,
            _ => panic!("the archive left the letter {byte:#04x}: neither 0 nor `a` to `h`"),
        })
    }
}

#[cfg(test)]
mod tests {
    use super::*;

    #[test]
    fn a_byte_is_its_letter() {
        for byte in b'a'..=b'h' {
            let letter = Letter::of_byte(byte);
            assert_eq!(letter.map(Letter::as_char), Some(char::from(byte)));
        }
        assert_eq!(Letter::of_byte(0), None);
    }

    #[test]
    fn any_other_byte_panics() {
        let others = (1..b'a').chain(b'i'..=u8::MAX);
        for byte in others {
            let read = std::panic::catch_unwind(|| Letter::of_byte(byte));
            assert!(read.is_err(), "byte {byte}");
        }
    }
}
