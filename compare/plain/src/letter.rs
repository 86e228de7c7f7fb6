//! The letter of a move.

/// "The centre's screen shows the transition by its letter" (02, A2): those of
/// the table of "The switch", "b from 1 and c from 2".
#[derive(Clone, Copy, Debug, PartialEq, Eq)]
pub enum Letter {
    /// Remote reconnect that closes.
    A,
    /// Remote disconnect from Connected.
    B,
    /// Remote disconnect from Ready.
    C,
    /// Remote reconnect to Ready.
    D,
    /// Manual reconnect.
    E,
    /// Manual disconnect.
    F,
    /// Local disconnect.
    G,
    /// Local reconnect.
    H,
}

impl Letter {
    /// `a` to `h`.
    pub const fn as_char(self) -> char {
        match self {
            Letter::A => 'a',
            Letter::B => 'b',
            Letter::C => 'c',
            Letter::D => 'd',
            Letter::E => 'e',
            Letter::F => 'f',
            Letter::G => 'g',
            Letter::H => 'h',
        }
    }
}
