//! A request as DLMS bytes, answered on the meter of a page.

use crate::{Answer, Letter, answer};

/// The least bytes of an answer buffer, `PILLAR_ANSWER_BUFFER_SIZE`.
pub const ANSWER_BUFFER: usize = 32;

/// How a request went: `answer` is `Ok(())` if it was answered, whatever the
/// result in the answer's bytes; `length` is how many of the buffer's first bytes
/// the answer takes, 0 if there is none. `letter` is that of the move that the
/// named call made, or none.
#[derive(Clone, Copy, Debug, PartialEq, Eq)]
pub struct Requested {
    pub answer: Answer,
    pub length: usize,
    pub letter: Option<Letter>,
}

/// Answers a GET, SET or ACTION normal request on the meter whose page is lent,
/// into the first bytes of the buffer: 21 by the buffer, then 9, 10 or 11 from the
/// reader, which judges under `table`, then 20 by the request. The page is written
/// only after a SET or an ACTION whose result is success; the buffer's bytes past
/// the answer stay.
///
/// # Panics
///
/// If the archive leaves a byte for the letter that is none, or a length that the
/// buffer doesn't have. The proved core never does.
pub fn request(page: &mut [u8], table: &[u8], request: &[u8], buffer: &mut [u8]) -> Requested {
    let (number, length, letter) = core::request(page, table, request, buffer);
    assert!(
        length <= buffer.len(),
        "pillar_request left the length {length} for a buffer of {} bytes",
        buffer.len()
    );
    Requested {
        answer: answer(number),
        length,
        letter: Letter::of_byte(letter),
    }
}

#[cfg(not(feature = "stand-in"))]
mod core {
    unsafe extern "C" {
        fn pillar_request(
            page: *mut u8,
            length: usize,
            table: *const u8,
            table_length: usize,
            request: *const u8,
            request_length: usize,
            answer: *mut u8,
            answer_size: usize,
            answer_length: *mut usize,
            letter: *mut u8,
        ) -> u32;
    }

    /// The number, the answer's length, and the byte that stands for the letter.
    pub fn request(
        page: &mut [u8],
        table: &[u8],
        request: &[u8],
        buffer: &mut [u8],
    ) -> (u32, usize, u8) {
        let (page_length, size) = (page.len(), buffer.len());
        // No length and no letter, so that a request that stores nothing is noticed.
        let (mut length, mut letter) = (usize::MAX, u8::MAX);
        // SAFETY: each pair is that of a live slice; those that are written are
        // exclusive, so none overlap. Length and letter are live and exclusive.
        let number = unsafe {
            pillar_request(
                page.as_mut_ptr(),
                page_length,
                table.as_ptr(),
                table.len(),
                request.as_ptr(),
                request.len(),
                buffer.as_mut_ptr(),
                size,
                &mut length,
                &mut letter,
            )
        };
        (number, length, letter)
    }
}

#[cfg(feature = "stand-in")]
mod core {
    use plain::{Meter, Table};

    /// The number, the answer's length, and the byte that stands for the letter.
    pub fn request(
        page: &mut [u8],
        table: &[u8],
        request: &[u8],
        buffer: &mut [u8],
    ) -> (u32, usize, u8) {
        let table = Table::load(table).unwrap_or_default();
        match Meter::request_on_page(page, &table, request, buffer) {
            Ok(answered) => {
                let letter = answered.letter.map_or(0, |letter| letter.as_char() as u8);
                (0, answered.length, letter)
            }
            Err(refusal) => (refusal.into(), 0, 0),
        }
    }
}

#[cfg(test)]
mod tests {
    use super::*;
    use crate::{BUILT_IN, PAGE, Settings, fresh};

    const SETTINGS: Settings = Settings {
        mode: 4,
        threshold: 3000,
        over: 2,
        under: 3,
        clock: 1000,
    };
    const DISCONNECT: [u8; 15] = [0xc3, 0x01, 0xc1, 0, 70, 0, 0, 96, 3, 10, 255, 1, 1, 0x0f, 0];

    #[test]
    fn length_and_letter_are_handed_on() {
        let mut page = [0; PAGE];
        fresh(&mut page, SETTINGS).unwrap();
        let mut buffer = [7; ANSWER_BUFFER + 1];
        let requested = request(&mut page, BUILT_IN, &DISCONNECT, &mut buffer);
        let expected = Requested {
            answer: Ok(()),
            length: 5,
            letter: Some(Letter::B),
        };
        assert_eq!(requested, expected);
        assert_eq!(buffer[..5], [0xc7, 0x01, 0xc1, 0, 0]);
        assert_eq!(buffer[5..], [7; ANSWER_BUFFER - 4]);
    }

    #[test]
    fn refusals_come_in_their_order() {
        let mut page = [0; PAGE];
        fresh(&mut page, SETTINGS).unwrap();
        let mut refused = |length: usize, given: &[u8], size: usize| {
            let requested = request(&mut page[..length], BUILT_IN, given, &mut [7; 64][..size]);
            assert_eq!((requested.length, requested.letter), (0, None));
            requested.answer
        };
        assert_eq!(refused(PAGE - 1, &[], ANSWER_BUFFER - 1), Err(21));
        assert_eq!(refused(PAGE - 1, &[], ANSWER_BUFFER), Err(9));
        assert_eq!(refused(PAGE, &DISCONNECT[1..], ANSWER_BUFFER), Err(20));
    }
}
