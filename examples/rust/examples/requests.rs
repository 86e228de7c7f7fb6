//! Answers requests from standard input on the proved core, one a line in
//! hexadecimal digits, on a meter of control mode 4, threshold 3000 watts, durations
//! of 2 and 3 samples, clock 1000. Prints each answer in hexadecimal digits; the
//! letter of a move, and the number of a refusal, stand behind `#`. `tools/frame`
//! makes such requests of words, and words of such answers.

mod common;

use common::{Outcome, Output, failed, refused};
use pillar::{ANSWER_BUFFER, BUILT_IN, PAGE, Settings};
use std::io::Write;
use std::process::ExitCode;

fn main() -> ExitCode {
    common::run(requests)
}

fn requests(output: &mut Output) -> Outcome {
    let mut page = [0; PAGE];
    let settings = Settings {
        mode: 4,
        threshold: 3000,
        over: 2,
        under: 3,
        clock: 1000,
    };
    pillar::fresh(&mut page, settings).map_err(refused)?;
    for line in common::input_lines()? {
        let Some(request) = common::bytes_of(&line?) else {
            return failed("not two hexadecimal digits for each byte");
        };
        let mut buffer = [0; ANSWER_BUFFER];
        let requested = pillar::request(&mut page, BUILT_IN, &request, &mut buffer);
        if let Err(refusal) = requested.answer {
            writeln!(output, "# refused with {refusal}")?;
            continue;
        }
        let answer = buffer[..requested.length].iter();
        let answer: Vec<_> = answer.map(|byte| format!("{byte:02x}")).collect();
        let answer = answer.join(" ");
        match requested.letter {
            Some(letter) => writeln!(output, "{answer} # letter {}", letter.as_char())?,
            None => writeln!(output, "{answer}")?,
        }
    }
    Ok(())
}
