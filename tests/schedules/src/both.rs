//! The proved simulator, from its static library, and that of the second program.

use second::simulator::{run, Simulator};

/// Bytes that suffice for the answers of every schedule: the proved bound.
pub const ANSWERS_LEN: usize = 2_700;
/// Bytes of the longest answers of all: those of tests/schedules/longest.in (docs/SIMULATOR.md).
pub const LONGEST_ANSWERS: usize = 595;
const TOO_SHORT: u32 = 2;
const FILL: u8 = 0xA5;

#[link(name = "simulator_c", kind = "static")]
extern "C" {
    fn mantelorris_yard(text: *const u8, text_len: usize, out: *mut u8, out_len: usize) -> u64;
}

/// A refusal or 0, and the bytes written.
fn call(text: &[u8], out: &mut [u8]) -> (u32, usize) {
    // SAFETY: each slice is a pointer and its length; the function is proved to stay inside both, for all arguments.
    let word = unsafe { mantelorris_yard(text.as_ptr(), text.len(), out.as_mut_ptr(), out.len()) };
    (word as u32, (word >> 32) as usize)
}

/// The proved simulator's answers.
pub fn proved(text: &[u8]) -> Result<Vec<u8>, String> {
    let mut out = [FILL; ANSWERS_LEN];
    let (number, written) = call(text, &mut out);
    if number != 0 || written > out.len() {
        return Err(format!("refused with {number}, {written} bytes"));
    }
    if out[written..].iter().any(|&b| b != FILL) {
        return Err("bytes past the answers are written".to_string());
    }
    Ok(out[..written].to_vec())
}

/// An output of just the answers' length is filled; one byte less is refused and kept.
pub fn exact(text: &[u8], answers: &[u8]) -> Result<(), String> {
    let mut out = vec![FILL; answers.len()];
    if call(text, &mut out) != (0, answers.len()) || out != answers {
        return Err("an output of just their length is not filled".to_string());
    }
    if let Some(short) = answers.len().checked_sub(1) {
        let mut out = vec![FILL; short];
        if call(text, &mut out) != (TOO_SHORT, 0) || out.iter().any(|&b| b != FILL) {
            return Err("an output of one byte less is not refused, or not kept".to_string());
        }
    }
    Ok(())
}

/// The second program's answers.
pub fn second(text: &[u8]) -> Vec<u8> {
    run(text).into_bytes()
}

/// The second program's simulator, a line at a time: number and packet made.
pub struct Stepper(Simulator);

impl Stepper {
    pub fn new() -> Stepper {
        Stepper(Simulator::new())
    }

    pub fn line(&mut self, line: &[u8]) -> (u32, usize) {
        let answer = self.0.run_line(line);
        (answer.number, answer.packet)
    }
}
