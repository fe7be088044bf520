//! The check of a printed plan behind its survey as a call: one text in, one number out, sites, cost and bound in a
//! lent buffer. That counts which do not fit are 7, after all that is refused of the text, is the product's own
//! decision, as are 25 to 28 (`printed`).

use crate::calls::{code, CHECK_COUNTS};
use crate::check::Passed;
use crate::gen::{plan_text_case, Rng};
use crate::printed::verify;

pub type Verify = fn(&[u8], &mut [u64]) -> u64;

/// The second implementation in that form.
pub fn second(text: &[u8], counts: &mut [u64]) -> u64 {
    match verify(text) {
        Err(refusal) => code(refusal),
        Ok(_) if counts.len() < CHECK_COUNTS => 7,
        Ok(Passed { sites, cost, bound }) => {
            counts[..CHECK_COUNTS].copy_from_slice(&[sites, cost, bound]);
            0
        }
    }
}

/// Holds a library's call against the second implementation on one case: the refusal that came, or what differs.
pub fn compare(theirs: Verify, seed: u64, number: u64) -> Result<u64, String> {
    let text = plan_text_case(seed, number);
    let rng = &mut Rng::of_case(seed ^ 0x7665_7269, number);
    let length = rng.pick(&[0, 1, 2, 2, 3, 3, 3, 3, 3, 4, 5]);
    let before: Vec<u64> = (0..length).map(|_| rng.word()).collect();
    let (mut expected, mut counts) = (before.clone(), before);
    let (answer, came) = (second(&text, &mut expected), theirs(&text, &mut counts));
    if (came, &counts) != (answer, &expected) {
        let text = String::from_utf8_lossy(&text);
        return Err(format!("verify of {text:?}: expected {answer} {expected:?}, the library has {came} {counts:?}"));
    }
    Ok(answer % 256)
}
