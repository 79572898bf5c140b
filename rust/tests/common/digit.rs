//! A stand-in whose reports have one wrong digit.

use second_evaluator::calls::{Answer, Words};
use second_evaluator::generate::Call;
use second_evaluator::harness::{second, Calls};

pub struct OneDigit;

impl Calls for OneDigit {
    fn call(&self, call: Call, text: &[u8], words: Words, out: &mut [u8]) -> Answer {
        let answer = second(call, text, words, out);
        let real = out.iter().rposition(|byte| *byte == b'r').unwrap();
        out[real + 16] ^= 1;
        answer
    }
}
