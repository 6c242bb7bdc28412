//! What the key table program prints for a line.

use reading::tables;

use crate::question::Call;
use crate::question::Question;
use crate::tally::Original;
use crate::tally::Tally;

pub fn print(tally: &mut Tally, input: &[u8]) {
    let arguments: Vec<i64> = input.iter().map(|byte| i64::from(*byte)).collect();
    let question = Question {
        call: Call::KeyTable,
        arguments: &arguments,
    };
    let reading = Ok(tables::output(input).into_bytes());
    let call = |out: &mut [u8]| vetchnoon::key_table(input, out);
    tally.compare_filling(question, reading, Original::Silent, None, call);
}
