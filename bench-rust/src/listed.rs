//! A list of calls as numbers, handed to a run: a task waits on a queue and the next call releases it.

use crate::plain_runs::{ANSWER_WORDS, CALL_WORDS, RCV_DTQ};

/// Long enough that the table, which each run builds anew, costs little beside the calls.
const LIST_PAIRS: u32 = 4_096;
const RELEASED_WORD: usize = 3;

/// Task 4 waits to receive from queue 1, and task 1 sends to it by one of the sends.
fn pair(send: u32, word: u32) -> [u32; 2 * CALL_WORDS] {
    [RCV_DTQ, 4, 1, 0, 0, 0, 0, 0, send, 1, 1, word, 0, 0, 0, 0]
}

/// The sum of the words that the released task got.
pub fn wait_release(run: fn(&[u32], &mut [u32]) -> usize, pairs: u32, send: u32) -> u32 {
    let calls: Vec<u32> = (0..LIST_PAIRS).flat_map(|word| pair(send, word)).collect();
    let mut answers = vec![0; 2 * LIST_PAIRS as usize * ANSWER_WORDS];
    let (mut left, mut sum) = (pairs, 0u32);
    while left > 0 {
        let now = left.min(LIST_PAIRS);
        let answered = run(&calls[..2 * now as usize * CALL_WORDS], &mut answers);
        let rows = answers[..answered * ANSWER_WORDS].chunks_exact(ANSWER_WORDS);
        sum = rows.fold(sum, |sum, row| sum.wrapping_add(row[RELEASED_WORD]));
        left -= now;
    }
    sum
}
