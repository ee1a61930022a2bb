//! Lists of calls in words, and the call that makes a whole one.

use crate::calls::*;
use crate::counts::Counts;
use crate::refusal::Refusal;

/// A call as a list can have it.
pub enum Listed<'a> {
    Begin { receiver: u16, selector: u16, arguments: &'a [u16] },
    Run(u32),
    Drop,
    Forget,
}

// Why a list ends.
const WITH_ITS_WORDS: &str = "a list ended with its words";
const CALL_NOT_WHOLE: &str = "a list ended at a call that is not whole";
const OTHER_FIRST_WORD: &str = "a list ended at another first word";
const NO_ROOM: &str = "a list ended with the room for answers";
pub const ENDS: [&str; 4] = [WITH_ITS_WORDS, CALL_NOT_WHOLE, OTHER_FIRST_WORD, NO_ROOM];

/// The first call of a list and the words behind it; or why the list ends here.
pub fn first(list: &[u16]) -> Result<(Listed<'_>, &[u16]), &'static str> {
    match *list {
        [0, receiver, selector, count, ref rest @ ..] if rest.len() >= count as usize => {
            let (arguments, rest) = rest.split_at(count as usize);
            Ok((Listed::Begin { receiver, selector, arguments }, rest))
        }
        [1, high, low, ref rest @ ..] => Ok((Listed::Run((high as u32) << 16 | low as u32), rest)),
        [2, ref rest @ ..] => Ok((Listed::Drop, rest)),
        [3, ref rest @ ..] => Ok((Listed::Forget, rest)),
        [] => Err(WITH_ITS_WORDS),
        [0..=3, ..] => Err(CALL_NOT_WHOLE),
        _ => Err(OTHER_FIRST_WORD),
    }
}

/// The words of an answer.
pub const ANSWER: [&str; 7] = ["number", "phase", "count", "value", "reach", "dictionaries (high word)", "dictionaries (low word)"];
pub const ANSWER_WORDS: usize = ANSWER.len();

/// Makes the calls of a list, each as if it came by itself; gives how many.
pub fn play(lent: &mut Lent, list: &[u16], answers: &mut [u32], counts: &mut Counts) -> Result<u32, Refusal> {
    check(lent)?;
    let mut list = list;
    let mut room = answers.chunks_exact_mut(ANSWER_WORDS);
    let mut made = 0;
    let end = loop {
        let (call, rest) = match first(list) {
            Ok(found) => found,
            Err(end) => break end,
        };
        let answer = match room.next() {
            Some(answer) => answer,
            None => break NO_ROOM,
        };
        answer.copy_from_slice(&single(lent, call, counts));
        list = rest;
        made += 1;
    };
    counts.event(end);
    Ok(made)
}

/// The answer of a run that was made, with the phase and value that it left.
pub fn ran_answer(phase: u16, value: u16, ran: &Ran) -> [u32; ANSWER_WORDS] {
    [0, phase as u32, ran.count, value as u32, ran.reach, (ran.dictionaries >> 32) as u32, ran.dictionaries as u32]
}

/// The answer of any other call: 0, or the refusal's number.
pub fn other_answer(number: u32) -> [u32; ANSWER_WORDS] {
    let mut answer = [0; ANSWER_WORDS];
    answer[0] = number;
    answer
}

/// One call of a list, and its answer.
fn single(lent: &mut Lent, call: Listed, counts: &mut Counts) -> [u32; ANSWER_WORDS] {
    let answer = match call {
        Listed::Begin { receiver, selector, arguments } => begin(lent, receiver, selector, arguments, counts).map(|()| other_answer(0)),
        Listed::Run(n) => run(lent, n, counts).map(|ran| ran_answer(lent.registers[PHASE], lent.registers[VALUE], &ran)),
        Listed::Drop => drop(lent).map(|()| other_answer(0)),
        Listed::Forget => forget(lent).map(|()| other_answer(0)),
    };
    answer.unwrap_or_else(|refusal| other_answer(refusal.number))
}
