//! A difference, with fewer calls that show it.

use crate::cases::Pair;
use crate::report::Report;
use crate::sides::*;
use apart::play;

/// What differs when these calls are made, and how many were made until then.
fn differs(first: &Buffers, calls: &[Call]) -> Option<(usize, String)> {
    let mut report = Report::default();
    let mut pair = Pair::new(first.clone(), &mut report);
    for (index, call) in calls.iter().enumerate() {
        if let Err(what) = pair.make(call.clone()) {
            return Some((index + 1, what));
        }
    }
    None
}

/// Leaves out what is not needed: calls, bytecodes granted.
pub fn shrink(first: &Buffers, calls: Vec<Call>, what: String) -> (Vec<Call>, String) {
    let (mut calls, mut what) = (calls, what);
    loop {
        let (smaller, difference) = match smaller(first, &calls) {
            Some(found) => found,
            None => return (calls, what),
        };
        (calls, what) = (smaller, difference);
    }
}

fn less_of(call: &Call) -> Vec<Call> {
    match call {
        Call::Run(n) => [n / 2, n.saturating_sub(1)].into_iter().filter(|less| less < n).map(Call::Run).collect(),
        Call::Play { words, room } => shorter_lists(words).into_iter().map(|words| Call::Play { words, room: *room }).collect(),
        Call::Lookups(all) if all.len() > 1 => all.iter().map(|sought| Call::Lookups(vec![*sought])).collect(),
        _ => vec![],
    }
}

/// A list without one of its calls, with less granted by one, or without the words behind them.
fn shorter_lists(words: &[u16]) -> Vec<Vec<u16>> {
    let mut lists = vec![];
    let mut rest = words;
    while let Ok((_, behind)) = play::first(rest) {
        let before = &words[..words.len() - rest.len()];
        lists.push([before, behind].concat());
        if let [1, high, low, ..] = *rest {
            let less = [[1, high / 2, low], [1, high, low / 2], [1, high, low.saturating_sub(1)]];
            lists.extend(less.iter().map(|run| [before, run, behind].concat()));
        }
        rest = behind;
    }
    lists.push(words[..words.len() - rest.len()].to_vec());
    lists.retain(|list| list != words);
    lists
}

fn smaller(first: &Buffers, calls: &[Call]) -> Option<(Vec<Call>, String)> {
    let mut tries: Vec<Vec<Call>> = vec![];
    for index in 0..calls.len() {
        let mut fewer = calls.to_vec();
        fewer.remove(index);
        tries.push(fewer);
    }
    for index in 0..calls.len() {
        for less in less_of(&calls[index]) {
            let mut shorter = calls.to_vec();
            shorter[index] = less;
            tries.push(shorter);
        }
    }
    for mut tried in tries {
        if let Some((made, difference)) = differs(first, &tried) {
            tried.truncate(made);
            return Some((tried, difference));
        }
    }
    None
}
