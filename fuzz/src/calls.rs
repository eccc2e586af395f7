//! Starts, steps and walks on lent lists, as the rest of an input says, with the lists changed between calls.

use crate::input::Input;
use outside::lists::Lists;
use outside::run::{Call, Setting};

const MOST_CALLS: usize = 64;
const MOST_STEPS: u32 = 40;

fn lists(input: &mut Input) -> Lists {
    let (words, numbers, fill) = (input.short() % 8192, input.short() % 2048, input.byte());
    Lists {
        threads: vec![u32::from(fill) * 0x0101_0101; words.into()],
        thread_count: 0,
        markers: vec![u16::from(fill) * 0x0101; numbers.into()],
        marker_count: 0,
    }
}

/// Choice bytes: one pattern over all of them, and now and then not 128.
fn choices(input: &mut Input) -> Box<[u8]> {
    let (pattern, length) = (input.byte(), input.byte());
    let count = if length < 250 { 128 } else { usize::from(length) - 123 };
    vec![pattern; count].into()
}

pub fn compare(array: &[u8], mut input: Input) {
    let mut lists = lists(&mut input);
    for _ in 0..MOST_CALLS {
        if input.is_empty() {
            return;
        }
        one(array, &mut lists, &mut input);
    }
}

fn one(array: &[u8], lists: &mut Lists, input: &mut Input) {
    match input.byte() % 8 {
        0 => call(array, lists, input, |_| Call::Start),
        1..=3 => {
            call(array, lists, input, |input| Call::Step { receiver: input.byte().into(), sender: input.byte().into() })
        }
        4 => call(array, lists, input, |input| Call::Walk { allowed: u32::from(input.byte()) % MOST_STEPS }),
        5 => set(&mut lists.threads, input.short(), input.word()),
        6 => set(&mut lists.markers, input.short(), input.short()),
        _ => (lists.thread_count, lists.marker_count) = (input.short().into(), input.short().into()),
    }
}

fn set<T>(list: &mut [T], at: u16, value: T) {
    if let Some(word) = list.get_mut(usize::from(at)) {
        *word = value;
    }
}

/// Makes a call of both versions; what the proved one leaves is what the next call gets.
fn call(array: &[u8], lists: &mut Lists, input: &mut Input, what: impl FnOnce(&mut Input) -> Call) {
    let choices = choices(input);
    let (setting, call) = (Setting { array, choices: &choices }, what(input));
    let mut other = lists.clone();
    let expected = call.plain(setting, &mut other);
    let lent = handover::Lists {
        threads: &mut lists.threads,
        thread_count: lists.thread_count,
        markers: &mut lists.markers,
        marker_count: lists.marker_count,
    };
    let answer = call.proved(setting, lent);
    assert_eq!(answer, expected, "the answer of {call:?}");
    assert!(*lists == other, "the lists after {call:?}");
    if handover::refusal(answer).is_none() {
        (lists.thread_count, lists.marker_count, _) = handover::counts(answer);
    }
}
