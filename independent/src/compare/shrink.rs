//! Cutting a script that shows a fault down to what it takes to show it.

use super::script::{load_line, poke_of, table_of, Line, Script};

/// Most tries, as each may start a slow program.
const TRIES_MAX: usize = 3_000;

/// The shortest list found that still shows the fault; `shows` must hold of `lines`.
pub fn shrink(lines: Vec<Line>, shows: &mut dyn FnMut(&[Line]) -> bool) -> Vec<Line> {
    let mut tries = 0;
    let mut limited = |lines: &[Line]| {
        tries += 1;
        tries <= TRIES_MAX && shows(lines)
    };
    let mut lines = cut(lines, &mut limited);
    for at in 0..lines.len() {
        let Some(text) = table_of(&lines[at]) else {
            continue;
        };
        let table = text.split_inclusive(|byte| *byte == b'\n').map(<[u8]>::to_vec).collect();
        let shorter = cut(table, &mut |table| {
            let mut tried = lines.clone();
            tried[at] = load_line(&table.concat());
            limited(&tried)
        });
        lines[at] = load_line(&shorter.concat());
    }
    // From the end, as a poke that becomes several moves those after it.
    for at in (0..lines.len()).rev() {
        let Some((first, bytes)) = poke_of(&lines[at]) else {
            continue;
        };
        let poked: Vec<_> = bytes.into_iter().enumerate().map(|(index, byte)| (first + index, byte)).collect();
        let with = |poked: &[(usize, u8)]| [&lines[..at], &pokes(poked), &lines[at + 1..]].concat();
        if limited(&with(&poked)) {
            let fewer = cut(poked, &mut |poked| limited(&with(poked)));
            lines = with(&fewer);
        }
    }
    cut(lines, &mut limited)
}

/// The lines that poke these bytes of the state, neighbours together.
fn pokes(poked: &[(usize, u8)]) -> Vec<Line> {
    let mut script = Script::default();
    for together in poked.chunk_by(|before, after| before.0 + 1 == after.0) {
        let bytes: Vec<u8> = together.iter().map(|(_, byte)| *byte).collect();
        script.poke(together[0].0, &bytes);
    }
    script.lines
}

/// Leaves out what can be left out: halves first, then smaller pieces, then single ones.
fn cut<T: Clone>(mut list: Vec<T>, shows: &mut dyn FnMut(&[T]) -> bool) -> Vec<T> {
    let mut size = list.len().div_ceil(2).max(1);
    loop {
        let before = list.len();
        list = cut_pieces(list, size, shows);
        let again = size == 1 && list.len() < before;
        if size == 1 && !again {
            return list;
        }
        size = size.div_ceil(2);
    }
}

/// Tries to leave out each piece of this size, from the end, where most is not needed.
fn cut_pieces<T: Clone>(mut list: Vec<T>, size: usize, shows: &mut dyn FnMut(&[T]) -> bool) -> Vec<T> {
    let mut end = list.len();
    while end > 0 {
        let start = end.saturating_sub(size);
        let shorter = [&list[..start], &list[end..]].concat();
        if shows(&shorter) {
            list = shorter;
        }
        end = start;
    }
    list
}
