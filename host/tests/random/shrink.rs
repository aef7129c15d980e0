//! The shortest case that still differs.

use degvuurel::Report;

/// The items tried in all, after which what is left is short enough: a case of thousands takes long to try.
const TRIED: usize = 400_000;

/// Drops items, many at once and then one by one, while the rest still differs. The first pass may find nothing to drop that a
/// later one does, so it begins again until one item less is nowhere a difference.
pub fn fewest<T: Clone>(items: &[T], differs: &mut dyn FnMut(&[T]) -> bool) -> Vec<T> {
    let mut kept = items.to_vec();
    let mut left = TRIED;
    let mut size = kept.len().div_ceil(2);
    while size > 0 && left > 0 {
        let dropped = pass(&mut kept, size, &mut left, differs);
        if size == 1 && !dropped {
            break;
        }
        size = (size / 2).max(1);
    }
    kept
}

/// Tries to drop each stretch of so many items; whether any was dropped.
fn pass<T: Clone>(kept: &mut Vec<T>, size: usize, left: &mut usize, differs: &mut dyn FnMut(&[T]) -> bool) -> bool {
    let mut dropped = false;
    let mut at = 0;
    while at < kept.len() && *left > 0 {
        *left = left.saturating_sub(kept.len());
        let end = kept.len().min(at + size);
        let rest = [&kept[..at], &kept[end..]].concat();
        if differs(&rest) {
            *kept = rest;
            dropped = true;
        } else {
            at = end;
        }
    }
    dropped
}

/// The least number, going down from one that differs.
pub fn least(number: u16, differs: &mut dyn FnMut(u16) -> bool) -> u16 {
    let mut kept = number;
    let mut step = number / 2;
    while step > 0 {
        if kept > step && differs(kept - step) {
            kept -= step;
        } else {
            step /= 2;
        }
    }
    kept
}

/// The fewest reports, and then the shortest clocks among them.
pub fn fewest_reports(reports: &[Report], differs: &mut dyn FnMut(&[Report]) -> bool) -> Vec<Report> {
    let mut kept = fewest(reports, differs);
    for at in 0..kept.len() {
        if kept[at].kind == Report::clock(1).kind {
            let mut tried = kept.clone();
            kept[at].value = least(kept[at].value, &mut |value| {
                tried[at].value = value;
                differs(&tried)
            });
        }
    }
    kept
}
