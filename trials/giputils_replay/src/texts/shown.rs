//! Texts by formatters with options, which the texts of statistics don't heed.

use crate::replies::Replies;
use std::alloc::Global;
use std::fmt::{Debug, Display};
use std::io::Write;

/// Tells the text of a value by `{:?}`, if it is the same under all options of the formatter that are tried, and otherwise
/// its texts under all of them.
pub(crate) fn tell_debug<T: Debug>(alloc: Global, value: &T, replies: &mut Replies) {
    let mut texts = Vec::new(alloc);
    let _ = write!(
        texts,
        "{value:?}\n{value:#?}\n{value:>40?}\n{value:*<60?}\n{value:020?}\n{value:+09?}\n{value:.1?}"
    );
    tell_shared(&texts, replies);
}

/// Tells the text of a value by `{}`, if it is the same under all options of the formatter that are tried, and otherwise
/// its texts under all of them.
pub(crate) fn tell_display<T: Display>(alloc: Global, value: &T, replies: &mut Replies) {
    let mut texts = Vec::new(alloc);
    let _ = write!(
        texts,
        "{value}\n{value:#}\n{value:>40}\n{value:*<60}\n{value:020}\n{value:+09}\n{value:.1}"
    );
    tell_shared(&texts, replies);
}

// Tells the first of seven lines, if all are alike, and otherwise all of them.
fn tell_shared(texts: &[u8], replies: &mut Replies) {
    let text = str::from_utf8(texts).unwrap_or("");
    let first = text.lines().next().unwrap_or("");
    for line in text.lines() {
        if line != first {
            return replies.piece(text);
        }
    }
    replies.piece(first);
}
