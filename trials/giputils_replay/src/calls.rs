//! The lines of a list: calls with their words.

/// A call: its name, and the words behind it.
#[derive(Clone, Copy)]
pub(crate) struct Call<'a> {
    pub(crate) name: &'a str,
    pub(crate) words: &'a str,
}

impl<'a> Call<'a> {
    /// The call of a line.
    pub(crate) fn of(line: &'a str) -> Self {
        let (name, words) = line.split_once(' ').unwrap_or((line, ""));
        Call { name, words }
    }

    /// The word at a place, which is empty where there is none.
    pub(crate) fn word(self, place: usize) -> &'a str {
        self.words.split(' ').nth(place).unwrap_or("")
    }

    /// The number at a place, which is 0 where there is none.
    pub(crate) fn number(self, place: usize) -> usize {
        self.word(place).parse().unwrap_or(0)
    }

    /// The number of 32 bits at a place, which is 0 where there is none.
    pub(crate) fn short(self, place: usize) -> u32 {
        self.word(place).parse().unwrap_or(0)
    }

    /// Whether the word at a place is `1`.
    pub(crate) fn is_one(self, place: usize) -> bool {
        self.word(place) == "1"
    }
}
