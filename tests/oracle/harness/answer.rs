//! What a call of the C interface answers.

/// The four words of an answer.
#[derive(Clone, Copy, Debug, PartialEq)]
pub struct Answer {
    pub number: u64,
    pub root: u64,
    /// Pages written, or the number of the fault that the answer names.
    pub pages: u64,
    pub detail: u64,
}

impl Answer {
    pub fn done(root: u64, pages: u64) -> Answer {
        Answer { number: 0, root, pages, detail: 0 }
    }

    /// The answer of a call that reads: a number, and an index or page.
    pub fn told(number: u64, detail: u64) -> Answer {
        Answer { number, root: 0, pages: 0, detail }
    }
}
