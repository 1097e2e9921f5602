//! What one side answers.

use reference::State;

/// The number that a call returns, and the bytes that it leaves in the caller's buffer, finds or prints.
#[derive(Clone, Debug, PartialEq, Eq)]
pub struct Answer {
    pub number: u32,
    pub bytes: Vec<u8>,
    /// What must not be: bytes changed beside the buffer, a broken guarantee. The reference has none.
    pub complaint: String,
}

impl Answer {
    pub fn new(number: impl Into<u32>, bytes: Vec<u8>) -> Answer {
        Answer {
            number: number.into(),
            bytes,
            complaint: String::new(),
        }
    }

    /// The same with more complaints, as far as they say anything.
    pub fn complaining(mut self, complaints: impl IntoIterator<Item = String>) -> Answer {
        let mut all = vec![self.complaint];
        all.extend(complaints);
        all.retain(|complaint| !complaint.is_empty());
        self.complaint = all.join("; ");
        self
    }

    /// The same with a complaint, if by the state the reason that it gives is not the true one.
    pub fn judged(self, state: Option<&State>, is_true: impl Fn(&State, &Answer) -> bool) -> Answer {
        let is_untrue = state.is_some_and(|state| !is_true(state, &self));
        self.complaining(is_untrue.then(|| "this is not the true reason".to_string()))
    }
}
