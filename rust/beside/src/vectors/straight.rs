//! A request as the C face takes it, as columns of a line.

use super::text::{Token, numbers};
use crate::plain::Straight;

impl Straight {
    /// The eight columns after the kind.
    pub fn columns(&self) -> Vec<Token> {
        let counts = [self.head, self.params, self.locals, self.slots, self.results].map(u64::from);
        let words = [
            Token::Pair(self.caller_flag, self.caller),
            Token::Number(self.callee),
            Token::Pair(self.instance_flag, self.instance),
        ];
        [numbers(&counts), words.to_vec()].concat()
    }

    /// The kind, then the eight columns.
    pub fn with_kind(&self) -> Vec<Token> {
        [vec![Token::Number(self.kind)], self.columns()].concat()
    }
}
