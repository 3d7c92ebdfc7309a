//! Watch formulas: request A.13 of document 02.

use super::Parser;
use crate::program::{Condition, Watch};
use crate::token::Kind;
use crate::{Refusal, WATCHES};

impl Parser<'_> {
    /// `watch: G([c]);` or `watch: G([c] -> X([c]));`, "at most 16": "30 a 17th watch, at its
    /// word, in the place of 8".
    pub(super) fn watch(&mut self) -> Result<(), Refusal> {
        if self.program.watches.len() == WATCHES {
            return Err(self.refuse(30));
        }
        self.watching = true;
        self.expect(Kind::Watch)?;
        self.expect(Kind::Colon)?;
        self.expect(Kind::G)?;
        self.expect(Kind::OpenRound)?;
        let first = self.watched_condition()?;
        let then = if self.token.kind == Kind::Arrow {
            Some(self.following()?)
        } else {
            None
        };
        self.expect(Kind::CloseRound)?;
        self.expect(Kind::Semicolon)?;
        self.program.watches.push(Watch { first, then });
        Ok(())
    }

    /// `-> X([c])`
    fn following(&mut self) -> Result<Condition, Refusal> {
        self.expect(Kind::Arrow)?;
        self.expect(Kind::X)?;
        self.expect(Kind::OpenRound)?;
        let condition = self.watched_condition()?;
        self.expect(Kind::CloseRound)?;
        Ok(condition)
    }

    /// `[c]`; "the brackets shown here aren't counted".
    fn watched_condition(&mut self) -> Result<Condition, Refusal> {
        self.expect(Kind::OpenSquare)?;
        let condition = self.condition()?;
        self.expect(Kind::CloseSquare)?;
        Ok(condition)
    }
}
