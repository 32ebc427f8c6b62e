//! Stands for MartyPC's own crate `marty_common`: the token type of the original's display states, which are compiled and never run. Left out:
//! all variants but the one that the original makes, and the empty one that stands for the default.

pub mod syntax_token {
    #[derive(Clone, Default)]
    pub enum SyntaxToken {
        #[default]
        Empty,
        StateString(String, bool, u8),
    }
}
