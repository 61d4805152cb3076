//! Stands in for the crate cedar_policy_core: the pattern of `like`, which the crate's operators carry.
//! No decoding logic is in it; a decoded model never holds a pattern, only the type has to be there.

pub mod ast {
    #[derive(Clone, Copy, Debug, PartialEq, Eq, Hash)]
    pub enum PatternElem {
        Char(char),
        Wildcard,
    }

    #[derive(Clone, Debug, PartialEq, Eq, Hash)]
    pub struct Pattern(Vec<PatternElem>);

    impl Pattern {
        pub fn get_elems(&self) -> &[PatternElem] {
            &self.0
        }
    }
}
