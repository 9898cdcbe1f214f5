//! Stands for warning.rs, which is not among the papers.
use pest::iterators::Pair;

use crate::parser::Rule;

#[derive(Clone, Debug)]
pub enum Warning<'i> {
    ShouldBeCapitalized(Pair<'i, Rule>),
    ShouldBeLowercase(Pair<'i, Rule>),
}
