//! Stands for util/sign.rs, which is not among the papers.
pub(crate) enum Sign {
    Pos,
    Neg,
}
