//! A refusal, and what stands there.
use crate::expected::Stage;

#[derive(Clone, Copy, Debug)]
pub(crate) struct Spot<'a> {
    pub text: &'a [u8],
    pub number: u32,
    pub place: usize,
    pub stage: Option<Stage>,
}
