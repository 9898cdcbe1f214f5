//! How a text is read.

/// How a text is read: by an edition of the sheet rules, or as a house sheet. The calls without a manner read by edition 1.
///
/// The calls for C take the edition as a number and refuse one that there is not with 19; here there is no such number, and so no
/// such refusal.
#[derive(Clone, Copy, Debug, Default, PartialEq, Eq, Hash)]
pub enum Manner {
    #[default]
    Edition1,
    /// Accepts besides a time alone ([`Span::is_point`](crate::Span::is_point)), marks after a range of weekdays (`Mo-Fr[1]`), and
    /// a day offset after any weekday item (`Mo +1 day`). What edition 1 accepts has the same records in both.
    Edition2,
    /// Edition 1, and refuses besides what the house profile does not allow: a rule after `,` or `||`; times that are not clock
    /// times up to 24:00, a repeat, an open end (22); a span that ends not after its start, or that starts before an earlier one of
    /// its rule ends (23).
    House,
}

impl Manner {
    /// The rules that say which shapes there are: the house reads edition 1's.
    pub(crate) fn shapes(self) -> Manner {
        match self {
            Manner::Edition1 | Manner::House => Manner::Edition1,
            Manner::Edition2 => Manner::Edition2,
        }
    }
}
