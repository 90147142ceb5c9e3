// Ours from here on: the build appends this to a copy of the published file,
// because the two packed words of a span are private to its module.
pub mod words {
    use super::Span;

    /// The packed words, low and high.
    pub fn of(span: Span) -> (u64, u64) {
        (span.low, span.high)
    }

    /// Any two words as a span, also with its start after its end.
    pub fn to_span(low: u64, high: u64) -> Span {
        Span { low, high }
    }
}
