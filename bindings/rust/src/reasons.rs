//! Statement files with reasons, and statement files of either version.
use crate::{ffi, Currency, Refusal};
use std::iter::FusedIterator;

/// What a statement file of either version says of itself: its version, 1 or 2, its first record's start, the count of its records and the sum of
/// their coefficients.
#[derive(Clone, Copy, Debug, PartialEq, Eq)]
pub struct AnyStatement {
    pub version: u16,
    pub first: usize,
    pub count: usize,
    pub sum: i64,
}

/// As [`write_statement`](crate::write_statement), with a reason code of 0 to 99 beside each payout: a file of version 2. Refusals 3, 4, 9, 11.
pub fn write_reasons(
    currency: Currency,
    places: &[u16],
    reasons: &[u16],
    coefficients: &[i64],
    out: &mut [u8],
    start: usize,
) -> Result<usize, Refusal> {
    // no buffer reaches past the largest i64
    let start = i64::try_from(start).unwrap_or(i64::MAX);
    // SAFETY: each pointer goes with its list's length, and `out` is borrowed alone
    let r = unsafe {
        ffi::mkb_write_reasons(
            currency.0.into(),
            places.as_ptr(),
            places.len(),
            reasons.as_ptr(),
            reasons.len(),
            coefficients.as_ptr(),
            coefficients.len(),
            out.as_mut_ptr(),
            out.len(),
            start,
        )
    };
    Refusal::or(r.refusal, r.blamed, r.end as usize)
}

/// The statement file of either version that the bytes end in: refusal 14 where they end in none.
pub fn check_any(bytes: &[u8]) -> Result<AnyStatement, Refusal> {
    // SAFETY: the pointer goes with the slice's length
    let r = unsafe { ffi::mkb_check_any(bytes.as_ptr(), bytes.len()) };
    Refusal::or(r.refusal, r.blamed, AnyStatement { version: r.version, first: r.first as usize, count: r.count as usize, sum: r.sum })
}

/// What a record of either version says of one payout; the reason is 0 in version 1.
#[derive(Clone, Copy, Debug, PartialEq, Eq)]
pub struct Reasoned {
    pub place: u16,
    pub currency: Currency,
    pub coefficient: i64,
    pub reason: u16,
}

/// The payouts of a statement file of either version in file order, each once, with their reasons. It borrows the bytes and keeps its place among them.
#[derive(Clone, Debug)]
pub struct AnyView<'a> {
    bytes: &'a [u8],
    version: u16,
    next: u64,
    left: usize,
}

impl<'a> AnyView<'a> {
    /// A view of the statement file of either version that the bytes end in: refusal 14 where they end in none.
    pub fn open(bytes: &'a [u8]) -> Result<Self, Refusal> {
        check_any(bytes).map(|said| AnyView { bytes, version: said.version, next: said.first as u64, left: said.count })
    }

    /// 1 or 2.
    pub fn version(&self) -> u16 {
        self.version
    }
}

impl Iterator for AnyView<'_> {
    type Item = Reasoned;

    fn next(&mut self) -> Option<Reasoned> {
        // SAFETY: as above
        let step = unsafe { ffi::mkb_reasoned_at(self.bytes.as_ptr(), self.bytes.len(), self.version.into(), self.next as i64) };
        self.next = step.next;
        self.left = self.left.saturating_sub(1);
        // a currency of a statement file is one of the table's
        let currency = Currency(step.currency as u8);
        (!step.ended).then_some(Reasoned { place: step.place, currency, coefficient: step.coefficient, reason: step.reason })
    }

    fn size_hint(&self) -> (usize, Option<usize>) {
        (self.left, Some(self.left))
    }
}

impl ExactSizeIterator for AnyView<'_> {}
impl FusedIterator for AnyView<'_> {}
