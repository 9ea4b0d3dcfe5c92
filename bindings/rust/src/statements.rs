//! Statement files.
use crate::{ffi, Currency, Refusal};
use std::iter::FusedIterator;

/// The bytes of a record, and of the trailer.
const RECORD: usize = 16;
const TRAILER: usize = 24;

/// What a statement file says of itself: its first record's start, the count of its records and the sum of their coefficients.
#[derive(Clone, Copy, Debug, PartialEq, Eq)]
pub struct Statement {
    pub first: usize,
    pub count: usize,
    pub sum: i64,
}

/// A statement file in `out` from the byte `start` on, a record for each payout and a trailer; the file's end. No other byte changes, and none
/// where the call is refused: refusals 3, 4, 9, 11.
pub fn write_statement(currency: Currency, places: &[u16], coefficients: &[i64], out: &mut [u8], start: usize) -> Result<usize, Refusal> {
    // no buffer reaches past the largest i64
    let start = i64::try_from(start).unwrap_or(i64::MAX);
    // SAFETY: each pointer goes with its list's length, and `out` is borrowed alone
    let r = unsafe {
        ffi::mkb_write_statement(
            currency.0.into(),
            places.as_ptr(),
            places.len(),
            coefficients.as_ptr(),
            coefficients.len(),
            out.as_mut_ptr(),
            out.len(),
            start,
        )
    };
    Refusal::or(r.refusal, r.blamed, r.end as usize)
}

/// The statement file that the bytes end in: refusal 17 where their trailer is of version 2, else 14 where they end in none.
pub fn check_statement(bytes: &[u8]) -> Result<Statement, Refusal> {
    // SAFETY: the pointer goes with the slice's length
    let r = unsafe { ffi::mkb_check_statement(bytes.as_ptr(), bytes.len()) };
    Refusal::or(r.refusal, r.blamed, Statement { first: r.first as usize, count: r.count as usize, sum: r.sum })
}

/// What a record says of one payout: the partner's place, the currency, and the coefficient at the currency's own digits.
#[derive(Clone, Copy, Debug, PartialEq, Eq)]
pub struct Payout {
    pub place: u16,
    pub currency: Currency,
    pub coefficient: i64,
}

/// The payouts of a statement file in file order, each once. It borrows the bytes and keeps its place among them.
///
/// ```
/// use morskebab::{write_statement, Currency, View};
/// let mut out = [0; 56];
/// assert_eq!(write_statement(Currency(0), &[2, 0], &[-1_250, 700], &mut out, 0), Ok(56));
/// let payouts: Vec<(u16, i64)> = View::open(&out)?.map(|payout| (payout.place, payout.coefficient)).collect();
/// assert_eq!(payouts, [(2, -1_250), (0, 700)]);
/// # Ok::<(), morskebab::Refusal>(())
/// ```
#[derive(Clone, Debug)]
pub struct View<'a> {
    bytes: &'a [u8],
    next: u64,
}

impl<'a> View<'a> {
    /// A view of the statement file that the bytes end in: refusals 17 and 14 as by [`check_statement`].
    pub fn open(bytes: &'a [u8]) -> Result<Self, Refusal> {
        // SAFETY: the pointer goes with the slice's length
        let r = unsafe { ffi::mkb_first_payout(bytes.as_ptr(), bytes.len()) };
        Refusal::or(r.refusal, r.blamed, View { bytes, next: r.first })
    }
}

impl Iterator for View<'_> {
    type Item = Payout;

    fn next(&mut self) -> Option<Payout> {
        // SAFETY: as above
        let step = unsafe { ffi::mkb_payout_at(self.bytes.as_ptr(), self.bytes.len(), self.next as i64) };
        self.next = step.next;
        // a currency of a statement file is one of the table's
        (!step.ended).then_some(Payout { place: step.place, currency: Currency(step.currency as u8), coefficient: step.coefficient })
    }

    fn size_hint(&self) -> (usize, Option<usize>) {
        let left = (self.bytes.len() - TRAILER - self.next as usize) / RECORD;
        (left, Some(left))
    }
}

impl ExactSizeIterator for View<'_> {}
impl FusedIterator for View<'_> {}
