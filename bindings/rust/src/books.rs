//! The share book.
use crate::{ffi, Amount, Currency, Refusal};

/// A currency, a count of 1 to 16, as many weights with a sum of 1 to 10,000 and noughts behind them, a net total of 0 to L, a card number of 1 to
/// 1,000, and as many settled totals with noughts behind them, which sum to L at most with the net total.
/// Any values may stand in it: every call checks them all, and answers with the next book.
///
/// ```
/// use morskebab::{Amount, Book, Currency, Refusal};
/// let euros = |cents| Amount::new(Currency(0), 2, cents);
/// let book = Book::open(Currency(0), &[5, 3, 2])?;
/// let paid = book.post(euros(7))?;
/// assert_eq!(paid.payouts[..3], [4, 2, 1]);
/// let taken = paid.book.refund(euros(3))?;
/// assert_eq!(taken.book.running_totals()?[..3], [2, 1, 1]);
/// assert_eq!(taken.book.refund(euros(5)), Err(Refusal::Refund));
/// // a new card settles what was paid so far
/// let next = taken.book.card(&[1, 1, 1])?.book;
/// assert_eq!((next.card, next.net, &next.settled[..3]), (2, 0, &[2, 1, 1][..]));
/// # Ok::<(), morskebab::Refusal>(())
/// ```
#[derive(Clone, Copy, Debug, PartialEq, Eq)]
pub struct Book {
    pub currency: Currency,
    pub count: u8,
    pub weights: [u32; 16],
    pub net: i64,
    pub card: u16,
    pub settled: [i64; 16],
}

/// The next book, and what each partner is paid, or what a refund takes back from each; a new card pays noughts.
#[derive(Clone, Copy, Debug, PartialEq, Eq)]
pub struct Moved {
    pub book: Book,
    pub payouts: [u64; 16],
}

impl From<Book> for ffi::Book {
    fn from(b: Book) -> Self {
        ffi::Book { currency: b.currency.0.into(), count: b.count.into(), weights: b.weights, net: b.net, card: b.card.into(), settled: b.settled }
    }
}

impl From<ffi::Book> for Book {
    fn from(b: ffi::Book) -> Self {
        let (currency, count) = (Currency(ffi::small(b.currency)), ffi::small(b.count));
        Book { currency, count, weights: b.weights, net: b.net, card: b.card as u16, settled: b.settled }
    }
}

impl From<ffi::Moved> for Result<Moved, Refusal> {
    fn from(r: ffi::Moved) -> Self {
        Refusal::or(r.refusal, r.blamed, Moved { book: r.book.into(), payouts: r.payouts })
    }
}

// SAFETY of the calls below: the structs have the layout of morskebab.h, any values may stand in them, and a slice is lent whole
impl Book {
    /// A book with these weights and a net total of 0: refusals 4, 9.
    pub fn open(currency: Currency, weights: &[u32]) -> Result<Book, Refusal> {
        let r = unsafe { ffi::mkb_open(currency.0.into(), weights.as_ptr(), weights.len()) };
        Refusal::or(r.refusal, r.blamed, r.book.into())
    }

    /// Pays each partner the difference of its running totals at N + A and N: refusals 2, 3, 4, 5, 9, 10, 13. Refused, the book is as it was.
    pub fn post(self, amount: Amount) -> Result<Moved, Refusal> {
        unsafe { ffi::mkb_post(self.into(), amount.into()) }.into()
    }

    /// Takes back the difference of the running totals at N and N - A: refusals 2, 3, 4, 5, 9, 10, 12. Refused, the book is as it was.
    pub fn refund(self, amount: Amount) -> Result<Moved, Refusal> {
        unsafe { ffi::mkb_refund(self.into(), amount.into()) }.into()
    }

    /// The book on its next card, with these weights for the same count: the running totals are added to the settled ones, and the net total is 0.
    /// Refusals 3, 4, 9, 10. Refused, the book is as it was.
    pub fn card(self, weights: &[u32]) -> Result<Moved, Refusal> {
        unsafe { ffi::mkb_new_card(self.into(), weights.as_ptr(), weights.len()) }.into()
    }

    /// Each partner's running total at the net total: refusals 3, 4, 9, 10.
    pub fn running_totals(self) -> Result<[u64; 16], Refusal> {
        let r = unsafe { ffi::mkb_running_totals(self.into()) };
        Refusal::or(r.refusal, r.blamed, r.totals)
    }

    /// Refunds (true) or posts (false) each coefficient in turn, as `refund` and `post` would, and answers with the last book. Call j's payouts go
    /// to place j, zeros where it is refused, and so does its refusal number, 0 where it is accepted; places past the run stay. Refused, with
    /// nothing written: 3, 4, 9, 10 of the book itself, 9 where the lists' lengths differ, 11 where there is too little room.
    ///
    /// ```
    /// use morskebab::{Book, Currency};
    /// let (mut payouts, mut numbers) = ([[0; 16]; 3], [0; 3]);
    /// let book = Book::open(Currency(0), &[5, 3, 2])?.run(&[false, false, true], &[7, 5, 20], &mut payouts, &mut numbers)?;
    /// // the refund is greater than the net total: refusal 12
    /// assert_eq!((book.net, numbers, payouts[1][0]), (12, [0, 0, 12], 2));
    /// # Ok::<(), morskebab::Refusal>(())
    /// ```
    pub fn run(self, refunds: &[bool], coefficients: &[i64], payouts: &mut [[u64; 16]], numbers: &mut [u8]) -> Result<Book, Refusal> {
        let (paid, room) = (payouts.as_mut_ptr().cast(), 16 * payouts.len());
        let (said, places) = (numbers.as_mut_ptr(), numbers.len());
        let (first, count) = (coefficients.as_ptr(), coefficients.len());
        let r = unsafe { ffi::mkb_run(self.into(), refunds.as_ptr(), refunds.len(), first, count, paid, room, said, places) };
        Refusal::or(r.refusal, r.blamed, r.book.into())
    }
}
