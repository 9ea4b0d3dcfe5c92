//! Morskebab for Rust: money arithmetic whose every function is proved to keep its promise.
//!
//! An accepted call gives its value, a refused one the [`Refusal`] of document 01's table. No call panics, and none of the interface is
//! `unsafe`: every value of every argument is answered.
//!
//! ```
//! use morskebab::{Amount, Book, Currency};
//! let euros = |cents| Amount::new(Currency(0), 2, cents);
//! assert_eq!(Amount::new(Currency(2), 2, 10_000).convert(Currency(0)), Ok(euros(5_113)));
//! assert_eq!(Amount::parse(Currency(0), "-12.50"), Ok(euros(-1_250)));
//! assert_eq!(("EUR -12.50".parse(), euros(-1_250).to_string().as_str()), (Ok(euros(-1_250)), "EUR -12.50"));
//! let book = Book::open(Currency(0), &[5, 3, 2])?;
//! assert_eq!(book.post(euros(7))?.payouts[..3], [4, 2, 1]);
//! # Ok::<(), morskebab::Refusal>(())
//! ```
#![deny(unsafe_op_in_unsafe_fn)]
mod books;
mod dates;
mod ffi;
mod reasons;
mod refusal;
mod statements;
mod texts;

pub use books::{Book, Moved};
pub use dates::{day_count, Basis, Date};
pub use reasons::{check_any, write_reasons, AnyStatement, AnyView, Reasoned};
pub use refusal::{Blamed, Refusal};
pub use statements::{check_statement, write_statement, Payout, Statement, View};
use std::cmp::Ordering;

/// The mode numbers.
pub mod mode {
    pub const UP: u8 = 0;
    pub const DOWN: u8 = 1;
    pub const CEILING: u8 = 2;
    pub const FLOOR: u8 = 3;
    pub const HALF_UP: u8 = 4;
    pub const HALF_DOWN: u8 = 5;
    pub const HALF_EVEN: u8 = 6;
}

/// The version of the library that is linked: 10,000 x major + 100 x minor + patch.
pub fn version() -> u32 {
    // SAFETY: nothing crosses but the answer
    unsafe { ffi::mkb_version() }
}

/// a x b / d rounded by the mode, the product exact: refusals 1, 3, 6, 13. A quotient n / d is the one of the factors n and 1.
///
/// ```
/// use morskebab::{mode, plain_quotient, Refusal};
/// assert_eq!(plain_quotient(mode::HALF_EVEN, -5, 1, 2), Ok(-2));
/// assert_eq!(plain_quotient(mode::FLOOR, 1_000_000_000_000, 1_000_000_000_000, 3), Err(Refusal::Limit));
/// ```
pub fn plain_quotient(mode: u8, a: i64, b: i64, d: u64) -> Result<i64, Refusal> {
    // SAFETY: numbers alone cross
    let r = unsafe { ffi::mkb_round(mode.into(), a, b, i64::try_from(d).unwrap_or(i64::MAX)) };
    Refusal::or(r.refusal, r.blamed, r.value)
}

/// A currency number.
#[derive(Clone, Copy, Debug, PartialEq, Eq)]
pub struct Currency(pub u8);

/// A line of the table of currencies: one euro is figures / 10^places units; `digits` is the currency's own scale.
#[derive(Clone, Copy, Debug, PartialEq, Eq)]
pub struct Line {
    pub code: [u8; 3],
    pub figures: u64,
    pub places: u8,
    pub digits: u8,
}

impl Currency {
    /// The table's line; all 0 for a number over 20.
    pub fn line(self) -> Line {
        // SAFETY: a number alone crosses
        let l = unsafe { ffi::mkb_currency(self.0.into()) };
        Line { code: l.code, figures: l.figures, places: l.places, digits: l.digits }
    }
}

/// Its worth is coefficient / 10^scale. `==` goes by the fields, [`Amount::order`] by worth.
#[derive(Clone, Copy, Debug, PartialEq, Eq)]
pub struct Amount {
    pub currency: Currency,
    pub scale: u8,
    pub coefficient: i64,
}

impl From<Amount> for ffi::Amount {
    fn from(a: Amount) -> Self {
        ffi::Amount { currency: a.currency.0.into(), scale: a.scale.into(), coefficient: a.coefficient }
    }
}

impl From<ffi::Amount> for Amount {
    fn from(a: ffi::Amount) -> Self {
        Amount::new(Currency(ffi::small(a.currency)), ffi::small(a.scale), a.coefficient)
    }
}

impl From<ffi::AmountAnswer> for Result<Amount, Refusal> {
    fn from(r: ffi::AmountAnswer) -> Self {
        Refusal::or(r.refusal, r.blamed, r.amount.into())
    }
}

/// A price taken apart.
#[derive(Clone, Copy, Debug, PartialEq, Eq)]
pub struct Split {
    pub net: Amount,
    pub tax: Amount,
    pub gross: Amount,
}

impl From<ffi::Split> for Result<Split, Refusal> {
    fn from(r: ffi::Split) -> Self {
        Refusal::or(r.refusal, r.blamed, Split { net: r.net.into(), tax: r.tax.into(), gross: r.gross.into() })
    }
}

/// A row of a spreadsheet.
#[derive(Clone, Copy, Debug, PartialEq)]
pub struct Row {
    pub net: f64,
    pub tax: f64,
}

/// Both columns of a row as amounts.
#[derive(Clone, Copy, Debug, PartialEq, Eq)]
pub struct Columns {
    pub net: Amount,
    pub tax: Amount,
}

impl Row {
    /// Both columns at the scale, 0 to 3, from the doubles' exact worth, rounded by the mode: refusals 1, 2, 4, 13, 16.
    ///
    /// ```
    /// use morskebab::{mode, Currency, Row};
    /// let columns = Row { net: 2.675, tax: 0.125 }.take(Currency(0), 2, mode::HALF_UP)?;
    /// // the double 2.675 lies below 2.675
    /// assert_eq!((columns.net.coefficient, columns.tax.coefficient), (267, 13));
    /// # Ok::<(), morskebab::Refusal>(())
    /// ```
    pub fn take(self, currency: Currency, scale: u8, mode: u8) -> Result<Columns, Refusal> {
        let row = ffi::Columns { net: self.net, tax: self.tax };
        // SAFETY: numbers alone cross
        let r = unsafe { ffi::mkb_row(row, currency.0.into(), scale.into(), mode.into()) };
        Refusal::or(r.refusal, r.blamed, Columns { net: r.net.into(), tax: r.tax.into() })
    }
}

// SAFETY of the calls below: the structs have the layout of morskebab.h, any values may stand in them, and a slice is lent whole
impl Amount {
    /// The largest magnitude of a coefficient.
    pub const L: i64 = 999_999_999_999_999;

    pub const fn new(currency: Currency, scale: u8, coefficient: i64) -> Self {
        Amount { currency, scale, coefficient }
    }

    /// Exact, at the greater of the two scales: refusals 2, 3, 4, 5, 13.
    pub fn sum(self, other: Amount) -> Result<Amount, Refusal> {
        unsafe { ffi::mkb_sum(self.into(), other.into()) }.into()
    }

    /// By worth: refusals 2, 3, 4, 5.
    pub fn order(self, other: Amount) -> Result<Ordering, Refusal> {
        let r = unsafe { ffi::mkb_order(self.into(), other.into()) };
        Refusal::or(r.refusal, r.blamed, r.order.cmp(&0))
    }

    /// Exact: refusals 2, 3, 4.
    pub fn negate(self) -> Result<Amount, Refusal> {
        unsafe { ffi::mkb_negate(self.into()) }.into()
    }

    /// Exact to a greater scale, rounded by the mode to a smaller one: refusals 1, 2, 3, 4, 13.
    pub fn rescale(self, scale: u8, mode: u8) -> Result<Amount, Refusal> {
        unsafe { ffi::mkb_rescale(self.into(), scale.into(), mode.into()) }.into()
    }

    /// In the currency `to`, by Council Regulation (EC) No 1103/97, articles 4 and 5: refusals 2, 3, 4, 13.
    ///
    /// ```
    /// use morskebab::{Amount, Currency};
    /// let marks = Amount::new(Currency(2), 2, 10_000);
    /// assert_eq!(marks.convert(Currency(4))?.to_string(), "FRF 335.38");
    /// # Ok::<(), morskebab::Refusal>(())
    /// ```
    pub fn convert(self, to: Currency) -> Result<Amount, Refusal> {
        unsafe { ffi::mkb_convert(self.into(), to.0.into()) }.into()
    }

    /// The same by a euro step of 3 to 6 decimals between two old units: refusals 2, 3, 4, 13. A step over L is 13, which at 6 decimals is one over
    /// 999,999,999.999999 euro.
    pub fn convert_by(self, to: Currency, decimals: u8) -> Result<Amount, Refusal> {
        unsafe { ffi::mkb_convert_by(self.into(), to.0.into(), decimals.into()) }.into()
    }

    /// This x rate x days / (10,000 x year), rounded once: refusals 1, 2, 3, 4, 6, 7, 8, 13.
    ///
    /// ```
    /// use morskebab::{mode, Amount, Basis, Currency, Date};
    /// let (start, end) = (Date::new(2023, 2, 28), Date::new(2023, 3, 31));
    /// let paid = Amount::new(Currency(0), 2, 100_000).interest(500, Basis::Thirty360American, start, end, mode::HALF_UP)?;
    /// assert_eq!(paid.to_string(), "EUR 4.58");
    /// # Ok::<(), morskebab::Refusal>(())
    /// ```
    pub fn interest(self, rate: u32, basis: Basis, start: Date, end: Date, mode: u8) -> Result<Amount, Refusal> {
        unsafe { ffi::mkb_interest(self.into(), rate.into(), basis.into(), start.into(), end.into(), mode.into()) }.into()
    }

    /// This and its balance after each period, each the one before and its interest, rate / 10,000 rounded HALF_EVEN, into the first places of
    /// `out`, one more than periods; the others, and every place where the call is refused, stay as they stood: refusals 2, 3, 4, 6, 10, 11, 13.
    ///
    /// ```
    /// use morskebab::{Amount, Currency};
    /// let mut table = [0; 4];
    /// Amount::new(Currency(0), 2, 10_000).compound(500, 3, &mut table)?;
    /// assert_eq!(table, [10_000, 10_500, 11_025, 11_576]);
    /// # Ok::<(), morskebab::Refusal>(())
    /// ```
    pub fn compound(self, rate: u32, periods: u32, out: &mut [i64]) -> Result<(), Refusal> {
        let number = unsafe { ffi::mkb_compound(self.into(), rate.into(), periods.into(), out.as_mut_ptr(), out.len()) };
        Refusal::or(number, 0, ())
    }

    /// Tax = net x rate / 1,000,000 rounded by the mode, gross = net + tax: refusals 1, 2, 3, 4, 6, 13.
    pub fn tax_as_net(self, rate: u32, mode: u8) -> Result<Split, Refusal> {
        unsafe { ffi::mkb_tax_from_net(self.into(), rate.into(), mode.into()) }.into()
    }

    /// Tax = gross x rate / (1,000,000 + rate) rounded by the mode, net = gross - tax: refusals 1, 2, 3, 4, 6.
    pub fn tax_as_gross(self, rate: u32, mode: u8) -> Result<Split, Refusal> {
        unsafe { ffi::mkb_tax_from_gross(self.into(), rate.into(), mode.into()) }.into()
    }

    /// The price of the only net that has this gross: refusals 1, 2, 3, 4, 6, and 15 where no net has it.
    ///
    /// ```
    /// use morskebab::{mode, Amount, Currency, Refusal};
    /// let cents = |coefficient| Amount::new(Currency(0), 2, coefficient);
    /// assert_eq!(cents(4).net_for(200_000, mode::HALF_UP)?.net, cents(3));
    /// assert_eq!(cents(3).net_for(200_000, mode::HALF_UP), Err(Refusal::NoNet));
    /// # Ok::<(), morskebab::Refusal>(())
    /// ```
    pub fn net_for(self, rate: u32, mode: u8) -> Result<Split, Refusal> {
        unsafe { ffi::mkb_net_for(self.into(), rate.into(), mode.into()) }.into()
    }

    /// The coefficient as a double, divided once by 10^scale, for a scale of 0 to 3: refusals 2, 3, 4.
    pub fn export(self) -> Result<f64, Refusal> {
        let r = unsafe { ffi::mkb_export(self.into()) };
        Refusal::or(r.refusal, r.blamed, r.value)
    }

    /// The shares by largest remainder into the first places of `out`, as many as weights; the others, and every place where the call is
    /// refused, stay as they stood: refusals 2, 3, 4, 9, 11.
    ///
    /// ```
    /// use morskebab::{Amount, Currency};
    /// let mut shares = [0; 3];
    /// Amount::new(Currency(0), 2, 100).share(&[3, 3, 1], &mut shares)?;
    /// assert_eq!(shares, [43, 43, 14]);
    /// # Ok::<(), morskebab::Refusal>(())
    /// ```
    pub fn share(self, weights: &[u32], out: &mut [i64]) -> Result<(), Refusal> {
        let number = unsafe { ffi::mkb_share(self.into(), weights.as_ptr(), weights.len(), out.as_mut_ptr(), out.len()) };
        Refusal::or(number, 0, ())
    }
}

/// So many whole vouchers by highest average into the first places of `out`, as many as weights; the others, and every place where the call is
/// refused, stay as they stood: refusals 6, 9, 11.
///
/// ```
/// let mut out = [0; 4];
/// morskebab::vouchers(8, &[100_000, 80_000, 30_000, 20_000], &mut out)?;
/// assert_eq!(out, [4, 3, 1, 0]);
/// # Ok::<(), morskebab::Refusal>(())
/// ```
pub fn vouchers(count: u32, weights: &[u32], out: &mut [u32]) -> Result<(), Refusal> {
    // SAFETY: a slice is lent whole
    let number = unsafe { ffi::mkb_vouchers(count.into(), weights.as_ptr(), weights.len(), out.as_mut_ptr(), out.len()) };
    Refusal::or(number, 0, ())
}
