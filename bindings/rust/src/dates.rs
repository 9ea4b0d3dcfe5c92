//! Dates, and the days between two of them.
use crate::{ffi, Refusal};

/// The day count bases, by their numbers.
#[derive(Clone, Copy, Debug, PartialEq, Eq)]
#[repr(u8)]
pub enum Basis {
    /// Actual days / 360.
    Actual360 = 0,
    /// Actual days / 365.
    Actual365 = 1,
    /// 30/360, the bond basis of ISDA 2006, which loan contracts mean: a second day 31 becomes 30 only where the first is then 30.
    Thirty360American = 2,
    /// 30E/360: a day 31 in either date becomes 30.
    Thirty360European = 3,
}

impl From<Basis> for i64 {
    fn from(basis: Basis) -> i64 {
        basis as i64
    }
}

/// A date; [`Date::exists`] says whether there is one.
#[derive(Clone, Copy, Debug, PartialEq, Eq)]
pub struct Date {
    pub year: u16,
    pub month: u8,
    pub day: u8,
}

impl From<Date> for ffi::Date {
    fn from(d: Date) -> Self {
        ffi::Date { year: d.year.into(), month: d.month.into(), day: d.day.into() }
    }
}

impl Date {
    pub const fn new(year: u16, month: u8, day: u8) -> Self {
        Date { year, month, day }
    }

    /// Whether the Gregorian calendar has the date, from 1900 to 2199.
    pub fn exists(self) -> bool {
        // SAFETY: numbers alone cross
        unsafe { ffi::mkb_date_exists(self.into()) }
    }
}

/// The days from the start to the end by the basis: refusals 7, 8.
///
/// ```
/// use morskebab::{day_count, Basis, Blamed, Date, Refusal};
/// let (start, end) = (Date::new(2023, 2, 28), Date::new(2023, 3, 31));
/// assert_eq!(day_count(Basis::Actual360, start, end), Ok(31));
/// assert_eq!(day_count(Basis::Actual360, start, Date::new(2023, 2, 29)), Err(Refusal::Date(Blamed::Second)));
/// ```
pub fn day_count(basis: Basis, start: Date, end: Date) -> Result<u32, Refusal> {
    // SAFETY: numbers alone cross
    let r = unsafe { ffi::mkb_day_count(basis.into(), start.into(), end.into()) };
    Refusal::or(r.refusal, r.blamed, r.days)
}
