//! Amounts and currencies as text. A text alone has no currency: [`Amount::parse`] is told it, and `Display` and `FromStr` have its code in front, as in
//! `EUR -12.50`.
use crate::{ffi, Amount, Currency, Refusal};
use std::fmt;
use std::str::FromStr;

// SAFETY of the calls below: a slice is lent whole, and any values may stand in an amount
impl Currency {
    /// The currency with this code of three capitals, if the table has it.
    pub fn of_code(code: &str) -> Option<Currency> {
        let number = unsafe { ffi::mkb_currency_of(code.as_ptr(), code.len()) };
        (number != u8::MAX).then_some(Currency(number))
    }
}

impl Amount {
    /// The most characters of a text.
    pub const TEXT: usize = 20;

    /// The amount that a text is: an optional minus, digits, optionally a point with 1 to 6 digits, which are the scale; no leading zeros but a
    /// single 0 before the point, no minus on zero, at most 20 characters: refusals 4, 14, 13.
    pub fn parse(currency: Currency, text: &str) -> Result<Amount, Refusal> {
        unsafe { ffi::mkb_read(currency.0.into(), text.as_ptr(), text.len()) }.into()
    }

    /// The amount's only text, which [`Amount::parse`] reads: refusals 2, 3, 4.
    pub fn text(self) -> Result<String, Refusal> {
        let mut out = [0; Self::TEXT];
        self.write_text(&mut out).map(|length| out[..length].iter().map(|byte| char::from(*byte)).collect())
    }

    /// The same into the first places of `out`, and its length; the others, and every place where the call is refused, stay as they stood:
    /// refusals 2, 3, 4, 11.
    pub fn write_text(self, out: &mut [u8]) -> Result<usize, Refusal> {
        let r = unsafe { ffi::mkb_write(self.into(), out.as_mut_ptr(), out.len()) };
        Refusal::or(r.refusal, r.blamed, r.length as usize)
    }
}

/// The code; a currency that the table hasn't is shown as by `Debug`.
impl fmt::Display for Currency {
    fn fmt(&self, f: &mut fmt::Formatter<'_>) -> fmt::Result {
        let line = self.line();
        match std::str::from_utf8(&line.code) {
            Ok(code) if line.figures > 0 => f.pad(code),
            _ => fmt::Debug::fmt(self, f),
        }
    }
}

/// A code of three capitals: refusal 4 where the table has none such.
impl FromStr for Currency {
    type Err = Refusal;

    fn from_str(code: &str) -> Result<Currency, Refusal> {
        Currency::of_code(code).ok_or(Refusal::Unknown)
    }
}

/// The code, a space and the amount's only text, as in `EUR -12.50`; what is no amount is shown as by `Debug`.
impl fmt::Display for Amount {
    fn fmt(&self, f: &mut fmt::Formatter<'_>) -> fmt::Result {
        match self.text() {
            Ok(text) => f.pad(&format!("{} {text}", self.currency)),
            Err(_) => fmt::Debug::fmt(self, f),
        }
    }
}

/// What `Display` writes: refusal 14 where there is no space, 4 where the table hasn't the code, then those of [`Amount::parse`].
impl FromStr for Amount {
    type Err = Refusal;

    fn from_str(words: &str) -> Result<Amount, Refusal> {
        let (code, text) = words.split_once(' ').ok_or(Refusal::Malformed)?;
        Amount::parse(code.parse()?, text)
    }
}
