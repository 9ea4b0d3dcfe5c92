//! The refusals of document 01's table.
use std::fmt;

/// Which of a call's two dates a refusal blames.
#[derive(Clone, Copy, Debug, PartialEq, Eq)]
pub enum Blamed {
    First,
    Second,
}

/// Why a call was refused: a number is given exactly when its row holds for something that the call takes or makes and no smaller row does.
#[derive(Clone, Copy, Debug, PartialEq, Eq)]
pub enum Refusal {
    /// 1: the mode isn't 0 to 6
    Mode,
    /// 2: a scale is over 6, or (conversions, the book) isn't the known currency's own digits, or (doubles) is over 3
    Scale,
    /// 3: a given coefficient, net total or settled total is over L, or the settled totals and the net total in sum, or a factor's magnitude is over 10^18
    Magnitude,
    /// 4: a currency number is over 20
    Unknown,
    /// 5: two currencies that must agree differ
    Differ,
    /// 6: a plain divisor isn't 1 to 10^18, a rate, a number of vouchers or of periods is outside its limits, or the basis isn't 0 to 3
    Rate,
    /// 7: a date doesn't exist or its year isn't 1900 to 2199
    Date(Blamed),
    /// 8: the end is before the start, or the day count is over 366
    Days,
    /// 9: weights, a card number or settled totals past the count break their rule, lists differ in length, or a statement's place is over 15 or its reason over 99
    Weights,
    /// 10: a posting, a refund, a table's principal, a given net total or a settled total is negative
    Negative,
    /// 11: the lent output is too short
    Room,
    /// 12: a refund is greater than the net total
    Refund,
    /// 13: the result, the euro step, a row of a table or the new net total, the settled totals added, is over L, or a plain quotient over 10^18
    Limit,
    /// 14: a text isn't of its form, or the bytes end in no statement file
    Malformed,
    /// 15: no net has the gross
    NoNet,
    /// 16: a double is no number or infinite
    NoNumber,
    /// 17: the bytes end in a statement file's trailer of version 2; stands before 14
    Newer,
}

impl Refusal {
    /// Document 01's number.
    pub fn number(self) -> u8 {
        match self {
            Refusal::Mode => 1,
            Refusal::Scale => 2,
            Refusal::Magnitude => 3,
            Refusal::Unknown => 4,
            Refusal::Differ => 5,
            Refusal::Rate => 6,
            Refusal::Date(_) => 7,
            Refusal::Days => 8,
            Refusal::Weights => 9,
            Refusal::Negative => 10,
            Refusal::Room => 11,
            Refusal::Refund => 12,
            Refusal::Limit => 13,
            Refusal::Malformed => 14,
            Refusal::NoNet => 15,
            Refusal::NoNumber => 16,
            Refusal::Newer => 17,
        }
    }

    /// The row's words.
    pub fn words(self) -> &'static str {
        match self {
            Refusal::Mode => "the mode isn't 0 to 6",
            Refusal::Scale => "a scale is over 6, or isn't the currency's own digits, or (doubles) is over 3",
            Refusal::Magnitude => "a given coefficient, net total or settled total is over L, or the settled totals and the net total in sum, or a factor's magnitude over 10^18",
            Refusal::Unknown => "a currency number is over 20",
            Refusal::Differ => "two currencies that must agree differ",
            Refusal::Rate => "a divisor, a rate, a number of vouchers or of periods or the basis is outside its limits",
            Refusal::Date(Blamed::First) => "a date doesn't exist or its year isn't 1900 to 2199 (the first date)",
            Refusal::Date(Blamed::Second) => "a date doesn't exist or its year isn't 1900 to 2199 (the second date)",
            Refusal::Days => "the end is before the start, or the day count is over 366",
            Refusal::Weights => "weights, a card number or settled totals past the count break their rule, lists differ in length, or a statement's place is over 15 or its reason over 99",
            Refusal::Negative => "a posting, a refund, a table's principal, a given net total or a settled total is negative",
            Refusal::Room => "the lent output is too short",
            Refusal::Refund => "a refund is greater than the net total",
            Refusal::Limit => "the result, the euro step, a row of a table or the new net total, the settled totals added, is over L, or a plain quotient over 10^18",
            Refusal::Malformed => "a text isn't of its form, or the bytes end in no statement file",
            Refusal::NoNet => "no net has the gross",
            Refusal::NoNumber => "a double is no number or infinite",
            Refusal::Newer => "the bytes end in a statement file's trailer of version 2",
        }
    }

    /// The value where the number is 0, else the refusal of the number.
    pub(crate) fn or<T>(number: u8, blamed: u8, value: T) -> Result<T, Refusal> {
        Err(match number {
            0 => return Ok(value),
            1 => Refusal::Mode,
            2 => Refusal::Scale,
            3 => Refusal::Magnitude,
            4 => Refusal::Unknown,
            5 => Refusal::Differ,
            6 => Refusal::Rate,
            7 if blamed == 1 => Refusal::Date(Blamed::First),
            7 => Refusal::Date(Blamed::Second),
            8 => Refusal::Days,
            9 => Refusal::Weights,
            10 => Refusal::Negative,
            11 => Refusal::Room,
            12 => Refusal::Refund,
            13 => Refusal::Limit,
            14 => Refusal::Malformed,
            15 => Refusal::NoNet,
            16 => Refusal::NoNumber,
            17 => Refusal::Newer,
            other => panic!("the archive answered with {other}, which the table doesn't have"),
        })
    }
}

impl fmt::Display for Refusal {
    fn fmt(&self, f: &mut fmt::Formatter<'_>) -> fmt::Result {
        write!(f, "refusal {}: {}", self.number(), self.words())
    }
}

impl std::error::Error for Refusal {}
