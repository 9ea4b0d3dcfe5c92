//! Document 01's cases ("Two sides of each line"), its table of currencies and books broken in each field through the Rust crate.
use morskebab::{
    day_count, mode, plain_quotient, version, vouchers, Amount, Basis, Blamed, Book, Columns, Currency, Date, Moved, Refusal, Row, Split,
};
use std::cmp::Ordering;

const EUR: Currency = Currency(0);
const DEM: Currency = Currency(2);
const FRF: Currency = Currency(4);
const IEP: Currency = Currency(5);
const ITL: Currency = Currency(6);

const QUINTILLION: i64 = 1_000_000_000_000_000_000;

fn euros(cents: i64) -> Amount {
    Amount::new(EUR, 2, cents)
}

#[test]
fn seven_modes() {
    let tenths = [55, 25, 16, 11, 10, -10, -11, -16, -25, -55];
    let table = [
        [6, 3, 2, 2, 1, -1, -2, -2, -3, -6],
        [5, 2, 1, 1, 1, -1, -1, -1, -2, -5],
        [6, 3, 2, 2, 1, -1, -1, -1, -2, -5],
        [5, 2, 1, 1, 1, -1, -2, -2, -3, -6],
        [6, 3, 2, 1, 1, -1, -1, -2, -3, -6],
        [5, 2, 2, 1, 1, -1, -1, -2, -2, -5],
        [6, 2, 2, 1, 1, -1, -1, -2, -2, -6],
    ];
    for (number, row) in table.iter().enumerate() {
        for (n, rounded) in tenths.iter().zip(row) {
            assert_eq!(plain_quotient(number as u8, *n, 1, 10), Ok(*rounded));
        }
    }
    assert_eq!(plain_quotient(mode::HALF_EVEN, -5, 1, 2), Ok(-2));
    assert_eq!(plain_quotient(mode::FLOOR, -5, 1, 2), Ok(-3));
    assert_eq!(plain_quotient(mode::FLOOR, -5, 1, 0), Err(Refusal::Rate));
    assert_eq!(plain_quotient(mode::UP, i64::MIN, 1, 0), Err(Refusal::Magnitude));
    assert_eq!(plain_quotient(7, i64::MIN, 1, 0), Err(Refusal::Mode));
    assert_eq!(plain_quotient(mode::UP, 1, 1, u64::MAX), Err(Refusal::Rate));
    assert_eq!(plain_quotient(mode::HALF_EVEN, -3, -5, 6), Ok(2));
    assert_eq!(plain_quotient(mode::UP, 1, i64::MAX, 0), Err(Refusal::Magnitude));
    assert_eq!(plain_quotient(mode::UP, QUINTILLION, -QUINTILLION, 1_000_000_000_000_000_000), Ok(-QUINTILLION));
    assert_eq!(plain_quotient(mode::UP, QUINTILLION, QUINTILLION, 999_999_999_999_999_999), Err(Refusal::Limit));
    assert_eq!(plain_quotient(mode::UP, 1, 1, 1 << 63), Err(Refusal::Rate));
}

#[test]
fn amounts() {
    let tenths = |n| Amount::new(EUR, 1, n);
    assert_eq!(tenths(15).order(euros(150)), Ok(Ordering::Equal));
    assert_eq!(tenths(-15).order(euros(-149)), Ok(Ordering::Less));
    assert_eq!(tenths(20).order(euros(150)), Ok(Ordering::Greater));
    assert_eq!(tenths(15).order(Amount::new(DEM, 1, 15)), Err(Refusal::Differ));
    assert_eq!(tenths(15).sum(euros(25)), Ok(euros(175)));
    assert_eq!(euros(Amount::L).sum(euros(1)), Err(Refusal::Limit));
    assert_eq!(euros(Amount::L).negate(), Ok(euros(-Amount::L)));
    assert_eq!(euros(Amount::L + 1).negate(), Err(Refusal::Magnitude));
    assert_eq!(Amount::new(EUR, 7, 1).negate(), Err(Refusal::Scale));
    assert_eq!(Amount::new(Currency(21), 2, 1).negate(), Err(Refusal::Unknown));
    assert_eq!(euros(125).rescale(1, mode::HALF_EVEN), Ok(tenths(12)));
    assert_eq!(Amount::new(Currency(21), 2, 1).rescale(1, 7), Err(Refusal::Mode));
}

/// Document 01's table of currencies, letter by letter.
#[test]
fn table_of_currencies() {
    #[rustfmt::skip]
    let lines: [(&[u8; 3], u64, u8, u8); 21] = [
        (b"EUR", 100_000, 5, 2), (b"BEF", 403_399, 4, 0), (b"DEM", 195_583, 5, 2), (b"ESP", 166_386, 3, 0), (b"FRF", 655_957, 5, 2),
        (b"IEP", 787_564, 6, 2), (b"ITL", 193_627, 2, 0), (b"LUF", 403_399, 4, 0), (b"NLG", 220_371, 5, 2), (b"ATS", 137_603, 4, 2),
        (b"PTE", 200_482, 3, 0), (b"FIM", 594_573, 5, 2), (b"GRD", 340_750, 3, 0), (b"SIT", 239_640, 3, 2), (b"CYP", 585_274, 6, 2),
        (b"MTL", 429_300, 6, 2), (b"SKK", 301_260, 4, 2), (b"EEK", 156_466, 4, 2), (b"LVL", 702_804, 6, 2), (b"LTL", 345_280, 5, 2),
        (b"HRK", 753_450, 5, 2),
    ];
    for (number, line) in (0..).zip(lines) {
        let r = Currency(number).line();
        assert_eq!((&r.code, r.figures, r.places, r.digits), line);
    }
    for number in 21..=255 {
        let r = Currency(number).line();
        assert_eq!((r.code, r.figures, r.places, r.digits), ([0; 3], 0, 0, 0));
    }
}

#[test]
fn texts() {
    for (text, scale, coefficient) in [("-12.50", 2, -1_250), ("0", 0, 0), ("0.000000", 6, 0), ("-0.000001", 6, -1), ("7", 0, 7), ("10.0", 1, 100)] {
        let a = Amount::new(DEM, scale, coefficient);
        assert_eq!(Amount::parse(DEM, text), Ok(a));
        assert_eq!(a.text().as_deref(), Ok(text));
        let mut out = [b'_'; Amount::TEXT];
        assert_eq!(a.write_text(&mut out[..text.len() - 1]), Err(Refusal::Room));
        assert_eq!(out, [b'_'; Amount::TEXT]);
        assert_eq!(a.write_text(&mut out), Ok(text.len()));
        assert!(out.starts_with(text.as_bytes()) && out[text.len()..].iter().all(|byte| *byte == b'_'));
    }
    for text in ["", "-", "+1", "01", "-0", "-0.0", "1.", ".5", "1.0000000", "1.2.3", " 1", "1,5", "1\0", "\u{661}", "999999999999999999999"] {
        assert_eq!(Amount::parse(EUR, text), Err(Refusal::Malformed));
    }
    assert_eq!(Amount::parse(EUR, "99999999999999999999"), Err(Refusal::Limit));
    assert_eq!(Amount::parse(EUR, &(Amount::L + 1).to_string()), Err(Refusal::Limit));
    assert_eq!(Amount::parse(EUR, &Amount::L.to_string()), Ok(Amount::new(EUR, 0, Amount::L)));
    assert_eq!(Amount::parse(Currency(21), "x"), Err(Refusal::Unknown));
    assert_eq!(euros(Amount::L + 1).text(), Err(Refusal::Magnitude));
    for number in 0..=20 {
        let code = Currency(number).line().code.map(char::from).iter().collect::<String>();
        assert_eq!(Currency::of_code(&code), Some(Currency(number)));
    }
    for code in ["", "EU", "EURO", "eur", "XXX"] {
        assert_eq!(Currency::of_code(code), None);
    }
}

#[test]
fn shown_and_read() {
    for (words, currency, scale, coefficient) in
        [("EUR -12.50", EUR, 2, -1_250), ("DEM 0", DEM, 0, 0), ("HRK -0.000001", Currency(20), 6, -1), ("EUR 0.00", EUR, 2, 0)]
    {
        let a = Amount::new(currency, scale, coefficient);
        assert_eq!((a.to_string().as_str(), words.parse(), words[..3].parse()), (words, Ok(a), Ok(currency)));
        assert_eq!(format!("{a:>16}|{a:<16}|{currency:>5}"), format!("{words:>16}|{words:<16}|  {}", &words[..3]));
    }
    for number in 0..=20 {
        let a = Amount::new(Currency(number), 6, -Amount::L);
        assert_eq!((a.to_string().parse(), a.currency.to_string().parse()), (Ok(a), Ok(a.currency)));
    }
    for (words, refusal) in [
        ("", Refusal::Malformed),
        ("12.50", Refusal::Malformed),
        ("EUR", Refusal::Malformed),
        ("EUR ", Refusal::Malformed),
        ("EUR  1", Refusal::Malformed),
        ("EUR 1 ", Refusal::Malformed),
        ("EUR 01", Refusal::Malformed),
        ("12.50 EUR", Refusal::Unknown),
        (" 1", Refusal::Unknown),
        ("eur 1", Refusal::Unknown),
        ("XXX 01", Refusal::Unknown),
        ("EUR 99999999999999999999", Refusal::Limit),
    ] {
        assert_eq!(words.parse::<Amount>(), Err(refusal), "{words}");
    }
    for code in ["", "EU", "EURO", "eur", "XXX"] {
        assert_eq!(code.parse::<Currency>(), Err(Refusal::Unknown));
    }
    // what is no amount has no text
    for a in [Amount::new(Currency(21), 2, 1), euros(Amount::L + 1), Amount::new(EUR, 7, 1)] {
        assert_eq!(a.to_string(), format!("{a:?}"));
    }
    assert_eq!(Currency(21).to_string(), "Currency(21)");
}

#[test]
fn versions_and_words() {
    let parts: Vec<u32> = env!("CARGO_PKG_VERSION").split('.').map(|part| part.parse().expect("a number")).collect();
    assert_eq!(version(), 10_000 * parts[0] + 100 * parts[1] + parts[2]);
    assert!(include_str!("../../c/morskebab.h").contains(&format!("#define MKB_VERSION UINT32_C({})\n", version())));
    assert_eq!(Refusal::Unknown.to_string(), "refusal 4: a currency number is over 20");
    let late = day_count(Basis::Actual360, Date::new(2023, 1, 1), Date::new(1900, 2, 29)).unwrap_err();
    assert_eq!(late.to_string(), "refusal 7: a date doesn't exist or its year isn't 1900 to 2199 (the second date)");
}

#[test]
fn euro_steps() {
    assert_eq!(Amount::new(DEM, 2, 10_000).convert(EUR), Ok(euros(5_113)));
    assert_eq!(Amount::new(DEM, 2, 10_000).convert(FRF), Ok(Amount::new(FRF, 2, 33_538)));
    assert_eq!(Amount::new(DEM, 2, 100_000_000).convert(EUR), Ok(euros(51_129_188)));
    assert_eq!(Amount::new(ITL, 0, 1_000_000).convert(EUR), Ok(euros(51_646)));
    assert_eq!(euros(2).convert(IEP), Ok(Amount::new(IEP, 2, 2)));
    assert_eq!(Amount::new(IEP, 2, 2).convert(EUR), Ok(euros(3)));
    assert_eq!(Amount::new(IEP, 2, Amount::L).convert(DEM), Err(Refusal::Limit));
    assert_eq!(Amount::new(DEM, 2, 10_000).convert_by(FRF, 3), Ok(Amount::new(FRF, 2, 33_538)));
    assert_eq!(Amount::new(DEM, 2, 10_000).convert_by(FRF, 6), Ok(Amount::new(FRF, 2, 33_539)));
    assert_eq!(Amount::new(DEM, 2, 10_000).convert_by(FRF, 2), Err(Refusal::Scale));
    assert_eq!(Amount::new(DEM, 2, 10_000).convert_by(DEM, 7), Err(Refusal::Scale));
    assert_eq!(Amount::new(DEM, 2, 1_000_000_000_000).convert_by(FRF, 6), Err(Refusal::Limit));
}

#[test]
fn interest_over_days() {
    let (feb, mar, none) = (Date::new(2023, 2, 28), Date::new(2023, 3, 31), Date::new(1900, 2, 29));
    let bases = [(Basis::Actual360, 31, 431), (Basis::Actual365, 31, 425), (Basis::Thirty360American, 33, 458), (Basis::Thirty360European, 32, 444)];
    for (basis, days, cents) in bases {
        assert_eq!(day_count(basis, feb, mar), Ok(days));
        assert_eq!(euros(100_000).interest(500, basis, feb, mar, mode::HALF_UP), Ok(euros(cents)));
    }
    assert!(Date::new(2000, 2, 29).exists() && !none.exists());
    assert_eq!(day_count(Basis::Actual360, none, none), Err(Refusal::Date(Blamed::First)));
    assert_eq!(euros(1).interest(500, Basis::Actual360, feb, none, mode::UP), Err(Refusal::Date(Blamed::Second)));
    assert_eq!(day_count(Basis::Actual360, mar, feb), Err(Refusal::Days));
    assert_eq!(euros(1).interest(10_001, Basis::Actual360, none, none, mode::UP), Err(Refusal::Rate));
}

#[test]
fn compound_tables() {
    let table = |a: Amount, rate, periods, room| {
        let mut out = [777; 122];
        let r = a.compound(rate, periods, &mut out[..room]);
        (r, [out[0], out[1], out[2], out[3], out[4]])
    };
    assert_eq!(table(euros(10_000), 500, 3, 122), (Ok(()), [10_000, 10_500, 11_025, 11_576, 777]));
    assert_eq!(table(euros(10_000), 500, 3, 4), (Ok(()), [10_000, 10_500, 11_025, 11_576, 777]));
    assert_eq!(table(euros(3), 5_000, 2, 122), (Ok(()), [3, 5, 7, 777, 777]));
    assert_eq!(table(euros(10_000), 500, 0, 1), (Ok(()), [10_000, 777, 777, 777, 777]));
    assert_eq!(table(euros(10_000), 0, 120, 121), (Ok(()), [10_000; 5]));
    for (a, rate, periods, room, refusal) in [
        (euros(Amount::L / 2), 10_000, 2, 122, Refusal::Limit),
        (euros(-1), 0, 121, 0, Refusal::Rate),
        (euros(-1), 10_001, 0, 0, Refusal::Rate),
        (euros(1), 0, u32::MAX, 122, Refusal::Rate),
        (euros(-1), 500, 3, 0, Refusal::Negative),
        (euros(Amount::L), 500, 3, 3, Refusal::Room),
        (euros(i64::MIN), 10_001, 121, 0, Refusal::Magnitude),
        (Amount::new(EUR, 7, 1), 0, 1, 122, Refusal::Scale),
        (Amount::new(Currency(21), 2, 1), 0, 1, 122, Refusal::Unknown),
    ] {
        assert_eq!(table(a, rate, periods, room), (Err(refusal), [777; 5]));
    }
}

#[test]
fn prices() {
    let split = |net, tax, gross| Split { net: euros(net), tax: euros(tax), gross: euros(gross) };
    assert_eq!(euros(100).tax_as_gross(200_000, mode::HALF_UP), Ok(split(83, 17, 100)));
    assert_eq!(euros(3).tax_as_gross(200_000, mode::HALF_UP), Ok(split(2, 1, 3)));
    assert_eq!(euros(2).tax_as_net(200_000, mode::HALF_UP), Ok(split(2, 0, 2)));
    assert_eq!(euros(2).tax_as_net(1_000_001, mode::HALF_UP), Err(Refusal::Rate));
    assert_eq!(euros(4).net_for(200_000, mode::HALF_UP), Ok(split(3, 1, 4)));
    assert_eq!(euros(-4).net_for(200_000, mode::HALF_UP), Ok(split(-3, -1, -4)));
    assert_eq!(euros(3).net_for(200_000, mode::HALF_UP), Err(Refusal::NoNet));
    assert_eq!(euros(3).net_for(1_000_001, mode::HALF_UP), Err(Refusal::Rate));
}

#[test]
fn rows_of_doubles() {
    let take = |net, tax, scale, mode| Row { net, tax }.take(EUR, scale, mode);
    let columns = |scale, net, tax| Ok(Columns { net: Amount::new(EUR, scale, net), tax: Amount::new(EUR, scale, tax) });
    let (many, least) = (Amount::L as f64, f64::from_bits(1));
    assert_eq!(take(2.675, -2.675, 2, mode::HALF_UP), columns(2, 267, -267));
    assert_eq!(take(0.125, 0.375, 2, mode::HALF_EVEN), columns(2, 12, 38));
    assert_eq!(take(0.0, -0.0, 3, mode::UP), columns(3, 0, 0));
    assert_eq!(take(least, -least, 0, mode::UP), columns(0, 1, -1));
    assert_eq!(take(many, -many, 0, mode::UP), columns(0, Amount::L, -Amount::L));
    assert_eq!(take(many + 1.0, 0.0, 0, mode::DOWN), Err(Refusal::Limit));
    assert_eq!(take(f64::NAN, 1e300, 0, mode::DOWN), Err(Refusal::Limit));
    for column in [f64::NAN, -f64::NAN, f64::INFINITY, f64::NEG_INFINITY] {
        assert_eq!(take(column, 1.0, 2, mode::UP), Err(Refusal::NoNumber));
        assert_eq!(take(1.0, column, 2, mode::UP), Err(Refusal::NoNumber));
    }
    let broken = Row { net: f64::NAN, tax: 1e300 };
    assert_eq!(broken.take(Currency(21), 4, 7), Err(Refusal::Mode));
    assert_eq!(broken.take(Currency(21), 4, mode::UP), Err(Refusal::Scale));
    assert_eq!(broken.take(Currency(21), 3, mode::UP), Err(Refusal::Unknown));
    for (scale, power) in [(0, 1.0), (1, 10.0), (2, 100.0), (3, 1_000.0)] {
        for n in [0, 1, -1, 267, 2_675, Amount::L, -Amount::L] {
            assert_eq!(Amount::new(EUR, scale, n).export().map(f64::to_bits), Ok((n as f64 / power).to_bits()));
        }
    }
    assert_eq!(Amount::new(Currency(21), 4, Amount::L + 1).export(), Err(Refusal::Scale));
    assert_eq!(Amount::new(Currency(21), 3, Amount::L + 1).export(), Err(Refusal::Magnitude));
    assert_eq!(Amount::new(Currency(21), 3, 1).export(), Err(Refusal::Unknown));
}

#[test]
fn shares() {
    let shared = |n, weights: &[u32], room| {
        let mut out = [777; 8];
        euros(n).share(weights, &mut out[..room]).map(|()| out)
    };
    assert_eq!(shared(100, &[1, 1, 1], 8), Ok([34, 33, 33, 777, 777, 777, 777, 777]));
    assert_eq!(shared(100, &[3, 3, 1], 3).map(|out| [out[0], out[1], out[2]]), Ok([43, 43, 14]));
    assert_eq!(shared(10, &[0, 1, 1, 1], 4).map(|out| [out[0], out[1], out[2], out[3]]), Ok([0, 4, 3, 3]));
    assert_eq!(shared(-100, &[3, 3, 1], 3).map(|out| [out[0], out[1], out[2]]), Ok([-43, -43, -14]));
    assert_eq!(shared(100, &[1, 1, 1], 2), Err(Refusal::Room));
    assert_eq!(shared(100, &[], 8), Err(Refusal::Weights));
    let mut untouched = [777; 2];
    assert_eq!(euros(100).share(&[1, 1, 1], &mut untouched), Err(Refusal::Room));
    assert_eq!(untouched, [777; 2]);
}

#[test]
fn vouchers_handed_out() {
    let handed = |count, weights: &[u32], room| {
        let mut out = [777; 6];
        (vouchers(count, weights, &mut out[..room]), out)
    };
    let four = [100_000, 80_000, 30_000, 20_000];
    assert_eq!(handed(8, &four, 6), (Ok(()), [4, 3, 1, 0, 777, 777]));
    assert_eq!(handed(4, &[1, 1, 1], 3), (Ok(()), [2, 1, 1, 777, 777, 777]));
    assert_eq!(handed(10_000, &[0, 1], 6), (Ok(()), [0, 10_000, 777, 777, 777, 777]));
    assert_eq!(handed(8, &four, 3), (Err(Refusal::Room), [777; 6]));
    assert_eq!(handed(10_001, &[], 0), (Err(Refusal::Rate), [777; 6]));
    assert_eq!(handed(u32::MAX, &four, 6), (Err(Refusal::Rate), [777; 6]));
    for weights in [&[][..], &[0; 65], &[0, 0, 0], &[1_000_000, 1]] {
        assert_eq!(handed(8, weights, 2), (Err(Refusal::Weights), [777; 6]));
    }
}

fn at(net: i64) -> Book {
    Book { net, ..Book::open(EUR, &[5, 3, 2]).expect("the weights keep their rule") }
}

fn moved(net: i64, three: [u64; 3]) -> Result<Moved, Refusal> {
    let mut payouts = [0; 16];
    payouts[..3].copy_from_slice(&three);
    Ok(Moved { book: at(net), payouts })
}

#[test]
fn share_book() {
    for (t, taker) in [0, 1, 0, 2, 0, 1, 0, 1, 0, 2].into_iter().enumerate() {
        let mut one = [0; 3];
        one[taker] = 1;
        assert_eq!(at(t as i64).post(euros(1)), moved(t as i64 + 1, one));
    }
    assert_eq!(at(0).post(euros(7)), moved(7, [4, 2, 1]));
    assert_eq!(at(7).post(euros(5)), moved(12, [2, 2, 1]));
    assert_eq!(at(12).refund(euros(3)), moved(9, [1, 1, 1]));
    assert_eq!(at(9).running_totals().map(|t| [t[0], t[1], t[2], t[3]]), Ok([5, 3, 1, 0]));
    assert_eq!(at(9).refund(euros(10)), Err(Refusal::Refund));
    assert_eq!(at(Amount::L).post(euros(1)), Err(Refusal::Limit));
    assert_eq!(at(9).post(euros(-1)), Err(Refusal::Negative));
    assert_eq!(Book::open(EUR, &[9_999, 1]).map(|b| b.count), Ok(2));
    assert_eq!(Book::open(EUR, &[10_000, 1]), Err(Refusal::Weights));
    assert_eq!(Book::open(Currency(21), &[]), Err(Refusal::Unknown));
}

#[test]
fn new_card() {
    let settled = |first: [i64; 3]| {
        let mut all = [0; 16];
        all[..3].copy_from_slice(&first);
        all
    };
    let next = at(9).card(&[1, 1, 1]).expect("the new weights keep their rule");
    assert_eq!(next.payouts, [0; 16]);
    assert_eq!((next.book.card, next.book.net, next.book.settled), (2, 0, settled([5, 3, 1])));
    assert_eq!(next.book.refund(euros(1)), Err(Refusal::Refund));
    assert_eq!(at(9).card(&[1, 1]), Err(Refusal::Weights));
    assert_eq!(at(9).card(&[10_000, 1, 0]), Err(Refusal::Weights));
    assert_eq!(Book { card: 999, ..at(9) }.card(&[1, 1, 1]).map(|m| m.book.card), Ok(1_000));
    assert_eq!(Book { card: 1_000, ..at(9) }.card(&[1, 1, 1]), Err(Refusal::Weights));
    let full = Book { settled: settled([Amount::L - 10, 0, 0]), ..at(9) };
    assert_eq!(full.post(euros(1)).map(|m| m.book.net), Ok(10));
    assert_eq!(full.post(euros(2)), Err(Refusal::Limit));
}

/// A given book that is broken in one field has document 01's number in every call on it.
#[test]
fn broken_books() {
    let full = at(9);
    let weights = |first: [u32; 3], last| {
        let mut all = [0; 16];
        all[..3].copy_from_slice(&first);
        all[15] = last;
        all
    };
    for (book, refusal) in [
        (Book { currency: Currency(21), ..full }, Refusal::Unknown),
        (Book { currency: Currency(255), ..full }, Refusal::Unknown),
        (Book { count: 0, ..full }, Refusal::Weights),
        (Book { count: 17, ..full }, Refusal::Weights),
        (Book { count: 255, ..full }, Refusal::Weights),
        (Book { count: 2, ..full }, Refusal::Weights),
        (Book { weights: weights([5, 3, 2], 1), ..full }, Refusal::Weights),
        (Book { weights: weights([0, 0, 0], 0), ..full }, Refusal::Weights),
        (Book { weights: weights([9_998, 2, 1], 0), ..full }, Refusal::Weights),
        (Book { net: -1, ..full }, Refusal::Negative),
        (Book { net: Amount::L + 1, ..full }, Refusal::Magnitude),
        (Book { net: -Amount::L - 1, ..full }, Refusal::Magnitude),
        (Book { card: 0, ..full }, Refusal::Weights),
        (Book { card: 1_001, ..full }, Refusal::Weights),
        (Book { settled: [0, 0, 0, 1, 0, 0, 0, 0, 0, 0, 0, 0, 0, 0, 0, 0], ..full }, Refusal::Weights),
        (Book { settled: [-1, 0, 0, 0, 0, 0, 0, 0, 0, 0, 0, 0, 0, 0, 0, 0], ..full }, Refusal::Negative),
        (Book { settled: [i64::MIN; 16], ..full }, Refusal::Magnitude),
        (Book { settled: [Amount::L - 8, 0, 0, 0, 0, 0, 0, 0, 0, 0, 0, 0, 0, 0, 0, 0], ..full }, Refusal::Magnitude),
    ] {
        assert_eq!(book.post(euros(1)), Err(refusal));
        assert_eq!(book.refund(euros(1)), Err(refusal));
        assert_eq!(book.running_totals(), Err(refusal));
        assert_eq!(book.card(&[1, 1, 1]), Err(refusal));
        let (mut paid, mut numbers) = ([[9; 16]], [9]);
        assert_eq!(book.run(&[false], &[1], &mut paid, &mut numbers), Err(refusal));
        assert_eq!((book.run(&[], &[], &mut [], &mut []), paid, numbers), (Err(refusal), [[9; 16]], [9]));
    }
}

#[test]
fn run_of_calls() {
    let (mut paid, mut numbers) = ([[9; 16]; 6], [9; 6]);
    let last = at(0).run(&[false, false, true, true, false], &[7, 5, 3, 10, Amount::L], &mut paid, &mut numbers);
    assert_eq!(last, Ok(at(9)));
    assert_eq!(paid.map(|p| [p[0], p[1], p[2], p[3]]), [[4, 2, 1, 0], [2, 2, 1, 0], [1, 1, 1, 0], [0; 4], [0; 4], [9; 4]]);
    assert_eq!(numbers, [0, 0, 0, 12, 13, 9]);
    assert_eq!(at(9).run(&[false; 6], &[1; 6], &mut paid[..5], &mut numbers), Err(Refusal::Room));
    assert_eq!(at(9).run(&[false; 2], &[1], &mut paid, &mut numbers), Err(Refusal::Weights));
    assert_eq!(numbers, [0, 0, 0, 12, 13, 9]);
}
