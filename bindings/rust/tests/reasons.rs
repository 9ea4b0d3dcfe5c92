//! Document 02's statements with a reason: written, read by the readers of either version, and refused by the old ones.
use morskebab::{check_any, check_statement, write_reasons, write_statement, Amount, AnyStatement, AnyView, Currency, Reasoned, Refusal, View};

const EUR: Currency = Currency(0);
const TWO: [u8; 48] = [
    0x02, 0, 0, 0, 0, 0, 0, 0, 0x1E, 0xFB, 0xFF, 0xFF, 0xFF, 0xFF, 0xFF, 0xFF, 0x07, 0, 0, 0, 0, 0, 0, 0, 0x18, 0, 0, 0, 0x01, 0, 0, 0, 0x1E, 0xFB,
    0xFF, 0xFF, 0xFF, 0xFF, 0xFF, 0xFF, 0x02, 0, 0, 0, 0, 0, 0, 0,
];

#[test]
fn one_case_whole() {
    let mut out = [0xa5; 64];
    assert_eq!(write_reasons(EUR, &[2], &[7], &[-1250], &mut out, 7), Ok(55));
    assert_eq!((out[..7] == [0xa5; 7], &out[7..55], out[55..] == [0xa5; 9]), (true, &TWO[..], true));
    assert_eq!(check_any(&out[..55]), Ok(AnyStatement { version: 2, first: 7, count: 1, sum: -1250 }));
    assert_eq!(AnyView::open(&TWO).unwrap().collect::<Vec<_>>(), [Reasoned { place: 2, currency: EUR, coefficient: -1250, reason: 7 }]);
    assert_eq!((check_statement(&TWO), View::open(&TWO).err()), (Err(Refusal::Newer), Some(Refusal::Newer)));
    assert_eq!(write_reasons(EUR, &[], &[], &[], &mut out, 40), Ok(64));
    assert_eq!(check_any(&out), Ok(AnyStatement { version: 2, first: 40, count: 0, sum: 0 }));
}

#[test]
fn either_version() {
    let mut out = vec![0xa5; 96_100];
    let places: Vec<u16> = (0..4_000).map(|i| i % 16).collect();
    let codes: Vec<u16> = (0..4_000).map(|i| i % 100).collect();
    let coefficients: Vec<i64> = (0..4_000).map(|i| if i % 3 == 0 { 7 * i - Amount::L } else { Amount::L - i }).collect();
    let wanted = |reasons: bool| -> Vec<Reasoned> {
        let reason = |i: usize| if reasons { codes[i] } else { 0 };
        (0..4_000).map(|i| Reasoned { place: places[i], currency: Currency(20), coefficient: coefficients[i], reason: reason(i) }).collect()
    };
    for version in [2, 1] {
        let end = match version {
            2 => write_reasons(Currency(20), &places, &codes, &coefficients, &mut out, 76),
            _ => write_statement(Currency(20), &places, &coefficients, &mut out, 76),
        };
        let file = &out[..end.unwrap()];
        assert_eq!(check_any(file), Ok(AnyStatement { version, first: 76, count: 4_000, sum: coefficients.iter().sum() }));
        let mut view = AnyView::open(file).unwrap();
        assert_eq!((view.version(), view.len()), (version, 4_000));
        assert_eq!(view.by_ref().collect::<Vec<_>>(), wanted(version == 2));
        assert_eq!((view.next(), view.next(), view.len()), (None, None, 0));
        assert_eq!(View::open(file).err(), (version == 2).then_some(Refusal::Newer));
    }
}

#[test]
fn refusals() {
    for (currency, place, reasons, coefficient, start, refusal) in [
        (21, 16u16, vec![100u16], Amount::L + 1, 99, Refusal::Magnitude),
        (21, 16, vec![100], 1, 99, Refusal::Unknown),
        (0, 16, vec![1], 1, 99, Refusal::Weights),
        (0, 1, vec![100], 1, 99, Refusal::Weights),
        (0, 1, vec![], 1, 0, Refusal::Weights),
        (0, 1, vec![1, 2], 1, 0, Refusal::Weights),
        (0, 1, vec![99], 1, 17, Refusal::Room),
        (0, 1, vec![99], 1, usize::MAX, Refusal::Room),
    ] {
        let mut out = [0xa5; 64];
        assert_eq!(write_reasons(Currency(currency), &[place], &reasons, &[coefficient], &mut out, start), Err(refusal));
        assert_eq!(out, [0xa5; 64]);
    }
    assert_eq!(write_reasons(EUR, &[0; 4001], &[0; 4001], &[0; 4001], &mut [0; 100_000], 0), Err(Refusal::Room));
    let mut damaged = TWO;
    damaged[16] = 100;
    for bytes in [&TWO[..47], &TWO[1..], &[], &damaged] {
        assert_eq!((check_any(bytes), AnyView::open(bytes).err()), (Err(Refusal::Malformed), Some(Refusal::Malformed)));
    }
}
