//! Document 02's statement files: its one case whole, and each limit from both sides.
use morskebab::{check_statement, write_statement, Amount, Currency, Payout, Refusal, Statement, View};

const EUR: Currency = Currency(0);
const ONE: [u8; 40] = [
    0x02, 0, 0, 0, 0, 0, 0, 0, 0x1E, 0xFB, 0xFF, 0xFF, 0xFF, 0xFF, 0xFF, 0xFF, 0x10, 0, 0, 0, 0x01, 0, 0, 0, 0x1E, 0xFB, 0xFF, 0xFF, 0xFF, 0xFF,
    0xFF, 0xFF, 0x01, 0, 0, 0, 0, 0, 0, 0,
];

#[test]
fn one_case_whole() {
    let mut out = [0xa5; 64];
    assert_eq!(write_statement(EUR, &[2], &[-1250], &mut out, 7), Ok(47));
    assert_eq!((out[..7] == [0xa5; 7], &out[7..47], out[47..] == [0xa5; 17]), (true, &ONE[..], true));
    assert_eq!(check_statement(&ONE), Ok(Statement { first: 0, count: 1, sum: -1250 }));
    assert_eq!(check_statement(&out[..47]), Ok(Statement { first: 7, count: 1, sum: -1250 }));
    assert_eq!(write_statement(EUR, &[], &[], &mut out, 40), Ok(64));
    assert_eq!(check_statement(&out), Ok(Statement { first: 40, count: 0, sum: 0 }));
}

#[test]
fn refusals() {
    for (currency, places, coefficients, start, refusal) in [
        (21, [16u16], vec![Amount::L + 1], 99, Refusal::Magnitude),
        (21, [16], vec![1], 99, Refusal::Unknown),
        (0, [16], vec![1], 99, Refusal::Weights),
        (0, [1], vec![], 99, Refusal::Weights),
        (0, [1], vec![1], 25, Refusal::Room),
        (0, [1], vec![1], usize::MAX, Refusal::Room),
    ] {
        let mut out = [0xa5; 64];
        assert_eq!(write_statement(Currency(currency), &places, &coefficients, &mut out, start), Err(refusal));
        assert_eq!(out, [0xa5; 64]);
    }
    assert_eq!(write_statement(EUR, &[0; 4001], &[0; 4001], &mut [0; 70_000], 0), Err(Refusal::Room));
    for bytes in [&ONE[..39], &ONE[1..], &[]] {
        assert_eq!(check_statement(bytes), Err(Refusal::Malformed));
    }
    // a trailer of version 2 is newer, whatever stands before its version
    for version in 0..=4 {
        let mut bytes = [0xff; 24];
        bytes[16..].copy_from_slice(&[version, 0, 0, 0, 0, 0, 0, 0]);
        let refusal = if version == 2 { Refusal::Newer } else { Refusal::Malformed };
        assert_eq!((check_statement(&bytes), View::open(&bytes).err()), (Err(refusal), Some(refusal)));
    }
}

#[test]
fn views() {
    let mut out = vec![0xa5; 64_100];
    let places: Vec<u16> = (0..4_000).map(|i| i % 16).collect();
    let coefficients: Vec<i64> = (0..4_000).map(|i| if i % 3 == 0 { 7 * i - Amount::L } else { Amount::L - i }).collect();
    assert_eq!(write_statement(Currency(20), &places, &coefficients, &mut out, 76), Ok(64_100));
    let said = check_statement(&out).unwrap();
    let mut view = View::open(&out).unwrap();
    assert_eq!(view.len(), said.count);
    let again = view.clone();
    let payouts: Vec<Payout> = view.by_ref().collect();
    let wanted = places.iter().zip(&coefficients).map(|(&place, &coefficient)| Payout { place, currency: Currency(20), coefficient });
    assert!(payouts.iter().copied().eq(wanted) && again.eq(payouts.iter().copied()));
    assert_eq!(payouts.iter().map(|p| p.coefficient).sum::<i64>(), said.sum);
    // it has ended, and goes on saying so
    assert_eq!((view.next(), view.next(), view.len()), (None, None, 0));
    assert_eq!(View::open(&ONE).unwrap().collect::<Vec<_>>(), [Payout { place: 2, currency: EUR, coefficient: -1250 }]);
    assert_eq!(write_statement(EUR, &[], &[], &mut out, 0), Ok(24));
    assert_eq!(View::open(&out[..24]).unwrap().next(), None);
    for bytes in [&ONE[..39], &ONE[1..], &[]] {
        assert_eq!(View::open(bytes).err(), Some(Refusal::Malformed));
    }
}
