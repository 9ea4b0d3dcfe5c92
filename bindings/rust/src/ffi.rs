//! The structs and functions of `morskebab.h`.

#[repr(C)]
#[derive(Clone, Copy)]
pub struct Amount {
    pub currency: i32,
    pub scale: i32,
    pub coefficient: i64,
}

#[repr(C)]
#[derive(Clone, Copy)]
pub struct Date {
    pub year: i32,
    pub month: i32,
    pub day: i32,
}

#[repr(C)]
#[derive(Clone, Copy)]
pub struct Book {
    pub currency: i32,
    pub count: i32,
    pub weights: [u32; 16],
    pub net: i64,
    pub card: i64,
    pub settled: [i64; 16],
}

#[repr(C)]
pub struct Line {
    pub code: [u8; 3],
    pub places: u8,
    pub digits: u8,
    pub figures: u64,
}

#[repr(C)]
pub struct Whole {
    pub refusal: u8,
    pub blamed: u8,
    pub value: i64,
}

#[repr(C)]
pub struct AmountAnswer {
    pub refusal: u8,
    pub blamed: u8,
    pub amount: Amount,
}

#[repr(C)]
pub struct OrderAnswer {
    pub refusal: u8,
    pub blamed: u8,
    pub order: i8,
}

#[repr(C)]
pub struct Days {
    pub refusal: u8,
    pub blamed: u8,
    pub days: u32,
}

#[repr(C)]
pub struct Split {
    pub refusal: u8,
    pub blamed: u8,
    pub net: Amount,
    pub tax: Amount,
    pub gross: Amount,
}

#[repr(C)]
pub struct Columns {
    pub net: f64,
    pub tax: f64,
}

#[repr(C)]
pub struct RowAnswer {
    pub refusal: u8,
    pub blamed: u8,
    pub net: Amount,
    pub tax: Amount,
}

#[repr(C)]
pub struct Double {
    pub refusal: u8,
    pub blamed: u8,
    pub value: f64,
}

#[repr(C)]
pub struct Written {
    pub refusal: u8,
    pub blamed: u8,
    pub length: u64,
}

#[repr(C)]
pub struct Opened {
    pub refusal: u8,
    pub blamed: u8,
    pub book: Book,
}

#[repr(C)]
pub struct Moved {
    pub refusal: u8,
    pub blamed: u8,
    pub book: Book,
    pub payouts: [u64; 16],
}

#[repr(C)]
pub struct Totals {
    pub refusal: u8,
    pub blamed: u8,
    pub totals: [u64; 16],
}

#[repr(C)]
pub struct Ran {
    pub refusal: u8,
    pub blamed: u8,
    pub book: Book,
    pub served: u64,
}

#[repr(C)]
pub struct End {
    pub refusal: u8,
    pub blamed: u8,
    pub end: u64,
}

#[repr(C)]
pub struct Statement {
    pub refusal: u8,
    pub blamed: u8,
    pub first: u64,
    pub count: u64,
    pub sum: i64,
}

#[repr(C)]
pub struct First {
    pub refusal: u8,
    pub blamed: u8,
    pub first: u64,
}

#[repr(C)]
pub struct Step {
    pub next: u64,
    pub ended: bool,
    pub place: u16,
    pub currency: u16,
    pub coefficient: i64,
}

#[repr(C)]
pub struct AnyStatement {
    pub refusal: u8,
    pub blamed: u8,
    pub version: u16,
    pub first: u64,
    pub count: u64,
    pub sum: i64,
}

#[repr(C)]
pub struct AnyStep {
    pub next: u64,
    pub ended: bool,
    pub place: u16,
    pub currency: u16,
    pub reason: u16,
    pub coefficient: i64,
}

/// A field of what the library hands back: such a number is a `u8` of its own.
pub fn small(n: i32) -> u8 {
    n as u8
}

extern "C" {
    pub fn mkb_version() -> u32;
    pub fn mkb_round(mode: i64, a: i64, b: i64, d: i64) -> Whole;
    pub fn mkb_currency(currency: i64) -> Line;
    pub fn mkb_currency_of(code: *const u8, length: usize) -> u8;
    pub fn mkb_read(currency: i64, text: *const u8, length: usize) -> AmountAnswer;
    pub fn mkb_write(a: Amount, out: *mut u8, room: usize) -> Written;
    pub fn mkb_sum(a: Amount, b: Amount) -> AmountAnswer;
    pub fn mkb_order(a: Amount, b: Amount) -> OrderAnswer;
    pub fn mkb_negate(a: Amount) -> AmountAnswer;
    pub fn mkb_rescale(a: Amount, scale: i64, mode: i64) -> AmountAnswer;
    pub fn mkb_convert(a: Amount, to: i64) -> AmountAnswer;
    pub fn mkb_convert_by(a: Amount, to: i64, decimals: i64) -> AmountAnswer;
    pub fn mkb_date_exists(date: Date) -> bool;
    pub fn mkb_day_count(basis: i64, start: Date, end: Date) -> Days;
    pub fn mkb_interest(principal: Amount, rate: i64, basis: i64, start: Date, end: Date, mode: i64) -> AmountAnswer;
    pub fn mkb_compound(principal: Amount, rate: i64, periods: i64, out: *mut i64, room: usize) -> u8;
    pub fn mkb_tax_from_net(net: Amount, rate: i64, mode: i64) -> Split;
    pub fn mkb_tax_from_gross(gross: Amount, rate: i64, mode: i64) -> Split;
    pub fn mkb_net_for(gross: Amount, rate: i64, mode: i64) -> Split;
    pub fn mkb_row(row: Columns, currency: i64, scale: i64, mode: i64) -> RowAnswer;
    pub fn mkb_export(a: Amount) -> Double;
    pub fn mkb_share(a: Amount, weights: *const u32, count: usize, out: *mut i64, room: usize) -> u8;
    pub fn mkb_vouchers(vouchers: i64, weights: *const u32, count: usize, out: *mut u32, room: usize) -> u8;
    pub fn mkb_open(currency: i64, weights: *const u32, count: usize) -> Opened;
    pub fn mkb_post(book: Book, a: Amount) -> Moved;
    pub fn mkb_refund(book: Book, a: Amount) -> Moved;
    pub fn mkb_new_card(book: Book, weights: *const u32, count: usize) -> Moved;
    pub fn mkb_running_totals(book: Book) -> Totals;
    pub fn mkb_write_statement(
        currency: i64,
        places: *const u16,
        count: usize,
        coefficients: *const i64,
        others: usize,
        out: *mut u8,
        room: usize,
        start: i64,
    ) -> End;
    pub fn mkb_check_statement(bytes: *const u8, count: usize) -> Statement;
    pub fn mkb_first_payout(bytes: *const u8, count: usize) -> First;
    pub fn mkb_payout_at(bytes: *const u8, count: usize, at: i64) -> Step;
    pub fn mkb_write_reasons(
        currency: i64,
        places: *const u16,
        count: usize,
        reasons: *const u16,
        codes: usize,
        coefficients: *const i64,
        others: usize,
        out: *mut u8,
        room: usize,
        start: i64,
    ) -> End;
    pub fn mkb_check_any(bytes: *const u8, count: usize) -> AnyStatement;
    pub fn mkb_reasoned_at(bytes: *const u8, count: usize, version: i64, at: i64) -> AnyStep;
    pub fn mkb_run(
        book: Book,
        refunds: *const bool,
        calls: usize,
        coefficients: *const i64,
        count: usize,
        payouts: *mut u64,
        payouts_room: usize,
        numbers: *mut u8,
        numbers_room: usize,
    ) -> Ran;
}
