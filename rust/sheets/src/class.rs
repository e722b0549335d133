//! The sheets of document 01 and of `examples/`, as a class would write them
//! on the board.

use crate::sheet::Sheet;

/// Document 01's sheet A: a list of digits that groups from the left.
///
/// ```text
/// S <- S '+' D / D
/// D <- [0-9]
/// ```
pub fn sheet_a() -> Sheet {
    let mut sheet = Sheet::new();
    let s = sheet.rule(0);
    let plus = sheet.byte(b'+');
    let d = sheet.rule(1);
    let longer = sheet.in_order(&[s, plus, d]);
    let s_root = sheet.choice(longer, d);
    let d_root = sheet.range(b'0', b'9');
    sheet.root(s_root);
    sheet.root(d_root);
    sheet
}

/// Document 01's sheet B: one digit, or one on each side of a comma.
///
/// ```text
/// N <- D ',' D / D
/// D <- [0-9]
/// ```
pub fn sheet_b() -> Sheet {
    let mut sheet = Sheet::new();
    let d = sheet.rule(1);
    let comma = sheet.byte(b',');
    let pair = sheet.in_order(&[d, comma, d]);
    let n_root = sheet.choice(pair, d);
    let d_root = sheet.range(b'0', b'9');
    sheet.root(n_root);
    sheet.root(d_root);
    sheet
}

/// `1,5` is one and a half.
///
/// ```text
/// Number <- Digits ',' Digits / Digits
/// Digits <- [0-9] [0-9]*
/// ```
pub fn decimal_comma() -> Sheet {
    let mut sheet = Sheet::new();
    let digits = sheet.rule(1);
    let comma = sheet.byte(b',');
    let broken = sheet.in_order(&[digits, comma, digits]);
    let number = sheet.choice(broken, digits);
    let digit = sheet.range(b'0', b'9');
    let digits_root = sheet.one_or_more(digit);
    sheet.root(number);
    sheet.root(digits_root);
    sheet
}

/// `1,500` is fifteen hundred.
///
/// ```text
/// Number <- First Group*
/// First  <- Digit Digit Digit / Digit Digit / Digit
/// Group  <- ',' Digit Digit Digit
/// Digit  <- [0-9]
/// ```
pub fn thousands() -> Sheet {
    let mut sheet = Sheet::new();
    let (first, group, digit) = (sheet.rule(1), sheet.rule(2), sheet.rule(3));
    let groups = sheet.repetition(group);
    let number = sheet.sequence(first, groups);
    let two = sheet.sequence(digit, digit);
    let three = sheet.sequence(digit, two);
    let first_root = sheet.first_of(&[three, two, digit]);
    let comma = sheet.byte(b',');
    let group_root = sheet.sequence(comma, three);
    let digit_root = sheet.range(b'0', b'9');
    for root in [number, first_root, group_root, digit_root] {
        sheet.root(root);
    }
    sheet
}

/// `1,5 kW` is what a heater takes.
///
/// ```text
/// Power  <- Number ' ' Unit
/// Number <- Whole ',' Broken / Whole
/// Whole  <- Digit Digit? Digit? Digit? Digit? Digit?
/// Broken <- Digit Digit? Digit?
/// Digit  <- [0-9]
/// Unit   <- 'kW' / 'W'
/// ```
pub fn kilowatts() -> Sheet {
    let mut sheet = Sheet::new();
    let (number, whole, broken) = (sheet.rule(1), sheet.rule(2), sheet.rule(3));
    let (digit, unit) = (sheet.rule(4), sheet.rule(5));
    let blank = sheet.byte(b' ');
    let power = sheet.in_order(&[number, blank, unit]);
    let comma = sheet.byte(b',');
    let with_comma = sheet.in_order(&[whole, comma, broken]);
    let number_root = sheet.choice(with_comma, whole);
    let more = sheet.optional(digit);
    let whole_root = sheet.in_order(&[digit, more, more, more, more, more]);
    let broken_root = sheet.in_order(&[digit, more, more]);
    let digit_root = sheet.range(b'0', b'9');
    let (kilowatt, watt) = (sheet.word("kW"), sheet.word("W"));
    let unit_root = sheet.choice(kilowatt, watt);
    for root in [
        power,
        number_root,
        whole_root,
        broken_root,
        digit_root,
        unit_root,
    ] {
        sheet.root(root);
    }
    sheet
}

/// `9-3-2` is four: it groups from the left.
///
/// ```text
/// Sum     <- Sum ('+' / '-') Product / Product
/// Product <- Product '*' Part / Part
/// Part    <- '(' Sum ')' / Digits
/// Digits  <- [0-9] [0-9]*
/// ```
pub fn sum() -> Sheet {
    let mut sheet = Sheet::new();
    let (sum, product) = (sheet.rule(0), sheet.rule(1));
    let (part, digits) = (sheet.rule(2), sheet.rule(3));
    let plus = sheet.byte(b'+');
    let minus = sheet.byte(b'-');
    let sign = sheet.choice(plus, minus);
    let longer_sum = sheet.in_order(&[sum, sign, product]);
    let sum_root = sheet.choice(longer_sum, product);
    let times = sheet.byte(b'*');
    let longer_product = sheet.in_order(&[product, times, part]);
    let product_root = sheet.choice(longer_product, part);
    let open = sheet.byte(b'(');
    let close = sheet.byte(b')');
    let bracket = sheet.in_order(&[open, sum, close]);
    let part_root = sheet.choice(bracket, digits);
    let digit = sheet.range(b'0', b'9');
    let digits_root = sheet.one_or_more(digit);
    for root in [sum_root, product_root, part_root, digits_root] {
        sheet.root(root);
    }
    sheet
}

/// `00:00 0,123;00:30 0,520;` is a meter's log, in kWh for each half hour.
///
/// ```text
/// Log     <- Reading Reading*
/// Reading <- Time ' ' Amount ';'
/// Time    <- ('2' [0-3] / [0-1] [0-9]) ':' ('0' / '3') '0'
/// Amount  <- [0-9] [0-9]* ',' [0-9] [0-9] [0-9]
/// ```
pub fn meter_log() -> Sheet {
    let mut sheet = Sheet::new();
    let (reading, time, amount) = (sheet.rule(1), sheet.rule(2), sheet.rule(3));
    let log = sheet.one_or_more(reading);
    let blank = sheet.byte(b' ');
    let semicolon = sheet.byte(b';');
    let reading_root = sheet.in_order(&[time, blank, amount, semicolon]);
    let digit = sheet.range(b'0', b'9');
    let two = sheet.byte(b'2');
    let to_three = sheet.range(b'0', b'3');
    let late = sheet.sequence(two, to_three);
    let to_one = sheet.range(b'0', b'1');
    let early = sheet.sequence(to_one, digit);
    let hour = sheet.choice(late, early);
    let colon = sheet.byte(b':');
    let (zero, three) = (sheet.byte(b'0'), sheet.byte(b'3'));
    let full_or_half = sheet.choice(zero, three);
    let time_root = sheet.in_order(&[hour, colon, full_or_half, zero]);
    let more = sheet.repetition(digit);
    let comma = sheet.byte(b',');
    let amount_root = sheet.in_order(&[digit, more, comma, digit, digit, digit]);
    for root in [log, reading_root, time_root, amount_root] {
        sheet.root(root);
    }
    sheet
}
