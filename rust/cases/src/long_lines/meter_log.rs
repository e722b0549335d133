//! Half-hourly meter logs, each as one line.

use independent::LONGEST_LINE;
use sheets::{log_of_length, meter_lines, meter_log, Sheet, READING, READINGS_OF_A_DAY};

use super::{ask, ask_little};
use crate::maker::Maker;
use crate::version::LONGEST_OF_VERSION_1;

/// Readings of logs with a thousand records, growing and in a row: the second is the
/// longest that fits in a line.
const LONG: [usize; 2] = [250, LONGEST_LINE / READING];

pub fn add(maker: &mut Maker) {
    for sheet in [meter_log(), short_log_in_a_row(), short_log_growing()] {
        maker.table(&sheet.bytes());
        maker.report();
        for readings in [LONGEST_OF_VERSION_1 / READING + 1, READINGS_OF_A_DAY] {
            maker.line(&log(readings));
            ask(maker, 6_000);
        }
        for readings in LONG {
            maker.line(&log(readings));
            maker.lending_most(|maker| ask_little(maker, 40_000));
        }
    }
    days_with_a_fault(maker);
}

/// So many half hours from midnight on.
fn log(readings: usize) -> Vec<u8> {
    log_of_length(readings * READING).into_bytes()
}

/// The days of the class, and days with one byte another one.
fn days_with_a_fault(maker: &mut Maker) {
    let mut lines: Vec<Vec<u8>> = meter_lines().into_iter().map(String::into_bytes).collect();
    lines.retain(|line| (LONGEST_OF_VERSION_1..1_000).contains(&line.len()));
    for _ in 0..6 {
        let mut day = log(READINGS_OF_A_DAY);
        let at = maker.random.between(200, day.len() as u64 - 1) as usize;
        day[at] = maker.random.pick(b" ,:;x");
        lines.push(day);
    }
    for line in lines {
        maker.line(&line);
        for sheet in [meter_log(), short_log_in_a_row(), short_log_growing()] {
            maker.table(&sheet.bytes());
            let allowance = maker.affordable(4_000);
            maker.read_with_enough(true, allowance, 1_200);
            maker.read_with_enough(false, allowance, 1_200);
        }
    }
}

/// Log <- Reading*
fn short_log_in_a_row() -> Sheet {
    let mut sheet = Sheet::new();
    let reading = sheet.rule(1);
    let root = sheet.repetition(reading);
    with_readings(sheet, root)
}

/// Log <- Log Reading / Reading
fn short_log_growing() -> Sheet {
    let mut sheet = Sheet::new();
    let (log, reading) = (sheet.rule(0), sheet.rule(1));
    let longer = sheet.sequence(log, reading);
    let root = sheet.choice(longer, reading);
    with_readings(sheet, root)
}

/// Reading <- Time ' ' Amount ';'; Time <- D D ':' D D; Amount <- D ',' D D D. It has so
/// few nodes that the longest line can be lent what it needs.
fn with_readings(mut sheet: Sheet, log: u16) -> Sheet {
    let (time, amount) = (sheet.rule(2), sheet.rule(3));
    let [blank, end, colon, comma] = [b' ', b';', b':', b','].map(|byte| sheet.byte(byte));
    let reading = sheet.in_order(&[time, blank, amount, end]);
    let digit = sheet.range(b'0', b'9');
    let two = sheet.sequence(digit, digit);
    let time = sheet.in_order(&[two, colon, two]);
    let amount = sheet.in_order(&[digit, comma, digit, two]);
    for root in [log, reading, time, amount] {
        sheet.root(root);
    }
    sheet
}

#[cfg(test)]
mod tests {
    use super::*;
    use crate::maker::Trial;
    use independent::READ;

    #[test]
    fn long_logs_have_a_thousand_records() {
        for (sheet, readings) in [
            (short_log_growing(), LONG[0]),
            (short_log_in_a_row(), LONG[1]),
            (meter_log(), LONG[1]),
        ] {
            let trial = Trial::of(&sheet.bytes(), &log(readings), true, 40_000);
            assert_eq!((trial.code, trial.records), (READ, 1_000));
        }
    }
}
