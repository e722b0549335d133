//! The lines of `examples/meter-log`: too long to be typed by anyone.

/// The bytes of a reading, as `00:30 0,520;`.
pub const READING: usize = 12;
/// One for each half hour.
pub const READINGS_OF_A_DAY: usize = 48;

/// The lines of `examples/meter-log/lines.txt`, in its order.
pub fn meter_lines() -> Vec<String> {
    vec![
        log(1),
        // The longest with one byte for a position, and one reading more.
        log(21),
        log(22),
        log(READINGS_OF_A_DAY),
        day_with(25, ",", "."),
        day_with(0, ",", "."),
        day_with(47, "23:30", "24:00"),
        day_with(24, "12:00", "12:15"),
        day_with(40, " 0,", " O,"),
        day_with(0, " 0,", " 10000000,"),
        log(333),
        log_of_length(4_000),
        log(7 * READINGS_OF_A_DAY),
    ]
}

/// A log of exactly so many bytes: what twelve bytes a reading leave over makes
/// the first readings one digit longer.
pub fn log_of_length(length: usize) -> String {
    let (readings, longer) = (length / READING, length % READING);
    assert!(longer <= readings, "no log has {length} bytes");
    let text = |half_hour| {
        if half_hour < longer {
            changed(half_hour, " 0,", " 10,")
        } else {
            reading(half_hour)
        }
    };
    (0..readings).map(text).collect()
}

fn log(readings: usize) -> String {
    log_of_length(readings * READING)
}

/// A day with something else at one half hour.
fn day_with(there: usize, from: &str, to: &str) -> String {
    let text = |half_hour| {
        if half_hour == there {
            changed(half_hour, from, to)
        } else {
            reading(half_hour)
        }
    };
    (0..READINGS_OF_A_DAY).map(text).collect()
}

fn changed(half_hour: usize, from: &str, to: &str) -> String {
    let reading = reading(half_hour);
    assert!(reading.contains(from), "{reading} has no {from}");
    reading.replacen(from, to, 1)
}

/// The reading of a half hour, counted from the beginning of the log.
fn reading(half_hour: usize) -> String {
    let (hour, minute) = (half_hour / 2 % 24, half_hour % 2 * 30);
    // Goes through all amounts below one kWh before one comes again.
    let watt_hours = (123 + 397 * half_hour) % 1_000;
    format!("{hour:02}:{minute:02} 0,{watt_hours:03};")
}
