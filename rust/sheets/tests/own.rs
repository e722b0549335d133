//! The template for a sheet of one's own reads what it says.

#[allow(dead_code)]
#[path = "../examples/own.rs"]
mod own;

fn code(line: &str) -> u64 {
    let table = own::sheet().table().unwrap();
    let (mut work, mut room) = (vec![0; 16_384], vec![0; 5_005]);
    independent::read(&table, line.as_bytes(), 2_500, &mut work, &mut room, true).code
}

#[test]
fn clock_times() {
    for time in ["7:45", "07:45", "0:00", "2:15", "19:59", "20:00", "23:59"] {
        assert_eq!(code(time), independent::READ, "{time}");
    }
    for other in ["", "7", "7:5", "7:60", "24:00", "30:00", "7.45", ":45"] {
        assert_eq!(code(other), independent::FAIL, "{other}");
    }
    for more in ["7:450", "7:45 "] {
        assert_eq!(code(more), independent::REST, "{more}");
    }
}

#[test]
fn a_file_that_cannot_be_written_is_named() {
    let error = own::sheet().write("no such folder/class.gram").unwrap_err();
    assert!(error.to_string().starts_with("no such folder/class.gram: "));
}

#[test]
fn a_sheet_with_a_fault_writes_nothing() {
    let path = std::env::temp_dir().join(format!("own-{}.gram", std::process::id()));
    let error = sheets::Sheet::new().write(&path).unwrap_err();
    assert!(error.to_string().ends_with("root() was never called"));
    assert!(!path.exists());
}
