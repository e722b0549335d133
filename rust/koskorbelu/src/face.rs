//! The numbers as the C functions of `include/koskorbelu.h` write them. The only
//! unsafe code of this crate is here, and it is not unsafe to call.

mod c {
    extern "C" {
        pub fn kos_check(table: *const u8, table_length: usize, answer: *mut u64);
        pub fn kos_report(table: *const u8, table_length: usize, answer: *mut u64);
        pub fn kos_read_prefix(
            table: *const u8,
            table_length: usize,
            line: *const u8,
            line_length: usize,
            allowance: u64,
            work: *mut u32,
            work_length: usize,
            room: *mut u8,
            room_length: usize,
            answer: *mut u64,
        );
        pub fn kos_read_whole(
            table: *const u8,
            table_length: usize,
            line: *const u8,
            line_length: usize,
            allowance: u64,
            work: *mut u32,
            work_length: usize,
            room: *mut u8,
            room_length: usize,
            answer: *mut u64,
        );
    }
}

/// Code and place.
pub fn check(table: &[u8]) -> [u64; 2] {
    let mut answer = [0; 2];
    // SAFETY: pointer and length are those of one slice, and the answer is as
    // long as the function says. Nothing else is asked.
    unsafe { c::kos_check(table.as_ptr(), table.len(), answer.as_mut_ptr()) };
    answer
}

/// Code, place, may be empty, left-recursive, how many, lowest, free.
pub fn report(table: &[u8]) -> [u64; 7] {
    let mut answer = [0; 7];
    // SAFETY: as above.
    unsafe { c::kos_report(table.as_ptr(), table.len(), answer.as_mut_ptr()) };
    answer
}

/// Code, place, matched, visits, records, furthest of a prefix or whole-line reading.
pub fn read(
    table: &[u8],
    line: &[u8],
    allowance: u64,
    work: &mut [u32],
    room: &mut [u8],
    whole: bool,
) -> [u64; 6] {
    let mut answer = [0; 6];
    let function = if whole {
        c::kos_read_whole
    } else {
        c::kos_read_prefix
    };
    // SAFETY: each pointer and length are those of one slice, slices that are
    // written overlap no other, and the answer is as long as the function says.
    unsafe {
        function(
            table.as_ptr(),
            table.len(),
            line.as_ptr(),
            line.len(),
            allowance,
            work.as_mut_ptr(),
            work.len(),
            room.as_mut_ptr(),
            room.len(),
            answer.as_mut_ptr(),
        );
    }
    answer
}
