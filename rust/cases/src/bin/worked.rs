//! `worked` prints every worked line and limit with the independent reader's
//! answers, as the proved program of that name does.

fn main() {
    print!("{}", cases::worked_text());
}
