//! The program `recording` written for speed, with the whole recording in memory:
//! see `crosscheck::fast_sift`.

fn main() -> std::io::Result<()> {
    crosscheck::fast::serve_all(crosscheck::fast_sift::answers)
}
