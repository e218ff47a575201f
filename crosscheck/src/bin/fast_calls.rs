//! The program `calls` written for speed, for R alone: see
//! `crosscheck::fast_calls`.

fn main() -> std::io::Result<()> {
    crosscheck::fast::serve(crosscheck::fast_calls::output)
}
