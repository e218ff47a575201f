//! The program `sift` written for speed: see `crosscheck::fast_sift`.

fn main() -> std::io::Result<()> {
    crosscheck::fast::serve(crosscheck::fast_sift::output)
}
