//! A program of its own, so that it links anew with another library in no time.

fn main() -> std::process::ExitCode {
    compare::compare()
}
