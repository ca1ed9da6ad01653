//! Holds the library against a second implementation on random inputs, and measures it beside plain Rust of the same shape and beside OpenSSL.

mod compare;
mod library;
mod measure;
mod openssl;
mod plain;
mod random;
mod reference;
mod table;

use std::process::ExitCode;

const SEED: u64 = 0x5ea1_ed00_f2a3_e500;

fn main() -> ExitCode {
    let words: Vec<String> = std::env::args().skip(1).collect();
    let words: Vec<&str> = words.iter().map(String::as_str).collect();
    match words[..] {
        ["compare"] => {
            if !compare::all(SEED) {
                return ExitCode::FAILURE;
            }
        }
        ["rust"] => table::beside_rust(SEED),
        ["openssl", label] => table::beside_openssl(label, SEED),
        _ => {
            eprintln!("usage: bench compare | bench rust | bench openssl LABEL");
            return ExitCode::FAILURE;
        }
    }
    ExitCode::SUCCESS
}
