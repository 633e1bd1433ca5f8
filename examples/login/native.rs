//! The login of login.rs as a program with the standard library.

mod login;

use std::process::ExitCode;

fn main() -> ExitCode {
    let mut text = String::new();
    let written = login::login(&mut text);
    print!("{text}");
    match written {
        Ok(()) => ExitCode::SUCCESS,
        Err(_) => ExitCode::FAILURE,
    }
}
