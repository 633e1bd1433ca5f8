//! The login of login.rs without the standard library, as firmware has it: a static library with C's `main` in it, for a C compiler to link.
#![no_std]

mod login;

use core::fmt::{Result, Write};

extern "C" {
    fn putchar(byte: i32) -> i32;
}

#[panic_handler]
fn panic(_: &core::panic::PanicInfo) -> ! {
    loop {}
}

struct Printer;

impl Write for Printer {
    fn write_str(&mut self, text: &str) -> Result {
        for byte in text.bytes() {
            unsafe { putchar(i32::from(byte)) };
        }
        Ok(())
    }
}

#[no_mangle]
pub extern "C" fn main() -> i32 {
    i32::from(login::login(&mut Printer).is_err())
}
