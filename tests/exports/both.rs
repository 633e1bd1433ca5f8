//! The Rust wrappers beside the second program's own code, in one process: a hall with a router, nodes and a server on either side, calls at
//! random with whole and damaged messages, and each outcome compared. Without the standard library; a C compiler links it.
#![no_std]
#![allow(dead_code)]

#[path = "../second/book.rs"]
mod book;
#[path = "../second/bytes.rs"]
mod bytes;
#[path = "../second/check.rs"]
mod check;
#[path = "../second/distinct.rs"]
mod distinct;
#[path = "../second/md5.rs"]
mod md5;
#[path = "../second/message.rs"]
mod message;
#[path = "../second/misauth.rs"]
mod misauth;
#[path = "../second/misp.rs"]
mod misp;
#[path = "../second/node.rs"]
mod node;
#[path = "../second/refusal.rs"]
mod refusal;
#[path = "../second/router.rs"]
mod router;
#[path = "../second/server.rs"]
mod server;
#[path = "../second/step.rs"]
mod step;

mod bare;
mod chance;
mod hall;
mod same;
mod wrappers;
mod writers;

use core::fmt::{Result, Write};

extern "C" {
    fn putchar(byte: i32) -> i32;
    fn exit(status: i32) -> !;
}

#[panic_handler]
fn panic(_: &core::panic::PanicInfo) -> ! {
    failed(format_args!("a panic"))
}

pub struct Printer;

impl Write for Printer {
    fn write_str(&mut self, text: &str) -> Result {
        for byte in text.bytes() {
            unsafe { putchar(i32::from(byte)) };
        }
        Ok(())
    }
}

pub fn failed(what: core::fmt::Arguments) -> ! {
    let _ = writeln!(Printer, "the Rust wrappers: {what}");
    unsafe { exit(1) }
}

#[no_mangle]
pub extern "C" fn main() -> i32 {
    wrappers::held();
    let calls = hall::compared(200_000);
    let _ =
        write!(Printer, "the Rust wrappers and the second program: no difference in {calls} calls; done:");
    for (name, count) in same::done() {
        let _ = write!(Printer, " {name} {count}");
        if count == 0 {
            failed(format_args!("{name} was never done"));
        }
    }
    let (read, (written, refused)) = (bare::done(), writers::done());
    let _ = writeln!(Printer, "; read alone: {read}, written alone: {written}, refused with 18: {refused}");
    0
}
