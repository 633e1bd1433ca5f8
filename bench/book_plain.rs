//! The test of an account book in plain Rust, for the times of bench/book: the second program's, with a hash set for the names.
#![no_std]
#![allow(dead_code)]

#[path = "../tests/second/book.rs"]
mod book;
#[path = "../tests/second/bytes.rs"]
mod bytes;
#[path = "distinct_quick.rs"]
mod distinct;
mod set;

#[panic_handler]
fn panic(_: &core::panic::PanicInfo) -> ! {
    loop {}
}

#[no_mangle]
pub extern "C" fn plain_whole(book: *const u8, length: usize) -> bool {
    let book = unsafe { core::slice::from_raw_parts(book, length) };
    book::Book::open(book).is_some()
}
