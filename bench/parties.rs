//! The second program's parties as C functions, for a measurement to time beside the proved calls: no library but core, no heap.
//!
//! The second program tests a book by comparing each name with each later one. With `--cfg quick` a hash set stands in place of that
//! (distinct_quick.rs), which is what one would write who had times in mind; the names of the functions then begin with `quick`.
#![no_std]
#![allow(dead_code)]

#[path = "../tests/second/book.rs"]
mod book;
#[path = "../tests/second/bytes.rs"]
mod bytes;
#[path = "../tests/second/check.rs"]
mod check;
#[cfg_attr(quick, path = "distinct_quick.rs")]
#[cfg_attr(not(quick), path = "../tests/second/distinct.rs")]
mod distinct;
#[path = "../tests/second/md5.rs"]
mod md5;
#[path = "../tests/second/message.rs"]
mod message;
#[path = "../tests/second/misauth.rs"]
mod misauth;
#[path = "../tests/second/misp.rs"]
mod misp;
#[path = "../tests/second/refusal.rs"]
mod refusal;
#[path = "../tests/second/router.rs"]
mod router;
#[path = "../tests/second/server.rs"]
mod server;
#[cfg(quick)]
mod set;
#[path = "../tests/second/step.rs"]
mod step;

use core::mem::size_of;
use core::slice::{from_raw_parts, from_raw_parts_mut};
use refusal::Refusal;
use router::Router;
use step::Answer;

#[panic_handler]
fn panic(_: &core::panic::PanicInfo) -> ! {
    loop {}
}

/// The refusal number and 65,536 times the bytes written.
fn told(answer: Answer) -> u32 {
    answer.refusal.map_or(0, |refusal: Refusal| u32::from(refusal.number()))
        + 65_536 * answer.sent.length as u32
}

#[cfg_attr(quick, export_name = "quick_login")]
#[cfg_attr(not(quick), export_name = "second_login")]
pub unsafe extern "C" fn login(
    mill: *const u8,
    mill_length: usize,
    visitors: *const u8,
    visitors_length: usize,
    source: *const [u8; 4],
    message: *const u8,
    length: usize,
    out: *mut u8,
    room: usize,
) -> u32 {
    let mill = from_raw_parts(mill, mill_length);
    let visitors = from_raw_parts(visitors, visitors_length);
    let lent = server::Lent { mill, visitors };
    let out = from_raw_parts_mut(out, room);
    told(server::login(&lent, &*source, from_raw_parts(message, length), out).into())
}

#[cfg_attr(quick, export_name = "quick_router_size")]
#[cfg_attr(not(quick), export_name = "second_router_size")]
pub extern "C" fn router_size() -> usize {
    size_of::<Router>()
}

/// The state must be aligned to 16 bytes.
#[cfg_attr(quick, export_name = "quick_router_set_up")]
#[cfg_attr(not(quick), export_name = "second_router_set_up")]
pub unsafe extern "C" fn router_set_up(
    state: *mut Router,
    window: u64,
    unit: u64,
    lifetime: u64,
    network: u64,
    address: *const [u8; 6],
    secret: *const u8,
    secret_length: usize,
    position: *const [u8; 12],
) -> u32 {
    let wanted = router::Wanted {
        window,
        ticks: unit,
        lifetime,
        network,
        address: *address,
        secret: from_raw_parts(secret, secret_length),
        position: *position,
        interval: 1,
        groups: &[],
    };
    match Router::setup(&wanted) {
        Ok(router) => {
            state.write(router);
            0
        }
        Err(refusal) => u32::from(refusal.number()),
    }
}

#[cfg_attr(quick, export_name = "quick_router_request")]
#[cfg_attr(not(quick), export_name = "second_router_request")]
pub unsafe extern "C" fn router_request(
    state: *mut Router,
    clock: u64,
    from: *const [u8; 6],
    message: *const u8,
    length: usize,
    out: *mut u8,
    room: usize,
) -> u32 {
    told((*state).request(clock, *from, from_raw_parts(message, length), from_raw_parts_mut(out, room)))
}
