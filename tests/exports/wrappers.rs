//! What the wrappers see to by themselves: a state buffer's size, the numbers and texts of the refusals.

use crate::failed;
use core::fmt::{Result, Write};
use mis::{Node, NodeSettings, Refusal, Router, RouterSettings};

const ROOM: usize = 16_384;

pub const ROUTER: RouterSettings = RouterSettings {
    window: 1000,
    unit: 10,
    lifetime: 40,
    network: 4,
    address: [2, 0, 0, 0, 0, 1],
    ipv4: [10, 0, 0, 1],
    secret: b"hall three",
    position: [0; 12],
    interval: 20,
    groups: &[0, 0, 0, 1],
};

pub fn node_settings(number: u8, account: &[u8]) -> NodeSettings<'_> {
    NodeSettings {
        unit: 10,
        patience: 30,
        password: b"reel seven",
        account,
        kind: 2 + u64::from(number % 2),
        network: 4,
        address: [2, 0, 0, 0, 1, number],
        router: ROUTER.address,
    }
}

fn holds(condition: bool, what: &str) {
    if !condition {
        failed(format_args!("{what}"));
    }
}

pub fn held() {
    sizes();
    misuse();
    refused_settings();
    texts();
}

fn misused<T>(told: core::result::Result<T, Refusal>) -> bool {
    matches!(told, Err(Refusal::Misuse))
}

fn wrong_sizes(size: usize) -> [usize; 4] {
    [0, 1, size - 1, size + 1]
}

/// A state buffer of any size but the library's is refused, and stays.
fn sizes() {
    let mut buffer = [7; ROOM];
    for wrong in wrong_sizes(Router::size()) {
        let state = &mut buffer[..wrong];
        holds(misused(Router::set_up(state, &ROUTER)), "a router takes a state of a wrong size");
        holds(misused(Router::resume(state)), "a router goes on with such a state");
    }
    for wrong in wrong_sizes(Node::size()) {
        let (state, settings) = (&mut buffer[..wrong], node_settings(0, b"gauge"));
        holds(misused(Node::set_up(state, &settings)), "a node takes a state of a wrong size");
        holds(misused(Node::resume(state)), "a node goes on with such a state");
    }
    holds(buffer.iter().all(|byte| *byte == 7), "a state of a wrong size is changed");
}

/// The archive itself answers such a state with 255, where a caller goes past the wrappers.
fn misuse() {
    let (mut buffer, mut out, mut to) = ([7; ROOM], [7; mis::OUT_LOGIN], [7; 6]);
    let (state, zeros) = (buffer.as_mut_ptr(), [0; 4]);
    for (router, node) in
        [(Router::size() - 1, Node::size() - 1), (Router::size() + 1, Node::size() + 1), (0, 0)]
    {
        let told = unsafe {
            [
                mis::raw::mis_router_beacon(state, router, 1, 1, out.as_mut_ptr(), out.len(), &mut to),
                mis::raw::mis_router_closed(state, router, 1, &[0; 6], zeros.as_ptr(), 4),
                mis::raw::mis_node_success(state, node, 1, zeros.as_ptr(), 4),
                mis::raw::mis_node_leave(state, node, 1, out.as_mut_ptr(), out.len(), &mut to),
            ]
        };
        holds(told == [255; 4], "the archive takes a state of a wrong size");
    }
    let seven = |bytes: &[u8]| bytes.iter().all(|byte| *byte == 7);
    holds(seven(&buffer) && seven(&out) && seven(&to), "the archive changes a state of a wrong size");
}

/// A setting out of its range is 18 and leaves the buffer.
fn refused_settings() {
    let mut buffer = [7; ROOM];
    let state = &mut buffer[..Router::size()];
    let refused = Router::set_up(state, &RouterSettings { window: 0, ..ROUTER });
    holds(matches!(refused, Err(Refusal::OutOfRange)), "a window of 0 is taken");
    let state = &mut buffer[..Node::size()];
    let refused = Node::set_up(state, &NodeSettings { kind: 4, ..node_settings(0, b"gauge") });
    holds(matches!(refused, Err(Refusal::OutOfRange)), "security type 4 is taken");
    holds(buffer.iter().all(|byte| *byte == 7), "a refused setup changes the buffer");
}

/// A text of at most 120 bytes.
struct Text {
    bytes: [u8; 120],
    length: usize,
}

impl Write for Text {
    fn write_str(&mut self, text: &str) -> Result {
        let end = self.length + text.len();
        self.bytes.get_mut(self.length..end).ok_or(core::fmt::Error)?.copy_from_slice(text.as_bytes());
        self.length = end;
        Ok(())
    }
}

/// The numbers are 1 to 22 and 255, and no two refusals have one text.
fn texts() {
    let text = |refusal: Refusal| {
        let mut text = Text { bytes: [0; 120], length: 0 };
        holds(write!(text, "{refusal}").is_ok(), "a refusal's text is too long");
        // without "refused with N: "
        let start = text.bytes.iter().position(|byte| *byte == b':').unwrap_or(0);
        (text, start)
    };
    for (at, refusal) in Refusal::ALL.iter().enumerate() {
        let number = if at == 22 { 255 } else { at + 1 };
        holds(usize::from(refusal.number()) == number, "a refusal has another number");
        for other in &Refusal::ALL[..at] {
            let ((one, from), (two, start)) = (text(*refusal), text(*other));
            holds(one.bytes[from..one.length] != two.bytes[start..two.length], "two refusals have one text");
        }
    }
}
