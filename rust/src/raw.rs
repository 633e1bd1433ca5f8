//! The functions of the archive, as include/mis.h declares them. A byte string is a pointer and a length, an array of a fixed size a pointer
//! that says the size. Whoever links names the archive.

type Bytes = *const u8;
type Room = *mut u8;

extern "C" {
    pub fn mis_md5(message: Bytes, length: usize, digest: *mut [u8; 16]);
    pub fn mis_hmac_md5(key: Bytes, key_length: usize, message: Bytes, length: usize, code: *mut [u8; 16]);

    pub fn mis_router_size() -> usize;
    pub fn mis_router_set_up(
        state: Room,
        state_size: usize,
        window: u64,
        unit: u64,
        lifetime: u64,
        network: u64,
        address: *const [u8; 6],
        ipv4: *const [u8; 4],
        secret: Bytes,
        secret_length: usize,
        position: *const [u8; 12],
        interval: u64,
        groups: Bytes,
        groups_length: usize,
    ) -> u32;
    pub fn mis_router_beacon(
        state: Room,
        state_size: usize,
        clock: u64,
        serial: u16,
        out: Room,
        out_size: usize,
        to: *mut [u8; 6],
    ) -> u32;
    pub fn mis_router_request(
        state: Room,
        state_size: usize,
        clock: u64,
        from: *const [u8; 6],
        message: Bytes,
        length: usize,
        out: Room,
        out_size: usize,
        to: *mut [u8; 6],
    ) -> u32;
    pub fn mis_router_reply(
        state: Room,
        state_size: usize,
        clock: u64,
        message: Bytes,
        length: usize,
        out: Room,
        out_size: usize,
        to: *mut [u8; 6],
    ) -> u32;
    pub fn mis_router_close(
        state: Room,
        state_size: usize,
        clock: u64,
        node: *const [u8; 6],
        out: Room,
        out_size: usize,
        to: *mut [u8; 6],
    ) -> u32;
    pub fn mis_router_closed(
        state: Room,
        state_size: usize,
        clock: u64,
        from: *const [u8; 6],
        message: Bytes,
        length: usize,
    ) -> u32;
    pub fn mis_router_taken(state: Bytes, state_size: usize) -> u64;
    pub fn mis_router_count(state: Bytes, state_size: usize) -> u32;

    pub fn mis_node_size() -> usize;
    pub fn mis_node_set_up(
        state: Room,
        state_size: usize,
        unit: u64,
        patience: u64,
        password: Bytes,
        password_length: usize,
        account: Bytes,
        account_length: usize,
        kind: u64,
        network: u64,
        address: *const [u8; 6],
        router: *const [u8; 6],
    ) -> u32;
    pub fn mis_node_hear(
        state: Room,
        state_size: usize,
        clock: u64,
        seed: *const [u8; 16],
        message: Bytes,
        length: usize,
        out: Room,
        out_size: usize,
        to: *mut [u8; 6],
    ) -> u32;
    pub fn mis_node_success(state: Room, state_size: usize, clock: u64, message: Bytes, length: usize)
        -> u32;
    pub fn mis_node_failure(state: Room, state_size: usize, clock: u64, message: Bytes, length: usize)
        -> u32;
    pub fn mis_node_left(state: Room, state_size: usize, clock: u64, message: Bytes, length: usize) -> u32;
    pub fn mis_node_leave(
        state: Room,
        state_size: usize,
        clock: u64,
        out: Room,
        out_size: usize,
        to: *mut [u8; 6],
    ) -> u32;

    pub fn mis_server_login(
        mill: Bytes,
        mill_length: usize,
        visitors: Bytes,
        visitors_length: usize,
        source: *const [u8; 4],
        message: Bytes,
        length: usize,
        out: Room,
        out_size: usize,
    ) -> u32;
    pub fn mis_book_whole(book: Bytes, length: usize) -> bool;
    pub fn mis_read(message: Bytes, length: usize) -> u32;
    pub fn mis_readauth(message: Bytes, length: usize) -> u32;
    pub fn mis_read_beacon(
        message: Bytes,
        length: usize,
        fields: *mut [u64; 17],
        position: *mut [u8; 12],
    ) -> u32;
    pub fn mis_read_request(message: Bytes, length: usize, fields: *mut [u64; 13]) -> u32;
    pub fn mis_read_success(message: Bytes, length: usize, fields: *mut [u64; 9]) -> u32;
    pub fn mis_read_failure(message: Bytes, length: usize, fields: *mut [u64; 2]) -> u32;
    pub fn mis_read_terminating(message: Bytes, length: usize, fields: *mut [u64; 5]) -> u32;
    pub fn mis_read_access_request(
        message: Bytes,
        length: usize,
        fields: *mut [u64; 16],
        position: *mut [u8; 12],
    ) -> u32;
    pub fn mis_read_accept(message: Bytes, length: usize, fields: *mut [u64; 6]) -> u32;
    pub fn mis_read_reject(message: Bytes, length: usize, fields: *mut [u64; 2]) -> u32;

    pub fn mis_write_beacon(
        stamp: u64,
        groups: Bytes,
        groups_length: usize,
        serial: u16,
        interval: u16,
        security: Bytes,
        security_length: usize,
        networks: Bytes,
        networks_length: usize,
        has_position: bool,
        position: *const [u8; 12],
        left: u64,
        filter: u64,
        has_uplink: bool,
        line: u16,
        up: u16,
        down: u16,
        channel: u64,
        out: Room,
        out_size: usize,
    ) -> u32;
    pub fn mis_write_request(
        s: bool,
        stamp: u64,
        security: Bytes,
        security_length: usize,
        check: *const [u8; 16],
        account: Bytes,
        account_length: usize,
        seed: *const [u8; 16],
        networks: Bytes,
        networks_length: usize,
        local: u64,
        out: Room,
        out_size: usize,
    ) -> u32;
    pub fn mis_write_success(
        s: bool,
        stamp: u64,
        lifetime: u16,
        check: *const [u8; 16],
        networks: Bytes,
        networks_length: usize,
        local: u64,
        remote: u64,
        out: Room,
        out_size: usize,
    ) -> u32;
    pub fn mis_write_failure(stamp: u64, reason: u16, out: Room, out_size: usize) -> u32;
    pub fn mis_write_terminating(
        s: bool,
        stamp: u64,
        check: *const [u8; 16],
        reason: u64,
        out: Room,
        out_size: usize,
    ) -> u32;
    pub fn mis_write_access_request(
        identifier: u8,
        account: Bytes,
        account_length: usize,
        data: *const [u8; 16],
        check: *const [u8; 16],
        seed: *const [u8; 16],
        security: u16,
        position: *const [u8; 12],
        router: u64,
        proxies: Bytes,
        proxies_length: usize,
        sixes: Bytes,
        sixes_length: usize,
        has_groups: bool,
        groups: Bytes,
        groups_length: usize,
        out: Room,
        out_size: usize,
    ) -> u32;
    pub fn mis_write_accept(
        identifier: u8,
        key: *const [u8; 16],
        check: *const [u8; 16],
        proxies: Bytes,
        proxies_length: usize,
        out: Room,
        out_size: usize,
    ) -> u32;
    pub fn mis_write_reject(
        identifier: u8,
        proxies: Bytes,
        proxies_length: usize,
        out: Room,
        out_size: usize,
    ) -> u32;
}
