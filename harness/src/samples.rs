//! Records and requests of the morning (R11.3), which several programs use.

/// The records of tickets 0 to 2: initial, S4U2self and delegated.
pub const TICKET_0: &[u8] = b"\x00\x37\x00\x00\x00\x40\x00\x00\x01\x00\x00\x03\xe8\x00\x00\x90\x88";
pub const TICKET_1: &[u8] =
    b"\x04\x7f\x00\x01\x40\x00\x00\x00\x00\x01\x00\x00\x03\xf2\x00\x00\x90\x88\x00\x00";
pub const TICKET_2: &[u8] =
    b"\x01\xff\x00\x02\x40\x00\x00\x00\x00\x02\x00\x00\x03\xfc\x00\x00\x90\x88\x00\x00\x00\x01\x01\x01";

/// A field with its length byte first.
pub fn counted(bytes: &[u8]) -> Vec<u8> {
    [&[bytes.len() as u8], bytes].concat()
}

/// W1: kind 1, `web`.
pub fn w1() -> Vec<u8> {
    [&b"\x00\x41\x01"[..], &counted(b"web")].concat()
}

/// W3, whose evidence field is this: kind 4, with ticket 0 and CNAME-IN-ADDL-TKT, to `store`.
pub fn w3_with(evidence: &[u8]) -> Vec<u8> {
    let head = b"\x00\xb3\x04\x00\x02\x00\x00";
    [head, &counted(TICKET_0)[..], evidence, &counted(b"store")].concat()
}
