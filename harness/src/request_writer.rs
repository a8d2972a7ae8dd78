//! The writer of requests: R4.8, R4.9.

use crate::limits::{LONGEST_COUNTED, LONGEST_REQUEST};
use crate::record::{map_bits, read_ticket, Error, Filled, OPTIONS, PAC_OPTIONS, TILL};

/// R4.1: the request map bits of the fields that begin with a length.
pub const TGT: u16 = 1 << 4;
pub const EVIDENCE: u16 = 1 << 5;
pub const USER: u16 = 1 << 6;
pub const SERVICE: u16 = 1 << 7;

/// R4.8: the parts of a request, and the map bits of the optional fields that stand.
#[derive(Clone, Copy, Debug, Default, PartialEq, Eq)]
pub struct Parts<'a> {
    pub kind: u32,
    pub options: u32,
    pub pac_options: u32,
    pub till: u32,
    pub tgt: &'a [u8],
    pub evidence: &'a [u8],
    pub user: &'a [u8],
    pub service: &'a [u8],
    pub fields: u32,
}

#[cfg(feature = "library")]
impl<'a> From<Parts<'a>> for tickets::Request<'a> {
    fn from(parts: Parts<'a>) -> Self {
        let Parts { kind, options, pac_options, till, tgt, evidence, user, service, fields } =
            parts;
        Self { kind, options, pac_options, till, tgt, evidence, user, service, fields }
    }
}

/// What a field is given.
#[derive(Clone, Copy)]
enum Given<'a> {
    Number(u32),
    Record(&'a [u8]),
    Name(&'a [u8]),
}

impl Given<'_> {
    /// Whether it is nothing, which a field that does not stand has to be given.
    fn is_nothing(self) -> bool {
        match self {
            Given::Number(number) => number == 0,
            Given::Record(bytes) | Given::Name(bytes) => bytes.is_empty(),
        }
    }

    /// Puts the field to the request; 60 where it cannot be this.
    fn put(self, request: &mut Filled) -> Result<(), Error> {
        let bytes = match self {
            Given::Number(number) => {
                request.put(&number.to_be_bytes());
                return Ok(());
            }
            Given::Record(record) => read_ticket(record).map(|_| record)?,
            Given::Name(name) if name.len() > LONGEST_COUNTED => return Err(Error::Generic),
            Given::Name(name) => name,
        };
        request.put(&[bytes.len() as u8]);
        request.put(bytes);
        Ok(())
    }
}

impl Parts<'_> {
    /// R4.8: the kind, and the map, if it is of that kind.
    fn kind_and_map(&self) -> Result<(u8, u16), Error> {
        let kind = u8::try_from(self.kind).map_err(|_| Error::Generic)?;
        let fields = u16::try_from(self.fields).map_err(|_| Error::Generic)?;
        let (needed, allowed) = map_bits(kind)?;
        if fields & !allowed != 0 {
            return Err(Error::Generic);
        }
        Ok((kind, needed | fields))
    }

    /// R4.1: what the fields after the kind are given, in the order of their map bits.
    fn given(&self) -> [(u16, Given<'_>); 7] {
        [
            (OPTIONS, Given::Number(self.options)),
            (PAC_OPTIONS, Given::Number(self.pac_options)),
            (TILL, Given::Number(self.till)),
            (TGT, Given::Record(self.tgt)),
            (EVIDENCE, Given::Record(self.evidence)),
            (USER, Given::Name(self.user)),
            (SERVICE, Given::Name(self.service)),
        ]
    }
}

/// R4.8: writes the request of these parts to the start of the output, and gives its length.
pub fn write_request(parts: &Parts, output: &mut [u8]) -> Result<usize, Error> {
    let (kind, map) = parts.kind_and_map()?;
    let mut bytes = [0; LONGEST_REQUEST];
    let mut request = Filled { output: &mut bytes, length: 0 };
    request.put(&map.to_be_bytes());
    request.put(&[kind]);
    for (bit, given) in parts.given() {
        if map & bit != 0 {
            given.put(&mut request)?;
        } else if !given.is_nothing() {
            return Err(Error::Generic);
        }
    }
    let length = request.length;
    output.get_mut(..length).ok_or(Error::ResponseTooBig)?.copy_from_slice(&bytes[..length]);
    Ok(length)
}

#[cfg(test)]
mod tests {
    use super::*;
    use crate::fixtures::record;
    use crate::record::{read_request, Kind, Request};
    use crate::samples::{TICKET_0, TICKET_1};

    /// R11.9: kind 1 for `web`, and W2 and W3.
    const INITIAL: Parts = Parts {
        kind: 1,
        user: b"web",
        options: 0,
        pac_options: 0,
        till: 0,
        tgt: &[],
        evidence: &[],
        service: &[],
        fields: 0,
    };
    const S4U2SELF: Parts = Parts { kind: 3, tgt: TICKET_0, user: b"tech", ..INITIAL };
    const S4U2PROXY: Parts = Parts {
        kind: 4,
        options: 0x0002_0000,
        tgt: TICKET_0,
        evidence: TICKET_1,
        user: b"",
        service: b"store",
        ..INITIAL
    };

    /// The bytes of W1 to W3, as R11.3 gives them.
    const W1: &str = "00410103776562";
    const W2: &str = "00510311003700000040000001000003e8000090880474656368";
    const W3: &str = "00b3040002000011003700000040000001000003e80000908814047f0001400000000001000003f20000908800000573746f7265";

    /// The bytes of a hexadecimal text.
    fn hex(text: &str) -> Vec<u8> {
        let digits = |at: usize| u8::from_str_radix(&text[at..at + 2], 16).unwrap();
        (0..text.len()).step_by(2).map(digits).collect()
    }

    /// What is written to an output of this length, or the error number; looks whether the bytes
    /// behind it stay.
    fn written(parts: &Parts, output: usize) -> Result<Vec<u8>, u8> {
        let mut bytes = vec![0xEE; output];
        let length = write_request(parts, &mut bytes).map_err(Error::number);
        let rest = *length.as_ref().unwrap_or(&0);
        assert!(bytes[rest..].iter().all(|&byte| byte == 0xEE));
        length.map(|length| bytes[..length].to_vec())
    }

    #[test]
    fn r11_9_the_requests_of_the_morning_are_written() {
        assert_eq!(written(&INITIAL, 256), Ok(hex(W1)));
        assert_eq!(written(&S4U2SELF, 256), Ok(hex(W2)));
        assert_eq!(written(&S4U2PROXY, 256), Ok(hex(W3)));
        assert_eq!(written(&Parts { fields: 0x2, ..S4U2PROXY }, 256), Ok(hex(W3)));
    }

    #[test]
    fn r11_9_till_stands_by_the_mask_alone() {
        let till = Parts { till: 1000, fields: 0x8, ..INITIAL };
        assert_eq!(written(&till, 256), Ok(hex("004901000003e803776562")));
        assert_eq!(written(&Parts { till: 0, ..till }, 256), Ok(hex("0049010000000003776562")));
        assert_eq!(written(&Parts { fields: 0, ..till }, 256), Err(60));
    }

    #[test]
    fn r11_9_an_output_as_long_as_the_request_is_enough() {
        assert_eq!(written(&INITIAL, 7), Ok(hex(W1)));
        assert_eq!(written(&INITIAL, 6), Err(52));
        assert_eq!(written(&INITIAL, 0), Err(52));
    }

    #[test]
    fn r11_9_what_no_request_has_is_60_before_52() {
        for parts in [
            Parts { service: b"store", ..INITIAL },
            Parts { fields: 0x4, ..INITIAL },
            Parts { kind: 0, ..INITIAL },
            Parts { kind: 5, ..INITIAL },
            Parts { kind: 257, ..INITIAL },
            Parts { user: &[b'n'; 256], ..INITIAL },
            Parts { tgt: &TICKET_0[..16], ..S4U2SELF },
            Parts { tgt: b"", ..S4U2SELF },
            Parts { evidence: TICKET_0, ..S4U2SELF },
            Parts { fields: 0x1_0000, ..S4U2SELF },
            Parts { fields: 0x8000_0000, ..S4U2SELF },
            Parts { pac_options: 1, ..S4U2PROXY },
            Parts { options: 1, ..S4U2SELF },
        ] {
            assert_eq!(written(&parts, 400), Err(60), "{parts:?}");
            assert_eq!(written(&parts, 0), Err(60), "{parts:?}");
        }
    }

    #[test]
    fn r4_8_every_bit_of_the_mask_by_its_kind() {
        for (parts, allowed) in [(INITIAL, 0x4B), (S4U2SELF, 0x5B), (S4U2PROXY, 0xBF)] {
            for bit in 0..32 {
                let is_60 = written(&Parts { fields: 1 << bit, ..parts }, 400) == Err(60);
                assert_eq!(is_60, allowed >> bit & 1 == 0, "kind {}, bit {bit}", parts.kind);
            }
        }
    }

    #[test]
    fn r11_9_the_lengths_of_a_name() {
        let long = [b'n'; 255];
        let user = Parts { user: &long, ..INITIAL };
        assert_eq!(written(&user, 258), Err(52));
        assert_eq!(written(&user, 259).map(|bytes| (bytes[3], bytes.len())), Ok((255, 259)));
        assert_eq!(written(&Parts { user: b"", ..INITIAL }, 256), Ok(hex("00410100")));
    }

    #[test]
    fn r4_1_the_longest_request() {
        let longest = hex("03ff0102400000000304000003e80000908805060708080102030405060708");
        let parts = Parts {
            tgt: &longest,
            evidence: &longest,
            service: &[b's'; 255],
            fields: 0xF,
            ..S4U2PROXY
        };
        assert_eq!(written(&parts, 335).map(|bytes| bytes.len()), Ok(335));
        assert_eq!(written(&parts, 334), Err(52));
    }

    /// What the writer makes of the parts that the reader gives.
    fn written_again(bytes: &[u8]) -> Result<Vec<u8>, u8> {
        let request = read_request(bytes).unwrap();
        let Request { options, pac_options, till, .. } = request;
        let fields = u32::from(bytes[1] & 0x0E);
        let parts = Parts { options, pac_options, till, fields, ..Parts::default() };
        match request.kind {
            Kind::Initial { user } => written(&Parts { kind: 1, user, ..parts }, bytes.len()),
            Kind::Direct { tgt, service } => {
                let tgt = &record(&tgt);
                written(&Parts { kind: 2, tgt, service, ..parts }, bytes.len())
            }
            Kind::S4U2self { tgt, user } => {
                let tgt = &record(&tgt);
                written(&Parts { kind: 3, tgt, user, ..parts }, bytes.len())
            }
            Kind::S4U2proxy { tgt, evidence, service } => {
                let (tgt, evidence) = (&record(&tgt), &record(&evidence));
                written(&Parts { kind: 4, tgt, evidence, service, ..parts }, bytes.len())
            }
        }
    }

    #[test]
    fn r4_9_what_reads_is_written_as_it_stands() {
        let direct = "009b0240000000000003e811003700000040000001000003e8000090880573746f7265";
        let empty = "00410100";
        let no_wish = "0049010000000003776562";
        for text in [W1, W2, W3, direct, empty, no_wish] {
            assert_eq!(written_again(&hex(text)), Ok(hex(text)), "{text}");
        }
    }

    #[test]
    fn r4_9_what_is_written_reads_as_the_same_parts() {
        let all = Parts { pac_options: 7, till: 9, fields: 0xC, ..S4U2PROXY };
        let bytes = written(&all, 256).unwrap();
        let request = read_request(&bytes).unwrap();
        assert_eq!((request.options, request.pac_options, request.till), (0x0002_0000, 7, 9));
        let Kind::S4U2proxy { tgt, evidence, service } = request.kind else {
            panic!("another kind");
        };
        assert_eq!((Ok(tgt), Ok(evidence)), (read_ticket(TICKET_0), read_ticket(TICKET_1)));
        assert_eq!((service, &bytes[..3]), (&b"store"[..], &[0, 0xBF, 4][..]));
    }
}
