//! Requests (R4): their parts, the writer and the reader.

use crate::constants::{
    FIELD_OPTIONS, FIELD_PAC_OPTIONS, FIELD_TILL, KDC_OPT_CNAME_IN_ADDL_TKT, KDC_OPT_FORWARDABLE,
    KIND_DIRECT, KIND_INITIAL, KIND_S4U2PROXY, KIND_S4U2SELF, LONGEST_REQUEST,
    PAC_OPT_RESOURCE_BASED_CONSTRAINED_DELEGATION, REQUEST_EVIDENCE, REQUEST_FIELDS, REQUEST_KIND,
    REQUEST_OPTIONS, REQUEST_PAC_OPTIONS, REQUEST_SERVICE_AT, REQUEST_SERVICE_LENGTH, REQUEST_TGT,
    REQUEST_TILL, REQUEST_USER_AT, REQUEST_USER_LENGTH,
};
use crate::errors::Error;
use crate::raw;

/// The parts of a request, as `tickets_write_request` is given them (R4.8). [`Request::initial`] and
/// the three others make such as the writer takes; any other parts can be put together by hand, and are
/// judged by the writer.
///
/// ```
/// use tickets::{Request, LONGEST_REQUEST};
///
/// let mut output = [0; LONGEST_REQUEST];
/// let length = Request::initial(b"web").write(&mut output)?;
/// assert_eq!(output[..length], *b"\x00\x41\x01\x03web");
/// # Ok::<(), tickets::Error>(())
/// ```
#[derive(Clone, Copy, Debug, Default, PartialEq, Eq)]
pub struct Request<'a> {
    /// `KIND_INITIAL` to `KIND_S4U2PROXY`.
    pub kind: u32,
    /// `KDC_OPT_FORWARDABLE` and `KDC_OPT_CNAME_IN_ADDL_TKT`; other bits are ignored.
    pub options: u32,
    /// `PAC_OPT_RESOURCE_BASED_CONSTRAINED_DELEGATION`; other bits are ignored.
    pub pac_options: u32,
    /// The latest end that is wished for; 0 is no wish.
    pub till: u32,
    /// The record of the TGT.
    pub tgt: &'a [u8],
    /// The record of the evidence.
    pub evidence: &'a [u8],
    /// The name of the user.
    pub user: &'a [u8],
    /// The name of the service.
    pub service: &'a [u8],
    /// Which optional fields stand: `FIELD_OPTIONS`, `FIELD_PAC_OPTIONS`, `FIELD_TILL`.
    pub fields: u32,
}

impl<'a> Request<'a> {
    /// Kind 1: an initial ticket for a user, whose password the caller has checked (R1.1).
    pub fn initial(user: &'a [u8]) -> Self {
        Self { kind: KIND_INITIAL, user, ..Self::default() }
    }

    /// Kind 2: with a TGT, a ticket to a service.
    pub fn direct(tgt: &'a [u8], service: &'a [u8]) -> Self {
        Self { kind: KIND_DIRECT, tgt, service, ..Self::default() }
    }

    /// Kind 3, S4U2self: with a service's TGT, a ticket to itself in the name of a user.
    pub fn s4u2self(tgt: &'a [u8], user: &'a [u8]) -> Self {
        Self { kind: KIND_S4U2SELF, tgt, user, ..Self::default() }
    }

    /// Kind 4, S4U2proxy: with a service's TGT and evidence, a ticket to another service in the name of
    /// the evidence's client. CNAME-IN-ADDL-TKT is set, without which it is refused (R4.4).
    pub fn s4u2proxy(tgt: &'a [u8], evidence: &'a [u8], service: &'a [u8]) -> Self {
        let options = KDC_OPT_CNAME_IN_ADDL_TKT;
        Self { kind: KIND_S4U2PROXY, options, tgt, evidence, service, ..Self::default() }
    }

    /// Asks for a forwardable ticket, in kinds 1 to 3.
    pub fn forwardable(self) -> Self {
        let options = self.options | KDC_OPT_FORWARDABLE;
        Self { options, fields: self.fields | FIELD_OPTIONS, ..self }
    }

    /// Opens the resource route, in kind 4.
    pub fn resource_based(self) -> Self {
        let pac_options = self.pac_options | PAC_OPT_RESOURCE_BASED_CONSTRAINED_DELEGATION;
        Self { pac_options, fields: self.fields | FIELD_PAC_OPTIONS, ..self }
    }

    /// Asks for an end that is not later than this.
    pub fn till(self, till: u32) -> Self {
        Self { till, fields: self.fields | FIELD_TILL, ..self }
    }

    /// Puts the request's bytes at the start of the output, and gives their count. It is refused with 60
    /// where no request has these parts, and with 52 where the output is too short.
    pub fn write(&self, output: &mut [u8]) -> Result<usize, Error> {
        raw::write_request(self, output).length()
    }

    /// The request's bytes.
    pub fn to_vec(&self) -> Result<Vec<u8>, Error> {
        let mut bytes = vec![0; LONGEST_REQUEST];
        let length = self.write(&mut bytes)?;
        bytes.truncate(length);
        Ok(bytes)
    }
}

/// A request that was read (R4.3).
#[derive(Clone, Copy, Debug, PartialEq, Eq)]
pub struct ReadRequest<'a> {
    /// `KIND_INITIAL` to `KIND_S4U2PROXY`.
    pub kind: u32,
    /// The options, 0 where there are none.
    pub options: u32,
    /// The PAC options, 0 where there are none.
    pub pac_options: u32,
    /// The latest end that is wished for; 0 is no wish.
    pub till: u32,
    /// The number of the TGT, in kinds 2 to 4.
    pub tgt: Option<u16>,
    /// The number of the evidence, in kind 4.
    pub evidence: Option<u16>,
    /// The name of the user, in kinds 1 and 3.
    pub user: Option<&'a [u8]>,
    /// The name of the service, in kinds 2 and 4.
    pub service: Option<&'a [u8]>,
}

impl<'a> ReadRequest<'a> {
    /// Reads a request. It is refused with 60 where it is unreadable.
    pub fn read(request: &'a [u8]) -> Result<Self, Error> {
        let mut fields = [0; REQUEST_FIELDS];
        Error::check(raw::read_request(request, &mut fields))?;
        let kind = fields[REQUEST_KIND] as u32;
        // A name that is there starts behind the map and the kind, so never at 0.
        let name = |at: usize, length: usize| match fields[at] as usize {
            0 => None,
            start => Some(&request[start..][..fields[length] as usize]),
        };
        Ok(Self {
            kind,
            options: fields[REQUEST_OPTIONS] as u32,
            pac_options: fields[REQUEST_PAC_OPTIONS] as u32,
            till: fields[REQUEST_TILL] as u32,
            tgt: (kind != KIND_INITIAL).then_some(fields[REQUEST_TGT] as u16),
            evidence: (kind == KIND_S4U2PROXY).then_some(fields[REQUEST_EVIDENCE] as u16),
            user: name(REQUEST_USER_AT, REQUEST_USER_LENGTH),
            service: name(REQUEST_SERVICE_AT, REQUEST_SERVICE_LENGTH),
        })
    }
}
