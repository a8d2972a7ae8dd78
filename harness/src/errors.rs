//! The error numbers: R6.8.

/// Every refusal, by its name in RFC 4120.
#[derive(Clone, Copy, Debug, PartialEq, Eq)]
#[repr(u8)]
pub enum Error {
    /// KDC_ERR_C_PRINCIPAL_UNKNOWN: no account has the user's name (R6.5).
    CPrincipalUnknown = 6,
    /// KDC_ERR_S_PRINCIPAL_UNKNOWN: the named service, or Service 1 in S4U2self, is none (R6.5).
    SPrincipalUnknown = 7,
    /// KDC_ERR_PRINCIPAL_NOT_UNIQUE: an edit's name is taken (R2.9).
    PrincipalNotUnique = 8,
    /// KDC_ERR_NEVER_VALID: the ticket would have ended already (R6.7).
    NeverValid = 11,
    /// KDC_ERR_POLICY: an edit would rename the account (R2.9).
    Policy = 12,
    /// KDC_ERR_BADOPTION: a hop without its option, or without a route (R6.6).
    BadOption = 13,
    /// KDC_ERR_CLIENT_REVOKED: a disabled client or user (R6.3, R6.4, R6.5).
    ClientRevoked = 18,
    /// KDC_ERR_SERVER_NOMATCH: the evidence is not for Service 1 (R6.4).
    ServerNoMatch = 26,
    /// KDC_ERR_SVC_UNAVAILABLE: no place is left in the ledger, or no number (R6.7).
    SvcUnavailable = 29,
    /// KRB_AP_ERR_TKT_EXPIRED: a presented ticket has ended (R6.3, R6.4).
    TktExpired = 32,
    /// KRB_AP_ERR_TKT_NYV: a presented ticket starts too far ahead (R6.3, R6.4).
    TktNyv = 33,
    /// KRB_AP_ERR_NOT_US: the TGT is of another origin than initial (R6.3).
    NotUs = 35,
    /// KRB_AP_ERR_MODIFIED: a presented ticket is not the ledger's (R6.3, R6.4); a descent that does
    /// not arrive (R7.4); a place that is not held (R7.7).
    Modified = 41,
    /// KRB_ERR_RESPONSE_TOO_BIG: the output is shorter than the longest record (R3.7), than the request
    /// that is written (R4.8), or than a saved service (R7.8).
    ResponseTooBig = 52,
    /// KRB_ERR_GENERIC: unreadable bytes (R3.5, R4.3, R7.9), a ticket value without a record (R3.6),
    /// parts that no request has (R4.8), an edit whose number, name or flags are out of range (R2.9),
    /// or a number that is no account's (R2.13).
    Generic = 60,
    /// KRB_ERR_FIELD_TOOLONG: the evidence's trail is full (R6.6).
    FieldTooLong = 61,
}

impl Error {
    /// All of them, by their numbers.
    pub const ALL: [Error; 16] = [
        Error::CPrincipalUnknown,
        Error::SPrincipalUnknown,
        Error::PrincipalNotUnique,
        Error::NeverValid,
        Error::Policy,
        Error::BadOption,
        Error::ClientRevoked,
        Error::ServerNoMatch,
        Error::SvcUnavailable,
        Error::TktExpired,
        Error::TktNyv,
        Error::NotUs,
        Error::Modified,
        Error::ResponseTooBig,
        Error::Generic,
        Error::FieldTooLong,
    ];

    /// The number that a refusal returns.
    pub fn number(self) -> u8 {
        self as u8
    }

    /// The name in RFC 4120.
    pub fn name(self) -> &'static str {
        match self {
            Error::CPrincipalUnknown => "KDC_ERR_C_PRINCIPAL_UNKNOWN",
            Error::SPrincipalUnknown => "KDC_ERR_S_PRINCIPAL_UNKNOWN",
            Error::PrincipalNotUnique => "KDC_ERR_PRINCIPAL_NOT_UNIQUE",
            Error::NeverValid => "KDC_ERR_NEVER_VALID",
            Error::Policy => "KDC_ERR_POLICY",
            Error::BadOption => "KDC_ERR_BADOPTION",
            Error::ClientRevoked => "KDC_ERR_CLIENT_REVOKED",
            Error::ServerNoMatch => "KDC_ERR_SERVER_NOMATCH",
            Error::SvcUnavailable => "KDC_ERR_SVC_UNAVAILABLE",
            Error::TktExpired => "KRB_AP_ERR_TKT_EXPIRED",
            Error::TktNyv => "KRB_AP_ERR_TKT_NYV",
            Error::NotUs => "KRB_AP_ERR_NOT_US",
            Error::Modified => "KRB_AP_ERR_MODIFIED",
            Error::ResponseTooBig => "KRB_ERR_RESPONSE_TOO_BIG",
            Error::Generic => "KRB_ERR_GENERIC",
            Error::FieldTooLong => "KRB_ERR_FIELD_TOOLONG",
        }
    }
}
