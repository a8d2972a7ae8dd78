//! The error numbers (R6.8), under their names in RFC 4120, section 7.5.9.

use std::fmt;

/// Why a call was refused: an error number, never 0.
#[derive(Clone, Copy, Debug, PartialEq, Eq, Hash)]
pub struct Error(u32);

/// The constants of the numbers, and the names of these.
macro_rules! numbers {
    ($($(#[$doc:meta])* $name:ident = $number:literal,)*) => {
        impl Error {
            $($(#[$doc])* pub const $name: Error = Error($number);)*
        }

        /// The name of an error number in RFC 4120, `KDC_ERR_NONE` for 0; there is none for a number
        /// that no call answers.
        pub const fn error_name(number: u32) -> Option<&'static str> {
            match number {
                0 => Some("KDC_ERR_NONE"),
                $($number => Some(stringify!($name)),)*
                _ => None,
            }
        }
    };
}

numbers! {
    /// No set account matches the user's name.
    KDC_ERR_C_PRINCIPAL_UNKNOWN = 6,
    /// The named service is not found, not enabled or no service.
    KDC_ERR_S_PRINCIPAL_UNKNOWN = 7,
    /// Edit: the name belongs to some other account.
    KDC_ERR_PRINCIPAL_NOT_UNIQUE = 8,
    /// The ticket would end now or earlier.
    KDC_ERR_NEVER_VALID = 11,
    /// Edit: not the name that the account has.
    KDC_ERR_POLICY = 12,
    /// A hop without its option, for a barred client, or without a route.
    KDC_ERR_BADOPTION = 13,
    /// The TGT's client, the evidence's client or the user is disabled.
    KDC_ERR_CLIENT_REVOKED = 18,
    /// The evidence is initial, or a ticket to somebody other than Service 1.
    KDC_ERR_SERVER_NOMATCH = 26,
    /// The ledger is full, or all numbers were given.
    KDC_ERR_SVC_UNAVAILABLE = 29,
    /// A presented ticket has reached its end.
    KRB_AP_ERR_TKT_EXPIRED = 32,
    /// A presented ticket starts too far ahead.
    KRB_AP_ERR_TKT_NYV = 33,
    /// What is presented as TGT has another origin.
    KRB_AP_ERR_NOT_US = 35,
    /// A ticket is not held, or no longer, or not in this form.
    KRB_AP_ERR_MODIFIED = 41,
    /// The output is too short.
    KRB_ERR_RESPONSE_TOO_BIG = 52,
    /// Unreadable bytes, or a number or a name out of range.
    KRB_ERR_GENERIC = 60,
    /// The trail of the evidence is full.
    KRB_ERR_FIELD_TOOLONG = 61,
}

impl Error {
    /// The number.
    pub const fn number(self) -> u32 {
        self.0
    }

    /// The name in RFC 4120, where the number is one that a call of this version answers.
    pub const fn name(self) -> Option<&'static str> {
        error_name(self.0)
    }

    /// An error, or none for the number 0.
    pub(crate) fn check(number: u32) -> Result<(), Error> {
        match number {
            0 => Ok(()),
            number => Err(Error(number)),
        }
    }
}

impl fmt::Display for Error {
    fn fmt(&self, f: &mut fmt::Formatter) -> fmt::Result {
        write!(f, "{} ({})", self.name().unwrap_or("error"), self.0)
    }
}

impl std::error::Error for Error {}
