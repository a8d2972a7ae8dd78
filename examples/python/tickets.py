"""The ticket service's library over ctypes: what include/tickets.h has, as a class. Its comments say what each call answers; numbers such as
R6.2 are those of docs/RULES.md."""
import ctypes
import enum
import os
from ctypes import c_char_p, c_size_t, c_uint8, c_uint32, c_uint64
from dataclasses import dataclass

MAJOR = 1
LAYOUT = 3
ACCOUNTS = 520
LEDGER = 2184
SAVED = 21664
LONGEST_RECORD = 31
LONGEST_REQUEST = 335
LONGEST_NAME = 24
ACCOUNT_FIELDS = 6
TICKET_FIELDS = 19
TICKET_TRAIL = 11
NO_ACCOUNT = 64
KDC_OPT_CNAME_IN_ADDL_TKT = 0x00020000


class Flag(enum.IntFlag):
    """The flags of an account (R2.2)."""

    DISABLED = 1
    BARRED = 2
    TRUSTED = 4
    SERVICE = 8


class Kind(enum.IntEnum):
    """The kinds of request (R4.2), and the origins of tickets (R3.3)."""

    INITIAL = 1
    DIRECT = 2
    S4U2SELF = 3
    S4U2PROXY = 4


class Error(enum.IntEnum):
    """The error numbers (R6.8), under their names in RFC 4120."""

    KDC_ERR_C_PRINCIPAL_UNKNOWN = 6
    KDC_ERR_S_PRINCIPAL_UNKNOWN = 7
    KDC_ERR_PRINCIPAL_NOT_UNIQUE = 8
    KDC_ERR_NEVER_VALID = 11
    KDC_ERR_POLICY = 12
    KDC_ERR_BADOPTION = 13
    KDC_ERR_CLIENT_REVOKED = 18
    KDC_ERR_SERVER_NOMATCH = 26
    KDC_ERR_SVC_UNAVAILABLE = 29
    KRB_AP_ERR_TKT_EXPIRED = 32
    KRB_AP_ERR_TKT_NYV = 33
    KRB_AP_ERR_NOT_US = 35
    KRB_AP_ERR_MODIFIED = 41
    KRB_ERR_RESPONSE_TOO_BIG = 52
    KRB_ERR_GENERIC = 60
    KRB_ERR_FIELD_TOOLONG = 61


class Refused(Exception):
    """What a call raises where it answers an error number."""

    def __init__(self, number):
        self.error = Error(number)
        super().__init__(f"{self.error.name} ({number})")


class Answer(ctypes.Structure):
    """tickets_answer."""

    _fields_ = [("error", c_uint32), ("value", c_uint32)]


@dataclass
class Account:
    """An account (R2.13)."""

    known: bool
    flags: Flag
    send: int
    receive: int
    lifetime: int
    name: str


@dataclass
class Ticket:
    """A ticket (R7.7)."""

    number: int
    flags: int
    client: int
    service: int
    start: int
    end: int
    tgt: int
    evidence: int
    barred: bool
    origin: Kind
    trail: list


WORDS = ctypes.POINTER(c_uint64)
BYTES = ctypes.POINTER(c_uint8)

# What each function answers, and what it is given. Bytes that a call only reads are c_char_p, with their length behind them.
CALLS = {
    "tickets_version": (c_uint32, []),
    "tickets_layout": (c_uint32, []),
    "tickets_fresh": (None, [WORDS, WORDS]),
    "tickets_edit": (c_uint32, [WORDS, c_uint32, c_char_p, c_size_t, c_uint32, c_uint64, c_uint64, c_uint32]),
    "tickets_find_name": (c_uint32, [WORDS, c_char_p, c_size_t]),
    "tickets_request": (Answer, [WORDS, WORDS, c_char_p, c_size_t, c_uint32, BYTES, c_size_t]),
    "tickets_clear": (c_uint32, [WORDS, WORDS, c_uint32]),
    "tickets_descent": (Answer, [WORDS, c_uint32]),
    "tickets_day_total": (c_uint64, [WORDS]),
    "tickets_account": (c_uint32, [WORDS, c_uint32, WORDS, BYTES]),
    "tickets_held": (c_uint32, [WORDS]),
    "tickets_record_at": (Answer, [WORDS, c_uint32, BYTES, c_size_t]),
    "tickets_ticket_at": (c_uint32, [WORDS, c_uint32, WORDS]),
    "tickets_save": (Answer, [WORDS, WORDS, BYTES, c_size_t]),
    "tickets_load": (c_uint32, [WORDS, WORDS, c_char_p, c_size_t]),
    "tickets_write_request": (
        Answer,
        [c_uint32, c_uint32, c_uint32, c_uint32, c_char_p, c_size_t, c_char_p, c_size_t]
        + [c_char_p, c_size_t, c_char_p, c_size_t, c_uint32, BYTES, c_size_t],
    ),
}


def load_library():
    """The library that TICKETS_LIBRARY names, or else the one that the loader finds."""
    library = ctypes.CDLL(os.environ.get("TICKETS_LIBRARY", f"libtickets.so.{MAJOR}"))
    for name, (answer, given) in CALLS.items():
        function = getattr(library, name)
        function.restype = answer
        function.argtypes = given
    if library.tickets_version() // 10000 != MAJOR:
        raise ImportError(f"libtickets has version {library.tickets_version()}, not {MAJOR}")
    if library.tickets_layout() != LAYOUT:
        raise ImportError(f"libtickets has layout {library.tickets_layout()}, not {LAYOUT}")
    return library


def check(error):
    """Raises what a call refused."""
    if error != 0:
        raise Refused(error)


def put_out(call, size, *given):
    """What a call puts to the output that it is lent behind what it is given."""
    output = (c_uint8 * size)()
    answer = call(*given, output, size)
    check(answer.error)
    return bytes(output[: answer.value])


class Service:
    """One service, in memory of its own. A call that is refused raises Refused. Calls on one service must not run at the same time."""

    def __init__(self, library):
        self._library = library
        self._accounts = (c_uint64 * ACCOUNTS)()
        self._ledger = (c_uint64 * LEDGER)()
        library.tickets_fresh(self._accounts, self._ledger)

    def edit(self, number, name, flags=0, send=0, receive=0, lifetime=0):
        """Sets an account whole."""
        given = name.encode()
        edit = self._library.tickets_edit
        check(edit(self._accounts, number, given, len(given), flags, send, receive, lifetime))

    def find_name(self, name):
        """The number of the account that a name stands for, or NO_ACCOUNT."""
        given = name.encode()
        return self._library.tickets_find_name(self._accounts, given, len(given))

    def account(self, number):
        """An account, as it stands."""
        fields = (c_uint64 * ACCOUNT_FIELDS)()
        name = (c_uint8 * LONGEST_NAME)()
        check(self._library.tickets_account(self._accounts, number, fields, name))
        known, flags, send, receive, lifetime, length = fields
        return Account(known == 1, Flag(flags), send, receive, lifetime, bytes(name[:length]).decode())

    def write_request(self, kind, options=0, tgt=b"", evidence=b"", user="", service=""):
        """The bytes of a request, without PAC options and till."""
        named = (user.encode(), service.encode())
        parts = [word for part in (tgt, evidence, *named) for word in (part, len(part))]
        return put_out(self._library.tickets_write_request, LONGEST_REQUEST, kind, options, 0, 0, *parts, 0)

    def request(self, request, clock):
        """Answers a request: the record of the ticket that is granted."""
        call = self._library.tickets_request
        return put_out(call, LONGEST_RECORD, self._accounts, self._ledger, request, len(request), clock)

    def clear(self, clock):
        """Takes out the tickets that have ended; how many they are."""
        return self._library.tickets_clear(self._accounts, self._ledger, clock)

    def descent(self, number):
        """How many steps it is from a ticket back to its initial ticket."""
        answer = self._library.tickets_descent(self._ledger, number)
        check(answer.error)
        return answer.value

    def day_total(self):
        """The seconds of all tickets held."""
        return self._library.tickets_day_total(self._ledger)

    def held(self):
        """How many tickets are held."""
        return self._library.tickets_held(self._ledger)

    def record_at(self, place):
        """The record of the ticket at a place."""
        return put_out(self._library.tickets_record_at, LONGEST_RECORD, self._ledger, place)

    def ticket_at(self, place):
        """The ticket at a place."""
        fields = (c_uint64 * TICKET_FIELDS)()
        check(self._library.tickets_ticket_at(self._ledger, place, fields))
        *first, length, barred, origin = fields[:TICKET_TRAIL]
        return Ticket(*first, barred == 1, Kind(origin), fields[TICKET_TRAIL : TICKET_TRAIL + length])

    def save(self):
        """The bytes of the whole service."""
        return put_out(self._library.tickets_save, SAVED, self._accounts, self._ledger)

    def load(self, saved):
        """Makes this service the one that was saved."""
        check(self._library.tickets_load(self._accounts, self._ledger, saved, len(saved)))
