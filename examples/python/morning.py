"""The tour of examples/c/morning.c in Python: the morning of R11.3, then a save, a load into other memory, and a clearing. Prints who acted for
whom; where an answer is not the one that is expected, a line on standard error says which, and the program ends with 1."""
import sys

from tickets import KDC_OPT_CNAME_IN_ADDL_TKT, Error, Flag, Kind, Refused, Service, load_library


def describe(service, ticket):
    """A line on a ticket: its number, who acts for whom, and until when."""
    client, to = (service.account(number).name for number in (ticket.client, ticket.service))
    if ticket.origin is Kind.INITIAL:
        words = f"{client} signed on"
    elif ticket.origin is Kind.DIRECT:
        words = f"{client} to {to}"
    elif ticket.origin is Kind.S4U2SELF:
        words = f"{to} for {client}, to itself"
    else:
        trail = [service.account(number).name for number in ticket.trail]
        words = f"{trail[-1]} for {client}, to {to}" + "".join(f", via {name}" for name in trail)
    return f"{ticket.number}  {words}, until {ticket.end}"


def granted(service, clock, kind, /, **parts):
    """Asks for a ticket, and prints it; it is the ledger's last. Gives its record."""
    record = service.request(service.write_request(kind, **parts), clock)
    last = service.held() - 1
    if service.record_at(last) != record:
        raise ValueError("the ledger's last record")
    print(f"at {clock} granted: {describe(service, service.ticket_at(last))}")
    return record


def print_held(service):
    """How much the service holds."""
    print(f"held: {service.held()} tickets, {service.day_total()} seconds")


def morning(service):
    """W1 to W4; gives the page's TGT."""
    service.edit(0, "tech", lifetime=36000)
    service.edit(1, "web", Flag.TRUSTED | Flag.SERVICE, send=1 << 2, lifetime=36000)
    service.edit(2, "store", Flag.SERVICE, lifetime=36000)

    tgt = granted(service, 1000, Kind.INITIAL, user="web")
    evidence = granted(service, 1010, Kind.S4U2SELF, tgt=tgt, user="tech")
    hop = {"options": KDC_OPT_CNAME_IN_ADDL_TKT, "tgt": tgt, "evidence": evidence, "service": "store"}
    granted(service, 1020, Kind.S4U2PROXY, **hop)
    try:
        service.request(service.write_request(Kind.S4U2PROXY, **hop), 37000)
    except Refused as refused:
        if refused.error is not Error.KRB_AP_ERR_TKT_EXPIRED:
            raise
        print(f"at 37000 refused: {refused}")
    else:
        raise ValueError("a grant at the TGT's end")
    print_held(service)
    return tgt


def tour():
    """All of it."""
    library = load_library()
    first = Service(library)
    tgt = morning(first)

    saved = first.save()
    print(f"saved: {len(saved)} bytes")
    second = Service(library)
    second.load(saved)
    if second.held() != first.held():
        raise ValueError("what is held after a load")
    print("loaded, and held again:")
    for place in range(second.held()):
        print(describe(second, second.ticket_at(place)))

    granted(second, 36999, Kind.DIRECT, tgt=tgt, service="store")
    held, cleared = second.held(), second.clear(37000)
    if cleared != held:
        raise ValueError("a clearing of all tickets")
    print(f"cleared at 37000: {cleared} tickets")
    print_held(second)


if __name__ == "__main__":
    try:
        tour()
    except Exception as error:
        sys.exit(f"morning: not as expected: {error}")
