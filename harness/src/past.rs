//! What calls did to the ledger, one after the other, and which tickets stand after all of them (R10.3).
//! It knows the grants and the clearings' clock readings, and nothing of ledgers.

use crate::record::Ticket;

/// What a call did.
#[derive(Clone, Copy, Debug)]
enum Event {
    Granted(Ticket),
    Cleared { clock: u32 },
}

/// All that calls did, in their order. The tickets that the first call finds are granted before it.
#[derive(Clone, Debug)]
pub struct Past(Vec<Event>);

impl Past {
    /// The past of a ledger that holds these tickets and has met no call yet.
    pub fn new(first: &[Ticket]) -> Past {
        Past(first.iter().copied().map(Event::Granted).collect())
    }

    /// A ticket was granted.
    pub fn grant(&mut self, ticket: Ticket) {
        self.0.push(Event::Granted(ticket));
    }

    /// A clearing was made at this clock reading.
    pub fn clear(&mut self, clock: u32) {
        self.0.push(Event::Cleared { clock });
    }

    /// R10.3: all tickets granted, in order, each with whether it stands: it does where no clearing
    /// after its grant read a clock at or past its end.
    pub fn tickets(&self) -> Vec<(Ticket, bool)> {
        // From the last call to the first, with the latest clock reading of the clearings met.
        let mut latest = None;
        let mut tickets = Vec::with_capacity(self.0.len());
        for event in self.0.iter().rev() {
            match *event {
                Event::Cleared { clock } => latest = latest.max(Some(clock)),
                Event::Granted(ticket) => {
                    let stands = latest.is_none_or(|clock| clock < ticket.end);
                    tickets.push((ticket, stands));
                }
            }
        }
        tickets.reverse();
        tickets
    }

    /// The clock reading of the clearing that took a ticket out: the first after its grant that
    /// reached its end. None where the ticket was never granted, or stands.
    pub fn taken_at(&self, ticket: &Ticket) -> Option<u32> {
        let is_grant = |event: &Event| matches!(event, Event::Granted(other) if other == ticket);
        let granted = self.0.iter().rposition(is_grant)?;
        self.0[granted..].iter().find_map(|event| match *event {
            Event::Cleared { clock } if clock >= ticket.end => Some(clock),
            _ => None,
        })
    }
}

#[cfg(test)]
mod tests {
    use super::*;
    use crate::record::read_ticket;
    use crate::samples::TICKET_0;

    /// A ticket of this number with this end.
    fn ticket(number: u16, end: u32) -> Ticket {
        Ticket { number, end, ..read_ticket(TICKET_0).unwrap() }
    }

    /// A past with tickets 0 and 1, a clearing at 20, tickets 2 to 4, a clearing at 15, ticket 5.
    fn past() -> Past {
        let mut past = Past::new(&[ticket(0, 20), ticket(1, 21)]);
        past.clear(20);
        past.grant(ticket(2, 15));
        past.grant(ticket(3, 16));
        past.grant(ticket(4, 14));
        past.clear(15);
        past.grant(ticket(5, 10));
        past
    }

    #[test]
    fn r10_3_a_ticket_stands_until_a_later_clearing_reaches_its_end() {
        let stand = past().tickets().into_iter().map(|(ticket, stands)| (ticket.number, stands));
        let expected = [(0, false), (1, true), (2, false), (3, true), (4, false), (5, true)];
        assert!(stand.eq(expected));
    }

    #[test]
    fn the_clearing_that_took_a_ticket_out() {
        let past = past();
        for (ticket, clock) in [
            (ticket(0, 20), Some(20)),
            (ticket(1, 21), None),
            (ticket(2, 15), Some(15)),
            (ticket(4, 14), Some(15)),
            (ticket(5, 10), None),
            (ticket(0, 19), None),
        ] {
            assert_eq!(past.taken_at(&ticket), clock);
        }
    }
}
