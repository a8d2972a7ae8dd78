//! The service as a whole, its ledger, the descent call, the day total, the clearing, and the tickets by
//! their places: R6.1, R7.1 to R7.7.

use crate::accounts::{Edit, Table};
use crate::decisions::{decide, Moment};
use crate::limits::TICKET_LIMIT;
use crate::record::{read_request, write_ticket, Error, Kind, Request, Ticket};

/// Accounts, tickets and the next number. Only as many tickets count as there are places (R7.1).
#[derive(Clone, Debug, PartialEq, Eq)]
pub struct Service {
    pub table: Table,
    pub ledger: Vec<Ticket>,
    /// R5.10: the number that the next grant gives, if it is one that a ticket can have.
    pub next: u64,
}

impl Default for Service {
    fn default() -> Service {
        Service::fresh()
    }
}

impl Service {
    /// R7.2: the service that a day begins with: no account is set, no ticket held, and no number
    /// given.
    pub fn fresh() -> Service {
        Service { table: Table::empty(), ledger: Vec::with_capacity(TICKET_LIMIT), next: 0 }
    }

    /// R2.8: an edit. A refused one changes nothing.
    pub fn edit(&mut self, edit: &Edit) -> Result<(), Error> {
        self.table.edit(edit)
    }

    /// R7.3: a request. A grant puts the ticket last in the ledger and its record first in the output,
    /// uses up the next number, and answers the record's length. A refusal changes nothing (R6.1).
    pub fn request(
        &mut self,
        request: &[u8],
        clock: u32,
        output: &mut [u8],
    ) -> Result<usize, Error> {
        let request = read_request(request)?;
        let ticket = decide(&request, &self.moment(&request, clock, output.len()))?;
        let length = write_ticket(&ticket, output)?;
        self.ledger.push(ticket);
        self.next += 1;
        Ok(length)
    }

    /// R7.6: a clearing. Out goes every held ticket whose end the clock has reached; the others stay
    /// in their order. The answer is how many went.
    pub fn clear(&mut self, clock: u32) -> u32 {
        self.ledger.truncate(TICKET_LIMIT);
        let held = self.ledger.len();
        self.ledger.retain(|ticket| ticket.end > clock);
        (held - self.ledger.len()) as u32
    }

    /// What the decision of a request looks at.
    fn moment(&self, request: &Request, clock: u32, room: usize) -> Moment<'_> {
        let (first_tgt, first_evidence) = match &request.kind {
            Kind::Initial { .. } => (None, None),
            Kind::Direct { tgt, .. } | Kind::S4U2self { tgt, .. } => {
                (self.first_held(tgt.number), None)
            }
            Kind::S4U2proxy { tgt, evidence, .. } => {
                (self.first_held(tgt.number), self.first_held(evidence.number))
            }
        };
        let (count, next) = (self.held().len(), self.next);
        Moment { table: &self.table, first_tgt, first_evidence, clock, count, next, room }
    }

    /// R7.1: the tickets that the ledger holds.
    pub fn held(&self) -> &[Ticket] {
        &self.ledger[..self.ledger.len().min(TICKET_LIMIT)]
    }

    /// R7.1: the first ticket of a number among those held.
    pub fn first_held(&self, number: u16) -> Option<&Ticket> {
        self.held().iter().find(|ticket| ticket.number == number)
    }

    /// R7.7: the ticket at a place; 41 where none is held there.
    pub fn ticket_at(&self, place: u32) -> Result<&Ticket, Error> {
        self.held().get(place as usize).ok_or(Error::Modified)
    }

    /// R7.7: puts the record of the ticket at a place first in the output, and gives its length.
    pub fn record_at(&self, place: u32, output: &mut [u8]) -> Result<usize, Error> {
        write_ticket(self.ticket_at(place)?, output)
    }

    /// R7.4: how many steps back the initial ticket is; 41 where a step's number is not held, or is
    /// not less than the one before it.
    pub fn descent(&self, number: u32) -> Result<u32, Error> {
        let number = u16::try_from(number).map_err(|_| Error::Modified)?;
        let mut ticket = self.first_held(number).ok_or(Error::Modified)?;
        let mut steps = 0;
        while let Some(back) = ticket.origin.back() {
            if back >= ticket.number {
                return Err(Error::Modified);
            }
            ticket = self.first_held(back).ok_or(Error::Modified)?;
            steps += 1;
        }
        Ok(steps)
    }

    /// R7.5: the seconds of all tickets held.
    pub fn day_total(&self) -> u64 {
        self.held().iter().map(seconds).sum()
    }
}

/// R7.5: the seconds from a ticket's start to its end, none where the end is not later.
fn seconds(ticket: &Ticket) -> u64 {
    ticket.end.saturating_sub(ticket.start).into()
}

#[cfg(test)]
mod tests {
    use super::*;
    use crate::book;
    use crate::decisions::RESOURCE_BASED;
    use crate::fixtures::{kind_1, kind_2, kind_3, kind_4, record, Day, LIFETIME};
    use crate::limits::{LAST_NUMBER, LAST_SECOND, LONGEST_RECORD, TRAIL_LIMIT};
    use crate::record::{read_ticket, Origin, NO_TRAIL};
    use crate::samples::{counted, w1, w3_with, TICKET_0, TICKET_1, TICKET_2};

    /// W2: with ticket 0, kind 3 for `tech`.
    fn w2() -> Vec<u8> {
        [&b"\x00\x51\x03"[..], &counted(TICKET_0), &counted(b"tech")].concat()
    }

    /// W3, with ticket 1 as its evidence.
    fn w3() -> Vec<u8> {
        w3_with(&counted(TICKET_1))
    }

    /// Makes a request that is granted with this record.
    fn granted(day: &mut Day, request: &[u8], clock: u32, expected: &[u8]) {
        assert_eq!(record(&day.ask_bytes(request, clock).unwrap()), expected);
    }

    /// The morning up to W2.
    fn after_w2() -> Day {
        let mut day = Day::morning();
        granted(&mut day, &w1(), 1000, TICKET_0);
        granted(&mut day, &w2(), 1010, TICKET_1);
        day
    }

    /// The morning up to W3.
    fn after_w3() -> Day {
        let mut day = after_w2();
        granted(&mut day, &w3(), 1020, TICKET_2);
        day
    }

    /// A ticket as the ledger may hold it.
    fn ticket(number: u16, origin: Origin) -> Ticket {
        let (start, end) = (1000, 2000);
        Ticket {
            number,
            flags: 0,
            client: 1,
            service: 0,
            start,
            end,
            origin,
            trail: NO_TRAIL,
            hops: 0,
            barred: false,
        }
    }

    #[test]
    fn r11_3_the_morning() {
        assert_eq!(after_w3().ask_bytes(&w3(), 37000), Err(32));
        let fourth = after_w3().ask_bytes(&w3(), 36999).unwrap();
        assert_eq!((fourth.number, fourth.start, fourth.end), (3, 36999, 37000));
    }

    #[test]
    fn r7_4_descent_and_day_total_of_the_morning() {
        let Day { service, .. } = after_w3();
        let descents = [0, 1, 2, 3, 65536, u32::MAX].map(|number| service.descent(number));
        let none = Err(Error::Modified);
        assert_eq!(descents, [Ok(0), Ok(1), Ok(2), none, none, none]);
        assert_eq!(service.day_total(), 36000 + 35990 + 35980);
        assert_eq!(Service::fresh().day_total(), 0);
        assert_eq!(Service::fresh().descent(0), none);
    }

    #[test]
    fn r6_2_a_short_output_is_52_after_60_and_before_the_rest() {
        let mut day = after_w3();
        let mut short = [0; LONGEST_RECORD - 1];
        let refused = |service: &mut Service, request: &[u8], output: &mut [u8]| {
            service.request(request, 0, output).unwrap_err().number()
        };
        assert_eq!(refused(&mut day.service, &w1(), &mut short), 52);
        assert_eq!(refused(&mut day.service, &kind_1("ghost").bytes(), &mut []), 52);
        assert_eq!(refused(&mut day.service, b"\0", &mut short), 60);
        assert_eq!(day.service.request(&w1(), 5, &mut [0; LONGEST_RECORD]), Ok(TICKET_0.len()));
    }

    #[test]
    fn r6_7_the_513th_grant_is_29_and_29_is_last() {
        let mut day = Day::morning();
        for number in 0..TICKET_LIMIT as u16 {
            assert_eq!(day.grant(&kind_1("web"), 1000).number, number);
        }
        assert_eq!(day.ask(&kind_1("web"), 1000), Err(29));
        assert_eq!(day.ask(&kind_1("ghost"), 1000), Err(6));
        assert_eq!(day.ask(&kind_1("web").till(1000), 1000), Err(11));
        let last = *day.service.ledger.last().unwrap();
        assert_eq!(day.ask(&kind_3(&last, "tech"), 699), Err(33));
        assert_eq!(day.ask(&kind_3(&last, "tech"), 700), Err(29));
        assert_eq!(day.service.day_total(), 512 * u64::from(LIFETIME));
    }

    #[test]
    fn r7_1_tickets_past_the_512th_are_not_held() {
        let mut day = Day::morning();
        day.service.ledger = vec![ticket(0, Origin::Initial); TICKET_LIMIT];
        day.service.ledger.push(ticket(600, Origin::Initial));
        assert_eq!(day.service.descent(600), Err(Error::Modified));
        assert_eq!(day.service.day_total(), 512 * 1000);
        assert_eq!(day.ask(&kind_3(&ticket(600, Origin::Initial), "tech"), 1000), Err(41));
        assert_eq!(day.ask(&kind_3(&ticket(0, Origin::Initial), "tech"), 1000), Err(29));
        assert_eq!(day.service.ledger.len(), TICKET_LIMIT + 1);
    }

    #[test]
    fn r7_1_the_first_ticket_of_a_number_counts() {
        let mut day = Day::morning();
        let first = ticket(5, Origin::Initial);
        let second = Ticket { end: 3000, ..first };
        day.service.ledger = vec![first, second];
        assert_eq!(day.ask(&kind_2(&second, "store"), 1000), Err(41));
        let granted = day.grant(&kind_2(&first, "store"), 1000);
        assert_eq!((granted.number, granted.origin), (0, Origin::Direct { tgt: 5 }));
    }

    #[test]
    fn r5_1_a_value_without_a_record_equals_nothing_presented() {
        let plain = ticket(0, Origin::Initial);
        let mut stale = NO_TRAIL;
        stale[TRAIL_LIMIT - 1] = 1;
        for odd in [
            Ticket { service: 1, ..plain },
            Ticket { trail: stale, ..plain },
            Ticket { hops: 1, ..plain },
            Ticket { hops: 255, ..plain },
        ] {
            let mut day = Day::morning();
            day.service.ledger = vec![odd, plain];
            assert_eq!(day.ask(&kind_2(&plain, "store"), 1000), Err(41));
            assert_eq!(day.service.descent(0), Ok(0));
            assert_eq!(day.service.day_total(), 2000);
        }
    }

    #[test]
    fn r5_1_every_field_counts() {
        let mut day = after_w3();
        let [tgt, evidence, delegated] =
            [TICKET_0, TICKET_1, TICKET_2].map(|record| read_ticket(record).unwrap());
        let mut trail = delegated.trail;
        trail[0] = 2;
        for altered in [
            Ticket { number: 3, ..delegated },
            Ticket { number: 1, ..delegated },
            Ticket { flags: 0, ..delegated },
            Ticket { client: 1, ..delegated },
            Ticket { service: 1, ..delegated },
            Ticket { start: 1000, ..delegated },
            Ticket { end: 37001, ..delegated },
            Ticket { origin: Origin::Delegated { tgt: 1, evidence: 1 }, ..delegated },
            Ticket { origin: Origin::Delegated { tgt: 0, evidence: 0 }, ..delegated },
            Ticket { trail, ..delegated },
            Ticket { hops: 2, ..delegated },
            Ticket { barred: true, ..delegated },
            Ticket { origin: Origin::Direct { tgt: 0 }, ..evidence },
        ] {
            assert_eq!(day.ask(&kind_4(&tgt, &altered, "store"), 1020), Err(41));
            assert_eq!(day.ask(&kind_2(&altered, "store"), 1020), Err(41));
        }
        assert_eq!(day.ask(&kind_4(&tgt, &delegated, "store"), 1020), Err(26));
    }

    #[test]
    fn r7_4_descent_over_ledgers_that_grants_do_not_give() {
        let mut service = Service::fresh();
        let last = TICKET_LIMIT as u32 - 1;
        let behind = |tgt| ticket(tgt + 1, Origin::Direct { tgt });
        service.ledger.push(ticket(0, Origin::Initial));
        service.ledger.extend((0..last as u16).map(behind));
        assert_eq!(service.descent(last), Ok(last));
        service.ledger[100].origin = Origin::S4U2self { tgt: 100 };
        assert_eq!(service.descent(last), Err(Error::Modified));
        assert_eq!(service.descent(99), Ok(99));
        service.ledger[100].origin = Origin::Delegated { tgt: 600, evidence: 99 };
        assert_eq!(service.descent(last), Ok(last));
        service.ledger[100].origin = Origin::Direct { tgt: 101 };
        assert_eq!(service.descent(100), Err(Error::Modified));
        service.ledger[100].origin = Origin::Direct { tgt: 50 };
        service.ledger[50].number = 51;
        assert_eq!(service.descent(100), Err(Error::Modified));
        assert_eq!(service.descent(50), Err(Error::Modified));
        assert_eq!(service.descent(51), Ok(50));
    }

    #[test]
    fn r7_5_the_day_total_counts_nothing_where_the_end_is_not_later() {
        let mut service = Service::fresh();
        let plain = ticket(0, Origin::Initial);
        service.ledger = vec![
            Ticket { start: 0, end: LAST_SECOND, ..plain },
            Ticket { start: LAST_SECOND, end: 0, ..plain },
            Ticket { start: 7, end: 7, ..plain },
            Ticket { start: 0, end: LAST_SECOND, ..plain },
        ];
        assert_eq!(service.day_total(), 2 * u64::from(LAST_SECOND));
    }

    /// The numbers of the tickets held.
    fn numbers(day: &Day) -> Vec<u16> {
        day.service.held().iter().map(|ticket| ticket.number).collect()
    }

    #[test]
    fn r7_6_a_full_ledger_is_cleared_and_numbers_go_on() {
        let mut day = Day::morning();
        for number in 0..TICKET_LIMIT as u16 {
            let till = if number % 2 == 0 { 2000 } else { 3000 };
            assert_eq!(day.grant(&kind_1("web").till(till), 1000).number, number);
        }
        assert_eq!(day.ask(&kind_1("web"), 1000), Err(29));
        assert_eq!(day.clear(2000), 256);
        assert!(numbers(&day).into_iter().eq((1..512).step_by(2)));
        assert_eq!(day.grant(&kind_1("web"), 1000).number, 512);
        assert_eq!(day.service.ledger.len(), 257);
        assert_eq!(day.service.descent(512), Ok(0));
        assert_eq!(day.service.day_total(), 256 * 2000 + u64::from(LIFETIME));
    }

    #[test]
    fn r7_6_a_ticket_goes_at_its_end_and_stays_before_it() {
        let mut day = Day::morning();
        for till in [2001, 2000, 3000, 1999, 2000] {
            day.grant(&kind_1("web").till(till), 1000);
        }
        assert_eq!((day.clear(1998), numbers(&day)), (0, vec![0, 1, 2, 3, 4]));
        assert_eq!((day.clear(2000), numbers(&day)), (3, vec![0, 2]));
        assert_eq!((day.clear(2000), numbers(&day)), (0, vec![0, 2]));
        assert_eq!((day.clear(1000), numbers(&day)), (0, vec![0, 2]));
        assert_eq!((day.clear(LAST_SECOND), numbers(&day)), (2, vec![]));
        assert_eq!((day.clear(LAST_SECOND), day.service.next), (0, 5));
    }

    /// A ticket with this end.
    fn ending(end: u32) -> Ticket {
        Ticket { end, ..ticket(0, Origin::Initial) }
    }

    #[test]
    fn r7_6_0_and_the_last_second() {
        let mut service = Service::fresh();
        service.ledger = [0, 1, LAST_SECOND - 1, LAST_SECOND].map(ending).to_vec();
        let taken = [0, 0, LAST_SECOND - 1, LAST_SECOND].map(|clock| service.clear(clock));
        assert_eq!(taken, [1, 0, 2, 1]);
    }

    #[test]
    fn r11_5_the_morning_cleared() {
        let mut day = after_w3();
        assert_eq!([36999, 37000, 37000].map(|clock| day.clear(clock)), [0, 3, 0]);
        assert_eq!((&day.service.ledger, day.service.day_total()), (&vec![], 0));
        assert_eq!(day.service.descent(0), Err(Error::Modified));
        assert_eq!(day.ask_bytes(&w2(), 1010), Err(41));
        assert_eq!(day.ask_bytes(&w3(), 1020), Err(41));
        let third = b"\x00\x37\x00\x03\x00\x40\x00\x00\x01\x00\x00\x03\xe8\x00\x00\x90\x88";
        granted(&mut day, &w1(), 1000, third);
    }

    #[test]
    fn r11_5_512_grants_cleared() {
        let mut day = Day::morning();
        (0..TICKET_LIMIT).for_each(|_| assert!(day.ask_bytes(&w1(), 1000).is_ok()));
        assert_eq!(day.ask_bytes(&w1(), 1000), Err(29));
        assert_eq!(day.clear(37000), 512);
        assert_eq!(day.ask_bytes(&w1(), 1000).unwrap().number, 512);
    }

    #[test]
    fn r11_7_w3_after_edits_of_flags() {
        for (edits, expected) in [
            (&[(0, 2)][..], Err(13)),
            (&[(0, 2), (0, 0)], Ok(TICKET_2)),
            (&[(0, 3)], Err(18)),
            (&[(1, 14), (2, 10)], Ok(TICKET_2)),
        ] {
            let mut day = after_w2();
            edits.iter().for_each(|&(number, flags)| day.set_flags(number, flags));
            let answer = day.ask_bytes(&w3(), 1020).map(|ticket| record(&ticket));
            assert_eq!(answer, expected.map(<[u8]>::to_vec), "{edits:?}");
        }
    }

    #[test]
    fn r11_7_a_mark_stays_when_the_bar_is_lifted() {
        let mut day = Day::morning();
        let tgt = day.ask_bytes(&w1(), 1000).unwrap();
        day.set_flags(0, 2);
        let marked = day.ask_bytes(&w2(), 1010).unwrap();
        let first =
            b"\x06\x7f\x00\x01\x00\x00\x00\x00\x00\x01\x00\x00\x03\xf2\x00\x00\x90\x88\x00\x00";
        assert_eq!(record(&marked), first);
        day.set_flags(0, 0);
        day.set(2, "store", 8, 0, 0x2);
        let hop = kind_4(&tgt, &marked, "store");
        assert_eq!(day.ask(&hop, 1020), Err(13));
        assert_eq!(day.ask(&hop.pac_options(RESOURCE_BASED), 1020), Err(13));
    }

    #[test]
    fn r11_7_a_hop_stays_when_its_client_is_barred_later() {
        let mut day = after_w3();
        let store = day.grant(&kind_1("store"), 1020);
        let ticket = day.service.ledger[2];
        day.set(2, "store", 8, 0x2, 0);
        day.set_flags(0, 2);
        assert_eq!((record(&ticket), day.service.descent(2)), (TICKET_2.to_vec(), Ok(2)));
        assert_eq!(book::lawful(&day.book.notes, 0), Ok(()));
        let hop = kind_4(&store, &ticket, "web");
        assert_eq!(day.ask(&hop, 1020), Err(13));
        day.set_flags(0, 0);
        assert_eq!(day.grant(&hop, 1020).trail[..2], [1, 2]);
    }

    #[test]
    fn r7_6_tickets_that_end_together_go_together() {
        let mut day = after_w3();
        let later = day.grant(&kind_1("web").till(37001), 1021);
        assert_eq!((day.clear(36999), day.service.ledger.len()), (0, 4));
        assert_eq!((day.clear(37000), &day.service.ledger), (3, &vec![later]));
        let none = Err(Error::Modified);
        let descents = [0, 1, 2, 3].map(|number| day.service.descent(number));
        assert_eq!(descents, [none, none, none, Ok(0)]);
        assert_eq!(day.service.day_total(), 37001 - 1021);
        assert_eq!(day.grant(&kind_1("web"), 5).number, 4);
    }

    #[test]
    fn r7_6_what_was_taken_out_is_41_at_any_clock() {
        let mut day = after_w3();
        let [tgt, evidence, _] =
            [TICKET_0, TICKET_1, TICKET_2].map(|record| read_ticket(record).unwrap());
        let other = day.grant(&kind_1("web").till(37001), 1020);
        assert_eq!(day.clear(37000), 3);
        for clock in [0, 1000, 1020, 36999, 37000, LAST_SECOND] {
            assert_eq!(day.ask(&kind_2(&tgt, "store"), clock), Err(41));
            assert_eq!(day.ask(&kind_4(&tgt, &evidence, "store"), clock), Err(41));
        }
        assert_eq!(day.ask(&kind_4(&other, &evidence, "store"), 1020), Err(41));
    }

    #[test]
    fn r5_10_65535_is_the_last_number() {
        let mut day = Day::morning();
        day.service.next = LAST_NUMBER.into();
        let last = day.grant(&kind_1("web"), 1000);
        assert_eq!((last.number, day.service.next), (LAST_NUMBER, 65536));
        for _ in 0..2 {
            assert_eq!(day.ask(&kind_1("web"), 1000), Err(29));
            assert_eq!(day.ask(&kind_1("web").till(1000), 1000), Err(11));
            assert_eq!(day.ask(&kind_1("ghost"), 1000), Err(6));
            day.clear(LAST_SECOND);
        }
        assert_eq!(day.service.ledger, []);
        for next in [65537, 1 << 32, 1 << 63, u64::MAX] {
            day.service.next = next;
            assert_eq!(day.ask(&kind_1("web"), 1000), Err(29));
        }
    }

    #[test]
    fn r5_10_a_number_that_is_held_is_given_all_the_same() {
        let mut day = Day::morning();
        day.service.ledger = vec![ticket(7, Origin::Initial)];
        day.service.next = 7;
        let again = day.grant(&kind_1("web").till(5000), 1500);
        assert_eq!((again.number, day.service.next), (7, 8));
        assert_eq!(day.ask(&kind_2(&again, "store"), 1500), Err(41));
        assert_eq!(day.clear(2000), 1);
        assert_eq!(day.grant(&kind_2(&again, "store"), 1500).number, 8);
    }

    #[test]
    fn r7_6_tickets_past_the_512th_are_not_counted() {
        let mut service = Service::fresh();
        service.ledger = vec![ticket(0, Origin::Initial); TICKET_LIMIT + 3];
        service.ledger[TICKET_LIMIT - 1].end = 3000;
        assert_eq!((service.clear(1999), service.ledger.len()), (0, TICKET_LIMIT));
        assert_eq!((service.clear(2000), service.ledger.len()), (511, 1));
    }
}
