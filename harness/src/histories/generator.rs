//! Makes a history from a seed. Calls are mostly such as the service at hand would grant, so that
//! deep states are reached; one choice in so many is made to be refused, or is odd.

use super::draft::{record, Draft};
use super::{edit_of, invented, odd, reading, storing, writing, Call, Damage, History, OwnedParts};
use crate::accounts::{Account, BARRED, DISABLED, SERVICE, TRUSTED};
use crate::decisions::{
    classic_route, has_ended, is_forwardable, is_too_early, resource_route, CNAME_IN_ADDL_TKT,
    FORWARDABLE, RESOURCE_BASED,
};
use crate::limits::{
    ACCOUNT_LIMIT, CLOCK_SKEW, LAST_SECOND, LONGEST_RECORD, SAVED_SIZE, TICKET_LIMIT,
};
use crate::random::Random;
use crate::record::{Origin, Principal, Ticket};
use crate::request_writer::write_request;
use crate::service::Service;
use crate::words;

/// Names that new accounts take. Some differ from each other in the bit of the letter case alone,
/// without being letters.
const NAMES: [&str; 16] = [
    "tech", "web", "store", "a", "a[", "a{", "b^", "b~", "!", "c\\", "c|", "Zz", "d]", "d}", "e`",
    "e_",
];

/// The last account.
const LAST_ACCOUNT: Principal = ACCOUNT_LIMIT as Principal - 1;

/// One call in so many is a find, one a reading, and one a writing.
const FINDS: usize = 16;
const READINGS: usize = 24;
const WRITINGS: usize = 24;

/// The kinds of requests, each as often as it is asked for.
const KINDS: [u8; 12] = [1, 1, 2, 2, 3, 3, 4, 4, 4, 4, 4, 4];

/// R4.2: the map bits that each kind needs, and those that it may have besides.
const MAPS: [(u16, u16); 4] = [(0x41, 0x0A), (0x91, 0x0A), (0x51, 0x0A), (0xB3, 0x0C)];

/// Lifetimes of accounts, each as often as it is given: those of a day, and short ones.
const LIFETIMES: [u32; 12] =
    [36_000, 36_000, 36_000, 36_000, 90_000, 90_000, 3_600, 600, 60, 1, 0, u32::MAX];
const SHORT_LIFETIMES: [u32; 12] = [600, 600, 600, 600, 3_600, 3_600, 300, 60, 20, 1, 0, u32::MAX];

/// Where a clock begins; the last is so late that its sum with the allowance is past the last second.
const BEGINNINGS: [u32; 6] =
    [0, 1_000, 1_000, 1_700_000_000, LAST_SECOND - 40_000, LAST_SECOND - 200];

/// The longest output of a request.
const LONGEST_OUTPUT: usize = 64;

/// How many of the tickets that were taken out last are presented still.
const REMEMBERED: usize = 64;

/// What a history is like.
struct Style {
    /// The accounts in use are those below this number.
    accounts: usize,
    /// One of the calls that are no finds in so many is an edit.
    edits: usize,
    /// One of the others in so many is a clearing.
    clearings: usize,
    /// One of all calls in so many is a saving or a loading.
    storings: usize,
    /// One choice in so many is odd.
    odd: usize,
    /// The clock goes on by less than this at each call.
    step: usize,
    /// How many calls there are after the first edits.
    calls: usize,
    /// The lifetimes of accounts.
    lifetimes: [u32; 12],
    /// Whether accounts are mostly services that send to and receive from each other.
    open: bool,
}

impl Style {
    /// A style; one in four is long enough to fill the ledger, and to go on when it is cleared.
    fn new(random: &mut Random) -> Self {
        let long = random.once_in(4);
        Self {
            accounts: random.pick(&[3, 5, 8, 16, ACCOUNT_LIMIT]),
            edits: if long { random.pick(&[20, 60]) } else { random.pick(&[3, 6, 12, 40]) },
            clearings: if long { 10 } else { random.pick(&[5, 10, 40]) },
            storings: if long { 400 } else { random.pick(&[40, 80]) },
            odd: if long { random.pick(&[40, 120]) } else { random.pick(&[6, 15, 40]) },
            step: random.pick(&[1, 2, 10, 100]),
            calls: if long { 800 + random.below(700) } else { 30 + random.below(300) },
            lifetimes: if random.once_in(3) { SHORT_LIFETIMES } else { LIFETIMES },
            open: long || !random.once_in(3),
        }
    }
}

/// A history in the making.
struct Generator {
    random: Random,
    style: Style,
    /// The second implementation's service after the calls made so far.
    service: Service,
    /// The same as it was saved last.
    saved: Service,
    /// The tickets that clearings took out last.
    cleared: Vec<Ticket>,
    /// The clock, from which single readings may stray.
    now: u32,
    /// The calls made so far.
    calls: Vec<Call>,
}

/// The history of a seed.
pub fn generate(seed: u64) -> History {
    let mut random = Random(seed);
    let style = Style::new(&mut random);
    let now = random.pick(&BEGINNINGS);
    let service = Service::fresh();
    let (saved, cleared, calls) = (Service::fresh(), Vec::new(), Vec::new());
    let mut generator = Generator { random, style, service, saved, cleared, now, calls };
    if generator.random.once_in(2) {
        generator.first_edits();
        generator.go_on(generator.style.calls);
        return History { seed, start: None, calls: generator.calls };
    }
    let start = generator.other_start();
    generator.service = words::service(&start.accounts, &start.ledger);
    generator.saved = generator.service.clone();
    generator.cleared.clear();
    generator.calls.clear();
    generator.style.odd = generator.style.odd.min(12);
    generator.style.clearings = generator.random.pick(&[10, 40, 100]);
    generator.go_on(generator.style.calls.min(250));
    History { seed, start: Some(start), calls: generator.calls }
}

impl Generator {
    /// Words that no calls make, or that calls made and something else changed.
    fn other_start(&mut self) -> Box<tickets::Service> {
        if self.random.once_in(2) {
            self.now = invented::time(&mut self.random);
            self.style.accounts = ACCOUNT_LIMIT;
            return invented::words(&mut self.random, self.now);
        }
        self.first_edits();
        self.go_on(self.style.calls.min(300));
        invented::changed(&mut self.random, &self.service)
    }

    /// Sets most of the accounts in use.
    fn first_edits(&mut self) {
        for number in 0..self.style.accounts {
            if !self.random.once_in(8) {
                let edit = self.new_account(number);
                self.make(edit);
            }
        }
    }

    /// Makes so many calls more.
    fn go_on(&mut self, calls: usize) {
        for _ in 0..calls {
            if self.random.once_in(WRITINGS) {
                self.write();
                continue;
            }
            let call = if self.random.once_in(FINDS) {
                self.find()
            } else if self.random.once_in(READINGS) {
                self.reading()
            } else if self.random.once_in(self.style.storings) {
                self.storing()
            } else if self.random.once_in(self.style.edits) {
                self.edit()
            } else if self.random.once_in(self.style.clearings) {
                self.clearing()
            } else {
                self.request()
            };
            self.make(call);
        }
    }

    /// Makes a call of the second implementation, and notes it.
    fn make(&mut self, call: Call) {
        match &call {
            Call::Edit { .. } => {
                // An edit that is refused changes nothing.
                let _ = self.service.edit(&edit_of(&call).expect("an edit"));
            }
            Call::Request { request, clock, output } => {
                // So it is with a request.
                let _ = self.service.request(request, *clock, &mut [0; LONGEST_OUTPUT][..*output]);
            }
            Call::Clear { clock } => self.clear(*clock),
            Call::Save { output } if *output >= SAVED_SIZE => self.saved = self.service.clone(),
            Call::Load { damage: Damage::None | Damage::Free { .. } } => {
                self.service = self.saved.clone();
            }
            _ => {}
        }
        self.calls.push(call);
    }

    /// Makes a clearing, and remembers what it took out.
    fn clear(&mut self, clock: u32) {
        let held = self.service.held().to_vec();
        self.service.clear(clock);
        self.cleared.extend(held.iter().filter(|ticket| ticket.end <= clock));
        let forgotten = self.cleared.len().saturating_sub(REMEMBERED);
        self.cleared.drain(..forgotten);
    }

    /// Whether this choice is an odd one.
    fn odd(&mut self) -> bool {
        self.random.once_in(self.style.odd)
    }

    /// The number of an account in use.
    fn number(&mut self) -> Principal {
        self.random.below(self.style.accounts) as Principal
    }

    /// An account in use that passes the test, or any.
    fn number_with(&mut self, test: impl Fn(&Service, Principal) -> bool) -> Principal {
        let numbers = 0..self.style.accounts as Principal;
        let passing: Vec<Principal> =
            numbers.filter(|&number| test(&self.service, number)).collect();
        if passing.is_empty() || self.odd() {
            self.number()
        } else {
            self.random.pick(&passing)
        }
    }

    /// A ticket that passes the test, if one is held; mostly the first of its number.
    fn ticket_with(&mut self, test: impl Fn(&Service, &Ticket) -> bool) -> Option<Ticket> {
        let held = self.service.held();
        let passing: Vec<usize> =
            (0..held.len()).filter(|&place| test(&self.service, &held[place])).collect();
        if passing.is_empty() {
            return None;
        }
        let ticket = held[self.random.pick(&passing)];
        if self.odd() {
            Some(ticket)
        } else {
            self.service.first_held(ticket.number).copied()
        }
    }

    // ---- Clearings.

    /// A clearing, mostly at the end of a held ticket or a second beside it.
    fn clearing(&mut self) -> Call {
        let mut ends: Vec<u32> = self.service.held().iter().map(|ticket| ticket.end).collect();
        ends.sort_unstable();
        let some = self.random.word() as u32;
        let clock = if self.odd() {
            self.random.pick(&[0, some, LAST_SECOND])
        } else if ends.is_empty() {
            self.now
        } else if ends.len() == TICKET_LIMIT {
            self.clock_of_a_full_ledger(&ends)
        } else {
            self.clock_at_an_end(&ends)
        };
        Call::Clear { clock }
    }

    /// A clock reading at which none, some or all of these ends are reached.
    fn clock_of_a_full_ledger(&mut self, ends: &[u32]) -> u32 {
        let (none, all) = (ends[0].saturating_sub(1), ends[ends.len() - 1]);
        let some = self.random.pick(ends);
        self.random.pick(&[none, none, none, some, some, some, all, all])
    }

    /// A clock reading at one of these ends or beside it, mostly the first, so that the ledger fills
    /// all the same; or the time now.
    fn clock_at_an_end(&mut self, ends: &[u32]) -> u32 {
        let any = self.random.below(ends.len());
        let end = ends[self.random.pick(&[0, 0, 0, 0, any / 8])];
        let (before, after) = (end.saturating_sub(1), end.saturating_add(1));
        self.random.pick(&[before, before, end, end, after, self.now])
    }

    // ---- Finds.

    /// A find of an account's name, its letters in some case, often the first or the last account's;
    /// half the time of a name made of that one.
    fn find(&mut self) -> Call {
        let some = self.number();
        let number = self.random.pick(&[0, some, some, some, LAST_ACCOUNT]);
        let name = self.name_of(number);
        let near = self.random.once_in(2);
        Call::Find { name: if near { odd::near_name(&mut self.random, name) } else { name } }
    }

    // ---- Readings, savings and loadings.

    /// A reading of an account, or a look at a place.
    fn reading(&mut self) -> Call {
        if self.random.once_in(3) {
            let some = self.number();
            return Call::Account { number: reading::some_number(&mut self.random, some) };
        }
        let (place, output) = reading::some_place(&mut self.random, self.service.held());
        Call::Look { place, output }
    }

    /// A saving, or a loading.
    fn storing(&mut self) -> Call {
        if self.random.once_in(3) {
            return Call::Save { output: storing::some_output(&mut self.random) };
        }
        Call::Load { damage: storing::some_damage(&mut self.random) }
    }

    // ---- Edits.

    /// A set of accounts.
    fn set(&mut self) -> u64 {
        let (a, b, c) = (self.random.word(), self.random.word(), self.random.word());
        if self.style.open {
            return self.random.pick(&[u64::MAX, a | b, a, a, a & b, 0]);
        }
        self.random.pick(&[0, 0, a & b, a & b & c, a, 1 << (a % ACCOUNT_LIMIT as u64)])
    }

    /// Flags of an account that is new.
    fn flags(&mut self) -> u32 {
        let usual = if self.style.open { [8, 8, 8, 12, 12] } else { [0, 0, 8, 12, 8] };
        if self.random.once_in(4) {
            self.random.below(16) as u32
        } else {
            self.random.pick(&usual)
        }
    }

    /// The first edit of an account, mostly under a name that no other has.
    fn new_account(&mut self, number: usize) -> Call {
        let name = if self.odd() {
            let other = self.number();
            self.name_of(other)
        } else if self.random.once_in(4) {
            odd::good_name(&mut self.random)
        } else {
            let turn = if number < 16 { String::new() } else { (number / 16).to_string() };
            format!("{}{turn}", NAMES[number % 16]).into_bytes()
        };
        Call::Edit {
            number: number as u32,
            name,
            flags: self.flags(),
            send: self.set(),
            receive: self.set(),
            lifetime: self.random.pick(&self.style.lifetimes),
        }
    }

    /// An edit of an account in use.
    fn edit(&mut self) -> Call {
        let number = self.number();
        let mut call = match self.service.table.account(number).copied() {
            None => self.new_account(number.into()),
            Some(account) => self.changed_account(number, account),
        };
        if self.odd() {
            let other = self.number();
            let other = self.service.table.account(other).copied();
            odd::alter_edit(&mut self.random, &mut call, other.as_ref());
        }
        call
    }

    /// The account with one of its parts changed. A disabled one is mostly enabled, and the bar of a
    /// barred one is often lifted.
    fn changed_account(&mut self, number: Principal, mut account: Account) -> Call {
        match self.random.below(12) {
            _ if account.flags & DISABLED != 0 && !self.random.once_in(4) => {
                account.flags ^= DISABLED;
            }
            _ if account.flags & BARRED != 0 && self.random.once_in(3) => account.flags ^= BARRED,
            0 => account.flags ^= self.random.pick(&[DISABLED, DISABLED | BARRED]),
            1 | 2 => account.flags ^= BARRED,
            3 | 4 => account.flags ^= TRUSTED,
            5 => account.flags ^= SERVICE,
            6 => account.send ^= 1 << self.number(),
            7 => account.receive ^= 1 << self.number(),
            8 => account.send = self.set(),
            9 => account.receive = self.set(),
            10 => account.lifetime = self.random.pick(&self.style.lifetimes),
            _ => account.flags = self.flags() as u8,
        }
        let Account { flags, send, receive, lifetime, .. } = account;
        let name = account.name().to_vec();
        Call::Edit { number: number.into(), name, flags: flags.into(), send, receive, lifetime }
    }

    // ---- Requests.

    /// The name of an account, its letters in some case; a name of nobody where it is not set.
    fn name_of(&mut self, number: Principal) -> Vec<u8> {
        match self.service.table.account(number).copied() {
            Some(account) => odd::letter_case(&mut self.random, account.name()),
            None => odd::good_name(&mut self.random),
        }
    }

    /// The name of an account as a request has it.
    fn asked_name(&mut self, number: Principal) -> Vec<u8> {
        let name = self.name_of(number);
        if self.odd() {
            odd::name(&mut self.random, name)
        } else {
            name
        }
    }

    /// The fields of a request of some kind, and its clock reading.
    fn draft(&mut self) -> (Draft, u32) {
        let mut presented = Vec::new();
        let mut draft = match self.random.pick(&KINDS) {
            1 => self.initial(None),
            2 => self.direct(&mut presented),
            3 => self.s4u2self(&mut presented),
            _ => self.s4u2proxy(&mut presented),
        };
        let clock = self.clock(&presented);
        self.options(&mut draft, clock, &presented);
        (draft, clock)
    }

    /// Makes a writing of such fields, half the time of some that are altered; and often the request of
    /// what it wrote.
    fn write(&mut self) {
        let (draft, clock) = self.draft();
        let mut parts = OwnedParts::of(&draft);
        if self.random.once_in(2) {
            odd::alter_parts(&mut self.random, &mut parts);
        }
        let output = writing::some_output(&mut self.random, &parts);
        let mut request = vec![0; output];
        let written = write_request(&parts.lent(), &mut request);
        self.make(Call::Write { parts, output });
        if let Ok(length) = written {
            request.truncate(length);
            let output = self.output();
            self.make(Call::Request { request, clock, output });
        }
    }

    /// A request of some kind, with its clock reading and output.
    fn request(&mut self) -> Call {
        let (mut draft, clock) = self.draft();
        if self.odd() {
            odd::alter_draft(&mut self.random, &mut draft);
        }
        let mut request = draft.bytes();
        if self.odd() {
            request = odd::bytes(&mut self.random, request);
        }
        Call::Request { request, clock, output: self.output() }
    }

    /// Sets the map, the options, the PAC options and till.
    fn options(&mut self, draft: &mut Draft, clock: u32, presented: &[Ticket]) {
        let (needed, besides) = MAPS[usize::from(draft.kind - 1)];
        draft.map = needed | self.random.word() as u16 & besides;
        if draft.kind != 4 {
            draft.options = if self.random.once_in(4) { 0 } else { FORWARDABLE };
        } else if draft.pac_options != 0 {
            draft.map |= 0x04;
        }
        if self.odd() {
            let some = self.random.word() as u32;
            let bits = [FORWARDABLE, CNAME_IN_ADDL_TKT, CNAME_IN_ADDL_TKT, RESOURCE_BASED, 1];
            draft.options ^= self.random.pick(&bits);
            draft.pac_options ^= self.random.pick(&[0, RESOURCE_BASED, some]);
        }
        draft.till = self.till(clock, presented);
    }

    /// A wish for the end, mostly none or a later time than the clock's.
    fn till(&mut self, clock: u32, presented: &[Ticket]) -> u32 {
        if self.odd() {
            let edges = [clock.wrapping_sub(1), clock, clock.wrapping_add(1), 1];
            return self.random.pick(&edges);
        }
        let end = presented.first().map_or(0, |tgt| tgt.end);
        let later = clock.saturating_add(self.random.below(50_000) as u32);
        self.random.pick(&[0, 0, 0, later, end, end.saturating_sub(1), LAST_SECOND])
    }

    /// The output's length.
    fn output(&mut self) -> usize {
        let (short, enough) = (LONGEST_RECORD - 1, LONGEST_RECORD);
        let lengths = if self.odd() {
            [0, 1, short, short, 17]
        } else {
            [enough, enough, enough + 1, 40, LONGEST_OUTPUT]
        };
        self.random.pick(&lengths)
    }

    /// The clock reading: it goes on a little, and is mostly one at which the presented tickets are
    /// valid.
    fn clock(&mut self, presented: &[Ticket]) -> u32 {
        self.now = self.now.saturating_add(self.random.below(self.style.step) as u32);
        if !self.odd() {
            return self.valid_clock(presented);
        }
        match self.random.below(8) {
            0 => self.random.pick(&[0, 1, LAST_SECOND - 1, LAST_SECOND]),
            1 => self.random.word() as u32,
            2 => {
                let jump = self.random.below(40_000) as u32;
                let later = self.random.once_in(2);
                self.now = if later {
                    self.now.saturating_add(jump)
                } else {
                    self.now.saturating_sub(jump)
                };
                self.now
            }
            3 => {
                self.now = self.random.pick(&BEGINNINGS);
                self.now
            }
            _ if presented.is_empty() => self.now,
            _ => self.clock_at_an_edge(presented),
        }
    }

    /// A clock reading at which the answer to one of the tickets changes, or beside it.
    fn clock_at_an_edge(&mut self, presented: &[Ticket]) -> u32 {
        let Ticket { start, end, .. } = self.random.pick(presented);
        let first = start.wrapping_sub(CLOCK_SKEW);
        let starts = [first.wrapping_sub(1), first, start.wrapping_sub(1), start];
        let ends = [end.wrapping_sub(1), end];
        self.random.pick(&[&starts[..], &ends].concat())
    }

    /// The time now, or half the time, where the tickets are not valid then, one at which they are, or
    /// an edge if there is none; sometimes one just before the latest start.
    fn valid_clock(&mut self, presented: &[Ticket]) -> u32 {
        let start = presented.iter().map(|ticket| ticket.start).max().unwrap_or(0);
        let first = start.saturating_sub(CLOCK_SKEW);
        let end = presented.iter().map(|ticket| ticket.end).min().unwrap_or(LAST_SECOND);
        if first < start && self.random.once_in(12) {
            return self.early_clock(first, start);
        }
        if (first..end).contains(&self.now) || self.random.once_in(2) {
            return self.now;
        }
        if first >= end {
            return self.clock_at_an_edge(presented);
        }
        first + self.random.below((end - first) as usize) as u32
    }

    /// A clock reading before this start, and not before the first at which a ticket may be presented;
    /// often that one.
    fn early_clock(&mut self, first: u32, start: u32) -> u32 {
        let some = first + self.random.below((start - first) as usize) as u32;
        self.random.pick(&[first, some, some, some])
    }

    /// The record of a ticket as it is presented: the ticket itself, or one that is altered.
    fn present(&mut self, ticket: Ticket, presented: &mut Vec<Ticket>) -> Vec<u8> {
        presented.push(ticket);
        let ticket = if self.odd() { odd::ticket(&mut self.random, ticket) } else { ticket };
        // Where no record reads as the ticket, what comes nearest is presented.
        record(&ticket).unwrap_or_else(|| odd::nearest_record(&ticket))
    }

    /// A ticket of any kind, in place of one that fits; half the time one that was taken out.
    fn any_ticket(&mut self) -> Option<Ticket> {
        if self.cleared.is_empty() || self.random.once_in(2) {
            return self.ticket_with(|_, _| true);
        }
        Some(self.random.pick(&self.cleared))
    }

    /// A TGT whose client passes the test, mostly valid and of an enabled client.
    fn tgt_with(&mut self, test: impl Fn(&Service, Principal) -> bool) -> Option<Ticket> {
        if self.odd() {
            return self.any_ticket();
        }
        let (now, any_time, disabled) = (self.now, self.odd(), self.odd());
        self.ticket_with(|service, ticket| {
            ticket.origin == Origin::Initial
                && test(service, ticket.client)
                && (any_time || is_valid(ticket, now))
                && service.table.is_disabled(ticket.client) == disabled
        })
    }

    /// A request for an initial ticket, of this user or some other.
    fn initial(&mut self, user: Option<Principal>) -> Draft {
        let user = user.unwrap_or_else(|| self.number_with(is_enabled));
        Draft { kind: 1, user: self.asked_name(user), ..Draft::default() }
    }

    /// A request for a direct ticket.
    fn direct(&mut self, presented: &mut Vec<Ticket>) -> Draft {
        let Some(tgt) = self.tgt_with(|_, _| true) else {
            return self.initial(None);
        };
        let tgt = self.present(tgt, presented);
        let service = self.number_with(is_open_service);
        Draft { kind: 2, tgt, service: self.asked_name(service), ..Draft::default() }
    }

    /// A request for an S4U2self ticket.
    fn s4u2self(&mut self, presented: &mut Vec<Ticket>) -> Draft {
        let Some(tgt) = self.tgt_with(|service, client| service.table.is_service(client)) else {
            return self.initial(None);
        };
        let tgt = self.present(tgt, presented);
        let user = self.number_with(is_enabled);
        Draft { kind: 3, tgt, user: self.asked_name(user), ..Draft::default() }
    }

    /// Evidence, mostly without a bar of its client, where such is held, and half the time with the
    /// longest trail; one in four ends before its start, where such is held, which takes other words.
    fn evidence(&mut self) -> Option<Ticket> {
        if self.odd() {
            return self.any_ticket();
        }
        if self.random.once_in(4) {
            let backward = self.ticket_with(|_, ticket| {
                ticket.origin != Origin::Initial && ticket.end < ticket.start
            });
            if backward.is_some() {
                return backward;
            }
        }
        let (now, any_time, disabled) = (self.now, self.odd(), self.odd());
        let barred = self.random.once_in(6);
        let fits = move |service: &Service, ticket: &Ticket| {
            ticket.origin != Origin::Initial
                && (any_time || is_valid(ticket, now))
                && service.table.is_disabled(ticket.client) == disabled
        };
        // Of a barred client it is such as may have a route but for the bar.
        let wanted = move |service: &Service, ticket: &Ticket| {
            fits(service, ticket)
                && service.table.is_barred(ticket.client) == barred
                && (!barred || !ticket.barred || is_forwardable(ticket))
        };
        self.long_with(wanted).or_else(|| self.long_with(fits))
    }

    /// A ticket that passes the test, half the time with the longest trail of those that do.
    fn long_with(&mut self, test: impl Fn(&Service, &Ticket) -> bool) -> Option<Ticket> {
        let passing = self.service.held().iter().filter(|ticket| test(&self.service, ticket));
        let most = passing.map(|ticket| ticket.hops).max()?;
        let least = if self.random.once_in(2) { most } else { 0 };
        self.ticket_with(|service, ticket| test(service, ticket) && ticket.hops >= least)
    }

    /// A request for a hop; for a TGT of the evidence's service where there is none yet.
    fn s4u2proxy(&mut self, presented: &mut Vec<Ticket>) -> Draft {
        let Some(evidence) = self.evidence() else {
            return self.direct(presented);
        };
        let any = usize::from(evidence.service) >= ACCOUNT_LIMIT || self.odd();
        let Some(tgt) = self.tgt_with(|_, client| any || client == evidence.service) else {
            return self.initial(Some(evidence.service));
        };
        let service_1 = tgt.client;
        let resource = self.random.once_in(2);
        let pac_options = if resource { RESOURCE_BASED } else { 0 };
        let service_2 = self.number_with(|service, number| {
            let table = &service.table;
            is_open_service(service, number)
                && (classic_route(table, service_1, number, &evidence)
                    || resource_route(table, service_1, number, pac_options, &evidence))
        });
        Draft {
            kind: 4,
            options: CNAME_IN_ADDL_TKT,
            pac_options,
            tgt: self.present(tgt, presented),
            evidence: self.present(evidence, presented),
            service: self.asked_name(service_2),
            ..Draft::default()
        }
    }
}

/// Whether a ticket is valid at this time.
fn is_valid(ticket: &Ticket, now: u32) -> bool {
    !is_too_early(ticket, now) && !has_ended(ticket, now)
}

/// Whether an account may be named as a user.
fn is_enabled(service: &Service, number: Principal) -> bool {
    service.table.is_enabled(number)
}

/// Whether an account may be named as a service.
fn is_open_service(service: &Service, number: Principal) -> bool {
    service.table.is_service(number) && service.table.is_enabled(number)
}
