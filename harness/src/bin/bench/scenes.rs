//! Scenes: a state and a request to be made there, for each kind of grant and each refusal.

use crate::sides::Call;
use crate::stage::{Asked, Names, Pair, Size, Stage, LIFETIME, OTHER, START};
use harness::accounts::{SERVICE, TRUSTED};
use harness::calls;
use harness::decisions::RESOURCE_BASED;
use harness::limits::{ACCOUNT_LIMIT, CLOCK_SKEW, LONGEST_RECORD, TRAIL_LIMIT};

/// The clock reading of most requests.
pub const NOW: u32 = START + 100;

/// The first clock reading at which a ticket that begins with the scene may be presented.
pub const FIRST: u32 = START - CLOCK_SKEW;

/// The end of a ticket that begins with the scene.
pub const END: u32 = START + LIFETIME;

/// A name that no account has, as long as the last one of the clinic.
pub const UNKNOWN: &[u8] = b"ghost-web";

/// A state and a request.
pub struct Scene {
    /// The state.
    pub stage: Stage,
    /// The request.
    pub asked: Asked,
    /// The clock reading.
    clock: u32,
    /// The output's length.
    room: usize,
}

impl Scene {
    /// A request at the usual time, with room for its record.
    fn new(stage: Stage, asked: Asked) -> Scene {
        Scene { stage, asked, clock: NOW, room: LONGEST_RECORD }
    }

    /// The state, and the call with these bytes in place of the request's.
    pub fn with_bytes(self, bytes: Vec<u8>) -> (Pair, Call) {
        (self.stage.pair, Call::Request { bytes, clock: self.clock, room: self.room })
    }

    /// The state and the call.
    pub fn call(self) -> (Pair, Call) {
        let bytes = self.asked.bytes();
        self.with_bytes(bytes)
    }

    /// The scene at another clock reading.
    pub fn at(self, clock: u32) -> Scene {
        Scene { clock, ..self }
    }

    /// The scene with another output length.
    pub fn room(self, room: usize) -> Scene {
        Scene { room, ..self }
    }

    /// The scene with another till.
    pub fn till(mut self, till: u32) -> Scene {
        self.asked.till = Some(till);
        self
    }

    /// The scene with the TGT altered.
    pub fn tgt(mut self, alter: fn(&mut [u8])) -> Scene {
        alter(self.asked.tgt.as_mut().expect("a TGT is presented"));
        self
    }

    /// The scene with the evidence altered.
    pub fn evidence(mut self, alter: fn(&mut [u8])) -> Scene {
        alter(self.asked.evidence.as_mut().expect("evidence is presented"));
        self
    }

    /// The scene with other flags of one of its accounts, and empty sets.
    pub fn flags(mut self, own: usize, flags: u8) -> Scene {
        self.stage.set(own, flags, &[], &[]);
        self
    }

    /// The scene with another user's name.
    pub fn user(mut self, name: &[u8]) -> Scene {
        self.asked.user = Some(name.to_vec());
        self
    }

    /// The scene with another service's name.
    pub fn service(mut self, name: &[u8]) -> Scene {
        self.asked.service = Some(name.to_vec());
        self
    }
}

/// Alters a record's client.
pub fn other_client(record: &mut [u8]) {
    record[8] ^= 1;
}

/// Alters a record's number to one that is not held.
pub fn other_number(record: &mut [u8]) {
    record[2] = 0x7F;
}

/// Kind 1. Account 0 is the user.
pub fn initial(size: Size) -> Scene {
    let mut stage = Stage::new(size, 1);
    stage.set(0, 0, &[], &[]);
    stage.fill(0);
    let asked = stage.kind_1(0);
    Scene::new(stage, asked)
}

/// Kind 2. Account 0 is the client, account 1 the service.
pub fn direct(size: Size) -> Scene {
    let (stage, tgt) = client_and_service(size, 1);
    let asked = stage.kind_2(&tgt, 1);
    Scene::new(stage, asked)
}

/// Kind 2 with a direct ticket in place of the TGT.
pub fn direct_for_tgt(size: Size) -> Scene {
    let (mut stage, tgt) = client_and_service(size, 2);
    let asked = stage.kind_2(&tgt, 1);
    let ticket = stage.grant(&asked, START);
    let asked = stage.kind_2(&ticket, 1);
    Scene::new(stage, asked)
}

/// Accounts 0, a client, and 1, a service; and the client's TGT, so many tickets before the last.
fn client_and_service(size: Size, tickets: usize) -> (Stage, Vec<u8>) {
    let mut stage = Stage::new(size, 2);
    stage.set(0, 0, &[], &[]);
    stage.set(1, SERVICE, &[], &[]);
    stage.fill(tickets);
    let tgt = stage.tgt(0);
    (stage, tgt)
}

/// Kind 3. Account 0 is Service 1, account 1 the user.
pub fn s4u2self(size: Size) -> Scene {
    let mut stage = Stage::new(size, 2);
    stage.set(0, SERVICE | TRUSTED, &[], &[]);
    stage.set(1, 0, &[], &[]);
    stage.fill(1);
    let tgt = stage.tgt(0);
    let asked = stage.kind_3(&tgt, 1);
    Scene::new(stage, asked)
}

/// The accounts of a hop, with these flags and this send set for Service 1 and this receive set for
/// Service 2, and the ledger filled but for so many tickets. Account 0 is the user, 1 Service 1, 2
/// Service 2.
fn hop_stage(size: Size, flags: u8, send: &[usize], receive: &[usize], tickets: usize) -> Stage {
    let mut stage = Stage::new(size, 3);
    stage.set(0, 0, &[], &[]);
    stage.set(1, flags, send, &[]);
    stage.set(2, SERVICE | TRUSTED, &[], receive);
    stage.fill(tickets);
    stage
}

/// The hop of an S4U2self ticket that begins and ends when it is said.
fn hop(mut stage: Stage, start: u32, till: u32) -> Scene {
    let tgt = stage.tgt(1);
    let asked = Asked { till: Some(till), ..stage.kind_3(&tgt, 0) };
    let evidence = stage.grant(&asked, start);
    let asked = stage.kind_4(&tgt, &evidence, 2);
    Scene::new(stage, asked)
}

/// Kind 4 on the classic route.
pub fn classic(size: Size) -> Scene {
    hop(hop_stage(size, SERVICE | TRUSTED, &[2], &[], 2), START, END)
}

/// Kind 4 on the resource route, with evidence that is not FORWARDABLE.
pub fn resource(size: Size) -> Scene {
    let mut scene = hop(hop_stage(size, SERVICE, &[], &[1], 2), START, END);
    scene.asked.pac_options = Some(RESOURCE_BASED);
    scene
}

/// Kind 4 where no route is open.
pub fn no_route(size: Size) -> Scene {
    hop(hop_stage(size, SERVICE | TRUSTED, &[1], &[0], 2), START, END)
}

/// Kind 4 with evidence that begins too long after the request.
pub fn later_evidence(size: Size) -> Scene {
    hop(hop_stage(size, SERVICE | TRUSTED, &[2], &[], 2), NOW + CLOCK_SKEW + 1, END)
}

/// Kind 4 with evidence that ends with the request.
pub fn ended_evidence(size: Size) -> Scene {
    hop(hop_stage(size, SERVICE | TRUSTED, &[2], &[], 2), START, NOW)
}

/// Kind 4 with evidence whose service is Service 2.
pub fn evidence_of_another(size: Size) -> Scene {
    let mut stage = hop_stage(size, SERVICE | TRUSTED, &[2], &[], 3);
    let other = stage.tgt(2);
    let tgt = stage.tgt(1);
    let asked = stage.kind_3(&other, 0);
    let evidence = stage.grant(&asked, START);
    let asked = stage.kind_4(&tgt, &evidence, 2);
    Scene::new(stage, asked)
}

/// Kind 4 with a full trail, nine steps from the TGT. Account 0 is the user, 1 both services.
pub fn nine_steps(size: Size) -> Scene {
    let mut stage = Stage::new(size, 2);
    stage.set(0, 0, &[], &[]);
    stage.set(1, SERVICE | TRUSTED, &[1], &[]);
    stage.fill(TRAIL_LIMIT + 2);
    let tgt = stage.tgt(1);
    let asked = stage.kind_3(&tgt, 0);
    let mut evidence = stage.grant(&asked, START);
    for _ in 0..TRAIL_LIMIT {
        let asked = stage.kind_4(&tgt, &evidence, 1);
        evidence = stage.grant(&asked, START);
    }
    let asked = stage.kind_4(&tgt, &evidence, 1);
    Scene::new(stage, asked)
}

/// A clearing now of tickets of account 0; those in the places of which it is said so have ended.
pub fn clearing(size: Size, has_ended: fn(usize) -> bool) -> (Pair, Call) {
    let mut stage = Stage::new(size, 1);
    stage.set(0, 0, &[], &[]);
    for place in 0..size.tickets {
        let till = Some(if has_ended(place) { NOW } else { END });
        let asked = Asked { till, ..stage.kind_1(0) };
        stage.grant(&asked, START);
    }
    (stage.pair, Call::Clear(NOW))
}

/// A full table of names of one length that differ in the last byte alone.
pub struct Alike {
    names: Names,
    /// The state.
    pub pair: Pair,
}

impl Alike {
    /// The table of names of this length.
    pub fn new(length: usize) -> Alike {
        let names = Names::Ends(length);
        let size = Size { names, full: true, tickets: 0 };
        Alike { names, pair: Stage::new(size, 0).pair }
    }

    /// The name of the last account.
    pub fn last(&self) -> Vec<u8> {
        self.names.of(ACCOUNT_LIMIT - 1).to_vec()
    }

    /// A name that no account has, though all have its bytes but the last.
    pub fn other(&self) -> Vec<u8> {
        let mut name = self.last();
        *name.last_mut().expect("a name has a byte") = OTHER;
        name
    }

    /// The find of a name there, which has to have this answer.
    pub fn find(&self, name: &[u8], answer: u32) -> (Pair, Call) {
        let pair = self.pair.copy();
        assert_eq!(calls::find_name(&pair.second, name), answer, "{}", name.escape_ascii());
        let accounts = Box::new(pair.library.accounts);
        (pair, Call::FindName { accounts, name: name.to_vec() })
    }
}

/// No accounts and no tickets of its own, for a request that is refused whatever they are.
pub fn bare(size: Size) -> Scene {
    let mut stage = Stage::new(size, 0);
    stage.fill(0);
    Scene::new(stage, Asked::default())
}

/// No request. Account 0 is set, account 1 is not.
pub fn one_unset(size: Size) -> Stage {
    let mut stage = Stage::new(size, 2);
    stage.set(0, SERVICE, &[], &[]);
    stage.fill(0);
    stage
}
