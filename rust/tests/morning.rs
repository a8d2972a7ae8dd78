//! The morning of R11.3 by the types of this crate, with what R11.9 to R11.11 say of it.

use tickets::{
    Edit, Error, Origin, ReadRequest, Record, Request, Service, ACCOUNT_LIMIT, FLAG_SERVICE,
    FLAG_TRUSTED, KDC_OPT_CNAME_IN_ADDL_TKT, KIND_S4U2PROXY, SAVED, TKT_FLG_FORWARDABLE,
};

/// The bytes of W1, W2 and W3.
const W1: &str = "00410103776562";
const W2: &str = "00510311003700000040000001000003e8000090880474656368";
const W3: &str = "00b3040002000011003700000040000001000003e80000908814047f0001400000000001000003f20000908800000573746f7265";

/// The records of tickets 0 to 2.
const RECORDS: [&str; 3] = [
    "003700000040000001000003e800009088",
    "047f0001400000000001000003f2000090880000",
    "01ff0002400000000002000003fc00009088000000010101",
];

/// Bytes as hexadecimal text.
fn hex(bytes: &[u8]) -> String {
    bytes.iter().map(|byte| format!("{byte:02x}")).collect()
}

/// A service with the accounts of R11.1.
fn clinic() -> Result<Service, Error> {
    let mut service = Service::fresh();
    let lifetime = 36_000;
    service.edit(&Edit { number: 0, name: b"tech", lifetime, ..Edit::default() })?;
    let flags = FLAG_TRUSTED | FLAG_SERVICE;
    service.edit(&Edit { number: 1, name: b"web", flags, send: 1 << 2, receive: 0, lifetime })?;
    let flags = FLAG_SERVICE;
    service.edit(&Edit { number: 2, name: b"store", flags, lifetime, ..Edit::default() })?;
    Ok(service)
}

/// The service after W4.
fn after_w4() -> Result<Service, Error> {
    let mut service = clinic()?;
    let w1 = Request::initial(b"web").to_vec()?;
    let tgt = service.request(&w1, 1000)?;
    let w2 = Request::s4u2self(&tgt, b"tech").to_vec()?;
    let evidence = service.request(&w2, 1010)?;
    let w3 = Request::s4u2proxy(&tgt, &evidence, b"store").to_vec()?;
    let ticket = service.request(&w3, 1020)?;
    assert_eq!([w1, w2, w3.clone()].map(|bytes| hex(&bytes)), [W1, W2, W3]);
    assert_eq!([tgt, evidence, ticket].map(|record| hex(&record)), RECORDS);
    assert_eq!(service.request(&w3, 37_000), Err(Error::KRB_AP_ERR_TKT_EXPIRED));
    Ok(service)
}

#[test]
fn r11_3_the_morning() -> Result<(), Error> {
    let mut service = after_w4()?;
    assert_eq!([0, 1, 2].map(|number| service.descent(number)), [Ok(0), Ok(1), Ok(2)]);
    assert_eq!(service.descent(3), Err(Error::KRB_AP_ERR_MODIFIED));
    assert_eq!(service.day_total(), 107_970);
    assert_eq!((service.find_name(b"WEB"), service.find_name(b"ghost")), (Some(1), None));
    assert_eq!([36_999, 37_000, 37_000].map(|clock| service.clear(clock)), [0, 3, 0]);
    assert_eq!((service.held(), service.tickets().count()), (0, 0));
    Ok(())
}

#[test]
fn r11_9_requests_by_their_parts() -> Result<(), Error> {
    let till = Request::initial(b"web").till(1000);
    assert_eq!(hex(&till.to_vec()?), "004901000003e803776562");
    assert_eq!(Request { fields: 0, ..till }.to_vec(), Err(Error::KRB_ERR_GENERIC));
    let mut output = [0xEE; 8];
    assert_eq!(Request::initial(b"web").write(&mut output), Ok(7));
    assert_eq!((hex(&output[..7]), output[7]), (String::from(W1), 0xEE));
    let short = Request::initial(b"web").write(&mut output[..6]);
    assert_eq!(short, Err(Error::KRB_ERR_RESPONSE_TOO_BIG));
    let all = Request::initial(b"web").forwardable().till(9).to_vec()?;
    assert_eq!(hex(&all), "004b01400000000000000903776562");
    let resource = Request::direct(&[], b"store").resource_based();
    assert_eq!(resource.to_vec(), Err(Error::KRB_ERR_GENERIC));
    Ok(())
}

#[test]
fn r4_9_a_request_reads_as_its_parts() -> Result<(), Error> {
    let service = after_w4()?;
    let [tgt, evidence] = [service.record_at(0)?, service.record_at(1)?];
    let request = Request::s4u2proxy(&tgt, &evidence, b"store").resource_based().till(5);
    let bytes = request.to_vec()?;
    let read = ReadRequest::read(&bytes)?;
    let expected = ReadRequest {
        kind: KIND_S4U2PROXY,
        options: KDC_OPT_CNAME_IN_ADDL_TKT,
        pac_options: 0x1000_0000,
        till: 5,
        tgt: Some(0),
        evidence: Some(1),
        user: None,
        service: Some(b"store"),
    };
    assert_eq!(read, expected);
    let user = Request::initial(b"").to_vec()?;
    let read = ReadRequest::read(&user)?;
    assert_eq!((read.user, read.service, read.tgt), (Some(&b""[..]), None, None));
    assert_eq!(ReadRequest::read(&bytes[1..]), Err(Error::KRB_ERR_GENERIC));
    Ok(())
}

#[test]
fn r11_10_what_is_held_is_read_back() -> Result<(), Error> {
    let service = after_w4()?;
    let tickets: Vec<_> = service.tickets().collect();
    let origins =
        [Origin::Initial, Origin::S4U2self { tgt: 0 }, Origin::S4U2proxy { tgt: 0, evidence: 1 }];
    assert!(tickets.iter().map(|ticket| ticket.origin).eq(origins));
    let last = &tickets[2];
    assert_eq!((last.number, last.flags, last.barred), (2, TKT_FLG_FORWARDABLE, false));
    assert_eq!((last.client, last.service, last.start, last.end), (0, 2, 1020, 37_000));
    assert_eq!((last.trail(), last.is_forwardable()), (&[1][..], true));
    assert_eq!(tickets[0].trail(), [0; 0]);
    assert_eq!(service.ticket_at(3), Err(Error::KRB_AP_ERR_MODIFIED));
    assert_eq!(service.record_at(3), Err(Error::KRB_AP_ERR_MODIFIED));
    let record = service.record_at(2)?;
    assert_eq!((hex(&record), Record::read(&record)), (String::from(RECORDS[2]), Ok(record)));
    assert_eq!(Record::read(&record[1..]), Err(Error::KRB_ERR_GENERIC));
    Ok(())
}

#[test]
fn r11_10_accounts_are_read_back() -> Result<(), Error> {
    let service = after_w4()?;
    let web = service.account(1)?.expect("account 1 is set");
    assert_eq!((web.name(), web.flags), (&b"web"[..], FLAG_TRUSTED | FLAG_SERVICE));
    assert_eq!((web.send, web.receive, web.lifetime), (4, 0, 36_000));
    assert_eq!(service.account(3), Ok(None));
    assert_eq!(service.account(ACCOUNT_LIMIT as u32), Err(Error::KRB_ERR_GENERIC));
    Ok(())
}

#[test]
fn r7_9_a_service_goes_through_a_restart() -> Result<(), Error> {
    let service = after_w4()?;
    let mut saved = service.to_saved();
    assert!(Service::from_saved(&saved)? == service);
    assert_eq!(service.save(&mut [0; SAVED - 1]), Err(Error::KRB_ERR_RESPONSE_TOO_BIG));
    let mut other = clinic()?;
    saved[100] ^= 1;
    assert_eq!(other.load(&saved), Err(Error::KRB_ERR_GENERIC));
    assert!(other == clinic()?, "a loading that is refused leaves the service");
    Ok(())
}

#[test]
fn r6_8_an_error_says_its_name() {
    assert_eq!(Error::KDC_ERR_BADOPTION.to_string(), "KDC_ERR_BADOPTION (13)");
    assert_eq!(tickets::error_name(0), Some("KDC_ERR_NONE"));
    assert_eq!(tickets::error_name(5), None);
}
