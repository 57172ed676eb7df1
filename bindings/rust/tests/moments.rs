//! Moments never go back, also after a call that was refused, and a clock of 32 bits goes on.

use needleoat::{Clock, Endpoint, EndpointSettings, Moment, Packets, Refusal, Requester, RequesterSettings, Step};

const ENDPOINT: EndpointSettings = EndpointSettings { own: 9, keep_ms: 1000, ..EndpointSettings::ZERO };
const REQUESTER: RequesterSettings =
    RequesterSettings { own: 8, device: 9, tries: 3, keep_ms: 1000, timeout_ms: 200, ..RequesterSettings::ZERO };

fn at(ms: u64) -> Moment {
    Moment::from_ms(ms).expect("a moment")
}

#[test]
fn the_last_moment_is_that_of_the_header() {
    assert_eq!(Moment::from_ms(4_000_000_000_000_000), Some(Moment::LAST));
    assert_eq!(Moment::from_ms(4_000_000_000_000_001), None);
}

#[test]
fn an_endpoint_refuses_an_earlier_moment() {
    let mut endpoint = Endpoint::new(&ENDPOINT, at(10)).expect("an endpoint");
    assert_eq!(endpoint.restart(at(9)), Err(Refusal::BadMoment));
    assert_eq!(endpoint.restart(at(10)), Ok(()));
    // It begins a message of several packets, of which none may be open.
    let first = [1, 9, 8, 0x88, 1, 0x80];
    let mut packets = Packets::new();
    let refused = Step::Refused(Refusal::TooManyOpenMessages);
    assert_eq!(endpoint.receive(at(20), &first, &mut packets), refused);
    assert_eq!(endpoint.receive(at(19), &first, &mut packets), Step::Refused(Refusal::BadMoment));
    assert_eq!(endpoint.receive(at(20), &first, &mut packets), refused);
}

#[test]
fn a_requester_refuses_an_earlier_moment() {
    let mut requester = Requester::new(&REQUESTER).expect("a requester");
    assert_eq!(requester.open(at(10), &[]), Err(Refusal::NotACommand));
    assert_eq!(requester.tick(at(9)).err(), Some(Refusal::BadMoment));
    assert_eq!(requester.tick(at(10)).err(), None);
}

#[test]
fn one_made_anew_begins_anew() {
    let mut endpoint = Endpoint::new(&ENDPOINT, at(10)).expect("an endpoint");
    endpoint.free();
    assert_eq!(endpoint.make(&ENDPOINT, at(5)), Ok(()));
    assert_eq!(endpoint.eid(), Some(9));
}

#[test]
fn a_clock_goes_on_past_32_bits() {
    let mut clock = Clock::new();
    assert_eq!(clock.moment(5), at(5));
    assert_eq!(clock.moment(u32::MAX), at(0xffff_ffff));
    assert_eq!(clock.moment(7), at(0x1_0000_0007));
    assert_eq!(clock.moment(7), at(0x1_0000_0007));
}
