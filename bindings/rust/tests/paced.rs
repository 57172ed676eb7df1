//! A requester with a pace and a device, over a line that loses, repeats and delays, by a clock of the test's own.
//!
//! Every other request sets the effecter to a value that no other has, and the rest read it. A model beside both ends
//! has what the device performed for each request, and what it answered. `NEEDLEOAT_PACED_REQUESTS` is how many
//! requests are opened for each of the ten seeds.

use std::collections::BTreeMap;

use needleoat::bounds::{MESSAGE_BYTES, PACKET_BYTES, REQUEST_BYTES};
use needleoat::{
    answer_read, command, command_write, data_size, Answer, Command, Endpoint, EndpointSettings, Moment, Packets,
    Receiving, Refusal, Requester, RequesterSettings, Status, Step,
};

const OWN: u8 = 8;
const DEVICE: u8 = 9;
const EFFECTER: u16 = 1;
const INSTANCE_IDS: usize = 32;
const PACKET_HEADER: usize = 4;

const KEEP_MS: u64 = 6000;
const LIFETIME_MS: u64 = 250;
const WINDOW: u32 = 8;
const TIMEOUT_MS: u64 = 60;
const TRIES: u64 = 4;
const LONG_OUTAGE_MS: u64 = 10_000;
/// Short ones, after which the device still has the answers of before.
const SHORT_OUTAGES: Outage = Outage { each: 125, ms: 3_000 };
/// How long the test waits where an instance ID is in use.
const WAIT_MS: u64 = 10;
const SHORT_DELAY_MS: u64 = 6;

const SEEDS: u64 = 10;
const FEW_REQUESTS: usize = 500;
/// So many in a lifetime that between two packets of a request fewer than the window's others come: those that were
/// opened less than a lifetime before it or after.
const IN_THE_WINDOW: usize = WINDOW as usize / 2;
const PAUSE_MS: u64 = 600;
/// How many tags there are, so how many requests may be open.
const TAGS: usize = 8;

/// Random numbers that are the same for a seed in each run (Marsaglia's xorshift of 64 bits).
struct Random(u64);

impl Random {
    fn below(&mut self, bound: u64) -> u64 {
        self.0 ^= self.0 << 13;
        self.0 ^= self.0 >> 7;
        self.0 ^= self.0 << 17;
        (self.0 >> 11) % bound
    }

    fn is_one_in(&mut self, count: u64) -> bool {
        self.below(count) == 0
    }
}

/// A time in which nothing is delivered.
#[derive(Clone, Copy)]
struct Outage {
    /// In the middle of each so many requests.
    each: usize,
    ms: u64,
}

/// How a run is made. In all of them the requester is told the window 8.
#[derive(Clone, Copy)]
struct Course {
    /// The window that the device has.
    window: u32,
    /// How many requests are opened in a lifetime at most.
    in_a_lifetime: usize,
    /// How many are open at most.
    at_once: usize,
    /// How long no request is opened at most after one of 32.
    pause_ms: u64,
    /// Whether the line loses each copy of a request that comes past the window.
    keeps_window: bool,
    outage: Option<Outage>,
}

const PLAIN: Course = Course {
    window: WINDOW,
    in_a_lifetime: IN_THE_WINDOW,
    at_once: TAGS,
    pause_ms: 0,
    keeps_window: false,
    outage: None,
};

/// A packet on its way, and the request that it is of.
struct Flying {
    request: usize,
    is_answer: bool,
    bytes: Vec<u8>,
}

/// What is on its way, by the moment at which it comes; of one moment, in the order in which it was sent.
#[derive(Default)]
struct Line {
    flying: BTreeMap<(u64, usize), Flying>,
    sent: usize,
}

impl Line {
    /// Sends a packet, which comes before a moment: once or twice, or not at all.
    fn send(&mut self, random: &mut Random, now: u64, before: u64, request: usize, is_answer: bool, bytes: &[u8]) {
        let left = before.saturating_sub(now);
        for _ in 0..if random.is_one_in(4) { 2 } else { 1 } {
            if left == 0 || random.is_one_in(10) {
                continue;
            }
            let longest = if random.is_one_in(6) { left } else { left.min(SHORT_DELAY_MS) };
            let comes = (now + random.below(longest), self.sent);
            self.sent += 1;
            self.flying.insert(comes, Flying { request, is_answer, bytes: bytes.to_vec() });
        }
    }
}

/// A request in the model.
struct Asked {
    opened: u64,
    /// The effecter's values when the device performed it, one for each time.
    values: Vec<i64>,
}

/// What the model found.
#[derive(Debug, Default, PartialEq, Eq)]
struct Found {
    /// Requests that were answered and not performed before.
    unperformed: usize,
    /// Requests that were performed twice or more.
    twice: usize,
    /// Answers that are not the device's to that very request.
    stale: usize,
}

const NOTHING: Found = Found { unperformed: 0, twice: 0, stale: 0 };

/// Both ends, the line between and the model.
struct Run {
    course: Course,
    count: usize,
    random: Random,
    now: u64,
    requester: Requester,
    endpoint: Endpoint,
    effecter: i64,
    line: Line,
    asked: Vec<Asked>,
    /// The requests in the order in which the device performed them.
    performed: Vec<usize>,
    /// Until when nothing is delivered.
    silent_until: u64,
    /// When an opening is tried next.
    next_opening: u64,
    answered: usize,
    given_up: usize,
    found: Found,
}

fn at(ms: u64) -> Moment {
    Moment::from_ms(ms).expect("a moment")
}

fn requester() -> Requester {
    let settings = RequesterSettings {
        own: OWN,
        device: DEVICE,
        tries: TRIES as u8,
        brief: true,
        keep_ms: KEEP_MS as u32,
        timeout_ms: TIMEOUT_MS as u32,
        lifetime_ms: LIFETIME_MS as u32,
        window: WINDOW,
    };
    Requester::new(&settings).expect("a requester")
}

fn endpoint(window: u32) -> Endpoint {
    let settings = EndpointSettings {
        own: DEVICE,
        first_start: true,
        keep_ms: KEEP_MS as u32,
        sources: 1,
        open_messages: 1,
        pending_commands: 1,
        window,
        ..EndpointSettings::ZERO
    };
    Endpoint::new(&settings, Moment::ZERO).expect("an endpoint")
}

/// Whether the request of this number sets.
fn sets(number: usize) -> bool {
    number % 2 == 0
}

/// The value that the request of this number sets.
fn value_of(number: usize) -> i64 {
    number as i64 + 1
}

/// The request of this number; the requester puts the instance ID into it.
fn request_of(number: usize) -> ([u8; REQUEST_BYTES], usize) {
    let read = Command {
        pldm_type: command::PLATFORM,
        command: command::GET_NUMERIC_EFFECTER_VALUE,
        effecter: EFFECTER,
        ..Command::ZERO
    };
    let set = Command {
        command: command::SET_NUMERIC_EFFECTER_VALUE,
        size: data_size::UINT32,
        value: value_of(number),
        ..read
    };
    let mut request = [0; REQUEST_BYTES];
    let length = command_write(if sets(number) { &set } else { &read }, &mut request).expect("a request");
    (request, length)
}

impl Run {
    fn new(course: Course, seed: u64, count: usize) -> Self {
        Self {
            course,
            count,
            random: Random(seed.wrapping_mul(0x9e37_79b9_7f4a_7c15)),
            now: 0,
            requester: requester(),
            endpoint: endpoint(course.window),
            effecter: 0,
            line: Line::default(),
            asked: Vec::new(),
            performed: Vec::new(),
            silent_until: 0,
            next_opening: 0,
            answered: 0,
            given_up: 0,
            found: NOTHING,
        }
    }

    /// Sends a request's packet, which comes less than the lifetime after the opening.
    fn send(&mut self, number: usize) {
        let mut packet = [0; PACKET_BYTES];
        let length = self.requester.packet(number as u64, &mut packet).expect("a packet");
        let before = self.asked[number].opened + LIFETIME_MS;
        self.line.send(&mut self.random, self.now, before, number, false, &packet[..length]);
    }

    /// When the next request may be opened, by how many the course has open, and in a lifetime. `None` where one has to
    /// end before.
    fn opening(&self) -> Option<u64> {
        let number = self.asked.len();
        if number == self.count || number - self.answered - self.given_up == self.course.at_once {
            return None;
        }
        let earlier = number.checked_sub(self.course.in_a_lifetime);
        let spread = earlier.map_or(0, |earlier| self.asked[earlier].opened + LIFETIME_MS);
        Some(spread.max(self.next_opening))
    }

    /// Opens the requests that may be opened now.
    fn open(&mut self) {
        while self.opening().is_some_and(|moment| moment <= self.now) {
            let number = self.asked.len();
            let (request, length) = request_of(number);
            match self.requester.open(at(self.now), &request[..length]) {
                Ok(opening) => assert_eq!(opening.number, number as u64),
                Err(Refusal::TagInUse | Refusal::IdInUse) => {
                    self.next_opening = self.now + WAIT_MS;
                    return;
                }
                Err(refusal) => panic!("request {number} was refused: {refusal:?}"),
            }
            self.asked.push(Asked { opened: self.now, values: Vec::new() });
            if let Some(outage) = self.course.outage.filter(|outage| number % outage.each == outage.each / 2) {
                self.silent_until = self.now + outage.ms;
            }
            self.send(number);
            if self.random.is_one_in(32) {
                self.next_opening = self.now + self.random.below(self.course.pause_ms + 1);
            }
        }
    }

    fn tick(&mut self) {
        let due = self.requester.tick(at(self.now)).expect("a tick");
        for &number in due.again() {
            self.send(number as usize);
        }
        self.given_up += due.given_up().len();
    }

    /// Whether as many other instance IDs as the window has had a request performed since this one was.
    fn is_past_window(&self, number: usize) -> bool {
        if self.asked[number].values.is_empty() {
            return false;
        }
        let since = self.performed.iter().rev().take_while(|&&other| other != number);
        let others = since.fold(0u32, |ids, other| ids | 1 << (other % INSTANCE_IDS));
        (others & !(1 << (number % INSTANCE_IDS))).count_ones() >= self.course.window
    }

    /// Performs a command, as the device does.
    fn perform(&mut self, number: usize, command: &Command) -> Answer {
        if sets(number) {
            assert_eq!((command.effecter, command.value), (EFFECTER, value_of(number)));
            self.effecter = command.value;
        }
        self.performed.push(number);
        self.asked[number].values.push(self.effecter);
        Answer {
            pldm_type: command.pldm_type,
            command: command.command,
            size: data_size::UINT32,
            value: self.effecter,
            pending_value: self.effecter,
            ..Answer::ZERO
        }
    }

    /// A packet of this request comes to the device, which answers.
    fn reach_device(&mut self, number: usize, bytes: &[u8]) {
        let mut packets = Packets::new();
        match self.endpoint.receive(at(self.now), bytes, &mut packets) {
            Step::Perform(handle, command) => {
                let answer = self.perform(number, &command);
                self.endpoint.answer(&handle, &answer, &mut packets).expect("an answer");
            }
            Step::Answered(answered) => assert!(!answered.fresh),
            step => panic!("the device gave {step:?}"),
        }
        for packet in packets.iter() {
            self.line.send(&mut self.random, self.now, self.now + LIFETIME_MS, number, true, packet);
        }
    }

    /// Whether the response that answered a request says what the device answered to that request.
    fn is_own_answer(&mut self, number: usize) -> bool {
        let (mut packet, mut response) = ([0; PACKET_BYTES], [0; MESSAGE_BYTES]);
        let length = self.requester.packet(number as u64, &mut packet).expect("a packet");
        let Status::Answered(count) = self.requester.status(number as u64, &mut response) else { return false };
        let answer = answer_read(&packet[PACKET_HEADER..length], &response[..count]).expect("an answer");
        answer.code == 0 && (sets(number) || self.asked[number].values.contains(&answer.value))
    }

    /// A packet of an answer to this request comes to the requester.
    fn reach_requester(&mut self, number: usize, bytes: &[u8]) {
        match self.requester.receive(at(self.now), bytes) {
            Receiving::Answered(answered) => {
                let taken = answered as usize;
                self.answered += 1;
                self.found.unperformed += usize::from(self.asked[taken].values.is_empty());
                self.found.stale += usize::from(taken != number || !self.is_own_answer(taken));
            }
            Receiving::Dropped(_) => {}
            receiving => panic!("the requester gave {receiving:?}"),
        }
    }

    /// Delivers what comes now.
    fn deliver(&mut self) {
        while let Some(next) = self.line.flying.first_entry().filter(|next| next.key().0 <= self.now) {
            let packet = next.remove();
            if self.now < self.silent_until {
                continue;
            }
            if packet.is_answer {
                self.reach_requester(packet.request, &packet.bytes);
            } else if !(self.course.keeps_window && self.is_past_window(packet.request)) {
                self.reach_device(packet.request, &packet.bytes);
            }
        }
    }

    /// The next moment at which something happens.
    fn next_moment(&mut self) -> Option<u64> {
        let opening = self.opening();
        let coming = self.line.flying.first_key_value().map(|(&(moment, _), _)| moment);
        let due = self.requester.next_deadline().map(Moment::ms);
        [opening, coming, due].into_iter().flatten().min()
    }

    /// Runs to the end, and checks that each request was answered or given up.
    fn run(mut self) -> Self {
        while let Some(moment) = self.next_moment() {
            self.now = self.now.max(moment);
            self.deliver();
            self.tick();
            self.open();
        }
        assert_eq!(self.answered + self.given_up, self.count);
        self.found.twice = self.asked.iter().filter(|asked| asked.values.len() > 1).count();
        self
    }
}

/// How many requests are opened for each seed.
fn requests() -> usize {
    let stated = std::env::var("NEEDLEOAT_PACED_REQUESTS").ok();
    stated.map_or(FEW_REQUESTS, |count| count.parse().expect("a count of requests"))
}

/// How many requests have an instance ID that was used less than twice the keeping time before.
fn used_soon(asked: &[Asked]) -> usize {
    let pairs = asked.iter().zip(asked.iter().skip(INSTANCE_IDS));
    pairs.filter(|(earlier, later)| later.opened < earlier.opened + 2 * KEEP_MS).count()
}

/// Runs a course for each seed, and gives what was found.
fn run_all(name: &str, course: Course) -> Vec<Found> {
    let run_one = |seed| {
        let Run { asked, given_up, found, count, .. } = Run::new(course, seed, requests()).run();
        println!("{name}, seed {seed}: of {count} requests {given_up} were given up; {found:?}");
        assert!(used_soon(&asked) > count / 4);
        let silenced = course.outage.map_or(0, |outage| INSTANCE_IDS * (count / outage.each));
        assert!(given_up <= silenced + count / 100, "{given_up} of {count} were given up");
        found
    };
    (1..=SEEDS).map(run_one).collect()
}

#[test]
fn each_request_is_performed_once_and_has_its_own_answer() {
    assert!(run_all("plain", PLAIN).iter().all(|found| *found == NOTHING));
}

#[test]
fn so_it_is_with_an_outage_of_ten_seconds() {
    let outage = Outage { each: requests(), ms: LONG_OUTAGE_MS };
    let course = Course { outage: Some(outage), ..PLAIN };
    assert!(run_all("long outage", course).iter().all(|found| *found == NOTHING));
}

#[test]
fn so_it_is_with_outages_that_are_shorter_than_the_keeping_time() {
    let course = Course { outage: Some(SHORT_OUTAGES), ..PLAIN };
    assert!(run_all("short outages", course).iter().all(|found| *found == NOTHING));
}

/// Fewer than a window come in a lifetime, one after the other is answered.
#[test]
fn so_it_is_with_one_request_at_a_time() {
    let course = Course { in_a_lifetime: WINDOW as usize - 1, at_once: 1, outage: Some(SHORT_OUTAGES), ..PLAIN };
    assert!(run_all("one at a time", course).iter().all(|found| *found == NOTHING));
}

/// Requests in bursts, as many as the requester opens, where no copy comes past the window.
#[test]
fn so_it_is_with_bursts_of_requests() {
    let outage = Some(SHORT_OUTAGES);
    let course = Course { in_a_lifetime: INSTANCE_IDS, pause_ms: PAUSE_MS, keeps_window: true, outage, ..PLAIN };
    assert!(run_all("bursts", course).iter().all(|found| *found == NOTHING));
}

/// In such bursts copies come past the window: the device takes them for new requests.
#[test]
fn a_copy_past_the_window_is_performed_again() {
    let course = Course { in_a_lifetime: INSTANCE_IDS, pause_ms: PAUSE_MS, ..PLAIN };
    let all = run_all("past the window", course);
    assert!(all.iter().all(|found| found.twice > 0 && found.unperformed == 0));
}

/// The device keeps 32 answers, and the requester is told that it keeps 8.
#[test]
fn a_window_above_the_one_that_was_told_brings_old_answers() {
    let course = Course { window: INSTANCE_IDS as u32, ..PLAIN };
    let all = run_all("a window of 32", course);
    assert!(all.iter().all(|found| found.stale > 0 && found.unperformed > 0));
}
