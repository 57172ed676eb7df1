//! Firmware update (DSP0267) over a link that loses every eleventh packet and repeats every seventh: a device at endpoint
//! 9, with a terminus, the machine of a firmware device and a flash of two slots, and an update agent at endpoint 8. The
//! first update runs to its end, and its image is read back; the second one is cancelled while the device fetches the
//! image, and leaves the active slot as it was.

use std::collections::VecDeque;
use std::fmt::{self, Write};

use needleoat::bounds::{MESSAGE_BYTES, PACKET_BYTES};
use needleoat::{
    command, completion_code, crc32, Coming, CommandHandle, Due, EndpointSettings, Firmware, FlashAction, FlashStep,
    Packets, PeerSettings, Receiving, Status, Step, Terminus, UpdateStage,
};

mod shared;
use shared::{moment, number, with_memory};

const DEVICE: u8 = 9;
const AGENT: u8 = 8;
const FLASH_MS: u64 = 3;
const SLOT_BYTES: u32 = 8192;
const IMAGE_BYTES: usize = 6001;
const PIECE_BYTES: u32 = 256;
/// The OEM type of the one request that reads the active image back.
const READ_TYPE: u8 = 63;

// Commands of firmware update (DSP0267, "PLDM for firmware update commands").
const REQUEST_UPDATE: u8 = 0x10;
const PASS_COMPONENT_TABLE: u8 = 0x13;
const UPDATE_COMPONENT: u8 = 0x14;
const REQUEST_FIRMWARE_DATA: u8 = 0x15;
const APPLY_COMPLETE: u8 = 0x18;
const ACTIVATE_FIRMWARE: u8 = 0x1a;
const CANCEL_UPDATE: u8 = 0x1d;
const READ_BACK: u8 = 0xff;

/// ASCII, two bytes.
const VERSION: [u8; 4] = [1, 2, b'v', b'2'];

/// An image, its CRC-32 at its end.
fn make_image(version: usize) -> Vec<u8> {
    let mut image: Vec<u8> = (0..IMAGE_BYTES - 4).map(|i| (i * 7 + (i >> 8) + version) as u8).collect();
    image.extend(crc32(&image).to_le_bytes());
    image
}

fn is_image(bytes: &[u8]) -> bool {
    bytes.split_last_chunk().is_some_and(|(front, check)| crc32(front).to_le_bytes() == *check)
}

/// The link: every eleventh packet is lost, and every seventh comes twice.
#[derive(Default)]
struct Link {
    queue: VecDeque<Vec<u8>>,
    sent: u32,
}

impl Link {
    fn send(&mut self, packet: &[u8]) {
        self.sent += 1;
        if self.sent % 11 == 0 {
            return;
        }
        self.queue.push_back(packet.to_vec());
        if self.sent % 7 == 0 {
            self.queue.push_back(packet.to_vec());
        }
    }

    fn send_all(&mut self, packets: &Packets) {
        packets.iter().for_each(|packet| self.send(packet));
    }
}

/// What both ends have: a terminus, which hands on requests of firmware update.
struct End {
    terminus: Terminus,
    packets: Packets,
}

impl End {
    fn none() -> Self {
        Self { terminus: Terminus::none(), packets: Packets::new() }
    }

    /// Makes the terminus: 0, or why not.
    fn make(&mut self, own: u8, device: u8) -> u8 {
        let settings = EndpointSettings {
            own,
            first_start: true,
            keep_ms: 500,
            sources: 1,
            open_messages: 1,
            pending_commands: 1,
            window: 4,
            pldm_types: 1 << command::FIRMWARE_UPDATE | 1 << READ_TYPE,
            ..EndpointSettings::ZERO
        };
        let peer = PeerSettings {
            device,
            tries: 8,
            brief: false,
            keep_ms: 500,
            timeout_ms: 50,
            lifetime_ms: 0,
            window: 0,
        };
        number(with_memory(|| self.terminus.make(&settings, &peer, moment(0), moment(0))))
    }

    /// Sends all packets of a request.
    fn send_request(&mut self, number: u64, link: &mut Link) {
        let mut packet = [0; PACKET_BYTES];
        for index in 0.. {
            let Some(length) = self.terminus.packet(number, index, &mut packet) else { return };
            link.send(&packet[..length]);
        }
    }

    /// Sends again what is due.
    fn tick(&mut self, now_ms: u64, link: &mut Link) -> Option<Due> {
        let due = self.terminus.tick(moment(now_ms)).ok()?;
        due.again().iter().for_each(|&number| self.send_request(number, link));
        Some(due)
    }

    /// Opens a request; its number.
    fn ask(&mut self, now_ms: u64, command: u8, data: &[u8], link: &mut Link) -> Option<u64> {
        let pldm_type = if command == READ_BACK { READ_TYPE } else { command::FIRMWARE_UPDATE };
        let opened = self.terminus.open_request(moment(now_ms), pldm_type, command, data);
        let number = opened.ok()?.number; // else too soon: later once more
        self.send_request(number, link);
        Some(number)
    }

    fn respond(&mut self, asked: &CommandHandle, code: u8, data: &[u8], link: &mut Link) {
        if self.terminus.answer_bytes(asked, code, data, &mut self.packets).is_ok() {
            link.send_all(&self.packets);
        }
    }

    /// The completion code and the data of a response.
    fn response(&mut self, number: u64) -> (u8, Vec<u8>) {
        let mut message = [0; MESSAGE_BYTES];
        match self.terminus.status(number, &mut message) {
            Status::Answered(length) => (message[4], message[5..length].to_vec()),
            _ => (completion_code::ERROR, Vec::new()),
        }
    }
}

/// The slots, the active one, and the steps that are to be done.
#[derive(Default)]
struct Flash {
    slots: [Vec<u8>; 2],
    active: usize,
    is_applied: bool,
    steps: VecDeque<(FlashStep, Vec<u8>)>,
    since: u64,
}

impl Flash {
    fn plan(&mut self, now_ms: u64, step: Option<FlashStep>, piece: &[u8]) {
        let Some(step) = step else { return };
        if self.steps.is_empty() {
            self.since = now_ms;
        }
        self.steps.push_back((step, piece.to_vec()));
    }

    /// The bytes of the active image that a request asks for: an offset, a length.
    fn read(&self, asked: &[u8]) -> Option<&[u8]> {
        let offset = u32::from_le_bytes(*asked.first_chunk()?) as usize;
        let length = u32::from_le_bytes(*asked.last_chunk()?) as usize;
        self.slots[self.active].get(offset..)?.get(..length)
    }

    /// Does a step; whether it went well. The active slot is never written.
    fn work(&mut self, action: FlashAction, piece: &[u8]) -> bool {
        let other = 1 - self.active;
        let slot = &mut self.slots[other];
        match action {
            FlashAction::Begin { size } => {
                *slot = vec![0xff; size as usize];
                size <= SLOT_BYTES
            }
            FlashAction::Store { offset } => {
                slot[offset as usize..][..piece.len()].copy_from_slice(piece);
                true
            }
            FlashAction::Verify => is_image(slot),
            FlashAction::Apply => {
                self.is_applied = true;
                true
            }
            FlashAction::Activate => {
                self.active = if self.is_applied { other } else { self.active };
                self.is_applied = false;
                true
            }
            _ => {
                self.is_applied = false; // there is one component
                true
            }
        }
    }
}

struct Device {
    end: End,
    machine: Firmware,
    flash: Flash,
    shown: UpdateStage,
}

impl Device {
    /// Makes the terminus and the machine: 0, or why not.
    fn make(&mut self) -> u8 {
        match self.end.make(DEVICE, AGENT) {
            0 => number(with_memory(|| self.machine.make(0))),
            refusal => refusal,
        }
    }

    fn respond(&mut self, now_ms: u64, asked: &CommandHandle, link: &mut Link) {
        let Some(request) = self.end.terminus.request(asked) else { return };
        if request.pldm_type == READ_TYPE {
            let read = self.flash.read(request.bytes());
            let code = if read.is_some() { completion_code::SUCCESS } else { completion_code::INVALID_DATA };
            return self.end.respond(asked, code, read.unwrap_or_default(), link);
        }
        match self.machine.receive(asked, moment(now_ms), &request, Some(SLOT_BYTES)) {
            Ok((answer, step)) => {
                self.flash.plan(now_ms, step, &[]);
                self.end.respond(asked, answer.code(), answer.data(), link);
            }
            Err(_) => self.end.respond(asked, completion_code::UNSUPPORTED_PLDM_CMD, &[], link),
        }
    }

    fn answered(&mut self, now_ms: u64, number: u64) {
        let (code, data) = self.end.response(number);
        let step = self.machine.answered(number, moment(now_ms), code, &data);
        self.flash.plan(now_ms, step.ok().flatten(), &data);
    }

    /// Each step takes a while.
    fn work(&mut self, now_ms: u64) {
        if now_ms - self.flash.since < FLASH_MS {
            return;
        }
        if let Some((step, piece)) = self.flash.steps.pop_front() {
            self.flash.since = now_ms;
            let well = self.flash.work(step.action, &piece);
            self.machine.done(step.number, well);
        }
    }

    fn turn(&mut self, now_ms: u64, link: &mut Link, out: &mut String) -> fmt::Result {
        let due = self.end.tick(now_ms, link);
        for &number in due.iter().flat_map(Due::given_up) {
            let step = self.machine.gave_up(number);
            self.flash.plan(now_ms, step.ok().flatten(), &[]);
        }
        let step = self.machine.tick(moment(now_ms));
        self.flash.plan(now_ms, step.ok().flatten(), &[]);
        self.work(now_ms);
        self.write_stage(out)?;
        let Some(wish) = self.machine.wish(moment(now_ms)) else { return Ok(()) };
        if let Some(number) = self.end.ask(now_ms, wish.command, wish.bytes(), link) {
            assert_eq!(self.machine.opened(number, moment(now_ms)), Ok(()));
        }
        Ok(())
    }

    /// Writes a stage that has come. Pieces are fetched and stored in turn: that is written once.
    fn write_stage(&mut self, out: &mut String) -> fmt::Result {
        let at = self.machine.stage();
        let stage = if at.stage == UpdateStage::Storing { UpdateStage::Fetching } else { at.stage };
        if stage == self.shown {
            return Ok(());
        }
        self.shown = stage;
        let name = match stage {
            UpdateStage::NotVerified => "not verified".to_owned(),
            UpdateStage::NotApplied => "not applied".to_owned(),
            stage => format!("{stage:?}").to_lowercase(),
        };
        writeln!(out, "  {name}, {} bytes stored", at.stored)
    }
}

struct Agent {
    end: End,
    image: Vec<u8>,
    /// It cancels where the device asks for bytes from this offset on.
    cancel_from: usize,
    /// The command that it asks next, 0 for none: the device has the next move.
    next: u8,
    open: Option<u64>,
    is_over: bool,
    rest: u64,
    /// What came back of the active image.
    read: Vec<u8>,
}

/// The data of a command: each number of several bytes has its lowest one first.
fn agent_data(command: u8, read: usize) -> Vec<u8> {
    let size = (IMAGE_BYTES as u32).to_le_bytes();
    match command {
        // The most bytes of a piece, one component, one request at once, no package data.
        REQUEST_UPDATE => [&PIECE_BYTES.to_le_bytes()[..], &[1, 0, 1, 0, 0], &VERSION].concat(),
        // The only part; firmware, component 1, index 0, no stamp.
        PASS_COMPONENT_TABLE => [&[5, 10, 0, 1, 0, 0, 0, 0, 0, 0][..], &VERSION].concat(),
        // The component, no stamp, the size, no options.
        UPDATE_COMPONENT => [&[10, 0, 1, 0, 0, 0, 0, 0, 0][..], &size, &[0; 4], &VERSION].concat(),
        ACTIVATE_FIRMWARE => vec![0],
        READ_BACK => {
            let length = (IMAGE_BYTES - read).min(PIECE_BYTES as usize) as u32;
            [(read as u32).to_le_bytes(), length.to_le_bytes()].concat()
        }
        _ => Vec::new(),
    }
}

impl Agent {
    fn turn(&mut self, now_ms: u64, link: &mut Link) {
        let due = self.end.tick(now_ms, link);
        self.open = self.open.filter(|open| !due.iter().any(|due| due.given_up().contains(open)));
        if self.next != 0 && self.open.is_none() && now_ms >= self.rest {
            self.open = self.end.ask(now_ms, self.next, &agent_data(self.next, self.read.len()), link);
        }
    }

    fn answered(&mut self, now_ms: u64, number: u64) {
        let (code, data) = self.end.response(number);
        if self.open != Some(number) {
            return;
        }
        self.open = None;
        if code != completion_code::SUCCESS {
            self.rest = now_ms + 100; // not yet: asked again
            return;
        }
        if self.next == READ_BACK {
            self.read.extend(data);
        }
        let asked = self.next;
        self.next = match asked {
            REQUEST_UPDATE => PASS_COMPONENT_TABLE,
            PASS_COMPONENT_TABLE => UPDATE_COMPONENT,
            READ_BACK if self.read.len() < IMAGE_BYTES => READ_BACK,
            _ => 0,
        };
        self.is_over = self.next == 0 && asked != UPDATE_COMPONENT;
    }

    /// The bytes of the image that a RequestFirmwareData asks for, with zeros past its end.
    fn piece(&mut self, asked: &[u8]) -> Option<Vec<u8>> {
        let offset = u32::from_le_bytes(*asked.first_chunk()?) as usize;
        let length = u32::from_le_bytes(*asked.last_chunk()?) as usize;
        if offset >= self.cancel_from && self.next == 0 {
            self.next = CANCEL_UPDATE;
        }
        Some((offset..offset + length).map(|i| self.image.get(i).copied().unwrap_or(0)).collect())
    }

    fn respond(&mut self, asked: &CommandHandle, link: &mut Link) {
        let Some(request) = self.end.terminus.request(asked) else { return };
        let mut data = Vec::new();
        match request.command {
            REQUEST_FIRMWARE_DATA => data = self.piece(request.bytes()).unwrap_or_default(),
            APPLY_COMPLETE if request.bytes()[0] == 0 => self.next = ACTIVATE_FIRMWARE,
            _ => {}
        }
        self.end.respond(asked, completion_code::SUCCESS, &data, link);
    }
}

struct Both {
    device: Device,
    agent: Agent,
    link: Link,
    now_ms: u64,
}

impl Both {
    /// A packet comes. Where memory was refused, it counts as lost.
    fn come(&mut self, packet: &[u8]) {
        let (now, is_device) = (moment(self.now_ms), packet[1] == DEVICE);
        let end = if is_device { &mut self.device.end } else { &mut self.agent.end };
        match end.terminus.receive(now, packet, &mut end.packets) {
            Coming::Asking(Receiving::Answered(number)) if is_device => self.device.answered(self.now_ms, number),
            Coming::Asking(Receiving::Answered(number)) => self.agent.answered(self.now_ms, number),
            Coming::Answering(Step::Respond(asked)) if is_device => {
                self.device.respond(self.now_ms, &asked, &mut self.link);
            }
            Coming::Answering(Step::Respond(asked)) => self.agent.respond(&asked, &mut self.link),
            Coming::Answering(_) => self.link.send_all(&end.packets),
            Coming::Asking(_) => {}
        }
    }

    fn is_over(&mut self) -> bool {
        let stage = self.device.machine.stage().stage;
        self.agent.is_over && stage == UpdateStage::Idle && self.device.flash.steps.is_empty()
    }

    /// Runs an update.
    fn update(&mut self, image: Vec<u8>, cancel_from: usize, out: &mut String) -> fmt::Result {
        (self.agent.image, self.agent.cancel_from) = (image, cancel_from);
        self.run(REQUEST_UPDATE, out)
    }

    /// Runs from this command on until the agent is done and the device idle.
    fn run(&mut self, first: u8, out: &mut String) -> fmt::Result {
        (self.agent.next, self.agent.is_over) = (first, false);
        let end = self.now_ms + 1_000_000;
        while self.now_ms < end && !self.is_over() {
            self.agent.turn(self.now_ms, &mut self.link);
            self.device.turn(self.now_ms, &mut self.link, out)?;
            while let Some(packet) = self.link.queue.pop_front() {
                self.come(&packet);
                self.device.write_stage(out)?;
            }
            self.now_ms += 1;
        }
        Ok(())
    }

    fn report(&self, image: &[u8], out: &mut String) -> fmt::Result {
        let flash = &self.device.flash;
        let is_same = flash.slots[flash.active] == image;
        let what = if is_same { "the first update, byte for byte" } else { "another image" };
        writeln!(out, "slot {} is active: {what}", flash.active)
    }
}

/// Writes what `examples/c/update.expected` has.
pub fn run(_input: &str, out: &mut String) -> fmt::Result {
    let flash = Flash { slots: [make_image(1), Vec::new()], ..Flash::default() };
    let device = Device { end: End::none(), machine: Firmware::none(), flash, shown: UpdateStage::Idle };
    let agent = Agent {
        end: End::none(),
        image: Vec::new(),
        cancel_from: 0,
        next: 0,
        open: None,
        is_over: false,
        rest: 0,
        read: Vec::new(),
    };
    let mut both = Both { device, agent, link: Link::default(), now_ms: 0 };
    let device = both.device.make();
    writeln!(out, "device {device} agent {}", both.agent.end.make(AGENT, DEVICE))?;
    let image = make_image(2);
    both.report(&image, out)?;
    writeln!(out, "the first update")?;
    both.update(image.clone(), IMAGE_BYTES, out)?;
    both.report(&image, out)?;
    both.run(READ_BACK, out)?;
    writeln!(out, "read back: {}", if both.agent.read == image { "the same" } else { "another one" })?;
    writeln!(out, "the second update is cancelled")?;
    both.update(make_image(3), 2048, out)?;
    both.report(&image, out)
}

#[allow(dead_code)]
fn main() -> fmt::Result {
    let mut out = String::new();
    run("", &mut out)?;
    print!("{out}");
    Ok(())
}
