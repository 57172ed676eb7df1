//! Passes other values through each field of firmware update: what its machine refuses, an image that is not good, one
//! that is not stored, one that is not applied, and one that is activated. The bytes that it has to write are those of
//! the tables of DSP0267, written by hand.

use std::fmt::{self, Write};

use needleoat::{component_of, CommandHandle, Component, Firmware, FlashAction, FlashStep, Refusal, Request};

mod shared;
use shared::{hex, moment, number};

/// The number before that of the first step.
const BEFORE: u64 = 0x0102_0304_0506_0707;
/// RequestUpdate, up to 64 bytes at once of one component.
const REQUEST_UPDATE: [u8; 13] = [0x40, 0, 0, 0, 1, 0, 1, 0, 0, 1, 2, b'v', b'2'];
/// PassComponentTable of the only part.
const PASS_COMPONENT_TABLE: [u8; 14] = [5, 0x0a, 0, 1, 0, 0, 0, 0, 0, 0, 1, 2, b'v', b'2'];

/// UpdateComponent of an image of so many bytes.
fn update_component(size: u32) -> Vec<u8> {
    [&[0x0a, 0, 1, 0, 0, 0, 0, 0, 0][..], &size.to_le_bytes(), &[0, 0, 0, 0, 1, 2, b'v', b'2']].concat()
}

/// A request of firmware update.
fn request_of(command: u8, data: &[u8]) -> Request {
    let mut request = Request { pldm_type: 5, command, length: data.len() as u32, ..Request::ZERO };
    request.data[..data.len()].copy_from_slice(data);
    request
}

/// The component that a command names.
fn write_component(command: u8, data: &[u8], out: &mut String) -> fmt::Result {
    let named = component_of(&request_of(command, data));
    let none = Component { classification: 0x77, identifier: 0x77, index: 0x77 };
    let Component { classification, identifier, index } = named.unwrap_or(none);
    let is_named = u8::from(named.is_some());
    writeln!(out, "component of {command:02x}: {is_named} {classification:04x} {identifier:04x} {index:02x}")
}

struct Machine<'a> {
    machine: Firmware,
    out: &'a mut String,
}

impl Machine<'_> {
    fn write_step(&mut self, step: Result<Option<FlashStep>, Refusal>) -> fmt::Result {
        let FlashStep { number, action } = match step {
            Ok(Some(step)) => step,
            none => return writeln!(self.out, "refusal {}", none.err().map_or(0, Refusal::number)),
        };
        let (kind, size, offset) = match action {
            FlashAction::Begin { size } => (1, size, 0),
            FlashAction::Store { offset } => (2, 0, offset),
            FlashAction::Verify => (3, 0, 0),
            FlashAction::Apply => (4, 0, 0),
            FlashAction::Activate => (5, 0, 0),
            FlashAction::Abandon => (6, 0, 0),
            FlashAction::AbandonUpdate => (7, 0, 0),
            _ => (0, 0, 0),
        };
        writeln!(self.out, "step {kind} number {number:016x} size {size} offset {offset}")
    }

    /// A command of the agent at an endpoint, where an image may have so many bytes.
    fn command(&mut self, source: u8, now_ms: u64, command: u8, data: &[u8], room: u32) -> fmt::Result {
        let request = request_of(command, data);
        let handle = CommandHandle { number: 0, source, instance_id: 0 };
        write!(self.out, "update command {command:02x}: ")?;
        match self.machine.receive(&handle, moment(now_ms), &request, Some(room)) {
            Ok((answer, step)) => {
                write!(self.out, "code {:02x} data {} ", answer.code(), hex(answer.data()))?;
                self.write_step(Ok(step))
            }
            Err(refusal) => {
                write!(self.out, "code 77 data  ")?;
                self.write_step(Err(refusal))
            }
        }
    }

    fn stage(&mut self) -> fmt::Result {
        let at = self.machine.stage();
        writeln!(self.out, "stage {} stored {}", at.stage.number(), at.stored)
    }

    /// What it asks, which is opened as this request.
    fn ask(&mut self, request: u64, now_ms: u64) -> fmt::Result {
        match self.machine.wish(moment(now_ms)) {
            Some(asked) => {
                let (pldm_type, command, data) = (asked.pldm_type, asked.command, hex(asked.bytes()));
                write!(self.out, "wish 1 type {pldm_type} command {command:02x} data {data} ")?;
            }
            None => write!(self.out, "wish 0 type 119 command 77 data  ")?,
        }
        let opened = number(self.machine.opened(request, moment(now_ms)));
        writeln!(self.out, "opened {opened}")
    }

    /// A request is answered, well, with so many bytes.
    fn answer(&mut self, request: u64, now_ms: u64, length: usize) -> fmt::Result {
        write!(self.out, "answered {request}: ")?;
        let step = self.machine.answered(request, moment(now_ms), 0, &[0; 64][..length]);
        self.write_step(step)
    }

    fn give_up(&mut self, request: u64) -> fmt::Result {
        write!(self.out, "given up {request}: ")?;
        let step = self.machine.gave_up(request);
        self.write_step(step)
    }

    /// The step so many after the first one is done.
    fn done(&mut self, step: u64, well: bool) -> fmt::Result {
        self.machine.done(BEFORE + 1 + step, well);
        self.stage()
    }

    fn tick(&mut self, now_ms: u64) -> fmt::Result {
        write!(self.out, "tick {now_ms}: ")?;
        let step = self.machine.tick(moment(now_ms));
        self.write_step(step)
    }

    /// What it refuses.
    fn refusals(&mut self) -> fmt::Result {
        self.command(8, 5, 0x10, &REQUEST_UPDATE, 100)?;
        self.stage()?;
        let made = number(self.machine.make(BEFORE));
        let again = number(self.machine.make(BEFORE));
        writeln!(self.out, "machine {made} again {again}")?;
        self.command(8, 5, 0x1b, &[], 100)?;
        self.command(8, 5, 0x01, &[], 100)?;
        self.command(7, 5, 0x1b, &[], 100)?;
        self.command(8, 5, 0x77, &[], 100)?;
        self.command(8, 5, 0x10, &[0x40], 100)?;
        self.command(8, 5, 0x1d, &[], 100)?;
        self.command(8, 5, 0x10, &REQUEST_UPDATE, 100)?;
        self.command(8, 5, 0x13, &PASS_COMPONENT_TABLE, 100)?;
        self.command(9, 5, 0x14, &update_component(100), 100)?;
        self.command(8, 5, 0x14, &update_component(100), 0)?;
        self.command(8, 5, 0x14, &update_component(100), 99)
    }

    /// An image of 100 bytes that is not good.
    fn bad_image(&mut self) -> fmt::Result {
        self.command(8, 5, 0x14, &update_component(100), 100)?;
        self.stage()?;
        self.ask(6, 10)?;
        self.done(0, true)?;
        self.ask(7, 10)?;
        self.ask(8, 10)?;
        self.answer(8, 11, 64)?;
        self.answer(7, 11, 64)?;
        self.stage()?;
        self.done(1, true)?;
        self.ask(8, 12)?;
        self.give_up(7)?;
        self.give_up(8)?;
        self.ask(9, 12)?;
        self.answer(9, 13, 36)?;
        self.done(2, true)?;
        self.ask(10, 14)?;
        self.answer(10, 15, 0)?;
        self.stage()?;
        self.done(3, false)?;
        self.ask(11, 16)?;
        self.answer(11, 17, 0)?;
        self.stage()
    }

    /// An image of 1 byte up to the step of applying it.
    fn apply_one(&mut self, step: u64, request: u64) -> fmt::Result {
        self.command(8, 20, 0x14, &update_component(1), 1)?;
        self.done(step, true)?;
        self.ask(request, 21)?;
        self.answer(request, 22, 1)?;
        self.done(step + 1, true)?;
        self.ask(request + 1, 23)?;
        self.answer(request + 1, 24, 0)?;
        self.done(step + 2, true)?;
        self.ask(request + 2, 25)?;
        self.answer(request + 2, 26, 0)?;
        self.stage()
    }

    fn all(mut self) -> fmt::Result {
        self.refusals()?;
        self.bad_image()?;
        self.command(8, 18, 0x14, &update_component(100), 100)?;
        self.done(5, false)?;
        self.ask(12, 18)?;
        self.answer(12, 19, 0)?;
        self.apply_one(7, 13)?;
        self.done(10, false)?;
        self.ask(16, 27)?;
        self.answer(16, 28, 0)?;
        self.command(8, 29, 0x1a, &[1], 0)?;
        self.apply_one(11, 17)?;
        self.done(14, true)?;
        self.ask(20, 27)?;
        self.answer(20, 28, 0)?;
        self.command(8, 29, 0x1a, &[1], 0)?;
        self.stage()?;
        self.done(15, true)?;
        self.command(8, 30, 0x10, &REQUEST_UPDATE, 0)?;
        self.tick(90029)?;
        self.tick(90030)?;
        self.machine.free();
        self.stage()?;
        self.tick(90031)
    }
}

/// Writes what the example in C writes.
pub fn run(_input: &str, out: &mut String) -> fmt::Result {
    write_component(0x13, &[5, 0x0a, 1, 2, 3, 4, 0, 0, 0, 0, 1, 2, b'v', b'2'], out)?;
    let transfer = [0x0b, 5, 6, 7, 8, 0, 0, 0, 0, 100, 0, 0, 0, 0, 0, 0, 0, 1, 2, b'v', b'2'];
    write_component(0x14, &transfer, out)?;
    write_component(0x14, &transfer[..5], out)?;
    write_component(0x10, &REQUEST_UPDATE, out)?;
    Machine { machine: Firmware::none(), out }.all()
}

#[allow(dead_code)]
fn main() -> fmt::Result {
    let mut out = String::new();
    run("", &mut out)?;
    print!("{out}");
    Ok(())
}
