//! What the examples share. Each is that of the same name in `examples/c`, and writes what that one writes.
#![allow(dead_code)]

use std::fmt::{self, Write};

use needleoat::{Answer, Command, Endpoint, Moment, Packets, Refusal, Step};

/// How often a call is made at most that had no memory: it changed nothing.
const MEMORY_TRIES: u32 = 3;

/// The moment of so many milliseconds.
pub fn moment(ms: u64) -> Moment {
    Moment::from_ms(ms).expect("a moment of the example")
}

/// The bytes that are written in hexadecimal up to the end of a text.
pub fn from_hex(text: &str) -> Vec<u8> {
    let digits: Vec<u32> = text.chars().map_while(|digit| digit.to_digit(16)).collect();
    digits.chunks_exact(2).map(|pair| (pair[0] * 16 + pair[1]) as u8).collect()
}

/// Bytes in hexadecimal.
pub fn hex(bytes: &[u8]) -> String {
    bytes.iter().map(|byte| format!("{byte:02x}")).collect()
}

/// The number of a refusal, 0 for none.
pub fn number(refused: Result<(), Refusal>) -> u8 {
    refused.err().map_or(0, Refusal::number)
}

/// Makes a call again where it had no memory.
pub fn with_memory<T>(mut call: impl FnMut() -> Result<T, Refusal>) -> Result<T, Refusal> {
    for _ in 1..MEMORY_TRIES {
        match call() {
            Err(Refusal::NoMemory) => {}
            made => return made,
        }
    }
    call()
}

/// Receives a packet, again where there was no memory.
pub fn receive(endpoint: &mut Endpoint, now_ms: u64, packet: &[u8], packets: &mut Packets) -> Step {
    let received = with_memory(|| match endpoint.receive(moment(now_ms), packet, packets) {
        Step::Refused(refusal) => Err(refusal),
        step => Ok(step),
    });
    received.unwrap_or_else(Step::Refused)
}

/// Receives a packet, and has a command of it performed by `perform`.
pub fn serve(
    endpoint: &mut Endpoint,
    now_ms: u64,
    packet: &[u8],
    packets: &mut Packets,
    perform: impl FnOnce(&Command) -> Answer,
) -> Step {
    match receive(endpoint, now_ms, packet, packets) {
        Step::Perform(handle, command) => {
            let answer = perform(&command);
            endpoint.answer(&handle, &answer, packets).map_or_else(Step::Refused, Step::Answered)
        }
        step => step,
    }
}

/// Writes all packets, one after another.
pub fn write_packets(out: &mut String, packets: &Packets) -> fmt::Result {
    packets.iter().try_for_each(|packet| write!(out, "{}", hex(packet)))
}
