//! Which requests are copies, and what is performed right after a restart: the endpoint 9 keeps the answers to the last
//! two instance IDs of a source, and in its busy time it refuses only what sets. Its device is one effecter. The bytes
//! that it has to write are those of the tables of DSP0236, DSP0240 and DSP0248, written by hand.

use std::fmt::{self, Write};

use needleoat::{busy, command, Answer, Command, Endpoint, EndpointSettings, Packets, Refusal, Step};

mod shared;
use shared::{from_hex, moment, number, receive, with_memory, write_packets};

const TID: u8 = 7;

/// The packet of GetTID of the endpoint 8, by its instance ID.
fn get_tid(id: u8) -> Vec<u8> {
    from_hex(&format!("010908c801{:02x}0002", 0x80 + id))
}

/// The packet that sets effecter 1.
fn set(id: u8, value: u8) -> Vec<u8> {
    from_hex(&format!("010908c801{:02x}0231010000{value:02x}", 0x80 + id))
}

struct Device<'a> {
    endpoint: Endpoint,
    packets: Packets,
    effecter: i64,
    out: &'a mut String,
}

/// Makes the endpoint: 0, or why not.
fn make(endpoint: &mut Endpoint, window: u32, busy: u32) -> u8 {
    let settings = EndpointSettings {
        own: 9,
        first_start: true,
        keep_ms: 1000,
        sources: 1,
        open_messages: 1,
        pending_commands: 2,
        window,
        busy,
        ..EndpointSettings::ZERO
    };
    number(with_memory(|| endpoint.make(&settings, moment(0))))
}

impl Device<'_> {
    fn perform(&mut self, command: &Command) -> Answer {
        if command.command == command::SET_NUMERIC_EFFECTER_VALUE {
            self.effecter = command.value;
        }
        Answer { pldm_type: command.pldm_type, command: command.command, tid: TID, ..Answer::ZERO }
    }

    /// Writes the packets of an answer, or why there is none.
    fn write(&mut self, refused: Option<Refusal>) -> fmt::Result {
        match refused {
            Some(refusal) => writeln!(self.out, "lost, refusal {}", refusal.number()),
            None => {
                write_packets(self.out, &self.packets)?;
                writeln!(self.out)
            }
        }
    }

    /// Receives a packet, has its command performed where it is handed out, and writes what comes of it.
    fn serve(&mut self, name: &str, now_ms: u64, packet: &[u8]) -> fmt::Result {
        write!(self.out, "{name}: ")?;
        match receive(&mut self.endpoint, now_ms, packet, &mut self.packets) {
            Step::Perform(handle, command) => {
                write!(self.out, "performed, ")?;
                let answer = self.perform(&command);
                let answered = self.endpoint.answer(&handle, &answer, &mut self.packets);
                self.write(answered.err())
            }
            Step::Refused(refusal) => self.write(Some(refusal)),
            _ => self.write(None),
        }
    }

    fn write_effecter(&mut self) -> fmt::Result {
        writeln!(self.out, "effecter {}", self.effecter)
    }

    /// A request whose instance ID is no longer among the last two of its source is performed again.
    fn past_the_window(&mut self) -> fmt::Result {
        self.serve("set to 40 with ID 2", 0, &set(2, 40))?;
        self.serve("set to 50 with ID 17", 100, &set(17, 50))?;
        self.serve("the first again", 200, &set(2, 40))?;
        self.write_effecter()?;
        self.serve("GetTID with ID 3", 300, &get_tid(3))?;
        self.serve("the first again, past the window", 400, &set(2, 40))?;
        self.write_effecter()
    }

    /// A command that takes so long that its instance ID falls out is pending still, and its answer is not kept.
    fn late_answer(&mut self) -> fmt::Result {
        let late = receive(&mut self.endpoint, 500, &get_tid(5), &mut self.packets);
        let Step::Perform(handle, command) = late else { panic!("GetTID with ID 5 gave {late:?}") };
        let answer = self.perform(&command);
        self.serve("GetTID with ID 6 while ID 5 is pending", 500, &get_tid(6))?;
        self.serve("GetTID with ID 7", 500, &get_tid(7))?;
        self.serve("GetTID with ID 5 meanwhile", 500, &get_tid(5))?;
        let answered = self.endpoint.answer(&handle, &answer, &mut self.packets);
        write!(self.out, "the answer to ID 5: ")?;
        self.write(answered.err())?;
        self.serve("GetTID with ID 5 again", 500, &get_tid(5))
    }

    /// In the busy time a command that only asks is performed.
    fn after_a_restart(&mut self) -> fmt::Result {
        let restarted = number(self.endpoint.restart(moment(1000)));
        writeln!(self.out, "restarted {restarted}")?;
        self.serve("set to 60 with ID 8", 1000, &set(8, 60))?;
        self.serve("GetTID with ID 9", 1000, &get_tid(9))?;
        self.serve("the same again", 1999, &get_tid(9))?;
        self.serve("set to 60 with ID 8", 1999, &set(8, 60))?;
        self.write_effecter()?;
        self.serve("set to 60 with ID 8, a keeping time later", 2000, &set(8, 60))?;
        self.write_effecter()
    }
}

/// Writes what the example in C writes.
pub fn run(_input: &str, out: &mut String) -> fmt::Result {
    let mut endpoint = Endpoint::none();
    writeln!(out, "a window of 33: refusal {}", make(&mut endpoint, 33, busy::SETS))?;
    writeln!(out, "a third kind of busy time: refusal {}", make(&mut endpoint, 2, 2))?;
    assert_eq!(make(&mut endpoint, 2, busy::SETS), 0);
    let mut device = Device { endpoint, packets: Packets::new(), effecter: 0, out };
    device.past_the_window()?;
    device.late_answer()?;
    device.after_a_restart()
}

#[allow(dead_code)]
fn main() -> fmt::Result {
    let mut out = String::new();
    run("", &mut out)?;
    print!("{out}");
    Ok(())
}
