//! The answering end.

use core::cell::Cell;
use core::marker::PhantomData;

use crate::fields::{Answer, Command, CommandHandle, EndpointSettings, Request};
use crate::moment::Moment;
use crate::numbers::bounds::{PACKETS, PACKET_BYTES};
use crate::numbers::{unless_refused, Reason, Refusal};
use crate::raw::{self, given};

const DROPPED: u8 = 1;
const PARTIAL: u8 = 2;
const ANSWERED: u8 = 3;
const PERFORM: u8 = 4;
const RESPOND: u8 = 5;
const CONTROL: u8 = 6;

/// The packets of an answer. Each call that takes them fills them anew; where it answers nothing there are none.
#[derive(Clone, Debug)]
pub struct Packets {
    pub(crate) bytes: [[u8; PACKET_BYTES]; PACKETS],
    lengths: [u32; PACKETS],
    pub(crate) count: u32,
}

impl Packets {
    /// No packets.
    pub const fn new() -> Self {
        Self { bytes: [[0; PACKET_BYTES]; PACKETS], lengths: [0; PACKETS], count: 0 }
    }

    /// How many there are, at most 5.
    pub const fn len(&self) -> usize {
        self.count as usize
    }

    /// Whether there are none.
    pub const fn is_empty(&self) -> bool {
        self.count == 0
    }

    /// The packets in the order in which they are sent, each of 5 to 68 bytes.
    pub fn iter(&self) -> impl Iterator<Item = &[u8]> {
        let lengths = self.lengths.iter().take(self.len());
        self.bytes.iter().zip(lengths).map(|(bytes, &length)| bytes.get(..length as usize).unwrap_or(bytes))
    }

    fn take(&mut self, step: &raw::Step) {
        self.lengths = step.lengths;
        self.count = step.count.min(PACKETS as u32);
    }
}

impl Default for Packets {
    fn default() -> Self {
        Self::new()
    }
}

/// What an answer is.
#[derive(Clone, Copy, Debug, PartialEq, Eq)]
pub struct Answered {
    /// It is the first answer to this request, whose command was performed or which was refused by its code without the
    /// device. Else it is a copy, or nothing is performed yet.
    pub fresh: bool,
    /// It is fresh, of a command that sets, and was not refused.
    pub changed: bool,
}

/// What becomes of a packet.
#[derive(Clone, Copy, Debug, PartialEq, Eq)]
pub enum Step {
    /// It is refused, and all is as before.
    Refused(Refusal),
    /// It is dropped.
    Dropped(Reason),
    /// It begins a message of several, or goes on with one.
    Partial,
    /// It is answered: the packets are to be sent to the source of the request.
    Answered(Answered),
    /// The command of a request is to be performed, once, and answered by [`Endpoint::answer`] with this handle.
    Perform(CommandHandle, Command),
    /// A request that is handed on as bytes is to be responded to, once: [`Endpoint::request`] has it, and
    /// [`Endpoint::answer_bytes`] takes the response.
    Respond(CommandHandle),
    /// A control message is answered: the one packet is to be sent to where the packet came from.
    Control,
}

impl Step {
    /// The step that the library reports, with the command that it put down; its packets go into `packets`.
    pub(crate) fn of(step: &raw::Step, command: Command, packets: &mut Packets) -> Self {
        packets.take(step);
        match step.kind {
            DROPPED => Self::Dropped(Reason::of(step.reason)),
            PARTIAL => Self::Partial,
            ANSWERED => Self::Answered(Answered { fresh: step.fresh, changed: step.changed }),
            PERFORM => Self::Perform(step.handle, command),
            RESPOND => Self::Respond(step.handle),
            CONTROL => Self::Control,
            _ => Self::Refused(Refusal::of(step.reason)),
        }
    }
}

/// An endpoint that answers, or none.
///
/// It is freed on drop. One that is forgotten ([`core::mem::forget`]) leaks its memory. While a command is pending it
/// is restarted, and never freed and made anew.
///
/// ```compile_fail,E0277
/// fn shared(_: &impl Sync) {}
/// shared(&needleoat::Endpoint::none());
/// ```
pub struct Endpoint {
    handle: raw::Handle,
    latest: Moment,
    not_sync: PhantomData<Cell<()>>,
}

impl Endpoint {
    /// No endpoint. It takes no memory.
    pub const fn none() -> Self {
        Self { handle: raw::Handle { at: 0, is_live: false }, latest: Moment::ZERO, not_sync: PhantomData }
    }

    /// An endpoint, as [`Endpoint::make`] makes it.
    ///
    /// # Errors
    /// Those of [`Endpoint::make`].
    pub fn new(settings: &EndpointSettings, now: Moment) -> Result<Self, Refusal> {
        let mut endpoint = Self::none();
        endpoint.make(settings, now)?;
        Ok(endpoint)
    }

    /// Makes an endpoint where there is none. After a reset of the processor `first_start` of the settings is false:
    /// the busy time begins.
    ///
    /// # Errors
    /// [`Refusal::AlreadyThere`], else [`Refusal::OutOfRange`] of a setting, else [`Refusal::NoMemory`].
    pub fn make(&mut self, settings: &EndpointSettings, now: Moment) -> Result<(), Refusal> {
        // SAFETY: the settings may be read, and the handle is this one's alone; it began as none and was left by a
        // call.
        unless_refused(unsafe { raw::needleoat_endpoint_new(settings, now.ms(), &mut self.handle) })?;
        self.latest = now;
        Ok(())
    }

    /// Whether a moment may come next: none before that of an earlier call.
    fn reach(&mut self, now: Moment) -> Result<(), Refusal> {
        if self.handle.is_live && now < self.latest {
            return Err(Refusal::BadMoment);
        }
        self.latest = now;
        Ok(())
    }

    /// Receives the bytes of a packet that came at a moment. `packets` has the answer then, where there is one.
    ///
    /// `docs/C.md` and `needleoat_endpoint_receive` of the header say which refusal comes when.
    pub fn receive(&mut self, now: Moment, packet: &[u8], packets: &mut Packets) -> Step {
        packets.count = 0;
        if let Err(refusal) = self.reach(now) {
            return Step::Refused(refusal);
        }
        let (place, length) = given(packet);
        let mut command = Command::ZERO;
        // SAFETY: `place` has `length` bytes that may be read, and one at least; the handle, `command` and the packets
        // are borrowed alone.
        let step = unsafe {
            raw::needleoat_endpoint_receive(
                &mut self.handle,
                now.ms(),
                place,
                length,
                &mut command,
                packets.bytes.as_mut_ptr(),
            )
        };
        Step::of(&step, command, packets)
    }

    /// The endpoint ID that the endpoint has; `None` where it has none yet, or there is no endpoint.
    pub fn eid(&mut self) -> Option<u8> {
        // SAFETY: the handle is this one's alone.
        match unsafe { raw::needleoat_endpoint_eid(&mut self.handle) } {
            0 => None,
            eid => Some(eid),
        }
    }

    /// Hands in the answer to the command that is pending under this handle. The packets go to `handle.source`. It
    /// takes no memory.
    ///
    /// # Errors
    /// The first of [`Refusal::NothingThere`], [`Refusal::NotPending`], [`Refusal::NotItsAnswer`] where what is pending
    /// was handed on as bytes, [`Refusal::OutOfRange`] where [`answer_write`](crate::answer_write) would write nothing,
    /// and [`Refusal::NotItsAnswer`] where its type or command is another one. After the last three what was pending
    /// still is.
    pub fn answer(
        &mut self,
        handle: &CommandHandle,
        answer: &Answer,
        packets: &mut Packets,
    ) -> Result<Answered, Refusal> {
        // SAFETY: the handle of the command and the answer may be read; the endpoint's and the packets are borrowed
        // alone.
        let step =
            unsafe { raw::needleoat_endpoint_answer(&mut self.handle, handle, answer, packets.bytes.as_mut_ptr()) };
        answered(&step, packets)
    }

    /// The request that is pending under this handle, as bytes, also where it has a command; `None` where none is.
    pub fn request(&mut self, handle: &CommandHandle) -> Option<Request> {
        let mut request = Request::ZERO;
        // SAFETY: the handle of the command may be read; the endpoint's and `request` are borrowed alone.
        let is_there = unsafe { raw::needleoat_endpoint_request(&mut self.handle, handle, &mut request) };
        is_there.then_some(request)
    }

    /// Hands in the response to the request that is pending under this handle, which was handed on as bytes: a
    /// completion code, and at most 315 bytes of data. It takes no memory.
    ///
    /// # Errors
    /// The first of [`Refusal::NothingThere`], [`Refusal::NotPending`], [`Refusal::NotItsAnswer`] where what is pending
    /// is a command, and [`Refusal::OutOfRange`] of more bytes. After the last two what was pending still is.
    pub fn answer_bytes(
        &mut self,
        handle: &CommandHandle,
        code: u8,
        data: &[u8],
        packets: &mut Packets,
    ) -> Result<Answered, Refusal> {
        let (place, length) = given(data);
        // SAFETY: `place` has `length` bytes that may be read, and one at least; the handle of the command may be read;
        // the endpoint's and the packets are borrowed alone.
        let step = unsafe {
            raw::needleoat_endpoint_answer_bytes(
                &mut self.handle,
                handle,
                code,
                place,
                length,
                packets.bytes.as_mut_ptr(),
            )
        };
        answered(&step, packets)
    }

    /// Restarts at a moment: the kept answers, the messages that have begun and the pending commands are forgotten, and
    /// the busy time begins. The endpoint ID stays.
    ///
    /// # Errors
    /// [`Refusal::NothingThere`] or [`Refusal::BadMoment`].
    pub fn restart(&mut self, now: Moment) -> Result<(), Refusal> {
        self.reach(now)?;
        // SAFETY: the handle is this one's alone.
        unless_refused(unsafe { raw::needleoat_endpoint_restart(&mut self.handle, now.ms()) })
    }

    /// Frees the endpoint, where there is one.
    pub fn free(&mut self) {
        // SAFETY: the handle is this one's alone.
        unsafe { raw::needleoat_endpoint_free(&mut self.handle) }
        self.latest = Moment::ZERO;
    }
}

pub(crate) fn answered(step: &raw::Step, packets: &mut Packets) -> Result<Answered, Refusal> {
    packets.take(step);
    match step.kind {
        ANSWERED => Ok(Answered { fresh: step.fresh, changed: step.changed }),
        _ => Err(Refusal::of(step.reason)),
    }
}

impl Drop for Endpoint {
    fn drop(&mut self) {
        self.free();
    }
}
