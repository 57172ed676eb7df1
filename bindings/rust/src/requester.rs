//! The requesting end.

use core::cell::Cell;
use core::marker::PhantomData;

use crate::fields::RequesterSettings;
use crate::moment::Moment;
use crate::numbers::bounds::{MESSAGE_BYTES, PACKET_BYTES};
use crate::numbers::{unless_refused, Reason, Refusal};
use crate::raw::{self, given, written};

const DROPPED: u8 = 1;
const PARTIAL: u8 = 2;
const COMPLETED: u8 = 3;
const OPEN: u8 = 1;
const ANSWERED: u8 = 2;
const GAVE_UP: u8 = 3;

/// A request that was opened.
#[derive(Clone, Copy, Debug, PartialEq, Eq)]
pub struct Opening {
    /// Its instance ID, 0 to 31.
    pub instance_id: u8,
    /// Its message tag, 0 to 7.
    pub tag: u8,
    /// Its number, counted from 0 over all requests of this requester.
    pub number: u64,
}

/// The requests that are due, by their numbers.
#[derive(Clone, Copy)]
pub struct Due(raw::Due);

impl Due {
    /// Those to be sent again now, at most 8.
    pub fn again(&self) -> &[u64] {
        self.0.again.get(..self.0.again_count as usize).unwrap_or(&self.0.again)
    }

    /// Those that were given up, at most 8.
    pub fn given_up(&self) -> &[u64] {
        self.0.given_up.get(..self.0.given_up_count as usize).unwrap_or(&self.0.given_up)
    }
}

/// What becomes of a packet.
#[derive(Clone, Copy, Debug, PartialEq, Eq)]
pub enum Receiving {
    /// It is refused, and all is as before.
    Refused(Refusal),
    /// It is dropped.
    Dropped(Reason),
    /// It begins a message of several packets, or goes on with one.
    Partial,
    /// It completes the answer to the request of this number.
    Answered(u64),
}

/// How a request stands.
#[derive(Clone, Copy, Debug, PartialEq, Eq)]
pub enum Status {
    /// It is not among the last 32.
    Unknown,
    /// Its answer may still come.
    Open,
    /// It was answered: the response has so many bytes.
    Answered(usize),
    /// It was given up.
    GaveUp,
}

impl Opening {
    /// The opening that the library reports, or why there is none.
    pub(crate) fn of(opening: &raw::Opening) -> Result<Self, Refusal> {
        unless_refused(opening.refusal)?;
        Ok(Self { instance_id: opening.instance_id, tag: opening.tag, number: opening.number })
    }
}

impl Due {
    /// Nothing is due.
    pub(crate) const NONE: raw::Due = raw::Due { again_count: 0, given_up_count: 0, again: [0; 8], given_up: [0; 8] };

    pub(crate) const fn of(due: raw::Due) -> Self {
        Self(due)
    }
}

impl Receiving {
    /// What the library reports of a packet.
    pub(crate) fn of(receiving: &raw::Receiving) -> Self {
        match receiving.kind {
            DROPPED => Self::Dropped(Reason::of(receiving.reason)),
            PARTIAL => Self::Partial,
            COMPLETED => Self::Answered(receiving.number),
            _ => Self::Refused(Refusal::of(receiving.reason)),
        }
    }
}

impl Status {
    /// How the library says that a request stands.
    pub(crate) const fn of(status: raw::Status) -> Self {
        match status.kind {
            OPEN => Self::Open,
            ANSWERED => Self::Answered(status.length as usize),
            GAVE_UP => Self::GaveUp,
            _ => Self::Unknown,
        }
    }
}

/// A requester at one endpoint that asks one device, or none.
///
/// It is freed on drop. One that is forgotten ([`core::mem::forget`]) leaks its memory. While a request is open it is
/// not freed and made anew.
///
/// ```compile_fail,E0277
/// fn shared(_: &impl Sync) {}
/// shared(&needleoat::Requester::none());
/// ```
pub struct Requester {
    handle: raw::Handle,
    latest: Moment,
    not_sync: PhantomData<Cell<()>>,
}

impl Requester {
    /// No requester. It takes no memory.
    pub const fn none() -> Self {
        Self { handle: raw::Handle { at: 0, is_live: false }, latest: Moment::ZERO, not_sync: PhantomData }
    }

    /// A requester, as [`Requester::make`] makes it.
    ///
    /// # Errors
    /// Those of [`Requester::make`].
    pub fn new(settings: &RequesterSettings) -> Result<Self, Refusal> {
        let mut requester = Self::none();
        requester.make(settings)?;
        Ok(requester)
    }

    /// Makes a requester where there is none. Instance IDs begin at 0: after a reset of the processor let twice the
    /// keeping time pass before the first request.
    ///
    /// # Errors
    /// [`Refusal::AlreadyThere`], else [`Refusal::OutOfRange`] where a setting is out of its range, `own` and `device`
    /// are the same, or `tries` times `timeout_ms` is above the lifetime; else [`Refusal::NoMemory`].
    pub fn make(&mut self, settings: &RequesterSettings) -> Result<(), Refusal> {
        // SAFETY: the settings may be read, and the handle is this one's alone; it began as none and was left by a
        // call.
        unless_refused(unsafe { raw::needleoat_requester_new(settings, &mut self.handle) })?;
        self.latest = Moment::ZERO;
        Ok(())
    }

    /// Whether a moment may come next: none before that of an earlier call.
    fn reach(&mut self, now: Moment) -> Result<(), Refusal> {
        if self.handle.is_live && now < self.latest {
            return Err(Refusal::BadMoment);
        }
        self.latest = now;
        Ok(())
    }

    /// Opens a request for the command of a request message, as [`command_write`](crate::command_write) writes it; its
    /// instance ID is not looked at. Its packet is to be sent at that moment. Only the first 32 want memory.
    ///
    /// # Errors
    /// The first of [`Refusal::NothingThere`], [`Refusal::BadMoment`], [`Refusal::NotACommand`], [`Refusal::TagInUse`],
    /// [`Refusal::IdInUse`] and [`Refusal::NoMemory`].
    pub fn open(&mut self, now: Moment, request: &[u8]) -> Result<Opening, Refusal> {
        self.reach(now)?;
        let (place, length) = given(request);
        // SAFETY: `place` has `length` bytes that may be read, and one at least; the handle is this one's alone.
        let opening = unsafe { raw::needleoat_requester_open(&mut self.handle, now.ms(), place, length) };
        Opening::of(&opening)
    }

    /// Opens a request of any PLDM type, 0 to 63: of this command, with this data, which is what follows the header of
    /// its message, at most 316 bytes. All its packets ([`Requester::packet_at`]) are to be sent at that moment. The
    /// data of the response begins at byte 5 of the message that [`Requester::status`] writes.
    ///
    /// # Errors
    /// The first of [`Refusal::NothingThere`], [`Refusal::BadMoment`], [`Refusal::OutOfRange`], [`Refusal::TagInUse`],
    /// [`Refusal::IdInUse`] and [`Refusal::NoMemory`].
    pub fn open_request(&mut self, now: Moment, pldm_type: u8, command: u8, data: &[u8]) -> Result<Opening, Refusal> {
        self.reach(now)?;
        let (place, length) = given(data);
        // SAFETY: `place` has `length` bytes that may be read, and one at least; the handle is this one's alone.
        let opening = unsafe {
            raw::needleoat_requester_open_request(&mut self.handle, now.ms(), pldm_type, command, place, length)
        };
        Opening::of(&opening)
    }

    /// Lists the requests that are due at a moment.
    ///
    /// # Errors
    /// [`Refusal::NothingThere`] or [`Refusal::BadMoment`].
    pub fn tick(&mut self, now: Moment) -> Result<Due, Refusal> {
        self.reach(now)?;
        let mut due = Due::NONE;
        // SAFETY: the handle and `due` are borrowed alone.
        unless_refused(unsafe { raw::needleoat_requester_tick(&mut self.handle, now.ms(), &mut due) })?;
        Ok(Due(due))
    }

    /// The moment from which on [`Requester::tick`] finds something due, and nothing before: so an end may sleep until
    /// then, or until a packet comes. It may have passed: then a tick is due at once. `None` where there is no such
    /// moment, as where no request is open. Each other call may change it.
    pub fn next_deadline(&mut self) -> Option<Moment> {
        let mut deadline = 0;
        // SAFETY: the handle and `deadline` are borrowed alone.
        let is_told = unsafe { raw::needleoat_requester_next_deadline(&mut self.handle, &mut deadline) };
        Moment::from_ms(deadline).filter(|_| is_told)
    }

    /// Receives the bytes of a packet that came at a moment.
    pub fn receive(&mut self, now: Moment, packet: &[u8]) -> Receiving {
        if let Err(refusal) = self.reach(now) {
            return Receiving::Refused(refusal);
        }
        let (place, length) = given(packet);
        // SAFETY: `place` has `length` bytes that may be read, and one at least; the handle is this one's alone.
        let receiving = unsafe { raw::needleoat_requester_receive(&mut self.handle, now.ms(), place, length) };
        Receiving::of(&receiving)
    }

    /// Writes the first packet of a request to the front of `out`, and returns its length in bytes; `None`, with `out`
    /// as it was, where the request is not among the last 32. The packet is the same each time that it is sent. The
    /// request of a command has no other.
    pub fn packet(&mut self, number: u64, out: &mut [u8; PACKET_BYTES]) -> Option<usize> {
        // SAFETY: the handle and `out`, which has the bytes of a packet, are borrowed alone.
        written(unsafe { raw::needleoat_requester_packet(&mut self.handle, number, out.as_mut_ptr()) })
    }

    /// The same of packet `index`, counted from 0: `None` also where the request has no such packet.
    pub fn packet_at(&mut self, number: u64, index: u32, out: &mut [u8; PACKET_BYTES]) -> Option<usize> {
        // SAFETY: the handle and `out`, which has the bytes of a packet, are borrowed alone.
        written(unsafe { raw::needleoat_requester_packet_at(&mut self.handle, number, index, out.as_mut_ptr()) })
    }

    /// Reports how a request stands, and writes the response that answered it to the front of `message`, which is as it
    /// was where there is none.
    pub fn status(&mut self, number: u64, message: &mut [u8; MESSAGE_BYTES]) -> Status {
        // SAFETY: the handle and `message`, which has the bytes of a message, are borrowed alone.
        Status::of(unsafe { raw::needleoat_requester_status(&mut self.handle, number, message.as_mut_ptr()) })
    }

    /// Frees the requester, where there is one.
    pub fn free(&mut self) {
        // SAFETY: the handle is this one's alone.
        unsafe { raw::needleoat_requester_free(&mut self.handle) }
        self.latest = Moment::ZERO;
    }
}

impl Drop for Requester {
    fn drop(&mut self) {
        self.free();
    }
}
