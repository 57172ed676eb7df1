//! An end that answers and asks.

use core::cell::Cell;
use core::marker::PhantomData;

use crate::endpoint::{answered, Answered, Packets, Step};
use crate::fields::{Answer, Command, CommandHandle, EndpointSettings, PeerSettings, Request};
use crate::moment::Moment;
use crate::numbers::bounds::{MESSAGE_BYTES, PACKET_BYTES};
use crate::numbers::{unless_refused, Refusal};
use crate::raw::{self, given, written};
use crate::requester::{Due, Opening, Receiving, Status};

const ASKING: u8 = 1;

/// What becomes of a packet at a terminus: what the half that took it says.
#[derive(Clone, Copy, Debug, PartialEq, Eq)]
pub enum Coming {
    /// What answers has taken it, as [`Endpoint::receive`](crate::Endpoint::receive).
    Answering(Step),
    /// What asks has taken it, as [`Requester::receive`](crate::Requester::receive).
    Asking(Receiving),
}

/// An end that answers and asks one peer under one endpoint ID, or none.
///
/// It is freed on drop. One that is forgotten ([`core::mem::forget`]) leaks its memory. While a command or a request is
/// pending it is restarted, and never freed and made anew.
///
/// ```compile_fail,E0277
/// fn shared(_: &impl Sync) {}
/// shared(&needleoat::Terminus::none());
/// ```
pub struct Terminus {
    handle: raw::Handle,
    latest: Moment,
    not_sync: PhantomData<Cell<()>>,
}

impl Terminus {
    /// No terminus. It takes no memory.
    pub const fn none() -> Self {
        Self { handle: raw::Handle { at: 0, is_live: false }, latest: Moment::ZERO, not_sync: PhantomData }
    }

    /// A terminus, as [`Terminus::make`] makes it.
    ///
    /// # Errors
    /// Those of [`Terminus::make`].
    pub fn new(settings: &EndpointSettings, peer: &PeerSettings, now: Moment, rest: Moment) -> Result<Self, Refusal> {
        let mut terminus = Self::none();
        terminus.make(settings, peer, now, rest)?;
        Ok(terminus)
    }

    /// Makes a terminus where there is none. It opens no request before `rest`: after a reset of the processor let that
    /// be `now` and twice the peer's keeping time.
    ///
    /// # Errors
    /// [`Refusal::AlreadyThere`], else [`Refusal::OutOfRange`] of a setting, or where the peer has the endpoint ID that
    /// the terminus has at first, or `tries` times `timeout_ms` is above `keep_ms`; else [`Refusal::NoMemory`].
    pub fn make(
        &mut self,
        settings: &EndpointSettings,
        peer: &PeerSettings,
        now: Moment,
        rest: Moment,
    ) -> Result<(), Refusal> {
        // SAFETY: both settings may be read, and the handle is this one's alone; it began as none and was left by a
        // call.
        unless_refused(unsafe { raw::needleoat_terminus_new(settings, peer, now.ms(), rest.ms(), &mut self.handle) })?;
        self.latest = now;
        Ok(())
    }

    /// Whether a moment may come next: none before that of an earlier call.
    fn reach(&mut self, now: Moment) -> Result<(), Refusal> {
        if self.handle.is_live && now < self.latest {
            return Err(Refusal::BadMoment);
        }
        self.latest = now;
        Ok(())
    }

    /// Receives the bytes of a packet that came at a moment: an answer to a request of this end, or what is to be
    /// answered. `packets` has the answer then, where there is one.
    pub fn receive(&mut self, now: Moment, packet: &[u8], packets: &mut Packets) -> Coming {
        packets.count = 0;
        if let Err(refusal) = self.reach(now) {
            return Coming::Answering(Step::Refused(refusal));
        }
        let (place, length) = given(packet);
        let mut command = Command::ZERO;
        // SAFETY: `place` has `length` bytes that may be read, and one at least; the handle, `command` and the packets
        // are borrowed alone.
        let coming = unsafe {
            raw::needleoat_terminus_receive(
                &mut self.handle,
                now.ms(),
                place,
                length,
                &mut command,
                packets.bytes.as_mut_ptr(),
            )
        };
        match coming.half {
            ASKING => Coming::Asking(Receiving::of(&coming.receiving)),
            _ => Coming::Answering(Step::of(&coming.step, command, packets)),
        }
    }

    /// Hands in the answer to a command, as [`Endpoint::answer`](crate::Endpoint::answer).
    ///
    /// # Errors
    /// Those of [`Endpoint::answer`](crate::Endpoint::answer).
    pub fn answer(
        &mut self,
        handle: &CommandHandle,
        answer: &Answer,
        packets: &mut Packets,
    ) -> Result<Answered, Refusal> {
        // SAFETY: the handle of the command and the answer may be read; the terminus' and the packets are borrowed
        // alone.
        let step =
            unsafe { raw::needleoat_terminus_answer(&mut self.handle, handle, answer, packets.bytes.as_mut_ptr()) };
        answered(&step, packets)
    }

    /// The request that is pending under this handle, as [`Endpoint::request`](crate::Endpoint::request).
    pub fn request(&mut self, handle: &CommandHandle) -> Option<Request> {
        let mut request = Request::ZERO;
        // SAFETY: the handle of the command may be read; the terminus' and `request` are borrowed alone.
        let is_there = unsafe { raw::needleoat_terminus_request(&mut self.handle, handle, &mut request) };
        is_there.then_some(request)
    }

    /// Hands in the response to a request, as [`Endpoint::answer_bytes`](crate::Endpoint::answer_bytes).
    ///
    /// # Errors
    /// Those of [`Endpoint::answer_bytes`](crate::Endpoint::answer_bytes).
    pub fn answer_bytes(
        &mut self,
        handle: &CommandHandle,
        code: u8,
        data: &[u8],
        packets: &mut Packets,
    ) -> Result<Answered, Refusal> {
        let (place, length) = given(data);
        // SAFETY: `place` has `length` bytes that may be read, and one at least; the handle of the command may be read;
        // the terminus' and the packets are borrowed alone.
        let step = unsafe {
            raw::needleoat_terminus_answer_bytes(
                &mut self.handle,
                handle,
                code,
                place,
                length,
                packets.bytes.as_mut_ptr(),
            )
        };
        answered(&step, packets)
    }

    /// Opens a request to the peer, as [`Requester::open`](crate::Requester::open). Its number counts from 0 over all
    /// requests since the asking half last began.
    ///
    /// # Errors
    /// [`Refusal::NothingThere`], [`Refusal::BadMoment`], [`Refusal::NotACommand`], else [`Refusal::NoEid`],
    /// [`Refusal::Resting`], [`Refusal::TagInUse`], [`Refusal::IdInUse`] or [`Refusal::NoMemory`].
    pub fn open(&mut self, now: Moment, request: &[u8]) -> Result<Opening, Refusal> {
        self.reach(now)?;
        let (place, length) = given(request);
        // SAFETY: `place` has `length` bytes that may be read, and one at least; the handle is this one's alone.
        let opening = unsafe { raw::needleoat_terminus_open(&mut self.handle, now.ms(), place, length) };
        Opening::of(&opening)
    }

    /// Opens a request of any PLDM type to the peer, as [`Requester::open_request`](crate::Requester::open_request).
    ///
    /// # Errors
    /// Those of [`Terminus::open`], with [`Refusal::OutOfRange`] in place of [`Refusal::NotACommand`].
    pub fn open_request(&mut self, now: Moment, pldm_type: u8, command: u8, data: &[u8]) -> Result<Opening, Refusal> {
        self.reach(now)?;
        let (place, length) = given(data);
        // SAFETY: `place` has `length` bytes that may be read, and one at least; the handle is this one's alone.
        let opening = unsafe {
            raw::needleoat_terminus_open_request(&mut self.handle, now.ms(), pldm_type, command, place, length)
        };
        Opening::of(&opening)
    }

    /// Lists the requests that are due at a moment; none where the end has no endpoint ID to ask from.
    ///
    /// # Errors
    /// [`Refusal::NothingThere`] or [`Refusal::BadMoment`].
    pub fn tick(&mut self, now: Moment) -> Result<Due, Refusal> {
        self.reach(now)?;
        let mut due = Due::NONE;
        // SAFETY: the handle and `due` are borrowed alone.
        unless_refused(unsafe { raw::needleoat_terminus_tick(&mut self.handle, now.ms(), &mut due) })?;
        Ok(Due::of(due))
    }

    /// The moment from which on [`Terminus::tick`] finds something due, and nothing before, as
    /// [`Requester::next_deadline`](crate::Requester::next_deadline).
    pub fn next_deadline(&mut self) -> Option<Moment> {
        let mut deadline = 0;
        // SAFETY: the handle and `deadline` are borrowed alone.
        let is_told = unsafe { raw::needleoat_terminus_next_deadline(&mut self.handle, &mut deadline) };
        Moment::from_ms(deadline).filter(|_| is_told)
    }

    /// Writes packet `index` of a request, as [`Requester::packet_at`](crate::Requester::packet_at).
    pub fn packet(&mut self, number: u64, index: u32, out: &mut [u8; PACKET_BYTES]) -> Option<usize> {
        // SAFETY: the handle and `out`, which has the bytes of a packet, are borrowed alone.
        written(unsafe { raw::needleoat_terminus_packet(&mut self.handle, number, index, out.as_mut_ptr()) })
    }

    /// Reports how a request stands, as [`Requester::status`](crate::Requester::status).
    pub fn status(&mut self, number: u64, message: &mut [u8; MESSAGE_BYTES]) -> Status {
        // SAFETY: the handle and `message`, which has the bytes of a message, are borrowed alone.
        Status::of(unsafe { raw::needleoat_terminus_status(&mut self.handle, number, message.as_mut_ptr()) })
    }

    /// Restarts both halves at a moment: what answers as after [`Endpoint::restart`](crate::Endpoint::restart), and
    /// what asks begins anew.
    ///
    /// # Errors
    /// [`Refusal::NothingThere`] or [`Refusal::BadMoment`].
    pub fn restart(&mut self, now: Moment) -> Result<(), Refusal> {
        self.reach(now)?;
        // SAFETY: the handle is this one's alone.
        unless_refused(unsafe { raw::needleoat_terminus_restart(&mut self.handle, now.ms()) })
    }

    /// Frees the terminus, where there is one.
    pub fn free(&mut self) {
        // SAFETY: the handle is this one's alone.
        unsafe { raw::needleoat_terminus_free(&mut self.handle) }
        self.latest = Moment::ZERO;
    }
}

impl Drop for Terminus {
    fn drop(&mut self) {
        self.free();
    }
}
