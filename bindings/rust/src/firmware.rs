//! The device of firmware update (DSP0267).

use core::cell::Cell;
use core::marker::PhantomData;

use crate::fields::{CommandHandle, Request};
use crate::moment::Moment;
use crate::numbers::bounds::RESPONSE_DATA;
use crate::numbers::{unless_refused, Refusal, UpdateStage};
use crate::raw::{self, given};

const BEGIN: u8 = 1;
const STORE: u8 = 2;
const VERIFY: u8 = 3;
const APPLY: u8 = 4;
const ACTIVATE: u8 = 5;
const ABANDON: u8 = 6;
const ABANDON_UPDATE: u8 = 7;

/// What the flash is to do (`enum needleoat_flash`). The image that is active stays as it is until
/// [`FlashAction::Activate`].
#[derive(Clone, Copy, Debug, PartialEq, Eq, Hash)]
#[non_exhaustive]
pub enum FlashAction {
    /// Make room for an image of so many bytes, beside the active one.
    Begin {
        /// The image's size in bytes.
        size: u32,
    },
    /// Store the data of the answer that has just come.
    Store {
        /// Where in the image the bytes begin.
        offset: u32,
    },
    /// Verify the stored image.
    Verify,
    /// Apply the verified image: at the next activation it is the active one.
    Apply,
    /// Make all that was applied active.
    Activate,
    /// Forget the image that was begun last, and nothing that was applied before.
    Abandon,
    /// Forget all that is not active.
    AbandonUpdate,
}

/// A step of the flash.
#[derive(Clone, Copy, Debug, PartialEq, Eq, Hash)]
pub struct FlashStep {
    /// By which [`Firmware::done`] is told of it.
    pub number: u64,
    /// What is to be done.
    pub action: FlashAction,
}

impl FlashStep {
    /// The step that the library reports, where there is one, or why the call was refused.
    fn of(step: &raw::FlashStep) -> Result<Option<Self>, Refusal> {
        unless_refused(step.refusal)?;
        let action = match step.action {
            BEGIN => FlashAction::Begin { size: step.size },
            STORE => FlashAction::Store { offset: step.offset },
            VERIFY => FlashAction::Verify,
            APPLY => FlashAction::Apply,
            ACTIVATE => FlashAction::Activate,
            ABANDON => FlashAction::Abandon,
            ABANDON_UPDATE => FlashAction::AbandonUpdate,
            _ => return Ok(None),
        };
        Ok(Some(Self { number: step.number, action }))
    }
}

/// Which component of a device is meant (DSP0267, "PassComponentTable command").
#[derive(Clone, Copy, Debug, PartialEq, Eq, Hash)]
pub struct Component {
    /// Its classification.
    pub classification: u16,
    /// Its identifier, which the vendor chooses.
    pub identifier: u16,
    /// Which of several components with this classification and identifier it is.
    pub index: u8,
}

/// The component that a command of firmware update names: PassComponentTable and UpdateComponent name one. `None` where
/// it is another command, or can't be read.
pub fn component_of(request: &Request) -> Option<Component> {
    let (place, length) = given(request.bytes());
    let mut named = raw::Component { classification: 0, identifier: 0, index: 0 };
    // SAFETY: `place` has `length` bytes that may be read, and one at least; `named` is borrowed alone.
    let is_named = unsafe { raw::needleoat_firmware_component(request.command, place, length, &mut named) };
    let raw::Component { classification, identifier, index } = named;
    is_named.then_some(Component { classification, identifier, index })
}

/// The answer to a command of firmware update.
#[derive(Clone, Copy)]
pub struct FirmwareAnswer(raw::FirmwareAnswer);

impl FirmwareAnswer {
    /// Its completion code.
    pub fn code(&self) -> u8 {
        self.0.code
    }

    /// Its data, which follows the completion code.
    pub fn data(&self) -> &[u8] {
        self.0.data.get(..self.0.length as usize).unwrap_or(&self.0.data)
    }
}

/// Where a firmware device is in an update.
#[derive(Clone, Copy, Debug, PartialEq, Eq, Hash)]
pub struct Stage {
    /// Where it is.
    pub stage: UpdateStage,
    /// How many bytes of the image are stored.
    pub stored: u32,
}

/// The machine of a firmware device, or none. It has no input or output of its own: what it asks of the update agent is
/// [`Firmware::wish`], and what the flash is to do is returned. It goes with a [`Terminus`](crate::Terminus) that hands
/// on requests of firmware update.
///
/// Moments are not compared with those of earlier calls. A number of a request must not come twice: those of a terminus
/// begin anew at a restart and where it gets another endpoint ID, so free the machine then, and make it anew.
///
/// It is freed on drop. One that is forgotten ([`core::mem::forget`]) leaks its memory.
///
/// ```compile_fail,E0277
/// fn shared(_: &impl Sync) {}
/// shared(&needleoat::Firmware::none());
/// ```
pub struct Firmware {
    handle: raw::Handle,
    not_sync: PhantomData<Cell<()>>,
}

impl Firmware {
    /// No machine. It takes no memory.
    pub const fn none() -> Self {
        Self { handle: raw::Handle { at: 0, is_live: false }, not_sync: PhantomData }
    }

    /// A machine, as [`Firmware::make`] makes it.
    ///
    /// # Errors
    /// Those of [`Firmware::make`].
    pub fn new(latest: u64) -> Result<Self, Refusal> {
        let mut firmware = Self::none();
        firmware.make(latest)?;
        Ok(firmware)
    }

    /// Makes a machine where there is none, with no update under way. Steps of the flash have the numbers after
    /// `latest`. No other call takes memory.
    ///
    /// # Errors
    /// [`Refusal::AlreadyThere`], else [`Refusal::NoMemory`].
    pub fn make(&mut self, latest: u64) -> Result<(), Refusal> {
        // SAFETY: the handle is this one's alone; it began as none and was left by a call.
        unless_refused(unsafe { raw::needleoat_firmware_new(latest, &mut self.handle) })
    }

    /// Takes a command as it was handed on, pending under this handle, and gives its answer, also to one that can't be
    /// read, and the step of the flash that it brings. `room` is the most bytes that an image of the component of an
    /// UpdateComponent may have; `None`, or 0, where the device has no such component; where it has several,
    /// [`component_of`] says which.
    ///
    /// # Errors
    /// [`Refusal::NothingThere`], else [`Refusal::OutOfRange`] where the source is no endpoint ID, else
    /// [`Refusal::FirmwareAnswers`] of QueryDeviceIdentifiers and GetFirmwareParameters.
    pub fn receive(
        &mut self,
        handle: &CommandHandle,
        now: Moment,
        request: &Request,
        room: Option<u32>,
    ) -> Result<(FirmwareAnswer, Option<FlashStep>), Refusal> {
        let (place, length) = given(request.bytes());
        let mut answer = raw::FirmwareAnswer { code: 0, length: 0, data: [0; RESPONSE_DATA] };
        // SAFETY: `place` has `length` bytes that may be read, and one at least; the handle and `answer` are borrowed
        // alone.
        let step = unsafe {
            raw::needleoat_firmware_receive(
                &mut self.handle,
                handle.source,
                now.ms(),
                request.command,
                place,
                length,
                room.unwrap_or(0),
                &mut answer,
            )
        };
        Ok((FirmwareAnswer(answer), FlashStep::of(&step)?))
    }

    /// What the device asks of the update agent at a moment, where it asks something.
    pub fn wish(&mut self, now: Moment) -> Option<Request> {
        let mut request = Request::ZERO;
        // SAFETY: the handle and `request` are borrowed alone.
        let asks = unsafe { raw::needleoat_firmware_wish(&mut self.handle, now.ms(), &mut request) };
        asks.then_some(request)
    }

    /// What [`Firmware::wish`] gives at this moment was opened, as the request with this number. Where nothing is asked,
    /// nothing changes.
    ///
    /// # Errors
    /// [`Refusal::NothingThere`].
    pub fn opened(&mut self, number: u64, now: Moment) -> Result<(), Refusal> {
        // SAFETY: the handle is this one's alone.
        unless_refused(unsafe { raw::needleoat_firmware_opened(&mut self.handle, number, now.ms()) })
    }

    /// The request with this number was answered, by this completion code and this data. Where that brings
    /// [`FlashAction::Store`], this data is to be stored, all of it. An answer to any other request than the open one
    /// changes nothing.
    ///
    /// # Errors
    /// [`Refusal::NothingThere`].
    pub fn answered(&mut self, number: u64, now: Moment, code: u8, data: &[u8]) -> Result<Option<FlashStep>, Refusal> {
        let (place, length) = given(data);
        // SAFETY: `place` has `length` bytes that may be read, and one at least; the handle is this one's alone.
        let step = unsafe { raw::needleoat_firmware_answered(&mut self.handle, number, now.ms(), code, place, length) };
        FlashStep::of(&step)
    }

    /// The request with this number was given up. Any other than the open one changes nothing.
    ///
    /// # Errors
    /// [`Refusal::NothingThere`].
    pub fn gave_up(&mut self, number: u64) -> Result<Option<FlashStep>, Refusal> {
        // SAFETY: the handle is this one's alone.
        FlashStep::of(&unsafe { raw::needleoat_firmware_gave_up(&mut self.handle, number) })
    }

    /// The flash did the step with this number, well or not. A report of any step but the last one changes nothing.
    pub fn done(&mut self, number: u64, well: bool) {
        // SAFETY: the handle is this one's alone.
        unsafe { raw::needleoat_firmware_done(&mut self.handle, number, well) }
    }

    /// Time passes: where the agent has the next move and was not heard for 90 seconds, the update ends, and the flash
    /// has to forget it.
    ///
    /// # Errors
    /// [`Refusal::NothingThere`].
    pub fn tick(&mut self, now: Moment) -> Result<Option<FlashStep>, Refusal> {
        // SAFETY: the handle is this one's alone.
        FlashStep::of(&unsafe { raw::needleoat_firmware_tick(&mut self.handle, now.ms()) })
    }

    /// Where the device is in the update.
    pub fn stage(&mut self) -> Stage {
        // SAFETY: the handle is this one's alone.
        let stage = unsafe { raw::needleoat_firmware_stage(&mut self.handle) };
        Stage { stage: UpdateStage::of(stage.stage), stored: stage.stored }
    }

    /// Frees the machine, where there is one.
    pub fn free(&mut self) {
        // SAFETY: the handle is this one's alone.
        unsafe { raw::needleoat_firmware_free(&mut self.handle) }
    }
}

impl Drop for Firmware {
    fn drop(&mut self) {
        self.free();
    }
}
