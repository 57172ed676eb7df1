//! The numbers of the header, by their names.

/// The most bytes, packets and fields that the calls take or give.
pub mod bounds {
    /// Bytes of a packet: a header of 4 and a payload of 64.
    pub const PACKET_BYTES: usize = 68;
    /// Packets of a message.
    pub const PACKETS: usize = 5;
    /// Bytes of a message.
    pub const MESSAGE_BYTES: usize = 320;
    /// Bytes of a request that [`command_write`](crate::command_write) writes.
    pub const REQUEST_BYTES: usize = 23;
    /// Bytes of a request's data: a message without its header.
    pub const REQUEST_DATA: usize = 316;
    /// Bytes of a response's data: a message without its header and completion code.
    pub const RESPONSE_DATA: usize = 315;
    /// Bytes of a record in one answer to GetPDR.
    pub const PART_BYTES: usize = 303;
    /// Fields of a state sensor or effecter.
    pub const STATES: usize = 8;
    /// Bytes of a record that [`Record::record_write`](crate::Record::record_write) writes.
    pub const RECORD_BYTES: usize = 305;
    /// UTF-16 code units of a name.
    pub const NAME_UNITS: usize = 127;
    /// Bytes of a frame on I2C: 4, a packet of 254, and the PEC.
    pub const I2C_FRAME_BYTES: usize = 259;
    /// Bytes of a frame on I3C: a packet of 254, and the PEC.
    pub const I3C_FRAME_BYTES: usize = 255;
}

/// PLDM types and, in each, the commands of this profile (DSP0240 and DSP0248).
pub mod command {
    /// The PLDM type of messaging control and discovery.
    pub const BASE: u8 = 0;
    /// SetTID.
    pub const SET_TID: u8 = 0x01;
    /// GetTID.
    pub const GET_TID: u8 = 0x02;
    /// GetPLDMVersion.
    pub const GET_PLDM_VERSION: u8 = 0x03;
    /// GetPLDMTypes.
    pub const GET_PLDM_TYPES: u8 = 0x04;
    /// GetPLDMCommands.
    pub const GET_PLDM_COMMANDS: u8 = 0x05;
    /// The PLDM type of platform monitoring and control.
    pub const PLATFORM: u8 = 2;
    /// GetSensorReading.
    pub const GET_SENSOR_READING: u8 = 0x11;
    /// GetStateSensorReadings.
    pub const GET_STATE_SENSOR_READINGS: u8 = 0x21;
    /// SetNumericEffecterValue.
    pub const SET_NUMERIC_EFFECTER_VALUE: u8 = 0x31;
    /// GetNumericEffecterValue.
    pub const GET_NUMERIC_EFFECTER_VALUE: u8 = 0x32;
    /// SetStateEffecterStates.
    pub const SET_STATE_EFFECTER_STATES: u8 = 0x39;
    /// GetStateEffecterStates.
    pub const GET_STATE_EFFECTER_STATES: u8 = 0x3a;
    /// GetPDRRepositoryInfo.
    pub const GET_PDR_REPOSITORY_INFO: u8 = 0x50;
    /// GetPDR.
    pub const GET_PDR: u8 = 0x51;
    /// The PLDM type of firmware update.
    pub const FIRMWARE_UPDATE: u8 = 5;
}

/// Data sizes of numeric sensors and effecters, and the formats of ranges (DSP0248).
pub mod data_size {
    /// One byte, 0 or more.
    pub const UINT8: u8 = 0;
    /// One byte in two's complement.
    pub const SINT8: u8 = 1;
    /// Two bytes, 0 or more.
    pub const UINT16: u8 = 2;
    /// Two bytes in two's complement.
    pub const SINT16: u8 = 3;
    /// Four bytes, 0 or more.
    pub const UINT32: u8 = 4;
    /// Four bytes in two's complement.
    pub const SINT32: u8 = 5;
    /// Of a range alone: the bits of a real32.
    pub const REAL32: u8 = 6;
}

/// Completion codes (DSP0240, "Generic PLDM completion codes"); those from 0x80 on are of the commands that are named:
/// there one number means another thing for each command (DSP0240, DSP0248).
pub mod completion_code {
    /// The command was carried out.
    pub const SUCCESS: u8 = 0x00;
    /// A fault for which there is no other code.
    pub const ERROR: u8 = 0x01;
    /// A field has a value that it may not have.
    pub const INVALID_DATA: u8 = 0x02;
    /// More or fewer bytes of data than the command has.
    pub const INVALID_LENGTH: u8 = 0x03;
    /// The command can't be carried out now.
    pub const NOT_READY: u8 = 0x04;
    /// There is no such command.
    pub const UNSUPPORTED_PLDM_CMD: u8 = 0x05;
    /// There is no such PLDM type.
    pub const INVALID_PLDM_TYPE: u8 = 0x20;
    /// GetPLDMVersion, GetPDR: no such part.
    pub const INVALID_DATA_TRANSFER_HANDLE: u8 = 0x80;
    /// GetPLDMVersion, GetPDR: neither the first part nor the next.
    pub const INVALID_TRANSFER_OPERATION_FLAG: u8 = 0x81;
    /// GetPLDMVersion, GetPLDMCommands: no such PLDM type.
    pub const INVALID_PLDM_TYPE_IN_REQUEST_DATA: u8 = 0x83;
    /// GetPLDMCommands: the type has no such version.
    pub const INVALID_PLDM_VERSION_IN_REQUEST_DATA: u8 = 0x84;
    /// GetSensorReading, GetStateSensorReadings: no such sensor.
    pub const INVALID_SENSOR_ID: u8 = 0x80;
    /// The commands of effecters: no such effecter.
    pub const INVALID_EFFECTER_ID: u8 = 0x80;
    /// SetStateEffecterStates: a state that the effecter does not have.
    pub const INVALID_STATE_VALUE: u8 = 0x81;
    /// GetPDR: no such record.
    pub const INVALID_RECORD_HANDLE: u8 = 0x82;
    /// GetPDR: the record was changed since its first part.
    pub const INVALID_RECORD_CHANGE_NUMBER: u8 = 0x83;
}

/// Which requests are answered 'not ready' in the busy time.
pub mod busy {
    /// Each one with a good header.
    pub const ALL: u32 = 0;
    /// Those whose command sets, and those that are handed on as bytes.
    pub const SETS: u32 = 1;
}

/// An enum of the header's numbers. `Other` has a number that this crate has no name for.
macro_rules! numbers {
    ($(#[$about:meta])* $name:ident { $($(#[$what:meta])* $variant:ident = $number:literal,)* }) => {
        $(#[$about])*
        #[derive(Clone, Copy, Debug, PartialEq, Eq, Hash)]
        #[non_exhaustive]
        pub enum $name {
            $($(#[$what])* $variant,)*
            /// A number that a later library may return.
            Other(u8),
        }

        impl $name {
            /// The header's number.
            pub const fn number(self) -> u8 {
                match self {
                    $(Self::$variant => $number,)*
                    Self::Other(number) => number,
                }
            }

            pub(crate) const fn of(number: u8) -> Self {
                match number {
                    $($number => Self::$variant,)*
                    other => Self::Other(other),
                }
            }
        }
    };
}

numbers! {
    /// Why a packet or a message is dropped (`enum needleoat_reason`), in the order of the checks.
    Reason {
        /// The packet has fewer than 4 bytes.
        Short = 1,
        /// Its header version is not 1.
        BadVersion = 2,
        /// Its destination is not 8 to 254, or not the own endpoint ID.
        UnknownDestination = 3,
        /// Its source is not 8 to 254, or is the own endpoint ID.
        BadSource = 4,
        /// It has no payload.
        NoPayload = 5,
        /// Its payload has more than 64 bytes.
        UnsupportedUnit = 6,
        /// At a device TO is 0; at a requester TO is 1, or no open request has the tag.
        BadTag = 7,
        /// A middle or end packet where no message is in progress.
        UnexpectedMiddleOrEnd = 8,
        /// Its number is not the last one plus 1 modulo 4.
        OutOfSequence = 9,
        /// 5 packets of the message are there already.
        TooLong = 10,
        /// A middle packet of another length than the first, or a longer end.
        WrongUnit = 11,
        /// The message type is not 1.
        NotPldm = 12,
        /// The integrity bit is set.
        Integrity = 13,
        /// Fewer than 4 bytes of a request, or than 5 of a response.
        ShortHeader = 14,
        /// The PLDM header version is not 0.
        BadPldmHeader = 15,
        /// Rq is 0.
        NotRequest = 16,
        /// D is 1.
        Datagram = 17,
        /// Rq is 1.
        NotResponse = 18,
        /// Another instance ID, PLDM type or command than the request's.
        NotMine = 19,
        /// The completion code is 0x04: the request stays open.
        NotReady = 20,
        /// The own endpoint ID is not 8 to 254, so nothing was read.
        NotAnEndpoint = 255,
    }
}

numbers! {
    /// Why a response is no answer to a request (`enum needleoat_answer_fault`), in the order of the checks.
    AnswerFault {
        /// The first message is no request.
        NoRequest = 1,
        /// It carries no command of this profile.
        NoCommand = 2,
        /// The second message is no response.
        NoResponse = 3,
        /// It has another instance ID.
        OtherInstance = 4,
        /// It is to another command.
        OtherCommand = 5,
        /// Its data is shorter or longer than the answer's.
        WrongLength = 6,
        /// A data size, a count or a flag of it has no such value.
        WrongValue = 7,
    }
}

numbers! {
    /// Why records give no answer (`enum needleoat_records_fault`).
    RecordsFault {
        /// The command is neither GetPDRRepositoryInfo nor GetPDR.
        OtherCommand = 1,
        /// The bytes are no records, as [`records_answer`](crate::records_answer) says.
        Malformed = 2,
    }
}

numbers! {
    /// Why bytes are no frame on I2C (`enum needleoat_i2c_fault`), in the order of the checks.
    I2cFault {
        /// Fewer than 6 bytes, so not one of a packet.
        Short = 1,
        /// Byte 0 is not the own address times 2.
        NotOurs = 2,
        /// Byte 1 is not 0F.
        OtherCommand = 3,
        /// Byte 2 does not count the bytes after it and before the PEC.
        WrongCount = 4,
        /// Bit 0 of byte 3 is 0, or the address before it is not 0x08 to 0x77.
        NotSource = 5,
        /// The PEC is another than that of the bytes before it.
        WrongPec = 6,
        /// The own address is not 0x08 to 0x77, so nothing was read.
        NotAnAddress = 255,
    }
}

numbers! {
    /// Why bytes are no frame on I3C (`enum needleoat_i3c_fault`), in the order of the checks.
    I3cFault {
        /// Fewer than 5 bytes: a packet's header and the PEC.
        Short = 1,
        /// The PEC is another than that of the address byte and the bytes before it.
        WrongPec = 2,
        /// The address is above 0x7F, so nothing was read.
        NotAnAddress = 255,
    }
}

numbers! {
    /// Why a call of an end was refused (`enum needleoat_refusal`). What is behind the handle is then as before.
    Refusal {
        /// A growth of memory was refused, and nothing else; it may be tried again.
        NoMemory = 1,
        /// The moment is before that of an earlier call.
        BadMoment = 2,
        /// There is nothing behind the handle.
        NothingThere = 3,
        /// Of a packet: another command of its source and instance ID is pending.
        OutOfTurn = 4,
        /// It is the answer to another command, or by the other of the two ways to answer.
        NotItsAnswer = 5,
        /// A number is out of its range.
        OutOfRange = 6,
        /// There is something behind the handle.
        AlreadyThere = 7,
        /// Of a packet: the command of this very request is pending.
        BeingPerformed = 8,
        /// Of a packet: as many commands are pending as may be.
        TooManyCommands = 9,
        /// Of an answer: no command is pending under this handle.
        NotPending = 10,
        /// The request 8 before this one is still open.
        TagInUse = 11,
        /// The request 32 before was opened less than twice the keeping time ago.
        IdInUse = 12,
        /// The bytes are no request that carries a command.
        NotACommand = 13,
        /// Of a packet: as many sources have room for answers as may have.
        TooManySources = 14,
        /// Of a packet: it begins a message of several, and none may be open.
        TooManyOpenMessages = 15,
        /// Of a terminus: it has no endpoint ID to ask from, or that of its peer.
        NoEid = 16,
        /// Of a terminus: it began to ask less than twice the keeping time ago.
        Resting = 17,
        /// Of a command of firmware update: the firmware itself answers it.
        FirmwareAnswers = 18,
    }
}

numbers! {
    /// Where a firmware device is in an update (`enum needleoat_update_stage`).
    UpdateStage {
        /// There is no machine.
        None = 0,
        /// No update is under way.
        Idle = 1,
        /// The agent passes the table of components.
        Learning = 2,
        /// The table has been passed; no component is transferred.
        Ready = 3,
        /// The flash makes room for the image.
        Beginning = 4,
        /// The next piece of the image is asked for.
        Fetching = 5,
        /// The flash stores a piece.
        Storing = 6,
        /// The whole image is stored, and the agent is told so.
        Fetched = 7,
        /// The transfer failed, and the agent is told so.
        Failed = 8,
        /// The flash verifies the image.
        Verifying = 9,
        /// The agent is told that the image is good.
        Verified = 10,
        /// The agent is told that it is not.
        NotVerified = 11,
        /// The flash applies the image.
        Applying = 12,
        /// The agent is told that the image was applied.
        Applied = 13,
        /// The agent is told that it was not.
        NotApplied = 14,
        /// The flash activates what was applied.
        Activating = 15,
    }
}

/// `Ok` where the number is 0.
pub(crate) const fn unless_refused(number: u8) -> Result<(), Refusal> {
    match number {
        0 => Ok(()),
        refusal => Err(Refusal::of(refusal)),
    }
}
