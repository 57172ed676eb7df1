//! The structs lie in memory as the header says: where one of its facts fails, this crate is not for the target.

use core::mem::{offset_of, size_of};

use crate::fields::*;
use crate::raw::{
    Block, Coming, CommandReading, Component, Due, FirmwareAnswer, FlashStep, Handle, I2cFrame, I3cFrame, Message,
    Opening, Packet, Receiving, Stage, Status, Step,
};
use crate::record_fields::*;

/// A struct of the header: its size, and where each of its fields begins.
macro_rules! layout {
    ($($name:ident $size:literal { $($field:ident $place:literal,)* })*) => {
        const _: () = {
            $(assert!(size_of::<$name>() == $size); $(assert!(offset_of!($name, $field) == $place);)*)*
        };
    };
}

layout! {
    Packet 12 {
        reason 0, destination 1, source 2, tag 3, seq 4, owner 5, start 6, end 7, payload_length 8,
    }
    Message 12 {
        reason 0, instance_id 1, pldm_type 2, command 3, code 4, data_length 8,
    }
    SetState 2 {
        set_request 0, state 1,
    }
    Command 64 {
        instance_id 0, pldm_type 1, command 2, tid 3, asked_type 4, transfer_operation_flag 5, rearm 6, size 7,
        count 8, sensor 10, effecter 12, request_count 14, record_change_number 16, data_transfer_handle 20,
        record_handle 24, value 32, version 40, sets 44,
    }
    CommandReading 2 {
        reason 0, code 1,
    }
    SensorState 4 {
        operational 0, present 1, previous 2, event 3,
    }
    EffecterState 3 {
        operational 0, pending 1, present 2,
    }
    Answer 488 {
        instance_id 0, pldm_type 1, command 2, code 3, tid 4, transfer_flag 5, transfer_crc 6, size 7, operational 8,
        sensor_event_message_enable 9, present 10, previous 11, event 12, count 13, repository_state 14, timeout 15,
        next_record_handle 16, next_data_transfer_handle 20, record_count 24, repository_size 28,
        largest_record_size 32, value 40, pending_value 48, length 56, sensor_states 60, effecter_states 92,
        types 116, commands 124, update_time 156, oem_update_time 169, bytes 182,
    }
    TypeVersion 5 {
        pldm_type 0, version 1,
    }
    TypeCommand 2 {
        pldm_type 0, command 1,
    }
    Entity 6 {
        entity_type 0, instance 2, container_id 4,
    }
    Units 7 {
        base_unit 0, unit_modifier 1, rate_unit 2, base_oem_unit_handle 3, auxiliary_unit 4,
        auxiliary_unit_modifier 5, auxiliary_rate_unit 6,
    }
    Conversion 16 {
        resolution 0, offset 4, accuracy 8, plus_tolerance 10, minus_tolerance 11, is_linear 12, size 13,
    }
    SensorRange 80 {
        format 0, support 1, nominal 8, normal_max 16, normal_min 24, warning_high 32, warning_low 40,
        critical_high 48, critical_low 56, fatal_high 64, fatal_low 72,
    }
    EffecterRange 48 {
        format 0, support 1, nominal 8, normal_max 16, normal_min 24, rated_max 32, rated_min 40,
    }
    PossibleStates 36 {
        state_set 0, size 2, states 3,
    }
    TerminusLocator 16 {
        record_handle 0, change_number 4, terminus_handle 6, container_id 8, is_valid 10, tid 11, eid 12,
    }
    NumericSensor 160 {
        record_handle 0, change_number 4, terminus_handle 6, sensor_id 8, entity 10, init 16, has_auxiliary_names 17,
        rel 18, auxiliary_oem_unit_handle 19, supported_thresholds 20, threshold_and_hysteresis_volatility 21,
        units 22, conversion 32, state_transition_interval 48, update_interval 52, hysteresis 56, max_readable 64,
        min_readable 72, range 80,
    }
    NumericEffecter 120 {
        record_handle 0, change_number 4, terminus_handle 6, effecter_id 8, entity 10, semantic_id 16, init 18,
        has_auxiliary_names 19, auxiliary_oem_unit_handle 20, units 21, conversion 28, state_transition_interval 44,
        transition_interval 48, max_settable 56, min_settable 64, range 72,
    }
    StateSensor 308 {
        record_handle 0, change_number 4, terminus_handle 6, sensor_id 8, entity 10, init 16, has_auxiliary_names 17,
        count 18, sets 20,
    }
    StateEffecter 312 {
        record_handle 0, change_number 4, terminus_handle 6, effecter_id 8, entity 10, semantic_id 16, init 18,
        has_description 19, count 20, sets 22,
    }
    SensorName 268 {
        record_handle 0, length 4, change_number 8, terminus_handle 10, sensor_id 12, text 14,
    }
    EffecterName 268 {
        record_handle 0, length 4, change_number 8, terminus_handle 10, effecter_id 12, text 14,
    }
    EntityName 272 {
        record_handle 0, length 4, change_number 8, entity 10, text 16,
    }
    I2cFrame 12 {
        fault 0, source_address 1, packet_start 4, packet_length 8,
    }
    I3cFrame 8 {
        fault 0, packet_length 4,
    }
    Handle 16 {
        at 0, is_live 8,
    }
    EndpointSettings 72 {
        own 0, first_start 1, keep_ms 4, sources 8, open_messages 12, pending_commands 16, window 20, busy 24,
        unknown_commands 28, pldm_types 32, answers_control 40, assigned 41, uuid 42, base_version 58,
        control_version 62, pldm_version 66,
    }
    Request 324 {
        pldm_type 0, command 1, length 4, data 8,
    }
    CommandHandle 16 {
        number 0, source 8, instance_id 9,
    }
    Step 48 {
        kind 0, reason 1, fresh 2, changed 3, count 4, lengths 8, handle 32,
    }
    RequesterSettings 20 {
        own 0, device 1, tries 2, brief 3, keep_ms 4, timeout_ms 8, lifetime_ms 12, window 16,
    }
    Opening 16 {
        refusal 0, instance_id 1, tag 2, number 8,
    }
    Due 136 {
        again_count 0, given_up_count 4, again 8, given_up 72,
    }
    Receiving 16 {
        kind 0, reason 1, number 8,
    }
    Status 8 {
        kind 0, length 4,
    }
    PeerSettings 20 {
        device 0, tries 1, brief 2, keep_ms 4, timeout_ms 8, lifetime_ms 12, window 16,
    }
    Coming 72 {
        half 0, step 8, receiving 56,
    }
    FlashStep 24 {
        number 0, size 8, offset 12, refusal 16, action 17,
    }
    Component 6 {
        classification 0, identifier 2, index 4,
    }
    FirmwareAnswer 324 {
        code 0, length 4, data 8,
    }
    Stage 8 {
        stage 0, stored 4,
    }
    Block 16 {
        is_there 0, at 8,
    }
}
