//! The examples, and what each of them has to write.
#![allow(clippy::duplicate_mod)] // each example has its own `shared`

use std::fmt;

#[path = "../../examples/ask.rs"]
mod ask;
#[path = "../../examples/bounds.rs"]
mod bounds;
#[path = "../../examples/codecs.rs"]
mod codecs;
#[path = "../../examples/control.rs"]
mod control;
#[path = "../../examples/fan.rs"]
mod fan;
#[path = "../../examples/fields.rs"]
mod fields;
#[path = "../../examples/firmware.rs"]
mod firmware;
#[path = "../../examples/fru.rs"]
mod fru;
#[path = "../../examples/i2c_fan.rs"]
mod i2c_fan;
#[path = "../../examples/records.rs"]
mod records;
#[path = "../../examples/update.rs"]
mod update;
#[path = "../../examples/window.rs"]
mod window;

/// The examples of these names, with their inputs.
macro_rules! examples {
    ($($name:ident $input:expr;)*) => {
        pub const EXAMPLES: &[Example] = &[$(Example {
            name: stringify!($name),
            run: $name::run,
            input: $input,
            expected: include_str!(concat!("../../../../examples/c/", stringify!($name), ".expected")),
        },)*];
    };
}

/// An example: its input, and what it has to write.
pub struct Example {
    pub name: &'static str,
    pub run: fn(&str, &mut String) -> fmt::Result,
    pub input: &'static str,
    pub expected: &'static str,
}

examples! {
    ask "";
    bounds "";
    codecs "";
    control "";
    fan include_str!("../../../../examples/copies.txt");
    fields "";
    firmware "";
    fru "";
    i2c_fan "";
    records "";
    update "";
    window "";
}
