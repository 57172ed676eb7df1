//! The examples write what `examples/c/NAME.expected` has, whose bytes are those of the standards' tables.

mod written;

use written::{Example, EXAMPLES};

fn check(example: &Example) {
    let mut out = String::new();
    assert!((example.run)(example.input, &mut out).is_ok(), "{}", example.name);
    for (number, (got, want)) in out.lines().zip(example.expected.lines()).enumerate() {
        assert_eq!(got, want, "{}, line {}", example.name, number + 1);
    }
    assert_eq!(out, example.expected, "{}", example.name);
}

#[test]
fn each_example_writes_what_it_has_to() {
    EXAMPLES.iter().for_each(check);
}
