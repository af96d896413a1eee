//! Sheets with handlers, and classes for them: 33 at each limit, and 25 for a class.

use super::{Samples, GOOD};
use bytecode::records::{arguments, constant, handler, record, sizes};

/// All of them.
pub fn all(samples: &mut Samples) {
    lengths(samples);
    limits(samples);
    catch_types(samples);
    places(samples);
    class_words(samples);
    largest(samples);
}

/// A sheet of five bytes of code and constants of every kind, with these records before its arguments.
fn add(samples: &mut Samples, name: String, gives: u32, records: &str) {
    let constants = "class 1; int 2; long 3; class 5 00000000; double 6; float 9";
    let text = format!("limits 2 0; code 00 00 00 00 B1; {constants}; {records}; arguments");
    samples.add(format!("EX_{name}"), gives, &text);
}

/// A body of another length than 8 is 33, and never 24.
fn lengths(samples: &mut Samples) {
    for length in [0, 1, 2, 4, 6, 7, 9, 10, 12, 16, 264] {
        let digits = format!("0000000100000000{}", "00".repeat(length));
        let text = format!("record EX {}", &digits[..2 * length]);
        add(samples, format!("of_{length}"), 33, &text);
        add(
            samples,
            format!("of_{length}_second"),
            33,
            &format!("EX; {text}"),
        );
    }
    add(
        samples,
        "of_8".to_string(),
        GOOD,
        "record EX 0000000100000000",
    );
}

/// Start, end and handler one short of each limit, at it and one past it, in a code of five bytes.
fn limits(samples: &mut Samples) {
    for (gives, [start, end, handler]) in [
        (GOOD, [0, 1, 0]),
        (33, [0, 0, 0]),
        (33, [1, 0, 0]),
        (GOOD, [3, 4, 0]),
        (33, [4, 4, 0]),
        (33, [4, 3, 0]),
        (GOOD, [4, 5, 0]),
        (33, [5, 5, 0]),
        (33, [5, 6, 0]),
        (33, [6, 5, 0]),
        (GOOD, [0, 5, 0]),
        (33, [0, 6, 0]),
        (33, [4, 6, 0]),
        (33, [0, 256, 0]),
        (33, [256, 1, 0]),
        (33, [256, 257, 0]),
        (33, [0, 65535, 0]),
        (33, [65534, 65535, 0]),
        (33, [65535, 65535, 0]),
        (33, [65535, 0, 0]),
        (GOOD, [0, 5, 4]),
        (GOOD, [4, 5, 4]),
        (33, [0, 5, 5]),
        (33, [0, 5, 6]),
        (33, [0, 5, 256]),
        (33, [0, 5, 65535]),
    ] {
        let name = format!("{start}_{end}_{handler}");
        add(
            samples,
            name,
            gives,
            &format!("handler {start} {end} {handler} 0"),
        );
    }
}

/// Catch types: 0, the index of each constant and those beside them.
fn catch_types(samples: &mut Samples) {
    for (name, gives, index) in [
        ("any", GOOD, 0),
        ("a_class", GOOD, 1),
        ("an_int", 33, 2),
        ("a_long", 33, 3),
        ("the_second_of_a_long", 33, 4),
        ("a_class_of_0", GOOD, 5),
        ("a_double", 33, 6),
        ("the_second_of_a_double", 33, 7),
        ("a_gap", 33, 8),
        ("a_float", 33, 9),
        ("no_constant", 33, 10),
        ("the_last_of_the_pool", 33, 11),
        ("past_the_pool", 33, 12),
        ("two_bytes", 33, 257),
        ("the_high_byte", 33, 256),
        ("the_greatest", 33, 65535),
    ] {
        let text = format!("handler 0 5 0 {index}");
        add(samples, format!("takes_{name}"), gives, &text);
    }
    for (name, gives, constants, index) in [
        ("class_at_256", GOOD, "class 256", 256),
        ("index_1_of_256", 33, "class 256", 1),
        ("index_256_of_1", 33, "class 1; int 256", 256),
        ("class_at_65535", GOOD, "class 65535", 65535),
        ("no_pool", 33, "", 1),
    ] {
        let text = format!("LM; CD; {constants}; handler 0 2 1 {index}; AR");
        samples.add(format!("EX_{name}"), gives, &text).pool(65536);
    }
}

/// Where handlers may stand, and several of them.
fn places(samples: &mut Samples) {
    for (name, gives, text) in [
        ("without_KI", GOOD, "LM; CD; EX; AR"),
        ("with_DS", GOOD, "LM; DS; CD; EX; AR"),
        ("after_KI", GOOD, "LM; DS; CD; KI; EX; AR"),
        ("twice", GOOD, "LM; CD; EX; EX; AR"),
        (
            "overlapping",
            GOOD,
            "LM; CD; handler 0 1 1 0; handler 0 2 0 0; AR",
        ),
        ("wrong_first", 33, "LM; CD; handler 0 3 1 0; EX; AR"),
        ("wrong_second", 33, "LM; CD; EX; handler 0 2 2 0; AR"),
        (
            "wrong_last",
            33,
            "LM; CD; EX; EX; EX; EX; handler 0 2 1 1; AR",
        ),
    ] {
        samples.add(format!("EX_{name}"), gives, text);
    }
    let many = |last: &str| format!("LM; CD; {}{last}; AR", "EX; ".repeat(100));
    samples.add("EX_101_times", GOOD, &many("EX"));
    samples.add("EX_wrong_after_100", 33, &many("handler 2 2 1 0"));
    let text = "LM; code 45 58 00 08 00 00 00 01; EX; AR";
    samples.add("EX_after_a_code_like_one", GOOD, text);
    let text = "limits 1 3; code B1; arguments 1163395080 1 0";
    samples.add("arguments_that_look_like_EX", GOOD, text);
}

/// The word of a class is 0 or 1. A body of 11 bytes is no class's.
fn class_words(samples: &mut Samples) {
    for (gives, word) in [
        (GOOD, 0),
        (GOOD, 1),
        (25, 2),
        (25, 3),
        (25, 0x100),
        (25, 0x101),
        (25, 0x1_0000),
        (25, 0x100_0000),
        (25, 0x8000_0001),
        (25, u32::MAX),
    ] {
        for (place, before) in [("", ""), ("_second", "class 1; ")] {
            let text = format!("LM; CD; {before}class 2 {word:08X}; AR");
            samples.add(format!("class_of_{word:X}{place}"), gives, &text);
        }
    }
    for value in ["0000000000000000", "0000000000000001", "0000000100000000"] {
        let text = format!("LM; CD; class 1 {value}; AR");
        samples.add(format!("class_of_{value}"), 25, &text);
    }
    let text = "LM; CD; class 1; int 2; class 3 00000000; AR";
    let beside = samples
        .add("class_takes_one_index", GOOD, text)
        .slots(6)
        .pool(5);
    beside.holds(
        &[0, 7, 3, 7, 0],
        &[0, 1, 0x2A, 0, 0],
        &[5, 6, 0, 0, 0, 0xBEEF_0005],
    );
}

/// A handler at the end of the longest code.
fn largest(samples: &mut Samples) {
    let code = vec![0; 65_535];
    let class = constant(65_535, 7, &[0, 0, 0, 1]);
    let last = handler([65_534, 65_535, 65_534, 65_535]);
    let sheet = [
        sizes(2, 0),
        record(b"CD", &code),
        class,
        last,
        arguments(&[]),
    ]
    .concat();
    samples
        .add_sheet("EX_at_the_end_of_the_largest_code", GOOD, sheet)
        .pool(65536);
}
