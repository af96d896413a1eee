//! Good sheets: whole ones, constants, arguments and codes.

use super::{Samples, GOOD};
use bytecode::records::{arguments, constant, record, sizes};

/// What a load of the rich sheet leaves.
const RICH_KINDS: [u8; 12] = [0, 3, 4, 5, 0, 6, 0, 0, 0, 3, 0, 0];
#[rustfmt::skip]
const RICH_WORDS: [u32; 12] = [0, 0x2A, 0xFFA1_2345, 0x89AB_CDEF, 0x0123_4567, 1, 0x7FF0_0000, 0, 0, 0xFFFF_FFFE, 0, 0];
#[rustfmt::skip]
const RICH_SLOTS: [u32; 10] = [5, 0xFFFF_FFFF, 0x8000_0000, 0, 0, 0, 0, 0xBEEF_0007, 0xBEEF_0008, 0xBEEF_0009];

/// Whole sheets: the printed one, the rich one, one with a descriptor and one with handlers.
pub fn whole_sheets(samples: &mut Samples) {
    let printed = samples.add("printed", GOOD, "printed").slots(3).pool(2);
    printed.holds(&[0; 2], &[0; 2], &[0, 0, 0xBEEF_0002]);
    samples
        .add("printed_as_walksheet_pool", GOOD, "printed")
        .slots(300)
        .pool(4096);
    let rich = samples.add("rich", GOOD, "rich").slots(10);
    rich.holds(&RICH_KINDS, &RICH_WORDS, &RICH_SLOTS);
    samples
        .add("rich_with_long_pool", GOOD, "rich")
        .slots(300)
        .pool(4096);
    let rich = samples
        .add("rich_with_least_memory", GOOD, "rich")
        .slots(7)
        .pool(10);
    rich.holds(&RICH_KINDS[..10], &RICH_WORDS[..10], &RICH_SLOTS[..7]);
    let typed = samples.add("typed", GOOD, "typed").slots(8).pool(3);
    typed.holds(
        &[0, 3, 0],
        &[0, 0x2A, 0],
        &[5, 6, 7, 0, 0, 0, 0, 0xBEEF_0007],
    );
    let handled = samples.add("handled", GOOD, "handled").slots(3).pool(4);
    handled.holds(&[0, 7, 7, 0], &[0, 1, 0, 0], &[0, 0, 0xBEEF_0002]);
}

/// Constants of every kind, at every place that may be theirs, with any value.
pub fn good_constants(samples: &mut Samples) {
    for (kind, size) in [("int", 1), ("float", 1), ("long", 2), ("double", 2)] {
        let last = 65536 - size;
        let mut good = |name: &str, constants: String, pool: usize| {
            let text = format!("LM; CD; {constants}; AR");
            samples
                .add(format!("{kind}_{name}"), GOOD, &text)
                .pool(pool);
        };
        good("at_1", format!("{kind} 1"), 12);
        good("at_5_first", format!("{kind} 5"), 12);
        good("after_a_gap", format!("KI; {kind} 6"), 12);
        good("after_a_long", format!("long 3; {kind} 5"), 12);
        good("after_a_double", format!("double 3; {kind} 5"), 12);
        good("at_256_after_255", format!("int 255; {kind} 256"), 300);
        good("at_513_after_258", format!("int 258; {kind} 513"), 600);
        good(&format!("at_{last}"), format!("{kind} {last}"), 65536);
        let row = format!("{kind} 1; {kind} {}; {kind} {}", 1 + size, 1 + 2 * size);
        good("three_in_a_row", row, 12);
        let zeros = "00".repeat(4 * size - 1);
        let all = "FF".repeat(4 * size);
        for value in [
            all,
            format!("{zeros}00"),
            format!("80{zeros}"),
            format!("{zeros}01"),
            "7F800001".repeat(size),
        ] {
            good(&format!("of_{value}"), format!("{kind} 2 {value}"), 12);
        }
    }
}

/// Constants at the last indices, and as many as a sheet of the program holds.
pub fn many_constants(samples: &mut Samples) {
    let text = "LM; CD; long 2 0102030405060708; AR";
    let low_first = samples
        .add("long_low_word_first", GOOD, text)
        .slots(6)
        .pool(5);
    low_first.holds(
        &[0, 0, 5, 0, 0],
        &[0, 0, 0x0506_0708, 0x0102_0304, 0],
        &[5, 6, 0, 0, 0, 0xBEEF_0005],
    );
    let text = "LM; CD; long 65533; int 65535; AR";
    samples
        .add("int_at_65535_after_long_at_65533", GOOD, text)
        .pool(65536);
    let text = "LM; CD; int 32767; int 32768; AR";
    samples
        .add("int_at_32768_after_32767", GOOD, text)
        .pool(40000);
    let ints: Vec<String> = (1..251).map(|k| format!("int {k} {k:08X}; ")).collect();
    samples
        .add(
            "ints_at_1_to_250",
            GOOD,
            &format!("LM; CD; {}AR", ints.concat()),
        )
        .pool(251);
    let longs: Vec<String> = (1..240)
        .step_by(2)
        .map(|k| format!("long {k} {k:016X}; "))
        .collect();
    samples
        .add(
            "longs_at_1_to_239",
            GOOD,
            &format!("LM; CD; {}AR", longs.concat()),
        )
        .pool(241);
}

/// Argument words, as words of a record.
fn words(from: u32, many: u32) -> String {
    let words: Vec<String> = (from..from + many).map(|word| word.to_string()).collect();
    format!("arguments {}", words.join(" "))
}

/// As many arguments as there are locals, one more, and none.
pub fn argument_counts(samples: &mut Samples) {
    for max_locals in [0, 1, 3, 256] {
        for (name, gives, arguments) in [
            ("all_of", GOOD, words(0x8000_0001, max_locals)),
            ("one_more_than", 27, words(0x8000_0000, max_locals + 1)),
            ("none_of", GOOD, words(0, 0)),
        ] {
            let text = format!("limits 2 {max_locals}; CD; KI; {arguments}");
            samples
                .add(format!("arguments_{name}_{max_locals}"), gives, &text)
                .slots(260);
        }
    }
    samples.add(
        "arguments_fit_stack_but_not_locals",
        27,
        "limits 3 1; CD; arguments 1 2",
    );
    let text = format!("limits 3 1; CD; {}", words(0, 64));
    samples.add("arguments_many_more", 27, &text).slots(300);
    let text = format!("limits 0 0; CD; arguments{}", " 1".repeat(256));
    samples.add("arguments_256_of_0", 27, &text).slots(300);
    let nans = [0x7F80_0001, 0xFFC0_0000, 1, 0xFFF0_0000];
    let sheet = [sizes(1, 4), record(b"CD", &[0x06, 0xAC]), arguments(&nans)].concat();
    let with_nans = samples
        .add_sheet("arguments_with_nan_words", GOOD, sheet)
        .slots(6);
    with_nans.holds(&[0; 12], &[0; 12], &[&nans[..], &[0, 0xBEEF_0005]].concat());
    let sheet = [
        sizes(1, 2),
        record(b"CD", &[0x06, 0xAC]),
        arguments(&[0x4152_0000, 0x4B49_0007]),
    ]
    .concat();
    samples.add_sheet("arguments_that_look_like_a_record", GOOD, sheet);
    let text = format!("limits 0 300; CD; {}", words(0, 300));
    samples.add("arguments_300", GOOD, &text).slots(300);
}

/// Bytes without a meaning.
fn any_code(length: u64) -> Vec<u8> {
    (0..length).map(|k| (k * k / 7 + k) as u8).collect()
}

fn int_at_1() -> Vec<u8> {
    constant(1, 3, &[0, 0, 0, 0x2A])
}

/// Codes of one byte, of more, and of bytes that look like something else.
pub fn codes(samples: &mut Samples) {
    let code = |bytes: &[u8]| record(b"CD", bytes);
    let (lm, ki, ar) = (sizes(2, 3), int_at_1(), arguments(&[5, 6]));
    samples.add("code_of_one_byte", GOOD, "LM; code B1; AR");
    samples.add(
        "code_of_one_byte_with_constants",
        GOOD,
        "LM; code 00; KI; AR",
    );
    for length in [255, 256, 257, 1000] {
        let sheet = [&lm[..], &code(&any_code(length)), &ki, &ar].concat();
        samples.add_sheet(format!("code_of_{length}_bytes"), GOOD, sheet);
    }
    samples.add("code_of_no_known_opcodes", GOOD, "LM; code FF FE BA CA; AR");
    let records = [&ki[..], &ar, &lm, &code(&[0x06, 0xAC])].concat();
    let sheet = [&lm[..], &code(&records), &ar].concat();
    samples.add_sheet("code_that_looks_like_records", GOOD, sheet);
    let sheet = [&lm[..], &code(&arguments(&[])), &arguments(&[])].concat();
    samples.add_sheet("code_equal_to_AR", GOOD, sheet);
}

/// Codes of 65,535 bytes, and arguments that nearly fill a record.
pub fn largest_records(samples: &mut Samples) {
    let (largest, ki, ar) = (any_code(65_535), int_at_1(), arguments(&[5, 6]));
    let lm = sizes(2, 3);
    let whole = [&lm[..], &record(b"CD", &largest)].concat();
    samples.add_sheet("code_largest", GOOD, [&whole[..], &ar].concat());
    let reversed: Vec<u8> = largest.iter().rev().copied().collect();
    let long = constant(65534, 5, &0x0123_4567_89AB_CDEF_u64.to_be_bytes());
    let sheet = [&lm[..], &record(b"CD", &reversed), &ki, &long, &ar].concat();
    samples
        .add_sheet("code_largest_with_constants", GOOD, sheet)
        .pool(65536);
    samples.add_sheet(
        "code_largest_one_byte_short",
        21,
        whole[..whole.len() - 1].to_vec(),
    );
    samples.add_sheet("code_largest_without_AR", 23, whole);
    let text = format!("limits 0 16382; CD; {}", words(0, 16383));
    samples
        .add("arguments_most_but_one_local_less", 27, &text)
        .slots(300);
}
