//! 26: the lent memory reaches or does not.

use super::{Samples, GOOD};

/// Slots, and then kinds and words.
pub fn all(samples: &mut Samples) {
    slots(samples);
    frames(samples);
    pools_that_reach(samples);
    pools_without_constants(samples);
    longest_pools(samples);
    last_pools(samples);
}

/// Slots beyond the frame stay.
fn slots(samples: &mut Samples) {
    let seven = "limits 3 4; CD; KI; arguments 8 9";
    for slots in [0, 1, 3, 4, 6] {
        samples
            .add(format!("slots_{slots}_of_7"), 26, seven)
            .slots(slots);
    }
    for slots in [7, 8, 9, 300] {
        samples
            .add(format!("slots_{slots}_for_7"), GOOD, seven)
            .slots(slots);
    }
    let none = "limits 0 0; CD; arguments";
    let empty = samples.add("frame_of_0_slots_0", GOOD, none).slots(0);
    empty.holds(&[0; 12], &[0; 12], &[]);
    let two = samples.add("frame_of_0_slots_2", GOOD, none).slots(2);
    two.holds(&[0; 12], &[0; 12], &[0xBEEF_0000, 0xBEEF_0001]);
    for (name, limits) in [("stack", "limits 1 0"), ("locals", "limits 0 1")] {
        for (slots, gives) in [(0, 26), (1, GOOD), (2, GOOD)] {
            let text = format!("{limits}; CD; arguments");
            samples
                .add(format!("only_{name}_1_slots_{slots}"), gives, &text)
                .slots(slots);
        }
    }
}

/// Frames of two sizes that need as many slots as the program has, one more, and more than 16 bits count.
fn frames(samples: &mut Samples) {
    let mut frame = |max_stack: usize, max_locals: usize, slots: usize, gives: u32| {
        let name = format!("frame_of_{max_stack}_and_{max_locals}_slots_{slots}");
        let text = format!("limits {max_stack} {max_locals}; CD; arguments");
        samples.add(name, gives, &text).slots(slots);
    };
    for (max_stack, max_locals) in [(300, 0), (0, 300), (256, 44), (44, 256), (299, 1), (1, 299)] {
        frame(max_stack, max_locals, 300, GOOD);
        frame(max_stack, max_locals, 299, 26);
    }
    for (max_stack, max_locals) in [
        (300, 1),
        (1, 300),
        (65535, 0),
        (0, 65535),
        (65535, 1),
        (1, 65535),
        (32768, 32768),
        (65535, 65535),
        (65535, 10),
    ] {
        frame(max_stack, max_locals, 300, 26);
        frame(max_stack, max_locals, 0, 26);
    }
}

/// A pool of these constants in so many kinds and words.
fn pool(
    samples: &mut Samples,
    name: &str,
    gives: u32,
    (kinds, words): (usize, usize),
    constants: &str,
) {
    let text = format!("LM; CD; {constants}; AR");
    let name = format!("{name}_pool_{kinds}_{words}");
    samples.add(name, gives, &text).pool(kinds).words(words);
}

/// Kinds and words just as long as the highest index needs, shorter and longer, and not equally long.
fn pools_that_reach(samples: &mut Samples) {
    for (name, constants, used) in [
        ("int_at_5", "int 5", 5),
        ("float_at_5", "float 5", 5),
        ("long_at_5", "long 5", 6),
        ("double_at_5", "double 5", 6),
        ("int_1_long_2", "int 1; long 2", 3),
        ("long_1_int_9", "long 1; int 9", 9),
        ("class_at_5", "class 5; handler 0 1 0 5", 5),
    ] {
        for length in [0, 1, used - 1, used] {
            pool(samples, name, 26, (length, length), constants);
        }
        for length in [used + 1, used + 2, 1000] {
            pool(samples, name, GOOD, (length, length), constants);
        }
        let (one, two) = (used + 1, used + 2);
        for lengths in [
            (used, one),
            (one, used),
            (one, two),
            (two, one),
            (one, 0),
            (0, one),
        ] {
            pool(samples, name, 26, lengths, constants);
        }
    }
}

fn pools_without_constants(samples: &mut Samples) {
    for length in [0, 1, 2, 257, 65535, 65536] {
        pool(samples, "no_constants", GOOD, (length, length), "");
    }
    for lengths in [
        (0, 1),
        (1, 0),
        (2, 1),
        (300, 301),
        (65535, 65536),
        (65536, 65535),
        (65536, 65537),
        (65537, 65536),
        (65537, 65537),
        (65600, 65600),
        (65600, 0),
        (65536, 0),
        (0, 65536),
    ] {
        pool(samples, "no_constants", 26, lengths, "");
    }
}

fn longest_pools(samples: &mut Samples) {
    for (name, constant) in [
        ("int_at_1", "int 1"),
        ("int_at_65535", "int 65535"),
        ("long_at_65534", "long 65534"),
    ] {
        for lengths in [
            (65536, 65537),
            (65537, 65536),
            (65537, 65537),
            (65600, 65600),
        ] {
            pool(samples, name, 26, lengths, constant);
        }
    }
    for (name, constant) in [
        ("int_at_65535", "int 65535"),
        ("float_at_65535", "float 65535"),
        ("long_at_65534", "long 65534"),
        ("double_at_65534", "double 65534"),
    ] {
        for lengths in [
            (65534, 65534),
            (65535, 65535),
            (65535, 65536),
            (65536, 65535),
        ] {
            pool(samples, name, 26, lengths, constant);
        }
    }
}

/// Pools that just reach, and both memories too short.
fn last_pools(samples: &mut Samples) {
    pool(samples, "long_at_65533", GOOD, (65535, 65535), "long 65533");
    pool(samples, "int_at_65534", GOOD, (65535, 65535), "int 65534");
    pool(samples, "int_at_1", GOOD, (65536, 65536), "int 1");
    samples
        .add("slots_and_pool_short", 26, "LM; CD; KI; AR")
        .slots(4)
        .pool(1);
    samples
        .add("slots_short_pool_unequal", 26, "LM; CD; KI; AR")
        .slots(4)
        .pool(3)
        .words(2);
}
