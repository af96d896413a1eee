//! Sheets with a wrong record: 21 to 25 in every place, and records after the last.

use super::records::BEGINNINGS;
use super::Samples;

/// 21 to 25.
pub fn all(samples: &mut Samples) {
    cut_records(samples);
    unknown_marks(samples);
    nearly_right_marks(samples);
    wrong_orders(samples);
    missing_records(samples);
    wrong_lengths(samples);
    wrong_argument_lengths(samples);
    wrong_tags(samples);
    wrong_indices(samples);
    last_indices(samples);
}

/// 21: fewer than four bytes, or a body that ends too late, under known and unknown marks.
fn cut_records(samples: &mut Samples) {
    for (place, beginning) in BEGINNINGS {
        for length in [1, 2, 3] {
            samples.add(
                format!("zeros_{length}_{place}"),
                21,
                &format!("{beginning}; zeros {length}"),
            );
        }
        for mark in ["LM", "DS", "CD", "KI", "EX", "AR", "XX"] {
            samples.add(
                format!("{mark}_one_byte_short_{place}"),
                21,
                &format!("{beginning}; cut {mark} 3 4"),
            );
        }
        samples.add(
            format!("longest_body_missing_{place}"),
            21,
            &format!("{beginning}; cut KI 11 65535"),
        );
    }
}

/// 22, at each place.
fn unknown_marks(samples: &mut Samples) {
    for (place, beginning) in BEGINNINGS {
        samples.add(
            format!("four_zeros_{place}"),
            22,
            &format!("{beginning}; zeros 4"),
        );
        for mark in ["XX", "SD", "lm", "ds", "cd", "ki", "ar"] {
            samples.add(
                format!("unknown_{mark}_{place}"),
                22,
                &format!("{beginning}; empty {mark} 4"),
            );
        }
    }
}

/// 22: marks that are nearly right.
fn nearly_right_marks(samples: &mut Samples) {
    let marks: [(&str, &[&str], &str, &str); 6] = [
        (
            "LM",
            &["Lm", "lM", "ML", "LD", "LR", "L_", "_M"],
            "",
            "00020003; CD; AR",
        ),
        (
            "DS",
            &["Ds", "dS", "DD", "SS", "DM", "LS", "CS"],
            "LM",
            "28494929 49; CD; AR",
        ),
        ("CD", &["Cd", "cD", "DC", "CM", "CI"], "LM", "06AC; AR"),
        (
            "KI",
            &["Ki", "kI", "IK", "KD", "KR"],
            "LM; CD",
            "0001030000002A; AR",
        ),
        (
            "EX",
            &["Ex", "eX", "XE", "EK", "AX", "EI"],
            "LM; CD; KI",
            "0000000200010000; AR",
        ),
        (
            "AR",
            &["Ar", "aR", "RA", "AI", "AM"],
            "LM; CD",
            "0000000500000006",
        ),
    ];
    for (right, wrong, before, after) in marks {
        for mark in wrong {
            samples.add(
                format!("unknown_{mark}_for_{right}"),
                22,
                &format!("{before}; record {mark} {after}"),
            );
        }
    }
}

const ALL: [&str; 6] = ["LM", "DS", "CD", "KI", "EX", "AR"];

/// 23: a record at a wrong place.
fn wrong_orders(samples: &mut Samples) {
    let places: [(&str, &str, &[&str]); 13] = [
        ("first", "", &["DS", "CD", "KI", "EX", "AR"]),
        ("after_lm", "LM", &["LM", "KI", "EX", "AR"]),
        ("after_ds", "LM; DS", &["LM", "DS", "KI", "EX", "AR"]),
        ("after_cd", "LM; CD", &["LM", "DS", "CD"]),
        ("after_ds_cd", "LM; DS; CD", &["LM", "DS", "CD"]),
        ("after_ki", "LM; CD; KI", &["LM", "DS", "CD"]),
        ("after_ds_ki", "LM; DS; CD; KI", &["LM", "DS", "CD"]),
        ("after_ex", "LM; CD; EX", &["LM", "DS", "CD", "KI"]),
        (
            "after_ki_ex",
            "LM; CD; KI; EX; EX",
            &["LM", "DS", "CD", "KI"],
        ),
        ("after_ar", "LM; CD; KI; AR", &ALL),
        ("after_ex_ar", "LM; CD; KI; EX; AR", &["KI", "EX", "AR"]),
        ("after_cd_ar", "LM; CD; AR", &ALL),
        ("after_ds_cd_ar", "LM; DS; CD; AR", &ALL),
    ];
    for (place, beginning, marks) in places {
        for mark in marks {
            let good = match *mark {
                "KI" => "int 2",
                "AR" => "arguments 7",
                mark => mark,
            };
            samples.add(
                format!("{mark}_{place}"),
                23,
                &format!("{beginning}; {good}"),
            );
            samples.add(
                format!("{mark}_{place}_then_more"),
                23,
                &format!("{beginning}; {good}; LM; CD; KI; AR"),
            );
            samples.add(
                format!("{mark}_{place}_empty"),
                23,
                &format!("{beginning}; empty {mark} 0"),
            );
        }
    }
}

/// 23: records that are missing, and at the end.
fn missing_records(samples: &mut Samples) {
    for (name, text) in [
        ("without_LM", "CD; KI; AR"),
        ("without_CD", "LM; KI; AR"),
        ("without_AR", "LM; CD; KI"),
        ("without_LM_with_DS", "DS; CD; KI; AR"),
        ("without_CD_with_DS", "LM; DS; KI; AR"),
        ("DS_before_LM", "DS; LM; CD; AR"),
        ("DS_before_AR", "LM; CD; DS; AR"),
        ("DS_between_KI", "LM; CD; KI; DS; int 2; AR"),
        ("DS_last", "LM; CD; AR; DS"),
        ("DS_twice", "LM; DS; DS; CD; AR"),
        ("DS_twice_and_other", "LM; DS; descriptor ()V; CD; AR"),
        ("DS_before_and_after_CD", "LM; DS; CD; DS; AR"),
        ("only_AR", "arguments"),
        ("AR_between_KI", "LM; CD; KI; AR; int 2"),
        ("AR_twice_without_arguments", "LM; CD; arguments; arguments"),
        ("ends_at_once", ""),
        ("ends_after_LM", "LM"),
        ("ends_after_DS", "LM; DS"),
        ("ends_after_CD", "LM; CD"),
        ("ends_after_DS_and_CD", "LM; DS; CD"),
        ("ends_after_DS_and_KI", "LM; DS; CD; KI"),
        ("ends_after_KI", "LM; CD; KI"),
        ("ends_after_two_KI", "LM; CD; KI; double 7"),
        ("ends_after_EX", "LM; CD; KI; EX"),
        ("EX_between_KI", "LM; CD; KI; EX; int 2; AR"),
        (
            "EX_between_classes",
            "LM; CD; class 1; handler 0 2 1 1; class 2; AR",
        ),
        ("EX_between_LM_and_CD", "LM; EX; CD; AR"),
        ("EX_before_its_class", "LM; CD; EX; class 1; AR"),
        ("EX_last", "LM; CD; AR; EX"),
    ] {
        samples.add(name, 23, text);
    }
}

/// 24, with the rest of the sheet right.
fn wrong_lengths(samples: &mut Samples) {
    for length in [0, 1, 2, 3, 5, 8, 260] {
        samples.add(
            format!("LM_of_{length}"),
            24,
            &format!("empty LM {length}; CD; AR"),
        );
    }
    samples.add("CD_of_0", 24, "LM; code; KI; AR");
    samples.add("CD_of_0_then_AR", 24, "LM; code; AR");
    samples.add("CD_of_0_after_DS", 24, "LM; DS; code; AR");
    for length in [0, 1, 2, 3, 4, 5, 6, 8, 9, 10, 12, 15, 263] {
        let digits = format!("000103{}", "00".repeat(length));
        let record = format!("record KI {}", &digits[..2 * length]);
        samples.add(
            format!("KI_of_{length}"),
            24,
            &format!("LM; CD; {record}; AR"),
        );
    }
    for length in [6, 8, 10, 12] {
        let record = format!("record KI 000205{}", "01".repeat(length - 3));
        samples.add(
            format!("KI_long_of_{length}"),
            24,
            &format!("LM; CD; KI; {record}; AR"),
        );
    }
}

/// 24 of `AR`, after a constant, after the code, and with a descriptor.
fn wrong_argument_lengths(samples: &mut Samples) {
    for length in [1, 2, 3, 5, 6, 7, 9, 10, 11, 257] {
        samples.add(
            format!("AR_of_{length}"),
            24,
            &format!("LM; CD; KI; empty AR {length}"),
        );
        samples.add(
            format!("AR_of_{length}_without_KI"),
            24,
            &format!("LM; CD; empty AR {length}"),
        );
        samples.add(
            format!("AR_of_{length}_with_DS"),
            24,
            &format!("LM; DS; CD; empty AR {length}"),
        );
    }
}

/// 25: tags that do not suit the length.
fn wrong_tags(samples: &mut Samples) {
    for tag in [0, 1, 2, 5, 6, 7, 8, 12, 131, 255] {
        samples.add(
            format!("tag_{tag}_with_7"),
            25,
            &format!("LM; CD; entry 1 {tag} 11223344; AR"),
        );
    }
    for tag in [0, 1, 2, 3, 4, 7, 8, 12, 133, 255] {
        samples.add(
            format!("tag_{tag}_with_11"),
            25,
            &format!("LM; CD; entry 1 {tag} 1122334455667788; AR"),
        );
    }
    samples.add("tag_0_second", 25, "LM; CD; KI; entry 2 0 11223344; AR");
    samples.add(
        "tag_5_with_7_second",
        25,
        "LM; CD; KI; entry 2 5 11223344; AR",
    );
    samples.add(
        "tag_3_with_11_second",
        25,
        "LM; CD; KI; entry 2 3 1122334455667788; AR",
    );
}

/// 25: indices that are 0, used, or below one that is used.
fn wrong_indices(samples: &mut Samples) {
    for kind in ["int", "float", "long", "double", "class"] {
        let mut wrong = |name: &str, constants: String, pool: usize| {
            let text = format!("LM; CD; {constants}; AR");
            samples.add(format!("{kind}_{name}"), 25, &text).pool(pool);
        };
        wrong("at_0", format!("{kind} 0"), 12);
        wrong("at_0_second", format!("KI; {kind} 0"), 12);
        wrong("at_the_same_as_an_int", format!("int 3; {kind} 3"), 12);
        wrong("below_an_int", format!("int 4; {kind} 2"), 12);
        wrong("at_the_same_as_a_long", format!("long 3; {kind} 3"), 12);
        wrong("at_the_second_of_a_long", format!("long 3; {kind} 4"), 12);
        wrong(
            "at_the_second_of_a_double",
            format!("double 3; {kind} 4"),
            12,
        );
        wrong("just_below_a_long", format!("long 3; {kind} 2"), 12);
        wrong("at_255_after_256", format!("int 256; {kind} 255"), 300);
        wrong("at_1_after_65535", format!("int 65535; {kind} 1"), 65536);
        wrong("twice_at_1", format!("{kind} 1; {kind} 1"), 12);
        wrong(
            "at_1_after_others",
            format!("int 1; int 2; long 3; {kind} 1"),
            12,
        );
    }
}

/// 25: indices at the end of 16 bits.
fn last_indices(samples: &mut Samples) {
    for (name, constants, pool) in [
        ("long_at_65535", "long 65535", 65536),
        ("double_at_65535", "double 65535", 65536),
        ("long_at_65535_more_lent", "long 65535", 65600),
        ("long_at_65535_less_lent", "long 65535", 12),
        ("int_at_65535_after_long", "long 65534; int 65535", 65536),
        ("int_at_65535_twice", "int 65535; int 65535", 65536),
        (
            "long_at_65534_after_an_int_there",
            "int 65534; long 65534",
            65536,
        ),
    ] {
        samples
            .add(name, 25, &format!("LM; CD; {constants}; AR"))
            .pool(pool);
    }
}

/// Bytes after a good sheet are a record like any other.
pub fn bytes_after(samples: &mut Samples) {
    for good in ["printed", "rich", "typed"] {
        for (length, gives) in [(1, 21), (2, 21), (3, 21), (4, 22), (5, 22), (8, 22)] {
            samples.add(
                format!("{good}_and_{length}_zeros"),
                gives,
                &format!("{good}; zeros {length}"),
            );
        }
        let many: Vec<String> = (0..20).map(|word| word.to_string()).collect();
        let many = format!("arguments {}", many.join(" "));
        for (name, gives, text) in [
            ("and_a_line_feed", 21, "bytes 0A"),
            ("twice", 23, good),
            ("and_AR", 23, "arguments"),
            ("and_AR_of_5", 23, "empty AR 5"),
            ("and_AR_of_many", 23, &many),
            ("and_KI", 23, "int 10"),
            ("and_wrong_KI", 23, "int 0"),
            ("and_EX", 23, "EX"),
            ("and_wrong_EX", 23, "handler 1 1 0 0"),
            ("and_DS", 23, "DS"),
            ("and_bad_DS", 23, "descriptor V"),
            ("and_CD", 23, "CD"),
            ("and_empty_CD", 23, "code"),
            ("and_LM", 23, "LM"),
            ("and_cut_AR", 21, "cut AR 0 4"),
            ("and_unknown", 22, "empty ZZ 2"),
            ("and_cut_unknown", 21, "cut ZZ 2 3"),
        ] {
            samples.add(format!("{good}_{name}"), gives, &format!("{good}; {text}"));
        }
    }
}
