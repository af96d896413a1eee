//! The type that owns its memory.
#![forbid(unsafe_code)]

mod common;

use common::{accepted_samples, class, refused, sample, samples};
use common::{sheet, sheet_with, with_descriptor};
use workbook_host::records::{arguments, constant, handler, record, sizes};
use workbook_host::{load, source, Answer, End, Parts, Refusal, ReturnType, State, Value, Walk};

#[test]
fn a_walk_opens_what_a_load_accepts() {
    for sample in samples() {
        let refused = sample.printed.strip_prefix("sheet ");
        let number = Walk::open(sample.sheet)
            .err()
            .map(|refusal| refusal.number().to_string());
        assert_eq!(number.as_deref(), refused.map(str::trim), "{}", sample.name);
    }
}

#[test]
fn there_is_memory_for_every_sheet() {
    let long = constant(65_534, 5, &0x1122_3344_5566_7788_u64.to_be_bytes());
    // LDC2_W 65534, LRETURN.
    let code = record(b"CD", &[0x14, 0xFF, 0xFE, 0xAD]);
    let sheet = [sizes(65_535, 65_535), code, long, arguments(&[1])].concat();
    let mut walk = Walk::open(sheet).unwrap();
    assert_eq!((walk.locals().len(), walk.frame().len()), (65_535, 131_070));
    assert_eq!(walk.forward(), Answer::Granted);
    assert_eq!(walk.stack(), [0x5566_7788, 0x1122_3344]);
    assert_eq!(
        walk.forward(),
        Answer::Return(Value::Long(0x1122_3344_5566_7788))
    );
}

#[test]
fn a_walk_keeps_what_its_sheet_asks_for() {
    let walk = Walk::open(sheet(2, 3, &[0xB1], &[])).unwrap();
    let parts = walk.parts();
    let kept = (walk.frame().len(), parts.kinds.len(), parts.words.len());
    assert_eq!(kept, (5, 0, 0));

    // Indices may leave gaps, and a double takes two.
    let code = record(b"CD", &[0xB1]);
    let pool = [constant(3, 3, &[0; 4]), constant(7, 6, &[1; 8])].concat();
    let walk = Walk::open([sizes(0, 0), code, pool, arguments(&[])].concat()).unwrap();
    assert_eq!(walk.parts().kinds, [0, 0, 0, 3, 0, 0, 0, 6, 0]);
    assert_eq!(walk.parts().words.len(), 9);
}

/// What a load into the largest memory gives: the state, the frame, the code and the handlers, and the
/// pool up to the highest index, with zeros and nothing else after that.
type Opened = Result<(State, Vec<u32>, [Vec<u8>; 3], Vec<u32>), Refusal>;

fn loaded_in_the_largest_memory(sheet: &[u8], pool: usize) -> Opened {
    let (mut slots, mut kinds, mut words) = (vec![0; 131_070], vec![0; 65_536], vec![0; 65_536]);
    let loaded = load(sheet, &mut slots, &mut kinds, &mut words)?;
    slots.truncate(loaded.state.frame());
    assert!(kinds.drain(pool..).all(|kind| kind == 0));
    assert!(words.drain(pool..).all(|word| word == 0));
    let [code, handlers] = [loaded.code, loaded.handlers].map(|part| sheet[part].to_vec());
    Ok((loaded.state, slots, [code, kinds, handlers], words))
}

fn opened(sheet: &[u8]) -> Opened {
    let walk = Walk::open(sheet.to_vec())?;
    let Parts {
        code,
        kinds,
        words,
        handlers,
    } = walk.parts();
    let bytes = [code, kinds, handlers].map(<[u8]>::to_vec);
    Ok((walk.state(), walk.frame().to_vec(), bytes, words.to_vec()))
}

#[test]
fn a_walk_opens_as_if_its_memory_were_the_largest() {
    let named = samples()
        .into_iter()
        .map(|sample| (sample.name, sample.sheet));
    for (name, sheet) in named.chain([("careful".to_string(), careful(0))]) {
        for place in 0..sheet.len().min(80) {
            for byte in [0x00, 0x05, 0xFF] {
                let mut sheet = sheet.clone();
                sheet[place] = byte;
                let opened = opened(&sheet);
                let pool = opened.as_ref().map_or(0, |opened| opened.3.len());
                let expected = loaded_in_the_largest_memory(&sheet, pool);
                assert_eq!(opened, expected, "{name} with {byte} at {place}");
            }
        }
    }
}

#[test]
fn a_walk_shows_where_it_stands() {
    // BIPUSH -2, ISTORE_1, ILOAD_1, IRETURN.
    let code = [0x10, 0xFE, 0x3C, 0x1B, 0xAC];
    let mut walk = Walk::open(sheet(1, 3, &code, &[4, 5])).unwrap();
    assert_eq!((walk.pc(), walk.depth(), walk.count()), (0, 0, 0));
    assert_eq!((walk.locals(), walk.stack()), (&[4, 5, 0][..], &[][..]));
    assert_eq!(walk.next_instruction(), "bipush -2");
    assert_eq!(walk.forward(), Answer::Granted);
    assert_eq!((walk.pc(), walk.depth(), walk.count()), (2, 1, 1));
    assert_eq!(
        (walk.locals(), walk.stack()),
        (&[4, 5, 0][..], &[0xFFFF_FFFE][..])
    );
    assert_eq!(walk.next_instruction(), "istore_1");
    assert_eq!(walk.forward(), Answer::Granted);
    assert_eq!(
        (walk.locals(), walk.stack()),
        (&[4, 0xFFFF_FFFE, 0][..], &[][..])
    );
    // Popping changes no word, so the frame still has it above the top.
    assert_eq!(walk.frame(), [4, 0xFFFF_FFFE, 0, 0xFFFF_FFFE]);
    assert_eq!(walk.parts().code, code);
}

#[test]
fn a_walk_of_a_descriptor_goes_forward_back_and_by_runs() {
    // LLOAD_0, L2I, IRETURN: the low word of the first of two arguments.
    let sheet = sheet(2, 3, &[0x1E, 0x88, 0xAC], &[0x0102_0380, 7, 9]);
    let start = Walk::open(with_descriptor(b"(JI)B", &sheet)).unwrap();
    let mut walk = start.clone();
    assert_eq!(walk.return_type(), ReturnType::BYTE);
    let byte = Value::Int(-128);
    for _ in 0..2 {
        assert_eq!(
            [walk.forward(), walk.forward(), walk.forward()],
            [Answer::Granted, Answer::Granted, Answer::Return(byte)]
        );
        assert_eq!(walk.stack(), [0x0102_0380]);
        assert_eq!(walk.state().return_type, ReturnType::BYTE);
        assert_eq!(
            [walk.back(), walk.back(), walk.back()],
            [Answer::Granted, Answer::Granted, refused(13)]
        );
        assert_eq!(
            (walk.state(), walk.frame()),
            (start.state(), &[0x0102_0380, 7, 9, 0, 0][..])
        );
    }
    let reached = start.run(u64::MAX);
    assert_eq!((reached.ran.end, reached.ran.steps), (End::Return(byte), 2));
    assert_eq!(reached.state.return_type, ReturnType::BYTE);
    // An argument word too few, and a return type that IRETURN does not suit.
    let few = Walk::open(with_descriptor(b"(JJ)B", &sheet));
    assert_eq!(few.err(), Some(Refusal::SHEET_DESCRIPTOR));
    let long = Walk::open(with_descriptor(b"(JI)J", &sheet)).unwrap();
    assert_eq!(long.run(9).ran.end, End::Refused(Refusal::RETURN_TYPE));
}

/// Divides 5 by an argument, and gives -1 where that is 0.
fn careful(divisor: i32) -> Vec<u8> {
    let source = format!(
        "# gives -1 where it would divide by 0
        max_stack 2
        max_locals 1
        constant 1 class yes
        handler divide caught caught 1
        argument int {divisor}
        code
        divide: iconst_5; iload_0; idiv; ireturn
        caught: pop; iconst_m1; ireturn"
    );
    source::sheet(&source).unwrap()
}

#[test]
fn a_caught_division_is_a_step_like_any_other() {
    let mut walk = Walk::open(careful(0)).unwrap();
    assert_eq!(walk.parts().handlers, handler([0, 4, 4, 1]));
    for _ in 0..2 {
        assert_eq!([walk.forward(), walk.forward()], [Answer::Granted; 2]);
        assert_eq!(
            (walk.next_instruction(), walk.stack()),
            ("idiv".to_string(), &[5, 0][..])
        );
        assert_eq!(walk.forward(), Answer::Granted);
        // The word that stands for the exception, and nothing else.
        assert_eq!((walk.pc(), walk.stack(), walk.count()), (4, &[1][..], 3));
        assert_eq!(walk.next_instruction(), "pop");
        assert_eq!(
            [walk.back(), walk.back(), walk.back()],
            [Answer::Granted; 3]
        );
        assert_eq!((walk.pc(), walk.frame()), (0, &[0, 0, 0][..]));
        assert_eq!(walk.back(), refused(13));
    }
    let reached = walk.run(u64::MAX);
    assert_eq!(
        (reached.ran.end, reached.ran.steps),
        (End::Return(Value::Int(-1)), 5)
    );
    // Another argument, and another class.
    let reached = Walk::open(careful(2)).unwrap().run(u64::MAX);
    assert_eq!(
        (reached.ran.end, reached.ran.steps),
        (End::Return(Value::Int(2)), 3)
    );
    let code = [0x04, 0x03, 0x6C, 0xAC];
    let records = [class(1, 0), handler([0, 4, 3, 1])];
    let uncaught = Walk::open(sheet_with(2, 0, &code, &records)).unwrap();
    assert_eq!(uncaught.run(9).ran.end, End::Throw);
}

#[test]
fn a_class_may_have_the_last_index() {
    // ICONST_1, ICONST_0, IREM, IRETURN.
    let records = [class(65_535, 1), handler([0, 4, 3, 65_535])];
    let sheet = sheet_with(2, 0, &[0x04, 0x03, 0x70, 0xAC], &records);
    let walk = Walk::open(sheet).unwrap();
    assert_eq!(walk.parts().kinds.len(), 65_536);
    assert_eq!(walk.run(9).ran.end, End::Return(Value::Int(1)));
}

#[test]
fn a_log_grows_as_far_as_the_walk_goes() {
    let mut walk = Walk::open(sample("endless").sheet).unwrap();
    let mut stages = vec![(walk.state(), walk.frame().to_vec())];
    for _ in 0..1_000 {
        assert_eq!(walk.forward(), Answer::Granted);
        stages.push((walk.state(), walk.frame().to_vec()));
    }
    for (state, frame) in stages.iter().rev() {
        assert_eq!((walk.state(), walk.frame()), (*state, &frame[..]));
        let expected = if state.count == 0 {
            refused(13)
        } else {
            Answer::Granted
        };
        assert_eq!(walk.back(), expected);
    }
}

#[test]
fn a_log_of_a_given_length_ends() {
    for entries in [0, 1, 7, 65] {
        let mut walk = Walk::open_with_log(sample("endless").sheet, entries).unwrap();
        for _ in 0..entries {
            assert_eq!(walk.forward(), Answer::Granted);
        }
        assert_eq!(walk.forward(), refused(12));
        assert_eq!(walk.count(), entries as u64);
    }
}

#[test]
fn a_run_is_made_on_a_copy() {
    for sample in accepted_samples() {
        let start = Walk::open(sample.sheet).unwrap();
        let mut walk = start.clone();
        let mut steps = 0;
        while steps < 50 && walk.forward() == Answer::Granted {
            steps += 1;
            let reached = start.run(steps);
            assert_eq!((reached.ran.end, reached.ran.steps), (End::Stopped, steps));
            assert_eq!(
                (reached.state.pc, reached.state.depth),
                (walk.pc(), walk.depth())
            );
            assert_eq!((&reached.frame[..], reached.state.count), (walk.frame(), 0));
            assert_eq!((start.count(), walk.count()), (0, steps));
        }
        // From where the walk stands.
        let rest = walk.run(65_535);
        let whole = start.run(rest.ran.steps + steps);
        assert_eq!(
            (rest.state, rest.frame),
            (whole.state, whole.frame),
            "{}",
            sample.name
        );
    }
}

#[test]
fn walks_can_go_to_other_threads() {
    let walks = [sample("loop"), sample("endless"), sample("ldc")];
    let handles = walks.map(|sample| {
        std::thread::spawn(move || {
            let mut walk = Walk::open(sample.sheet).unwrap();
            (0..40).map(|_| walk.forward()).collect::<Vec<_>>()
        })
    });
    let [loops, endless, constants] = handles.map(|handle| handle.join().unwrap());
    assert_eq!(loops.last(), Some(&Answer::Return(Value::Int(10))));
    assert_eq!(endless.last(), Some(&Answer::Granted));
    let double = Value::Double(0x4202_A06B_5506_0000);
    assert_eq!(constants.last(), Some(&Answer::Return(double)));
}

#[test]
fn a_method_of_the_largest_code_is_walked() {
    // 65,534 NOPs, then RETURN.
    let mut code = vec![0; 65_535];
    code[65_534] = 0xB1;
    let walk = Walk::open(sheet(0, 0, &code, &[])).unwrap();
    let reached = walk.run(u64::MAX);
    assert_eq!(
        (reached.ran.end, reached.ran.steps),
        (End::Return(Value::Void), 65_534)
    );
}
