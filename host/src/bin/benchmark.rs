//! `benchmark [MILLIONS [LOOP]]`: how fast the exported library is. It measures and prints, and
//! judges nothing. MILLIONS of instructions are run in each loop, 50 if it is left out; with the
//! name of a LOOP that loop is run and nothing else.
//!
//! Where ORIGINAL in the environment names the Rust loop, built from ../shared/oracle/original, its
//! own benchmark runs first: the same loops with as many turns. The results are compared, and the
//! ratio of the times is printed.

#![forbid(unsafe_code)]

use std::ffi::OsStr;
use std::hint::black_box;
use std::process::Command;
use std::sync::OnceLock;
use std::time::Instant;
use std::{env, fs};
use workbook_host::{back, forward, load, presses, run, Parts, Press, State};

/// How often each measurement is taken; the best counts.
const REPETITIONS: usize = 5;
/// Entries of the log, and presses of a list.
const ENTRIES: usize = 4_000;
/// How often a measurement of presses makes them all.
const ROUNDS: usize = 2_500;
/// How often a measurement of the load loads the large sheet.
const LOADS: usize = 100;

/// A loop of the Rust loop's own benchmark, as `original --loops` prints its sheet: the name, the
/// instructions in one turn, the instructions outside of the turns (the return is one of them), and
/// the sheet in hexadecimal. Local 0 counts the turns and local 1 holds how many there are.
type Loop = (&'static str, u64, u64, &'static str);

const LOOPS: [Loop; 3] = [
    // do { acc = (acc + i) ^ x; i++; } while (i < n); return acc;
    (
        "int",
        10,
        2,
        "4C4D000400020004434400101C1A601D823D8400011A1BA1FFF51CAC4152001000000000000F424000000001\
         5BD1E995",
    ),
    // do { a = a * 31L + i; d = d * 0.5 + 1.0; i++; } while (i < n); return a + d;
    (
        "long/double",
        17,
        5,
        "4C4D0004000400064344002120140001691A85614118041400036B0F6339048400011A1BA1FFE8208A180463\
         AF4B49000B000105000000000000001F4B49000B0003063FE00000000000004152001800000000000F424000\
         000007000000000000000000000000",
    ),
    // do { switch (i & 3) { case 0: acc += i; break; case 1: acc ^= i; break; case 2: acc -= i;
    // break; case 3: acc |= i; break; case 4: acc &= i; break; default: acc = 0; } i++; }
    // while (i < n); return acc;
    (
        "tableswitch",
        13,
        3,
        "4C4D00040002000343440057001A067EAA000000000000470000000000000004000000240000002B00000032\
         00000039000000401C1A603DA700211C1A823DA7001A1C1A643DA700131C1A803DA7000C1C1A7E3DA7000503\
         3D8400011A1BA1FFAF1CAC4152000C00000000000F424000000000",
    ),
];

fn main() {
    let millions = env::args().nth(1).unwrap_or("50".to_string());
    let millions: u64 = millions.parse().expect("millions of instructions");
    let only = env::args().nth(2);
    let clock = match processor_time() {
        Some(_) => "processor time of this process",
        None => "time on the clock",
    };
    println!("{clock}, best of {REPETITIONS}");

    let original = env::var_os("ORIGINAL").map(|path| original_bench(&path, millions));
    println!("\nrun, nanoseconds per ordinary step");
    println!("loop              steps    here    Rust   ratio");
    for (i, l) in LOOPS.iter().enumerate() {
        if only.as_ref().is_some_and(|name| name != l.0) {
            continue;
        }
        let turns = (millions * 1_000_000 / l.1).max(1) as u32;
        let (steps, each, result) = run_loop(l, turns);
        print!("{:12} {steps:10} {each:7.2}", l.0);
        if let Some(lines) = &original {
            let (their_each, their_result) = &lines[i];
            assert_eq!(&result, their_result, "the values are not the same");
            print!(" {their_each:7.2} {:7.2}", each / their_each);
        }
        println!();
    }
    if only.is_some() {
        return;
    }

    println!("\npresses, millions per second, {ENTRIES} entries of log");
    for (name, each) in press_times() {
        println!("{name:24} {:7.1}", 1e3 / each);
    }

    let sheet = large_sheet();
    let rate = sheet.len() as f64 * 1e3 / load_time(&sheet);
    println!("\nload, megabytes per second, {} bytes", sheet.len());
    println!("{:24} {rate:7.1}", "the large sheet");
}

/// Nanoseconds that Linux has given this process on a processor, so that other programs matter
/// less. They are brought up to date some hundred times a second.
fn processor_time() -> Option<f64> {
    let text = fs::read_to_string("/proc/self/schedstat").ok()?;
    text.split(' ').next()?.parse().ok()
}

/// Nanoseconds, of processor time where there is such a count.
fn now() -> f64 {
    static START: OnceLock<Instant> = OnceLock::new();
    let start = START.get_or_init(Instant::now);
    processor_time().unwrap_or_else(|| start.elapsed().as_nanos() as f64)
}

/// The nanoseconds that the work takes, which should be some tenths of a second.
fn best(mut work: impl FnMut()) -> f64 {
    let time = |_| {
        let start = now();
        work();
        now() - start
    };
    (0..REPETITIONS).map(time).fold(f64::INFINITY, f64::min)
}

/// A loaded loop: what its calls are lent, and the state and the slots at its start. The memory is
/// kept to the program's end.
fn method(l: &Loop, turns: u32) -> (Parts<'static>, State, Vec<u32>) {
    let byte = |at| u8::from_str_radix(&l.3[at..at + 2], 16).expect("digits");
    let sheet: Vec<u8> = (0..l.3.len()).step_by(2).map(byte).collect();
    let (mut slots, kinds, words) = (vec![0; 16], vec![0; 8].leak(), vec![0; 8].leak());
    let loaded = load(&sheet, &mut slots, kinds, words).expect("a sheet");
    slots[1] = turns;
    let sheet = sheet.leak();
    let parts = Parts {
        code: &sheet[loaded.code],
        kinds,
        words,
        handlers: &sheet[loaded.handlers],
    };
    (parts, loaded.state, slots)
}

/// The ordinary steps of a loop, nanoseconds for each, and the value that is returned, in
/// hexadecimal.
fn run_loop(l: &Loop, turns: u32) -> (u64, f64, String) {
    let (parts, start, first_slots) = method(l, turns);
    let steps = u64::from(turns) * l.1 + l.2 - 1;
    let (mut state, mut slots) = (start, first_slots.clone());
    let time = best(|| {
        state = start;
        slots.copy_from_slice(&first_slots);
        let ran = run(parts, &mut slots, &mut state, u64::MAX);
        assert_eq!(ran.steps, steps, "the loop ended elsewhere");
    });
    // The run stands at the return, with its value on top of the stack, a double's low word first.
    let locals = usize::from(state.max_locals);
    let stack = &slots[locals..locals + state.depth as usize];
    let result = stack.iter().rev().map(|word| format!("{word:08X}"));
    (steps, time / steps as f64, result.collect())
}

/// Nanoseconds per press: forward from the start, and back from where that ends.
fn press_times() -> [(&'static str, f64); 4] {
    let (parts, state, slots) = method(&LOOPS[0], 1_000_000);
    let start = (state, slots);
    let mut log = vec![0; 10 * ENTRIES];

    let forward_one = presses_time(&start, ENTRIES, |state, slots| {
        for _ in 0..ENTRIES {
            let _ = black_box(forward(parts, slots, &mut log, state));
        }
    });
    let list = [Press::Forward; ENTRIES];
    let forward_list = presses_time(&start, ENTRIES, |state, slots| {
        black_box(presses(parts, slots, &mut log, state, &list));
    });

    let mut end = start;
    let answers = presses(parts, &mut end.1, &mut log, &mut end.0, &list);
    assert_eq!(answers.len(), ENTRIES, "a press has no answer");
    let back_one = presses_time(&end, 0, |state, slots| {
        for _ in 0..ENTRIES {
            let _ = black_box(back(parts, slots, &log, state));
        }
    });
    let list = [Press::Back; ENTRIES];
    let back_list = presses_time(&end, 0, |state, slots| {
        black_box(presses(parts, slots, &mut log, state, &list));
    });
    [
        ("forward, one at a time", forward_one),
        ("forward, as a list", forward_list),
        ("back, one at a time", back_one),
        ("back, as a list", back_list),
    ]
}

/// Nanoseconds per press of work that makes ENTRIES presses and ends at a count.
fn presses_time(
    from: &(State, Vec<u32>),
    count: usize,
    mut work: impl FnMut(&mut State, &mut [u32]),
) -> f64 {
    let mut slots = from.1.clone();
    let time = best(|| {
        for _ in 0..ROUNDS {
            let mut state = from.0;
            slots.copy_from_slice(&from.1);
            work(&mut state, &mut slots);
            assert_eq!(state.count, count as u64, "a press was refused");
        }
    });
    time / (ROUNDS * ENTRIES) as f64
}

/// Nanoseconds per load of a sheet.
fn load_time(sheet: &[u8]) -> f64 {
    let (mut slots, mut kinds, mut words) = (vec![0; 1 << 17], vec![0; 1 << 16], vec![0; 1 << 16]);
    let time = best(|| {
        for _ in 0..LOADS {
            let loaded = load(sheet, &mut slots, &mut kinds, &mut words).expect("a sheet");
            assert_eq!(loaded.code.len(), 65_535);
        }
    });
    time / LOADS as f64
}

/// A sheet with the longest code, a constant at every index (ints and longs in turn) and the most
/// arguments that a record holds.
fn large_sheet() -> Vec<u8> {
    let mut sheet = b"LM\x00\x04\x00\x10\x3F\xFFCD\xFF\xFF".to_vec();
    sheet.extend([0; 65_535]);
    for index in (1..65_535_u16).step_by(3) {
        sheet.extend(b"KI\x00\x07");
        sheet.extend(index.to_be_bytes());
        sheet.extend([3, 1, 2, 3, 4]);
        sheet.extend(b"KI\x00\x0B");
        sheet.extend((index + 1).to_be_bytes());
        sheet.extend([5, 1, 2, 3, 4, 5, 6, 7, 8]);
    }
    sheet.extend(b"AR\xFF\xFC");
    sheet.extend([7; 65_532]);
    sheet
}

/// What the Rust loop's own benchmark prints for each loop: nanoseconds per instruction, and the
/// value in hexadecimal.
fn original_bench(path: &OsStr, millions: u64) -> Vec<(f64, String)> {
    let mut bench = Command::new(path);
    let output = bench.args(["--bench", &millions.to_string()]).output();
    let text = String::from_utf8(output.expect("ORIGINAL runs").stdout).expect("text");
    let each = |line: &str| {
        let fields: Vec<&str> = line.split(' ').collect();
        let nanoseconds = fields[2].parse().expect("nanoseconds");
        (nanoseconds, fields[3].to_string())
    };
    text.lines().skip(1).map(each).collect()
}
