//! A sample method for each fact of tools/vectors/facts.txt, which HotSpot judges too
//! (tools/jvm/Judge.java).

use super::methods::{Lent, Sample};
use super::text::{about, code, number};
use bytecode::instructions::of_name;
use bytecode::values::{self, Kind};

/// The chains of branches: a listing that returns the sum of those that are not taken, the first of
/// them 1, and their names.
const CHAINS: [(&str, &str, &[&str]); 3] = [
    (
        "tests",
        "TESTS",
        &["ifeq", "ifne", "iflt", "ifge", "ifgt", "ifle"],
    ),
    (
        "tests_of_two",
        "TESTS_OF_TWO",
        &[
            "if_icmpeq",
            "if_icmpne",
            "if_icmplt",
            "if_icmpge",
            "if_icmpgt",
            "if_icmple",
        ],
    ),
    (
        "tests_of_refs",
        "TESTS_OF_REFS",
        &["ifnull", "ifnonnull", "if_acmpeq", "if_acmpne"],
    ),
];

/// The samples of a file of facts.
pub fn facts(file: &str) -> Result<Vec<Sample>, String> {
    let (mut samples, mut pool) = (vec![], vec![]);
    for line in file
        .lines()
        .filter(|line| !line.trim().is_empty() && !line.starts_with('#'))
    {
        let (left, right) = line.split_once('=').unwrap_or((line, ""));
        let left: Vec<&str> = left.split_whitespace().collect();
        let chain = CHAINS.iter().find(|chain| chain.0 == left[0]);
        let sample = match (&left[..], chain) {
            (["constants", constants @ ..], _) => {
                pool = pool_of(constants).map_err(about(line))?;
                continue;
            }
            (["method", name, max_stack, max_locals, bytes], _) => {
                method(name, [max_stack, max_locals], bytes, right.trim(), &pool)
            }
            ([_, given @ ..], Some(chain)) => branches(*chain, given, right),
            ([opcode, name, given @ ..], None) => instruction(opcode, name, given, right.trim()),
            _ => Err("no such fact".to_string()),
        };
        samples.push(sample.map_err(about(line))?);
    }
    Ok(samples)
}

/// The words of values in hexadecimal, 8 or 16 digits each.
fn words_of(given: &[&str]) -> Result<Vec<u32>, String> {
    let mut words = vec![];
    for digits in given {
        let kind = if digits.len() == 16 {
            Kind::Long
        } else {
            Kind::Int
        };
        words.extend(kind.words(&format!("h{digits}"))?);
    }
    Ok(words)
}

/// A name with values, without their leading zeros.
fn named(name: &str, given: &[&str]) -> String {
    let value = |digits: &&str| match digits.trim_start_matches('0') {
        "" => "_0".to_string(),
        rest => format!("_{rest}"),
    };
    name.to_string() + &given.iter().map(value).collect::<String>()
}

/// The entries of a pool with these constants from index 1 on, each a kind and a value.
fn pool_of(constants: &[&str]) -> Result<Vec<(u8, u32)>, String> {
    let mut pool = vec![(0, 0)];
    for pair in constants.chunks_exact(2) {
        let kind = Kind::of_name(pair[0]).ok_or("no such kind")?;
        let words = kind.words(&format!("h{}", pair[1]))?;
        pool.push((kind.tag(), words[0]));
        pool.extend(words[1..].iter().map(|high| (0, *high)));
    }
    Ok(pool)
}

/// A whole method without arguments.
fn method(
    name: &str,
    sizes: [&str; 2],
    bytes: &str,
    end: &str,
    pool: &[(u8, u32)],
) -> Result<Sample, String> {
    let lent = Lent {
        max_stack: number(sizes[0])?,
        locals: vec![None; number(sizes[1])?],
        pool: pool.to_vec(),
        spare: 1,
        ..Lent::default()
    };
    Ok(lent.sample(name, end, values::bytes(bytes)?))
}

/// The branches of a chain.
fn branches(chain: (&str, &str, &[&str]), given: &[&str], taken: &str) -> Result<Sample, String> {
    let (name, listing, branches) = chain;
    let taken: Vec<&str> = taken.split_whitespace().collect();
    if taken.iter().any(|taken| !branches.contains(taken)) {
        return Err("no branch of the chain".to_string());
    }
    let powers = branches
        .iter()
        .enumerate()
        .filter(|(_, branch)| !taken.contains(branch));
    let untaken: u32 = powers.map(|(place, _)| 1 << place).sum();
    let words = words_of(given)?.into_iter().chain([0]);
    let lent = Lent {
        max_stack: given.len(),
        locals: words.map(Some).collect(),
        spare: 1,
        ..Lent::default()
    };
    Ok(lent.sample(
        &named(name, given),
        &format!("return int {untaken:08X}"),
        code(listing)?,
    ))
}

/// An instruction on a stack that holds nothing else.
fn instruction(opcode: &str, name: &str, given: &[&str], end: &str) -> Result<Sample, String> {
    let found = of_name(name).filter(|found| format!("{:02X}", found.opcode) == opcode);
    found.ok_or("not its opcode")?;
    let before = words_of(given)?;
    let throws = end == "throw arithmetic";
    let after = match throws {
        true => None,
        false => Some(words_of(&end.split_whitespace().collect::<Vec<_>>())?),
    };
    let lent = Lent {
        max_stack: before.len().max(after.as_ref().map_or(0, Vec::len)),
        stack: before.into_iter().map(Some).collect(),
        spare: 1,
        ..Lent::default()
    };
    let end = if throws { end } else { "return void" };
    let sample = lent.sample(&named(name, given), end, code(&format!("{name}; return"))?);
    Ok(Sample {
        leaves: after,
        ..sample
    })
}
