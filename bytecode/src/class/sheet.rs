//! The sheet of a static method: its code bytes as they stand, its descriptor, its exception table,
//! and those constants that it uses, at the indices that they have in the class file.

use super::pool::{Constant, Pool};
use super::{usage, Class, Code, Method};
use crate::{descriptor, literals, records};
use std::collections::BTreeMap;

/// The tag of a class among constants.
const CLASS: u8 = 7;

/// The classes that an ArithmeticException can be assigned to.
const OF_ARITHMETIC: [&[u8]; 4] = [
    b"java/lang/ArithmeticException",
    b"java/lang/RuntimeException",
    b"java/lang/Exception",
    b"java/lang/Throwable",
];

/// The sheet of a static method with its arguments, which are Java's literals in the order of its
/// parameters.
///
/// Of the constants it has those that the instructions load and the classes of the exception table,
/// by rising index, and no other: a learner finds in it what the method uses.
///
/// # Errors
///
/// A sentence, where the method has what a sheet cannot hold, where there are too few or too many
/// arguments, or where one is no value of its parameter's type.
pub fn sheet(class: &Class, method: &Method, texts: &[String]) -> Result<Vec<u8>, String> {
    let label = label(class, method);
    if !method.is_static() {
        return Err(format!("{label}: this method is not static"));
    }
    let Some(code) = &method.code else {
        let native = if method.is_native() {
            " is native and"
        } else {
            ""
        };
        return Err(format!("{label}: this method{native} has no code"));
    };
    let constants = constants(code, &class.pool).map_err(|what| format!("{label}: {what}"))?;
    let arguments = arguments(&label, method, texts)?;
    let handlers = code.handlers.iter().copied().map(records::handler);
    Ok([
        records::sizes(code.max_stack, code.max_locals),
        records::descriptor(method.descriptor),
        records::record(b"CD", code.code),
        constants.into_values().collect::<Vec<_>>().concat(),
        handlers.collect::<Vec<_>>().concat(),
        records::arguments(&arguments),
    ]
    .concat())
}

/// The words of the arguments.
fn arguments(label: &str, method: &Method, texts: &[String]) -> Result<Vec<u32>, String> {
    let descriptor = descriptor::read(&method.descriptor_text());
    let parameters = descriptor
        .map_err(|what| format!("{label}: {what}"))?
        .parameters;
    if parameters.len() != texts.len() {
        let many = match &parameters[..] {
            [] => "no arguments".to_string(),
            [one] => format!("1 argument ({one})"),
            all => {
                let types: Vec<String> = all.iter().map(ToString::to_string).collect();
                format!("{} arguments ({})", all.len(), types.join(", "))
            }
        };
        return Err(format!("{label} takes {many}, not {}", texts.len()));
    }
    let mut words = vec![];
    for (place, (parameter, text)) in parameters.iter().zip(texts).enumerate() {
        let found = literals::words(parameter, text);
        words.extend(found.map_err(|what| format!("{label}, argument {}: {what}", place + 1))?);
    }
    Ok(words)
}

/// A method as messages name it.
fn label(class: &Class, method: &Method) -> String {
    format!("{}.{}", class.name, method.name_text())
}

/// The records of the constants that a code uses, by rising index.
fn constants(code: &Code, pool: &Pool) -> Result<BTreeMap<u16, Vec<u8>>, String> {
    let mut found = BTreeMap::new();
    for index in usage::constants(code.code, pool)? {
        found.extend(
            pool.get(index)
                .and_then(|value| record(index, value))
                .map(|record| (index, record)),
        );
    }
    // Catch type 0 names no class: its handler takes everything.
    for &[.., catch_type] in code.handlers.iter().filter(|fields| fields[3] != 0) {
        let name = pool.class_name(catch_type)?;
        let word = u32::from(OF_ARITHMETIC.contains(&name));
        let record = records::constant(catch_type, CLASS, &word.to_be_bytes());
        found.insert(catch_type, record);
    }
    Ok(found)
}

/// The record of a number.
fn record(index: u16, value: Constant) -> Option<Vec<u8>> {
    let small = |tag, word: u32| records::constant(index, tag, &word.to_be_bytes());
    let large = |tag, bits: u64| records::constant(index, tag, &bits.to_be_bytes());
    Some(match value {
        Constant::Integer(word) => small(3, word),
        Constant::Float(word) => small(4, word),
        Constant::Long(bits) => large(5, bits),
        Constant::Double(bits) => large(6, bits),
        _ => return None,
    })
}

#[cfg(test)]
mod tests {
    use super::*;
    use crate::class::{choose, example, read};
    use crate::values::bytes;

    fn made(wanted: &str, texts: &[&str]) -> Result<Vec<u8>, String> {
        let class = example::class();
        let class = read(&class).unwrap();
        let texts: Vec<String> = texts.iter().map(ToString::to_string).collect();
        sheet(&class, choose(&class, wanted).unwrap(), &texts)
    }

    fn records(digits: &str) -> Result<Vec<u8>, String> {
        bytes(&digits.replace(' ', ""))
    }

    #[test]
    fn a_method_is_its_sheet() {
        let sheet =
            "4C4D0004 00040004 44530005 2849492949 43440004 1A1B60AC 41520008 00000003FFFFFFFC";
        assert_eq!(made("add(II)I", &["3", "-4"]), records(sheet));
        // A long's low word is first.
        let sheet = "4C4D0004 00040004 44530005 284A4A294A 43440004 1E2061AD \
                     41520010 00000001 00000000 B2D05E00 00000000";
        assert_eq!(made("add(JJ)J", &["1", "3000000000L"]), records(sheet));
    }

    #[test]
    fn an_exception_table_has_a_constant_for_each_class() {
        // By rising index: ArithmeticException is 10, Error 12. Catch type 0 stays.
        let sheet = "4C4D0004 00040004 44530005 2849492949 43440007 1A1B6CAC3B02AC \
                     4B490007 000A0700000001 4B490007 000C0700000000 \
                     45580008 000000040004000C 45580008 000000040004000A 45580008 0000000300040000 \
                     41520008 0000000100000000";
        assert_eq!(made("caught", &["1", "0"]), records(sheet));
    }

    #[test]
    fn constants_that_are_loaded_keep_their_indices() {
        let sheet = "4C4D0004 00040004 44530003 282944 43440012 1203 87 140007 63 130004 8D 63 140005 8A 63 AF \
                     4B490007 000303FFFFFFF9 4B490007 0004043F000000 \
                     4B49000B 0005050000010000000000 4B49000B 0007063FB999999999999A 41520000";
        assert_eq!(made("constants", &[]), records(sheet));
    }

    #[test]
    fn what_a_sheet_cannot_hold_is_said() {
        for (wanted, what) in [
            ("field", "demo.Sum.field: this method uses getstatic at 4, which is outside the 164 instructions"),
            ("text", "demo.Sum.text: ldc at 1 loads a String, and a sheet holds only int, long, float and double"),
            ("jump", "demo.Sum.jump: this method has byte 255 at 0, which is no instruction"),
            ("natively", "demo.Sum.natively: this method is native and has no code"),
        ] {
            assert_eq!(made(wanted, &[]), Err(what.to_string()));
        }
        let class = example::class();
        let class = read(&class).unwrap();
        let what = "demo.Sum.instance: this method is not static";
        assert_eq!(
            sheet(&class, &class.methods[10], &[]),
            Err(what.to_string())
        );
    }

    #[test]
    fn arguments_are_those_of_the_descriptor() {
        for (wanted, texts, what) in [
            (
                "add(II)I",
                &["1"][..],
                "demo.Sum.add takes 2 arguments (int, int), not 1",
            ),
            (
                "wide",
                &["1", "2"],
                "demo.Sum.wide takes 1 argument (int), not 2",
            ),
            (
                "constants",
                &["1"],
                "demo.Sum.constants takes no arguments, not 1",
            ),
            (
                "add(II)I",
                &["1", "2147483648"],
                "demo.Sum.add, argument 2: 2147483648 is no int: -2147483648 to 2147483647",
            ),
        ] {
            assert_eq!(made(wanted, texts), Err(what.to_string()));
        }
    }
}
