//! Which method of a class a user means.

use super::{text, Class, Method};
use crate::suggestion::closest;
use std::collections::HashSet;

/// The most names that a sentence lists.
const MOST_NAMES: usize = 30;

/// The static method that a name means, or a name with its descriptor: `add`, `add(II)I`.
///
/// # Errors
///
/// A sentence, where none or several are meant, or the one that is meant is not static.
pub fn choose<'a, 'b>(class: &'a Class<'b>, wanted: &str) -> Result<&'a Method<'b>, String> {
    let (named, descriptor) = wanted.split_at(wanted.find('(').unwrap_or(wanted.len()));
    let (name, exact) = (text::encode(named), text::encode(descriptor));
    let methods = class.methods.iter();
    let of_name: Vec<&Method> = methods.filter(|method| method.name == name).collect();
    if of_name.is_empty() {
        return Err(no_such_name(class, named));
    }
    let mut meant = of_name.clone();
    meant.retain(|method| exact.is_empty() || method.descriptor == exact);
    let mut statics = meant.clone();
    statics.retain(|method| method.is_static());
    match (&statics[..], &meant[..]) {
        ([one], _) => Ok(one),
        ([], []) => Err(format!(
            "there is no {wanted}, but {}",
            signatures(&of_name)
        )),
        ([], _) => Err(format!(
            "{named} is not static, and a sheet has a static method"
        )),
        (several, _) => Err(format!(
            "{named} is {} methods; say with the descriptor which one: {}",
            several.len(),
            signatures(several)
        )),
    }
}

/// The names of the static methods that have code, each once, in the order of the file.
#[must_use]
pub fn static_methods(class: &Class) -> Vec<String> {
    let (mut texts, mut met) = (HashSet::new(), HashSet::new());
    let mut names = vec![];
    for method in &class.methods {
        // A name with a < is none that a source can have: the initialization of the class.
        let named = method.is_static() && method.code.is_some() && !method.name.starts_with(b"<");
        // Methods of one name mostly share its text in the pool, which may be long: it is read once.
        if named && texts.insert(method.name.as_ptr()) && met.insert(method.name) {
            names.push(method.name_text());
        }
    }
    names
}

/// Names of methods as a sentence lists them.
#[must_use]
pub fn listed(names: &[String]) -> String {
    match names.split_at_checked(MOST_NAMES) {
        Some((first, [_, ..])) => {
            let more = names.len() - MOST_NAMES;
            format!("{} and {more} more", first.join(", "))
        }
        _ => names.join(", "),
    }
}

/// Names and descriptors in quotes, as a shell asks for them.
fn signatures(methods: &[&Method]) -> String {
    // Only what is listed is written out: a file may have very many very long names.
    let quoted = |method: &&Method| format!("'{}'", method.signature());
    let mut all: Vec<String> = methods.iter().take(MOST_NAMES).map(quoted).collect();
    all.resize(methods.len(), String::new());
    listed(&all)
}

fn no_such_name(class: &Class, named: &str) -> String {
    let names = static_methods(class);
    if let Some(name) = closest(named, names.iter().map(String::as_str)) {
        return format!("there is no method {named}; did you mean {name}?");
    }
    if names.is_empty() {
        return format!("there is no method {named}, and no static method with code");
    }
    let names = listed(&names);
    format!("there is no method {named}; the static methods are {names}")
}

#[cfg(test)]
mod tests {
    use super::*;
    use crate::class::{example, read};

    fn chosen(wanted: &str) -> Result<String, String> {
        let bytes = example::class();
        let class = read(&bytes).unwrap();
        choose(&class, wanted).map(Method::signature)
    }

    #[test]
    fn a_name_or_a_name_with_its_descriptor() {
        assert_eq!(chosen("caught"), Ok("caught(II)I".to_string()));
        assert_eq!(chosen("add(JJ)J"), Ok("add(JJ)J".to_string()));
        // Of the two methods of this name one is static.
        assert_eq!(chosen("mixed"), Ok("mixed(I)I".to_string()));
    }

    #[test]
    fn what_is_not_meant_is_said() {
        let all = "add, caught, constants, wide, field, text, jump, mixed";
        for (wanted, what) in [
            (
                "add",
                "add is 2 methods; say with the descriptor which one: 'add(II)I', 'add(JJ)J'",
            ),
            (
                "add(DD)D",
                "there is no add(DD)D, but 'add(II)I', 'add(JJ)J'",
            ),
            ("ad", "there is no method ad; did you mean add?"),
            (
                "Caugt(II)I",
                "there is no method Caugt; did you mean caught?",
            ),
            (
                "xyz",
                &format!("there is no method xyz; the static methods are {all}"),
            ),
            (
                "",
                &format!("there is no method ; the static methods are {all}"),
            ),
            (
                "instance",
                "instance is not static, and a sheet has a static method",
            ),
            (
                "mixed()V",
                "mixed is not static, and a sheet has a static method",
            ),
        ] {
            assert_eq!(chosen(wanted), Err(what.to_string()), "{wanted}");
        }
    }

    #[test]
    fn a_list_has_an_end() {
        let names = |many: usize| (0..many).map(|n| format!("m{n}")).collect::<Vec<_>>();
        assert_eq!(listed(&names(2)), "m0, m1");
        assert!(listed(&names(30)).ends_with(", m28, m29"));
        assert!(listed(&names(32)).ends_with(", m28, m29 and 2 more"));
    }
}
