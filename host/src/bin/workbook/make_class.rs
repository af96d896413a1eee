//! The sheet of a static method in a class file.

use crate::failure::Failure;
use bytecode::class;

/// The sheet of the method that the first word names, with the other words as its arguments.
///
/// # Errors
///
/// Where the file is no whole class file, the words name no static method of it, a sheet cannot
/// hold the method, or the arguments are not those that it takes.
pub fn make_class(name: &str, class: &[u8], words: &[&str]) -> Result<Vec<u8>, Failure> {
    let of_file = |what: String| Failure::of_file(name, what);
    let class = class::read(class).map_err(of_file)?;
    let Some((wanted, arguments)) = words.split_first() else {
        return Err(of_file(unnamed(&class)));
    };
    let method = class::choose(&class, wanted).map_err(of_file)?;
    let arguments: Vec<String> = arguments.iter().map(ToString::to_string).collect();
    class::sheet(&class, method, &arguments).map_err(Failure::Call)
}

/// What to say where no method is named.
fn unnamed(class: &class::Class) -> String {
    match &class::static_methods(class)[..] {
        [] => "there is no static method with code".to_string(),
        names => format!("say which method: {}", class::listed(names)),
    }
}
