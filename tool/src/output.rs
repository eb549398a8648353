//! Where a command's result goes: to a file that `-o` names, or else to
//! standard output, there as JSON if that is asked for.

use crate::args::Args;
use crate::commands::Stop;
use crate::files;
use crate::json::Json;
use crate::types::{Done, Fault};

/// Puts a result out. Of a file it is told that it is written.
pub fn put(
    args: &Args,
    result: impl Into<Vec<u8>>,
    json: impl FnOnce() -> Json,
) -> Result<Done, Stop> {
    let result = result.into();
    match args.value("o").filter(|name| *name != files::STANDARD) {
        None if args.flag("json") => Ok(Done::printing(json().line())),
        None => Ok(Done::printing(result)),
        Some(name) => {
            files::write(name, &result)?;
            Ok(Done::printing(told(args, name, result.len())))
        }
    }
}

/// The format of a result: as --format says, or else the ending of the file's name,
/// or else the one that standard output has.
pub fn format<'f>(
    args: &Args,
    endings: &[&'f str],
    standard: Option<&'f str>,
    what: &str,
) -> Result<&'f str, Fault> {
    let known = || endings.iter().copied().chain(standard);
    if let Some(asked) = args.value("format") {
        let found = known().find(|format| *format == asked);
        let formats: Vec<&str> = known().collect();
        let formats = formats.join(" or ");
        return found.ok_or_else(|| args.fault(format!("--format takes {formats}, not '{asked}'")));
    }
    let out = args.value("o").unwrap_or(files::STANDARD);
    let ending = |format: &&&str| out.ends_with(&format!(".{format}"));
    match (endings.iter().find(ending), standard) {
        (Some(format), _) => Ok(format),
        (None, Some(format)) if out == files::STANDARD => Ok(format),
        (None, None) if out == files::STANDARD => {
            let formats = endings.join(" or ");
            Err(args.fault(format!("-o - goes with --format {formats}")))
        }
        _ => {
            let endings: Vec<String> = endings.iter().map(|format| format!(".{format}")).collect();
            let endings = endings.join(" or ");
            Err(args.fault(format!(
                "{out}: the name of {what} ends with {endings}, or --format says it"
            )))
        }
    }
}

fn told(args: &Args, name: &str, length: usize) -> Vec<u8> {
    if !args.flag("json") {
        return format!("{name}: {length} bytes\n").into_bytes();
    }
    let fields = vec![
        ("outcome", Json::text("done")),
        ("file", Json::text(name)),
        ("bytes", Json::number(length)),
    ];
    Json::Object(fields).line()
}
