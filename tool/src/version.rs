//! What `hub --version` tells: the version and, where ./hub has built the tool, of
//! what.

use crate::json::Json;

/// What the tool was built of.
#[derive(Clone, Copy, Debug)]
pub struct Built {
    /// The repository's commit.
    pub commit: Option<&'static str>,
    /// The kit that has proved the archive.
    pub kit: Option<&'static str>,
    /// The archive's sum, SHA-256.
    pub archive: Option<&'static str>,
}

/// Whether a command line asks for the version.
pub fn is_asked(words: &[String]) -> bool {
    let first = words.first().map(String::as_str);
    matches!(first, Some("--version" | "-V"))
}

/// The answer, for a reader or for scripts.
pub fn answer(built: &Built, json: bool) -> Vec<u8> {
    let version = env!("CARGO_PKG_VERSION");
    let parts = [
        ("commit", built.commit),
        ("kit", built.kit),
        ("archive", built.archive),
    ];
    let known = parts
        .into_iter()
        .map(|(name, value)| (name, value.filter(|value| !value.is_empty())));
    if json {
        let known = known.map(|(name, value)| (name, Json::maybe(value, Json::text)));
        let fields = [("version", Json::text(version))].into_iter().chain(known);
        return Json::Object(fields.collect()).line();
    }
    let known = known.filter_map(|(name, value)| Some(format!("  {name:8} {}\n", value?)));
    let lines = [format!("hub {version}\n")].into_iter().chain(known);
    lines.collect::<String>().into_bytes()
}
