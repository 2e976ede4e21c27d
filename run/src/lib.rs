//! Unmodified commands over a folder of another machine: what the client (`hidewillow-run`) and the server (`hidewillow-files`) share,
//! and the parts of each.

pub mod client;
pub mod codec;
pub mod files;
pub mod name;
pub mod run;
pub mod wire;

use std::ffi::OsString;

/// What a program prints whose first word asks for help or for the version.
#[must_use]
pub fn asked(word: Option<OsString>, name: &str, help: &str) -> Option<String> {
    match word?.to_str()? {
        "-h" | "--help" => Some(help.into()),
        "-V" | "--version" => Some(format!("{name} {}\n", env!("CARGO_PKG_VERSION"))),
        _ => None,
    }
}

#[cfg(test)]
mod tests {
    use super::asked;

    #[test]
    fn help_and_version_are_told_where_they_are_asked_for() {
        let told = |word: &str| asked(Some(word.into()), "it", "how");
        assert_eq!((told("-h"), told("--help")), (Some("how".into()), Some("how".into())));
        assert_eq!((told("-V"), told("--version")), (Some("it 0.1.0\n".into()), Some("it 0.1.0\n".into())));
        assert_eq!((told("--at"), asked(None, "it", "how")), (None, None));
    }
}
