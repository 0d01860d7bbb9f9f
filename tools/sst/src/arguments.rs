//! The arguments of a subcommand: words, options, and the words behind `--`.

use crate::session::Trouble;
use std::ffi::{OsStr, OsString};
use std::os::unix::ffi::OsStrExt;

/// An option: its name, what its value is called where it has one, and what it is for.
#[derive(Clone, Copy)]
pub struct Opt {
    pub name: &'static str,
    pub value: Option<&'static str>,
    pub about: &'static str,
}

#[derive(Default, Debug)]
pub struct Arguments {
    pub words: Vec<OsString>,
    /// The words behind `--`, if it stands there.
    pub behind: Option<Vec<OsString>>,
    options: Vec<(&'static str, Option<OsString>)>,
}

impl Arguments {
    pub fn has(&self, name: &str) -> bool {
        self.options.iter().any(|(other, _)| *other == name)
    }

    /// The value of an option, the last one where it is repeated.
    pub fn value(&self, name: &str) -> Option<&OsStr> {
        self.options.iter().rev().find(|(other, _)| *other == name).and_then(|(_, value)| value.as_deref())
    }

    /// The one word that a subcommand wants.
    pub fn one(&self, what: &str) -> Result<&OsStr, Trouble> {
        match &self.words[..] {
            [word] => Ok(word),
            [] => Err(Trouble::Usage(format!("{what} is missing"))),
            [_, more, ..] => Err(Trouble::Usage(format!("`{}` is one argument too many", more.to_string_lossy()))),
        }
    }

    /// A number given as an option, up to `most`.
    pub fn number(&self, name: &str, most: u64) -> Result<Option<u64>, Trouble> {
        self.value(name).map(|value| number(value, most, &format!("--{name}"))).transpose()
    }
}

/// A decimal number up to `most`; `what` is what it is for.
pub fn number(word: &OsStr, most: u64, what: &str) -> Result<u64, Trouble> {
    let digits = word.to_str().filter(|digits| !digits.is_empty() && digits.bytes().all(|byte| byte.is_ascii_digit()));
    digits.and_then(|digits| digits.parse().ok()).filter(|number| *number <= most).ok_or_else(|| {
        Trouble::Usage(format!("{what} wants a number from 0 to {most}, and `{}` is none", word.to_string_lossy()))
    })
}

pub fn parse(given: &[OsString], known: &[Opt]) -> Result<Arguments, Trouble> {
    let mut arguments = Arguments::default();
    let mut rest = given.iter();
    while let Some(word) = rest.next() {
        let bytes = word.as_bytes();
        if bytes == b"--" {
            arguments.behind = Some(rest.by_ref().cloned().collect());
        } else if bytes.len() > 1 && bytes[0] == b'-' {
            let option = option(word, known, &mut rest)?;
            arguments.options.push(option);
        } else {
            arguments.words.push(word.clone());
        }
    }
    Ok(arguments)
}

/// An option with its value, behind `=` or as the next word; `-o` is `--output`.
fn option<'a>(
    word: &OsStr,
    known: &[Opt],
    rest: &mut impl Iterator<Item = &'a OsString>,
) -> Result<(&'static str, Option<OsString>), Trouble> {
    let bytes = if word.as_bytes() == b"-o" { b"--output" } else { word.as_bytes() };
    let shown = word.to_string_lossy();
    let mut parts = bytes.splitn(2, |byte| *byte == b'=');
    let name = parts.next().unwrap_or_default();
    let set = parts.next().map(|value| OsStr::from_bytes(value).to_os_string());
    let found = known.iter().find(|option| name.strip_prefix(b"--") == Some(option.name.as_bytes()));
    let Some(option) = found else { return Err(Trouble::Usage(format!("there is no option `{shown}` here"))) };
    match (option.value, set) {
        (None, None) => Ok((option.name, None)),
        (None, Some(_)) => Err(Trouble::Usage(format!("`--{}` takes no value", option.name))),
        (Some(_), Some(value)) => Ok((option.name, Some(value))),
        (Some(what), None) => match rest.next() {
            Some(value) => Ok((option.name, Some(value.clone()))),
            None => Err(Trouble::Usage(format!("`{shown}` wants {what} behind it"))),
        },
    }
}

#[cfg(test)]
mod tests {
    use super::*;

    const KNOWN: [Opt; 2] =
        [Opt { name: "output", value: Some("FILE"), about: "" }, Opt { name: "quiet", value: None, about: "" }];

    fn parsed(words: &[&str]) -> Result<Arguments, Trouble> {
        parse(&words.iter().map(OsString::from).collect::<Vec<_>>(), &KNOWN)
    }

    #[test]
    fn words_options_and_the_rest() {
        let arguments = parsed(&["a", "-o", "x", "-", "--quiet", "--", "--quiet", "b"]).expect("good");
        assert_eq!(arguments.words, ["a", "-"]);
        assert_eq!(arguments.value("output"), Some(OsStr::new("x")));
        assert!(arguments.has("quiet"));
        assert_eq!(arguments.behind.expect("a rest"), ["--quiet", "b"]);
        assert_eq!(parsed(&["--output=y"]).expect("good").value("output"), Some(OsStr::new("y")));
    }

    #[test]
    fn wrong_ones() {
        for words in [&["--none"][..], &["-q"], &["--quiet=1"], &["-o"]] {
            assert!(matches!(parsed(words), Err(Trouble::Usage(_))), "{words:?}");
        }
        assert!(number(OsStr::new("65536"), 65_535, "x").is_err());
        assert!(number(OsStr::new("+5"), 65_535, "x").is_err());
        assert!(number(OsStr::new(""), 65_535, "x").is_err());
        assert_eq!(number(OsStr::new("00018446744073709551615"), u64::MAX, "x").ok(), Some(u64::MAX));
    }
}
