//! What the words ask for.

/// What is asked for. The ranges of the numbers are those of the whole program.
#[derive(Clone, Copy)]
pub(crate) enum Asked<'a> {
    Run {
        script: &'a str,
        workers: u8,
        rows: u16,
        quiet: bool,
    },
    Check {
        script: &'a str,
    },
    Replay {
        script: &'a str,
        journal: &'a str,
        rows: u16,
    },
}

/// The words behind a command: its files, and options with their numbers.
#[derive(Clone, Copy)]
struct Behind<'a> {
    first: Option<&'a str>,
    second: Option<&'a str>,
    workers: Option<u8>,
    rows: Option<u16>,
    quiet: bool,
}

const NOTHING: Behind<'static> = Behind {
    first: None,
    second: None,
    workers: None,
    rows: None,
    quiet: false,
};

/// A number in a range; none where the word is no such number.
fn number(word: Option<&&str>, most: u16) -> Option<u16> {
    let value = word?.parse::<u16>().ok()?;
    if value >= 1 && value <= most {
        Some(value)
    } else {
        None
    }
}

/// Takes a word that is no option and no option's number as the name of a file.
fn with_file<'a>(behind: Behind<'a>, word: &'a str) -> Option<Behind<'a>> {
    if word.starts_with("-") {
        return None;
    }
    match (behind.first, behind.second) {
        (None, _) => Some(Behind {
            first: Some(word),
            ..behind
        }),
        (Some(_), None) => Some(Behind {
            second: Some(word),
            ..behind
        }),
        (Some(_), Some(_)) => None,
    }
}

/// None where a word is not taken, or stands twice.
fn read_behind<'a>(words: &[&'a str]) -> Option<Behind<'a>> {
    let mut behind: Behind<'a> = NOTHING;
    let mut at = 0;
    while at < words.len() {
        let next = words.get(at + 1);
        match words[at] {
            "--quiet" if !behind.quiet => behind.quiet = true,
            "--rows" if behind.rows.is_none() => {
                behind.rows = Some(number(next, 1024)?);
                at += 1;
            }
            "--workers" if behind.workers.is_none() => {
                behind.workers = Some(number(next, 16)? as u8);
                at += 1;
            }
            word => behind = with_file(behind, word)?,
        }
        at += 1;
    }
    Some(behind)
}

/// What the words ask for; none where they are left to the whole program.
pub(crate) fn read_words<'a>(words: &[&'a str]) -> Option<Asked<'a>> {
    let (command, rest) = words.split_first()?;
    let behind = read_behind(rest)?;
    let script = behind.first?;
    match (*command, behind) {
        ("run", Behind { second: None, .. }) => Some(Asked::Run {
            script,
            workers: behind.workers.unwrap_or(4),
            rows: behind.rows.unwrap_or(256),
            quiet: behind.quiet,
        }),
        (
            "check",
            Behind {
                second: None,
                workers: None,
                rows: None,
                quiet: false,
                ..
            },
        ) => Some(Asked::Check { script }),
        (
            "replay",
            Behind {
                second: Some(journal),
                workers: None,
                quiet: false,
                ..
            },
        ) => Some(Asked::Replay {
            script,
            journal,
            rows: behind.rows.unwrap_or(256),
        }),
        _ => None,
    }
}
