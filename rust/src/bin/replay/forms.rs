//! What a line may say: the table of forms, each with the release from which it is in force.
use crate::fields::{options, sizes, spoilt, Field};
use crate::words::Words;
use crate::Release;
use clash::{Catalogue, NewRun, Options, Role, Setting, Sizes};

/// A page buffer has `len` bytes, as many as the record's page size where that is not said. A cut names its call's word.
pub enum Form {
    Open(Sizes, Options),
    Reopen(Sizes, Options),
    SetWear { block: u32, wear: u32 },
    SetMark { n: u32, mark: u32 },
    FlipCode { byte: u32, bit: u32 },
    FlipFlash { byte: u32, bit: u32 },
    Spoil { field: &'static Field, index: usize, value: u64 },
    Read { n: u32, len: Option<u32> },
    Look { who: Catalogue, run: u32 },
    List { who: Catalogue, position: u32 },
    ReadRun { who: Catalogue, run: u32, index: u32 },
    Call(Call),
    Cut { operations: u32, word: &'static str, call: Call },
    Rehearse(Setting),
    Report,
    Dump,
}

/// A call that may change a buffer. A part write has `len` bytes, from byte `first` of the page on.
#[derive(Clone, Copy)]
pub enum Call {
    Write { n: u32, seed: u32, len: Option<u32> },
    Part { n: u32, first: u32, seed: u32, len: u32 },
    TakeBack,
    Step,
    Flush,
    Add { who: Catalogue, new: NewRun },
    Replace { who: Catalogue, run: u32, new: NewRun },
    Mark { who: Catalogue, run: u32, mark: u32 },
}

/// A form by its first word, and how it is made of the words after it.
struct Row {
    word: &'static str,
    since: u32,
    make: fn(&mut Words) -> Option<Form>,
}

#[rustfmt::skip]
const FORMS: &[Row] = &[
    Row { word: "open", since: 0, make: |w| Some(Form::Open(sizes(w)?, options(w)?)) },
    Row { word: "reopen", since: 0, make: |w| Some(Form::Reopen(sizes(w)?, options(w)?)) },
    Row { word: "setwear", since: 0, make: |w| Some(Form::SetWear { block: w.number()?, wear: w.number()? }) },
    Row { word: "setmark", since: 12, make: |w| Some(Form::SetMark { n: w.number()?, mark: w.number()? }) },
    Row { word: "flip", since: 0, make: flip },
    Row { word: "spoil", since: 0, make: |w| spoilt(w).map(|(field, index, value)| Form::Spoil { field, index, value }) },
    Row { word: "read", since: 0, make: |w| Some(Form::Read { n: w.number()?, len: None }) },
    Row { word: "readlen", since: 0, make: |w| Some(Form::Read { n: w.number()?, len: Some(w.number()?) }) },
    Row { word: "write", since: 0, make: |w| call(Call::Write { n: w.number()?, seed: w.number()?, len: None }) },
    Row { word: "writelen", since: 0, make: |w| call(Call::Write { n: w.number()?, seed: w.number()?, len: Some(w.number()?) }) },
    Row { word: "part", since: 1, make: |w| call(Call::Part { n: w.number()?, first: w.number()?, seed: w.number()?, len: w.number()? }) },
    Row { word: "takeback", since: 8, make: |_| call(Call::TakeBack) },
    Row { word: "step", since: 0, make: |_| call(Call::Step) },
    Row { word: "flush", since: 0, make: |_| call(Call::Flush) },
    Row { word: "add", since: 9, make: |w| call(Call::Add { who: caller(w)?, new: new_run(w)? }) },
    Row { word: "look", since: 9, make: |w| Some(Form::Look { who: caller(w)?, run: w.number()? }) },
    Row { word: "list", since: 9, make: |w| Some(Form::List { who: caller(w)?, position: w.number()? }) },
    Row { word: "cread", since: 9, make: |w| Some(Form::ReadRun { who: caller(w)?, run: w.number()?, index: w.number()? }) },
    Row { word: "mark", since: 9, make: |w| call(Call::Mark { who: caller(w)?, run: w.number()?, mark: w.number()? }) },
    Row { word: "replace", since: 11, make: |w| call(Call::Replace { who: caller(w)?, run: w.number()?, new: new_run(w)? }) },
    Row { word: "cut", since: 12, make: cut },
    Row { word: "rehearse", since: 13, make: rehearse },
    Row { word: "report", since: 14, make: |_| Some(Form::Report) },
    Row { word: "dump", since: 0, make: |_| Some(Form::Dump) },
];

fn call(call: Call) -> Option<Form> {
    Some(Form::Call(call))
}

/// The form that a line says, with its first word; none where the line is bad.
pub fn parse(release: Release, line: &[u8]) -> Option<(&'static str, Form)> {
    let inner = line.strip_prefix(b"(")?.strip_suffix(b")")?;
    let mut words = Words { release, rest: Some(inner) };
    let said = form(&mut words)?;
    words.rest.is_none().then_some(said)
}

fn form(words: &mut Words) -> Option<(&'static str, Form)> {
    let first = words.next()?;
    let row = FORMS.iter().find(|row| words.release.has(row.since) && row.word.as_bytes() == first)?;
    Some((row.word, (row.make)(words)?))
}

/// The number of sheets, the role and the trainee number. Before roles are in force whoever calls may do all, and sees all.
fn caller(words: &mut Words) -> Option<Catalogue> {
    let sheets = words.number()?;
    let role = match words.number()? {
        0 => Role::Trainee,
        1 => Role::Tutor,
        2 => Role::Examiner,
        _ => return None,
    };
    let role = if words.release.has(10) { role } else { Role::Examiner };
    Some(Catalogue { sheets, role, trainee: words.number()? })
}

fn new_run(words: &mut Words) -> Option<NewRun> {
    Some(NewRun { sample: words.number()?, first: words.number()?, count: words.number()? })
}

fn rehearse(words: &mut Words) -> Option<Form> {
    let (sizes, benches, turns) = (sizes(words)?, words.number()?, words.number()?);
    let (write_rate, run_rate, state) = (words.number()?, words.number()?, words.number()?);
    Some(Form::Rehearse(Setting { sizes, benches, turns, write_rate, run_rate, state }))
}

/// A call with the number of its operations before it; one with a page buffer of another length cannot be cut.
fn cut(words: &mut Words) -> Option<Form> {
    let operations = words.number()?;
    match form(words)? {
        (word, Form::Call(call)) if word != "writelen" => Some(Form::Cut { operations, word, call }),
        _ => None,
    }
}

fn flip(words: &mut Words) -> Option<Form> {
    match words.next()? {
        b"flash" => Some(Form::FlipFlash { byte: words.number()?, bit: words.number()? }),
        b"code" if words.release.has(6) => Some(Form::FlipCode { byte: words.number()?, bit: words.number()? }),
        _ => None,
    }
}

#[cfg(test)]
mod tests {
    use super::{Form, Release};
    use crate::RELEASE;
    use clash::Options;

    fn parse(line: &[u8]) -> Option<(&'static str, Form)> {
        super::parse(RELEASE, line)
    }

    /// The options of an opening, at a release that has them.
    fn options_at(release: u32, said: &str) -> Option<Options> {
        match super::parse(Release(release), format!("(open 1 2 3 2 1 9 {said})").as_bytes())? {
            ("open", Form::Open(_, options)) => Some(options),
            _ => panic!("another form"),
        }
    }

    #[test]
    fn options_by_release() {
        assert_eq!(options_at(12, "3 1 9 1"), Some(Options::from([3, 1, 9, 1])));
        for (said, since) in [("1 0 0 0", 5), ("0 1 0 0", 6), ("0 0 1 0", 8), ("0 0 0 1", 12)] {
            assert!(options_at(since - 1, said).is_none() && options_at(since, said).is_some(), "{said}");
        }
        assert!(["0 2 0 0", "0 0 0 2", "4294967296 0 0 0", "0 0 0", "0 0 0 0 0"].iter().all(|said| options_at(14, said).is_none()));
    }

    #[test]
    fn catalogue_by_release() {
        let since = |line: &str| (0..=14).find(|&release| super::parse(Release(release), line.as_bytes()).is_some());
        for line in ["(add 1 0 0 0 1 1)", "(look 1 0 0 1)", "(list 1 0 0 0)", "(cread 1 0 0 1 0)", "(mark 1 2 0 1 9)"] {
            assert_eq!(since(line), Some(9), "{line}");
        }
        assert_eq!(since("(replace 1 1 0 1 0 0 0)"), Some(11));
        assert_eq!(since("(look 1 3 0 1)"), None);
    }

    #[test]
    fn good_lines() {
        for line in [
            "(step)",
            "(write 0 4294967295)",
            "(part 0 4294967295 0 0)",
            "(spoil valid 7 18446744073709551615)",
            "(spoil s 9 1)",
            "(open 1 2 3 2 1 9 0 0 0 0)",
            "(open 256 2 3 2 1 9 0 1 0 0)",
            "(open 1 2 3 2 1 9 0 0 8 0)",
            "(flip code 0 7)",
            "(takeback)",
            "(spoil shelf 0 9)",
            "(spoil shelfno 7 0)",
            "(add 4294967295 0 0 0 0 0)",
            "(look 1 1 0 1)",
            "(list 1 2 0 0)",
            "(cread 1 2 0 1 0)",
            "(mark 1 2 0 1 4294967295)",
            "(replace 1 1 0 1 0 0 0)",
            "(open 1 2 3 2 1 9 0 0 0 1)",
            "(spoil marked 0 9)",
            "(setmark 0 255)",
            "(cut 0 step)",
            "(cut 4294967295 part 0 0 0 0)",
            "(cut 3 replace 1 1 0 1 0 0 0)",
            "(rehearse 0 0 0 0 0 0 0 0 0 0 4294967295)",
            "(report)",
        ] {
            assert!(parse(line.as_bytes()).is_some(), "{line}");
        }
    }

    const BAD: &[&str] = &[
        "",
        "(",
        ")",
        "()",
        "step",
        "(step",
        "step)",
        " (step)",
        "(step) ",
        "( step)",
        "(step )",
        "(Step)",
        "(step\r)",
        "(steps)",
        "(write 1)",
        "(write 1 2 3)",
        "(spoil order 0 256)",
        "(spoil place 128 0)",
        "(spoil valid 0 18446744073709551616)",
        "(spoil shelfno 8 0)",
        "(flip code 0)",
        "(flip mark 0 0)",
        "(open 1 2 3 2 1 9)",
        "(open 1 2 3 2 1 9 0 2 0 0)",
        "(open 1 2 3 2 1 9 0 0 0 2)",
        "(part 0 0 1)",
        "(part 0 0 1 1 1)",
        "(takeback 0)",
        "(add 1 3 0 0 1 1)",
        "(add 1 0 0 0 1)",
        "(look 1 0 0)",
        "(look 1 4294967295 0 1)",
        "(list 1 0 0 0 0)",
        "(mark 1 2 0 1)",
        "(replace 1 1 0 1 0 0)",
        "(setmark 0)",
        "(cut step)",
        "(cut 1)",
        "(cut 1 read 0)",
        "(cut 1 look 1 0 0 1)",
        "(cut 1 writelen 0 0 1)",
        "(cut 1 cut 1 step)",
        "(cut 1 (step))",
        "(cut 4294967296 step)",
        "(rehearse 1 2 3 2 1 9 1 0 0 0)",
        "(rehearse 1 2 3 2 1 9 1 0 0 0 0 0)",
        "(cut 1 rehearse 1 2 3 2 1 9 1 0 0 0 0)",
        "(report 0)",
        "(cut 1 report)",
    ];

    #[test]
    fn bad_lines() {
        let numbers =
            ["", "00", "01", "+1", "-1", "1.0", "0x1", "4294967296", "99999999999999999999999", "1 2", "1)", " 1", "1 ", "\u{664}"];
        let reads = numbers.map(|n| format!("(read {n})"));
        for line in reads.iter().map(String::as_str).chain(BAD.iter().copied()) {
            assert!(parse(line.as_bytes()).is_none(), "{line}");
        }
        assert!(parse(b"(read 1\xff)").is_none());
    }
}
