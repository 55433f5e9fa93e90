//! What a line may say: the table of forms, each with the release from which it is in force.
use crate::fields::{options, sizes, spoilt, Field};
use crate::words::Words;
use crate::Release;
use plain::{Caller, Catalogue, NewRun, Options, Rehearsal, Role, Sizes};

pub enum Form {
    Open(Sizes, Options),
    Reopen(Sizes, Options),
    SetWear { block: u32, wear: u32 },
    SetMark { n: u32, mark: u32 },
    FlipFlash { byte: u32, bit: u32 },
    FlipCode { byte: u32, bit: u32 },
    Spoil { field: &'static Field, index: usize, value: u64 },
    Read { n: u32, len: Option<u32> },
    Look { by: Catalogue, run: u32 },
    List { by: Catalogue, position: u32 },
    ReadRun { by: Catalogue, run: u32, index: u32 },
    Call(Call),
    Cut { operations: u32, word: &'static str, call: Call },
    Rehearse(Rehearsal),
    Report,
    Dump,
}

/// A call that may change a buffer. A page buffer has `len` bytes, as many as the record's page size where that is not said.
#[derive(Clone, Copy)]
pub enum Call {
    Write { n: u32, seed: u32, len: Option<u32> },
    Part { n: u32, first: u32, seed: u32, len: u32 },
    Step,
    Flush,
    TakeBack,
    Add { by: Catalogue, replaced: Option<u32>, new: NewRun },
    Mark { by: Catalogue, run: u32, mark: u32 },
}

/// A form by its first word, and how it is made of the words after it.
struct Row {
    word: &'static str,
    since: u32,
    make: fn(&mut Words) -> Option<Form>,
}

#[rustfmt::skip]
const FORMS: &[Row] = &[
    Row { word: "open", since: 0, make: |w| Some(Form::Open(sizes(w)?, options(w)?)) },
    Row { word: "reopen", since: 0, make: |w| Some(Form::Reopen(sizes(w)?, options(w)?)) },
    Row { word: "setwear", since: 0, make: |w| Some(Form::SetWear { block: w.number()?, wear: w.number()? }) },
    Row { word: "setmark", since: 12, make: |w| Some(Form::SetMark { n: w.number()?, mark: w.number()? }) },
    Row { word: "flip", since: 0, make: flip },
    Row { word: "spoil", since: 0, make: |w| spoilt(w).map(|(field, index, value)| Form::Spoil { field, index, value }) },
    Row { word: "read", since: 0, make: |w| Some(Form::Read { n: w.number()?, len: None }) },
    Row { word: "readlen", since: 0, make: |w| Some(Form::Read { n: w.number()?, len: Some(w.number()?) }) },
    Row { word: "write", since: 0, make: |w| call(Call::Write { n: w.number()?, seed: w.number()?, len: None }) },
    Row { word: "writelen", since: 0, make: |w| call(Call::Write { n: w.number()?, seed: w.number()?, len: Some(w.number()?) }) },
    Row { word: "part", since: 1, make: |w| call(Call::Part { n: w.number()?, first: w.number()?, seed: w.number()?, len: w.number()? }) },
    Row { word: "step", since: 0, make: |_| call(Call::Step) },
    Row { word: "flush", since: 0, make: |_| call(Call::Flush) },
    Row { word: "takeback", since: 8, make: |_| call(Call::TakeBack) },
    Row { word: "add", since: 9, make: |w| call(Call::Add { by: catalogue(w)?, replaced: None, new: new(w)? }) },
    Row { word: "look", since: 9, make: |w| Some(Form::Look { by: catalogue(w)?, run: w.number()? }) },
    Row { word: "list", since: 9, make: |w| Some(Form::List { by: catalogue(w)?, position: w.number()? }) },
    Row { word: "cread", since: 9, make: |w| Some(Form::ReadRun { by: catalogue(w)?, run: w.number()?, index: w.number()? }) },
    Row { word: "mark", since: 9, make: |w| call(Call::Mark { by: catalogue(w)?, run: w.number()?, mark: w.number()? }) },
    Row { word: "replace", since: 11, make: |w| call(Call::Add { by: catalogue(w)?, replaced: Some(w.number()?), new: new(w)? }) },
    Row { word: "cut", since: 12, make: cut },
    Row { word: "rehearse", since: 13, make: rehearse },
    Row { word: "report", since: 14, make: |_| Some(Form::Report) },
    Row { word: "dump", since: 0, make: |_| Some(Form::Dump) },
];

fn call(call: Call) -> Option<Form> {
    Some(Form::Call(call))
}

/// The form that a line says, with its first word; none where the line is bad.
pub fn parse(release: Release, line: &[u8]) -> Option<(&'static str, Form)> {
    let inner = line.strip_prefix(b"(")?.strip_suffix(b")")?;
    let mut words = Words { release, rest: Some(inner) };
    let said = form(&mut words)?;
    words.rest.is_none().then_some(said)
}

fn form(words: &mut Words) -> Option<(&'static str, Form)> {
    let first = words.next()?;
    let row = FORMS.iter().find(|row| words.release.has(row.since) && row.word.as_bytes() == first)?;
    Some((row.word, (row.make)(words)?))
}

/// The number of sheets, the role and the trainee. Before roles are in force everyone is an examiner.
fn catalogue(words: &mut Words) -> Option<Catalogue> {
    let sheets = words.number()?;
    let role = [Role::Trainee, Role::Tutor, Role::Examiner].into_iter().nth(words.number()? as usize)?;
    let role = if words.release.has(10) { role } else { Role::Examiner };
    Some(Catalogue { sheets, repeats: words.release.has(11), caller: Caller { role, trainee: words.number()? } })
}

fn new(words: &mut Words) -> Option<NewRun> {
    Some(NewRun { sample: words.number()?, first: words.number()?, count: words.number()? })
}

fn rehearse(words: &mut Words) -> Option<Form> {
    Some(Form::Rehearse(Rehearsal {
        sizes: sizes(words)?,
        benches: words.number()?,
        turns: words.number()?,
        write_rate: words.number()?,
        run_rate: words.number()?,
        state: words.number()?,
    }))
}

fn cut(words: &mut Words) -> Option<Form> {
    let operations = words.number()?;
    match form(words)? {
        (word, Form::Call(call)) if word != "writelen" => Some(Form::Cut { operations, word, call }),
        _ => None,
    }
}

fn flip(words: &mut Words) -> Option<Form> {
    match words.next()? {
        b"flash" => Some(Form::FlipFlash { byte: words.number()?, bit: words.number()? }),
        b"code" if words.release.has(6) => Some(Form::FlipCode { byte: words.number()?, bit: words.number()? }),
        _ => None,
    }
}
