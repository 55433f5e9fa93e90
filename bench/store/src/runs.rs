//! Both catalogues on the same random histories: after each call the answers, the records, all buffers and the page must be equal. Calls
//! of the catalogue are mixed with those of the store, which also write foreign sheets; bits flip, pages become torn, records and buffers
//! are spoilt. Some calls are cut off first, on copies.
use crate::agree::{call, disturb, spoil, Call, Side};
use crate::random::Random;
use crate::{both, cuts};
use clash::{Cache, Catalogue, Memory, NewRun, Options, Role, Sizes};
use plain::{codes, Answer, Looked, Refusal};

const HISTORIES: u32 = 1000;
const CALLS: u32 = 400;

#[derive(Clone, Copy, Debug)]
enum Ask {
    Add(NewRun),
    Look(u32),
    List(u32),
    Read(u32, u32),
    Replace(u32, NewRun),
    Mark(u32, u32),
}

/// What a call of the catalogue answers, in the plain one's words.
#[derive(Debug, PartialEq)]
enum Told {
    Added(u32, Answer),
    Looked(Looked),
    Listed(u32, u32),
    Called(Answer),
}

/// How often each was accepted, in the order of `Ask`, and the refusals from 1 on.
#[derive(Default)]
struct Tally {
    calls: u32,
    accepted: [u32; 6],
    replaced: u32,
    masked: u32,
    /// cut calls that were stopped, that were done whole, and that were refused
    cuts: [u32; 3],
    refused: [u32; 14],
}

pub fn agree(random: &mut Random) {
    let mut tally = Tally::default();
    for _ in 0..HISTORIES {
        history(random, &mut tally);
    }
    let Tally { calls, accepted, replaced, masked, cuts, refused } = tally;
    let missing = |i: usize| matches!(i + 1, 3 | 5 | 8);
    let met = refused.iter().enumerate().filter(|(i, _)| !missing(*i)).map(|(_, count)| count);
    let met = met.chain(&accepted).chain(&cuts).chain([&replaced, &masked]);
    assert!(met.copied().all(|count| count > 40), "{accepted:?} {cuts:?} {refused:?} {replaced} {masked}");
    println!("{calls} calls of catalogues in {HISTORIES} random histories: answers, records and buffers of both are equal after each.");
    println!("accepted: add, look, list, read, replace, mark {accepted:?}; {replaced} looks at a replaced run, {masked} masked;");
    println!("cut calls stopped, whole and refused {cuts:?}, refusals 1 to 14 {refused:?}\n");
}

fn history(random: &mut Random, tally: &mut Tally) {
    let mut proved = opened(random);
    let sheets = 1 + random.below(proved.cache.sizes.pages().min(12) - 1);
    for _ in 0..CALLS {
        between(random, &mut proved, sheets);
        let before = random.one_in(60).then(|| proved.clone());
        if before.is_some() {
            spoil(random, &mut proved);
        }
        let (who, ask) = (caller(random, sheets), ask(random, &proved.cache.sizes, sheets));
        if random.one_in(4) {
            cut(random, &proved, &who, ask, tally);
        }
        let mut plain = proved.clone();
        let told = asked(&mut proved, &who, ask);
        assert_eq!(told, asked_plain(&mut plain, &who, ask), "{ask:?} by {who:?}");
        assert!(proved == plain, "{ask:?} by {who:?} leaves another record or other bytes");
        tally.count(ask, &told);
        proved = before.unwrap_or(proved);
    }
}

fn opened(random: &mut Random) -> Side {
    let coded = random.one_in(3);
    let s = if coded { 256 * (1 + random.below(2)) } else { 26 + random.below(20) };
    let limit = 1 + random.below(100);
    let sizes = Sizes::from([s, 2 + random.below(8), 2 + random.below(10), 1 + random.below(12), 1 + random.below(4), limit]);
    let shelf_pages = if random.one_in(2) { 0 } else { 1 + random.below(8) };
    let options = Options::from([random.below(3), coded as u32, shelf_pages, random.below(2)]);
    let mut memory = Memory::with_options(&sizes, &options);
    if random.one_in(3) {
        memory.flash = random.bytes(memory.flash.len());
    }
    codes::encode(&mut memory.codes, &memory.flash);
    let cache = Cache::open(sizes, options, &memory.lend()).expect("sizes within limits").cache;
    Side { cache, memory, page: random.bytes(s as usize) }
}

/// What happens between two calls of the catalogue: mostly nothing; calls of the store, some of which write a sheet.
fn between(random: &mut Random, side: &mut Side, sheets: u32) {
    if random.one_in(40) {
        disturb(random, &mut side.memory);
    }
    let page = random.bytes(side.page.len());
    side.page.copy_from_slice(&page);
    if random.one_in(6) {
        let n = random.below(sheets);
        lay(random, &mut side.page);
        let _ = side.proved(Call::Write(n));
    }
    if random.one_in(3) {
        let other = call(random, &side.cache.sizes);
        let below = matches!(other, Call::Write(n) | Call::Part { n, .. } if n < sheets);
        if !below || random.one_in(10) {
            let _ = side.proved(other);
        }
    }
}

/// A sheet of small numbers and of those at the ends, or an empty one.
fn lay(random: &mut Random, page: &mut [u8]) {
    page.fill(0);
    let sheet: [u32; 7] = std::array::from_fn(|i| if i == 1 { random.below(3) } else { number(random) });
    let sheet = if random.one_in(3) { [0; 7] } else { sheet };
    for (bytes, number) in page.chunks_exact_mut(4).zip(sheet) {
        bytes.copy_from_slice(&number.to_le_bytes());
    }
}

fn number(random: &mut Random) -> u32 {
    match random.one_in(60) {
        true => random.of(&[u32::MAX, u32::MAX - 1, u32::MAX - 2, 1 << 31]),
        false => random.below(12),
    }
}

/// Mostly of the same number of sheets.
fn caller(random: &mut Random, sheets: u32) -> Catalogue {
    let sheets = if random.one_in(60) { random.of(&[0, 1, 5, 13, 40, 256, 257, u32::MAX]) } else { sheets };
    let role = random.of(&[Role::Trainee, Role::Tutor, Role::Examiner, Role::Examiner]);
    Catalogue { sheets, role, trainee: random.below(3) }
}

fn ask(random: &mut Random, sizes: &Sizes, sheets: u32) -> Ask {
    let near = sheets + random.below(sizes.pages().saturating_sub(sheets).clamp(1, 90));
    let first = if random.one_in(8) { number(random) } else { near };
    let count = if random.one_in(8) { number(random) } else { 1 + random.below(3) };
    let new = NewRun { sample: number(random), first, count };
    match random.below(12) {
        0..=2 => Ask::Add(new),
        3..=4 => Ask::Look(number(random)),
        5 => Ask::List(number(random)),
        6..=7 => Ask::Read(number(random), random.of(&[0, 0, 0, 1, 2, u32::MAX])),
        8..=9 => Ask::Replace(number(random), new),
        _ => Ask::Mark(number(random), random.of(&[0, 50, 100, 100, 101, 255])),
    }
}

fn asked(side: &mut Side, who: &Catalogue, ask: Ask) -> Result<Told, Refusal> {
    let (cache, lent, page) = (&mut side.cache, &mut side.memory.lend(), &mut side.page);
    let added = |a: clash::Added| Told::Added(a.run, both::accepted(a.answer));
    let called = |a: clash::Answer| Told::Called(both::accepted(a));
    let told = match ask {
        Ask::Add(new) => cache.run_add(lent, who, new, page).map(added),
        Ask::Look(run) => cache.run_look(lent, who, run, page).map(|looked| Told::Looked(both::looked(looked))),
        Ask::List(position) => cache.run_list(lent, who, position, page).map(|listed| Told::Listed(listed.run, listed.mended)),
        Ask::Read(run, index) => cache.run_read(lent, who, run, index, page).map(called),
        Ask::Replace(run, new) => cache.run_replace(lent, who, run, new, page).map(added),
        Ask::Mark(run, mark) => cache.run_mark(lent, who, run, mark, page).map(called),
    };
    told.map_err(both::refused)
}

fn asked_plain(side: &mut Side, who: &Catalogue, ask: Ask) -> Result<Told, Refusal> {
    let (lent, page) = (&mut both::lent(side.memory.lend()), &mut side.page);
    let (mut plain, who) = (both::plain(side.cache), both::catalogue(*who));
    let added = |(run, answer)| Told::Added(run, answer);
    let told = match ask {
        Ask::Add(new) => who.add(&mut plain, lent, page, both::new_run(new)).map(added),
        Ask::Look(run) => who.look(&plain, lent, page, run).map(Told::Looked),
        Ask::List(position) => who.list(&plain, lent, page, position).map(|(run, mended)| Told::Listed(run, mended)),
        Ask::Read(run, index) => who.read(&mut plain, lent, page, run, index).map(Told::Called),
        Ask::Replace(run, new) => who.replace(&mut plain, lent, page, run, both::new_run(new)).map(added),
        Ask::Mark(run, mark) => who.mark(&mut plain, lent, page, run, mark).map(Told::Called),
    };
    side.cache = both::proved(plain);
    told
}

/// Cuts a call that writes a sheet at some number of operations, on copies of the store.
fn cut(random: &mut Random, side: &Side, who: &Catalogue, ask: Ask, tally: &mut Tally) {
    let operations = cuts::operations(random, side);
    let (mut proved, mut plain, mut whole) = (side.clone(), side.clone(), side.clone());
    let Some(left) = cut_proved(&mut proved, who, ask, operations) else { return };
    let said = cut_plain(&mut plain, who, ask, operations);
    cuts::compare(side, [&proved, &plain], left, said, asked(&mut whole, who, ask).map(|_| &whole), operations);
    tally.cuts[said.map_or(2, |is_whole| is_whole as usize)] += 1;
}

fn cut_proved(side: &mut Side, who: &Catalogue, ask: Ask, operations: u32) -> Option<Cache> {
    let (cache, lent, page) = (side.cache, &mut side.memory.lend(), &mut side.page);
    match ask {
        Ask::Add(new) => Some(cache.cut_run_add(lent, who, new, page, operations)),
        Ask::Replace(run, new) => Some(cache.cut_run_replace(lent, who, run, new, page, operations)),
        Ask::Mark(run, mark) => Some(cache.cut_run_mark(lent, who, run, mark, page, operations)),
        Ask::Look(_) | Ask::List(_) | Ask::Read(..) => None,
    }
}

fn cut_plain(side: &mut Side, who: &Catalogue, ask: Ask, operations: u32) -> Result<bool, Refusal> {
    let (lent, page) = (&mut both::lent(side.memory.lend()), &mut side.page);
    let (store, who) = (both::plain(side.cache), both::catalogue(*who));
    match ask {
        Ask::Add(new) => who.cut_add(operations, store, lent, page, both::new_run(new)),
        Ask::Replace(run, new) => who.cut_replace(operations, store, lent, page, run, both::new_run(new)),
        Ask::Mark(run, mark) => who.cut_mark(operations, store, lent, page, run, mark),
        Ask::Look(_) | Ask::List(_) | Ask::Read(..) => unreachable!("nothing is written"),
    }
}

impl Tally {
    fn count(&mut self, ask: Ask, told: &Result<Told, Refusal>) {
        self.calls += 1;
        let which = match ask {
            Ask::Add(_) => 0,
            Ask::Look(_) => 1,
            Ask::List(_) => 2,
            Ask::Read(..) => 3,
            Ask::Replace(..) => 4,
            Ask::Mark(..) => 5,
        };
        match told {
            Ok(told) => {
                self.accepted[which] += 1;
                if let Told::Looked(Looked { sheet, current, .. }) = told {
                    self.replaced += (*current != sheet.run) as u32;
                    self.masked += (sheet.trainee == 0 && sheet.mark == 255) as u32;
                }
            }
            Err(why) => self.refused[why.number() as usize - 1] += 1,
        }
    }
}

#[cfg(test)]
mod tests {
    #[test]
    fn both_catalogues_agree_on_random_histories() {
        super::agree(&mut super::Random(5));
    }
}
