//! The rows of the table: which call is timed on which cases.
use crate::both;
use crate::cases::{cases, Case, Cases, CASES};
use crate::numbers::Numbers;
use crate::random::Random;
use crate::timing::{measure, Sides, Times};
use clash::{Buffers, Cache, Options, Refusal, Sizes};
use plain::{codes, Answer, Said};
use std::hint::black_box;
use std::time::Duration;

pub struct Row {
    pub name: String,
    pub times: Times,
}

/// What a call is lent: parts of longer runs of bytes, which start somewhere else in each turn. How fast a page moves depends on where the
/// buffers lie, and not on every side alike.
pub struct Lent {
    flash: Run,
    codes: Run,
    marks: Run,
    wear: Vec<u32>,
    pspace: Run,
    bspace: Run,
    shelf: Run,
    page: Run,
    random: Random,
}

struct Run {
    bytes: Vec<u8>,
    start: usize,
    len: usize,
}

impl Run {
    fn new(random: &mut Random, len: usize) -> Run {
        Run { bytes: random.bytes(len + 4096), start: 0, len }
    }

    fn part(&mut self) -> &mut [u8] {
        &mut self.bytes[self.start..self.start + self.len]
    }
}

impl Lent {
    pub fn new(random: &mut Random, sizes: &Sizes, options: &Options) -> Lent {
        let [flash, codes] = [sizes.flash_len(), options.codes_len(sizes)].map(|len| Run::new(random, len));
        let [pspace, bspace] = [sizes.pspace_len(), sizes.bspace_len()].map(|len| Run::new(random, len));
        let [shelf, page] = [options.shelf_len(sizes), sizes.page_size as usize].map(|len| Run::new(random, len));
        let marks = Run { bytes: vec![0; options.marks_len(sizes) + 4096], start: 0, len: options.marks_len(sizes) };
        let wear = vec![0; sizes.wear_len()];
        let mut lent = Lent { flash, codes, marks, wear, pspace, bspace, shelf, page, random: Random(random.0) };
        lent.place();
        lent
    }

    pub fn parts(&mut self) -> (Buffers<'_>, &mut [u8]) {
        let (flash, codes, pspace, bspace) = (self.flash.part(), self.codes.part(), self.pspace.part(), self.bspace.part());
        let (marks, wear, shelf) = (self.marks.part(), &mut self.wear, self.shelf.part());
        (Buffers { flash, codes, marks, wear, pspace, bspace, shelf }, self.page.part())
    }

    /// The same, in the plain store's type.
    pub fn plain_parts(&mut self) -> (plain::Buffers<'_>, &mut [u8]) {
        let (lent, page) = self.parts();
        (both::lent(lent), page)
    }

    /// Each buffer starts at some multiple of 16 bytes, as memory from an allocator does. The codes, if any, are those of the flash; marks
    /// are 0.
    pub fn place(&mut self) {
        let lent = [&mut self.flash, &mut self.codes, &mut self.marks, &mut self.pspace, &mut self.bspace, &mut self.shelf, &mut self.page];
        for run in lent {
            run.start = self.random.below(256) as usize * 16;
        }
        self.encode();
    }

    /// Changes the flash, whose codes match again.
    pub fn lay(&mut self, edit: impl FnOnce(&mut [u8])) {
        edit(self.flash.part());
        self.encode();
    }

    fn encode(&mut self) {
        codes::encode(self.codes.part(), self.flash.part());
    }
}

/// What is timed at some sizes.
pub struct Bench {
    cases: Cases,
    lent: Lent,
}

type Calls = Sides<Lent, Result<clash::Answer, Refusal>, Said>;

const TIME: Duration = Duration::from_secs(1);

extern "C" {
    fn record_sound(r: Numbers) -> bool;
}

const SOUND: Sides<Lent, bool, bool, Numbers> = Sides {
    idle: |_| (),
    proved: |r, _, _| unsafe { record_sound(*r) },
    plain: |c, _, _| c.sound(),
    by_value: |c, _, _| c.sound_by_value(),
};

fn lend(lent: &mut Lent) {
    black_box(lent.parts());
}

const READ: Calls = Sides {
    idle: lend,
    proved: |c, n, l| {
        let (lent, page) = l.parts();
        c.read(&lent, n, page)
    },
    plain: |c, n, l| {
        let (lent, page) = l.plain_parts();
        c.read(&lent, n, page)
    },
    by_value: |c, n, l| {
        let (lent, page) = l.plain_parts();
        let (next, answer) = c.read_by_value(&lent, n, page);
        *c = next;
        answer
    },
};

const WRITE: Calls = Sides {
    idle: lend,
    proved: |c, n, l| {
        let (mut lent, page) = l.parts();
        c.write(&mut lent, n, page)
    },
    plain: |c, n, l| {
        let (mut lent, page) = l.plain_parts();
        c.write(&mut lent, n, page)
    },
    by_value: |c, n, l| {
        let (mut lent, page) = l.plain_parts();
        let (next, answer) = c.write_by_value(&mut lent, n, page);
        *c = next;
        answer
    },
};

const TAKE_BACK: Calls = Sides {
    idle: lend,
    proved: |c, _, l| c.take_back(&mut l.parts().0),
    plain: |c, _, l| c.take_back(&mut l.plain_parts().0),
    by_value: |c, _, l| {
        let (next, answer) = c.take_back_by_value(&mut l.plain_parts().0);
        *c = next;
        answer
    },
};

const REPORT: Sides<Lent, Result<clash::Report, Refusal>, Result<plain::Report, plain::Refusal>> = Sides {
    idle: lend,
    proved: |c, _, l| c.report(&l.parts().0),
    plain: |c, _, l| c.report(&l.plain_parts().0),
    by_value: |c, _, l| {
        let (next, answer) = c.report_by_value(&l.plain_parts().0);
        *c = next;
        answer
    },
};

const STEP: Calls = Sides {
    idle: lend,
    proved: |c, _, l| c.step(&mut l.parts().0),
    plain: |c, _, l| c.step(&mut l.plain_parts().0),
    by_value: |c, _, l| {
        let (next, answer) = c.step_by_value(&mut l.plain_parts().0);
        *c = next;
        answer
    },
};

const FLUSH: Calls = Sides {
    idle: lend,
    proved: |c, _, l| c.flush(&mut l.parts().0),
    plain: |c, _, l| c.flush(&mut l.plain_parts().0),
    by_value: |c, _, l| {
        let (next, answer) = c.flush_by_value(&mut l.plain_parts().0);
        *c = next;
        answer
    },
};

impl Bench {
    pub fn new(random: &mut Random, sizes: Sizes, options: Options) -> Bench {
        let lent = Lent::new(random, &sizes, &options);
        Bench { cases: cases(random, sizes, options), lent }
    }

    pub fn sound(&mut self) -> Row {
        Row { name: "soundness alone".into(), times: measure(&self.cases.writes[6], &mut self.lent, TIME, Lent::place, &SOUND) }
    }

    /// A read that is refused for its record at once: what it costs to call.
    pub fn refused(&mut self) -> Row {
        let cases = [Case { record: Cache::blank(), n: 0 }; CASES];
        assert_eq!((READ.proved)(&mut Cache::blank(), 0, &mut self.lent), Err(Refusal::Record));
        Row { name: "refused 4, blank record".into(), times: measure(&cases, &mut self.lent, TIME, Lent::place, &READ) }
    }

    pub fn read(&mut self, way: u32) -> Row {
        let cases = &self.cases.reads[way as usize - 1];
        same(cases, &mut self.lent, &READ, |answer| matches!(answer, Answer::Read { way: gone, .. } if gone == way));
        Row { name: format!("read {way}"), times: measure(cases, &mut self.lent, TIME, Lent::place, &READ) }
    }

    pub fn write(&mut self, way: u32) -> Row {
        let cases = &self.cases.writes[way as usize - 1];
        same(cases, &mut self.lent, &WRITE, |answer| matches!(answer, Answer::Write { way: gone, .. } if gone == way));
        Row { name: format!("write {way}"), times: measure(cases, &mut self.lent, TIME, Lent::place, &WRITE) }
    }

    /// Of a store with shelf pages: by the way that a write of the page would go.
    pub fn take_back(&mut self, way: u32) -> Row {
        let cases = &self.cases.writes[way as usize - 1];
        same(cases, &mut self.lent, &TAKE_BACK, |answer| matches!(answer, Answer::Write { way: gone, .. } if gone == way));
        Row { name: format!("take back {way}"), times: measure(cases, &mut self.lent, TIME, Lent::place, &TAKE_BACK) }
    }

    /// The wear is some number below 1,000,000 for each block.
    pub fn report(&mut self) -> Row {
        let cases = &self.cases.writes[6];
        self.lent.wear.iter_mut().for_each(|worn| *worn = self.lent.random.below(1_000_000));
        let mut record = cases[0].record;
        let said = (REPORT.proved)(&mut record, 0, &mut self.lent).expect("no block is worn");
        assert_eq!(Ok(both::report(said)), (REPORT.plain)(&mut both::plain(record), 0, &mut self.lent));
        let row = Row { name: "report".into(), times: measure(cases, &mut self.lent, TIME, Lent::place, &REPORT) };
        self.lent.wear.fill(0);
        row
    }

    pub fn step(&mut self) -> Row {
        let cases = &self.cases.writes[6];
        same(cases, &mut self.lent, &STEP, |answer| matches!(answer, Answer::Step { .. }));
        Row { name: "step".into(), times: measure(cases, &mut self.lent, TIME, Lent::place, &STEP) }
    }

    /// A few cases do: a flush is long.
    pub fn flush(&mut self) -> Row {
        let cases = &self.cases.writes[6][..4];
        let mut blocks = Vec::new();
        same(cases, &mut self.lent, &FLUSH, |answer| match answer {
            Answer::Flush { rewrites, .. } => {
                blocks.push(rewrites);
                true
            }
            _ => false,
        });
        blocks.sort();
        let name = format!("flush of {} to {} blocks", blocks[0], blocks[blocks.len() - 1]);
        Row { name, times: measure(cases, &mut self.lent, TIME, Lent::place, &FLUSH) }
    }
}

/// The sides answer as wanted and leave the same record. Buffers are compared on the random histories before.
fn same(cases: &[Case], lent: &mut Lent, sides: &Calls, mut wanted: impl FnMut(Answer) -> bool) {
    lent.wear.fill(0);
    for case in cases {
        let (mut a, mut b, mut c) = (case.record, both::plain(case.record), both::plain(case.record));
        let answer = both::said((sides.proved)(&mut a, case.n, lent));
        assert_eq!(answer, (sides.plain)(&mut b, case.n, lent));
        assert_eq!(answer, (sides.by_value)(&mut c, case.n, lent));
        assert!(a == both::proved(b) && a == both::proved(c));
        assert!(answer.is_ok_and(&mut wanted));
    }
}
