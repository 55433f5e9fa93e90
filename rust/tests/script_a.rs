//! Script A of document 01, call by call.
use clash::{Answer, Memory, Options, Refusal, Sizes, Store};

#[test]
fn script_a() {
    let sizes = Sizes::from([1, 2, 3, 2, 1, 9]);
    let mut memory = Memory::new(&sizes);
    let mut store = Store::open(sizes, Options::default(), &memory.lend()).unwrap();
    let mut write = |n, byte| store.write(&mut memory.lend(), n, &[byte]).unwrap();
    assert_eq!(write(0, 10), Answer::Write { way: 3, erased: None, merged: 0, mended: 0 });
    assert_eq!(write(2, 20), Answer::Write { way: 3, erased: None, merged: 0, mended: 0 });
    assert_eq!(write(4, 30), Answer::Write { way: 5, erased: None, merged: 0, mended: 0 });
    assert_eq!(write(3, 40), Answer::Write { way: 7, erased: Some(0), merged: 1, mended: 0 });

    let mut page = [0];
    assert_eq!(store.read(&memory.lend(), 2, &mut page), Ok(Answer::Read { way: 2, mended: 0 }));
    assert_eq!(page, [20]);
    assert_eq!(store.read(&memory.lend(), 1, &mut page), Ok(Answer::Read { way: 3, mended: 0 }));
    assert_eq!(page, [255]);
    assert_eq!(store.flush(&mut memory.lend()), Ok(Answer::Flush { rewrites: 2, merged: 1, mended: 0 }));
    assert_eq!(store.read(&memory.lend(), 6, &mut page), Err(Refusal::Page));
    assert_eq!(memory.wear, [1, 1, 1]);
    assert_eq!(memory.flash, [10, 255, 20, 40, 30, 255]);
}
