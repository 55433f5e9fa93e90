//! A first program: cargo run --offline --manifest-path rust/Cargo.toml --example first
use clash::{Memory, Options, Refusal, Sizes, Store};

fn main() -> Result<(), Refusal> {
    let sizes = Sizes::from([256, 16, 64, 32, 4, 100_000]); // S, K, N, P, B, W
    let mut memory = Memory::new(&sizes);
    let mut store = Store::open(sizes, Options::default(), &memory.lend())?;
    let mut page = [7; 256];
    println!("{:?}", store.write(&mut memory.lend(), 5, &page)?);
    println!("{:?}", store.part(&mut memory.lend(), 5, 40, b"a reading", &mut page)?);
    println!("{:?}", store.flush(&mut memory.lend())?);
    println!("{:?}, byte 40 is {}", store.read(&memory.lend(), 5, &mut page)?, page[40]);
    println!("{}", store.read(&memory.lend(), 1024, &mut page).unwrap_err());
    Ok(())
}
