use pyltarka::{Refusal, Settings, Table};
fn main() -> Result<(), Refusal> {
    let (mut bytes, key, mut out) = ([0; 4 * 64], [7; 32], [0; 32]);
    let mut table = Table::new(&mut bytes, Settings::fixed(64).counted().keyed());
    let slot = table.insert(&key, b"fan -20", false)?;
    let got = table.read(slot, Some(&key), &mut out)?;
    println!("slot {slot}: '{}', count {}", String::from_utf8_lossy(&out[..got.len]), got.count);
    println!("under another key: {}", table.read_fixed(slot, Some(&[8; 32])).unwrap_err());
    Ok(())
}
