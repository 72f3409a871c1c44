//! A day at the acceptance station: a fan card for variable speed drives is on the bench, and the station keeps the register
//! exchanges it had with it in two tables. Each step is one call; what the call answered is printed beside it.
use pyltarka::{Changed, Refusal, Settings, Table, View};

// ---- what the station records

/// One register exchange with the fan card, as it went over the wire, and what the station's driver made of it.
struct Exchange {
    name: &'static str,
    seconds: u32,
    request: Vec<u8>,
    response: Vec<u8>,
    reading: i32,
}

/// The card's address on the bus.
const CARD: u8 = 17;

/// The check bytes that end a frame: CRC-16 with the polynomial a001, low byte first.
fn frame(body: &[u8]) -> Vec<u8> {
    let crc = body.iter().fold(0xffff_u16, |crc, &byte| {
        (0..8).fold(crc ^ u16::from(byte), |c, _| if c & 1 == 1 { c >> 1 ^ 0xa001 } else { c >> 1 })
    });
    [body, &crc.to_le_bytes()].concat()
}

/// A register read at a time of day; the driver takes the card's two bytes as a signed number, or wrongly as an unsigned one.
fn read_register(name: &'static str, seconds: u32, register: u16, raw: [u8; 2], signed: bool) -> Exchange {
    let [high, low] = register.to_be_bytes();
    Exchange {
        name,
        seconds,
        request: frame(&[CARD, 3, high, low, 0, 1]),
        response: frame(&[CARD, 3, 2, raw[0], raw[1]]),
        reading: if signed { i16::from_be_bytes(raw).into() } else { u16::from_be_bytes(raw).into() },
    }
}

/// A register written; the card answers with the same frame.
fn write_register(name: &'static str, seconds: u32, register: u16, value: i16) -> Exchange {
    let body = [&[CARD, 6][..], &register.to_be_bytes(), &value.to_be_bytes()].concat();
    Exchange { name, seconds, request: frame(&body), response: frame(&body), reading: value.into() }
}

impl Exchange {
    /// Time and reading, four bytes each, then the request's eight bytes and the response.
    fn content(&self) -> Vec<u8> {
        [&self.seconds.to_le_bytes()[..], &self.reading.to_le_bytes(), &self.request, &self.response].concat()
    }

    fn key(&self) -> [u8; 32] {
        hash(self.name)
    }
}

/// A record's key: 32 bytes hashed from its name. The station's index has a hash of its own; this small one stands in for it.
fn hash(name: &str) -> [u8; 32] {
    let mut key = [0; 32];
    for (lane, place) in key.chunks_mut(8).enumerate() {
        let start = 0xcbf2_9ce4_8422_2325 ^ lane as u64;
        let mut h = name.bytes().fold(start, |h: u64, b| (h ^ u64::from(b)).wrapping_mul(0x0100_0000_01b3));
        h = (h ^ h >> 31).wrapping_mul(0x9e37_79b9_7f4a_7c15);
        place.copy_from_slice(&(h ^ h >> 29).to_le_bytes());
    }
    key
}

// ---- what is printed

fn hex(bytes: &[u8]) -> String {
    bytes.iter().map(|b| format!("{b:02x}")).collect::<Vec<_>>().join(" ")
}

/// A number with its thousands set off.
fn thousands(n: i64) -> String {
    let digits = n.unsigned_abs().to_string();
    let groups: Vec<&str> = digits.as_bytes().rchunks(3).rev().map(|g| std::str::from_utf8(g).unwrap()).collect();
    format!("{}{}", if n < 0 { "-" } else { "" }, groups.join(","))
}

/// A content as the station reads it back.
fn told(content: &[u8]) -> String {
    let number = |at: usize| i32::from_le_bytes(content[at..at + 4].try_into().unwrap());
    let t = number(0);
    let clock = format!("{:02}:{:02}:{:02}", t / 3600, t / 60 % 60, t % 60);
    let (request, response) = content[8..].split_at(8);
    format!("{clock}  sent {}  got {:<23}  reads {:>6}", hex(request), hex(response), thousands(number(4).into()))
}

fn step(time: &str, what: &str) {
    println!("\n{time}  {what}");
}

fn number_at(bytes: &[u8], at: usize) -> u64 {
    u64::from_le_bytes(bytes[at..at + 8].try_into().unwrap())
}

/// The slots of a table, three to a row, each as its first bytes and a read of it tell.
fn map(table: View) {
    let s = table.settings();
    let slots: Vec<&[u8]> = table.bytes().chunks_exact(s.entry_size as usize).collect();
    let filled = number_at(slots[0], 8).max(1);
    println!("       +-- LAST_REMOVED {}, FILLED {filled}", number_at(slots[0], 0));
    let boxes: Vec<String> = (1..slots.len()).map(|i| format!("[{i}] {}", describe(table, slots[i], i as u64, filled))).collect();
    for row in boxes.chunks(3) {
        println!("       |  {}", row.iter().map(|b| format!("{b:<31}")).collect::<String>().trim_end());
    }
}

fn describe(table: View, slot: &[u8], i: u64, filled: u64) -> String {
    if i >= filled {
        return "unused".into();
    }
    match (slot[0], slot[1]) {
        (0xff, 0xff) => format!("free, next {}", number_at(slot, 2)),
        (0xfe, 0xff) if table.settings().multipart => format!("continuation, next {}", number_at(slot, 2)),
        (low, high) => match table.read(i, None, &mut vec![0; table.bytes().len()]) {
            Ok(r) if r.visits > 1 => format!("head of {} slots, next {}", r.visits, number_at(slot, 10)),
            Ok(r) => format!("{} bytes, count {}", r.len, r.count),
            Err(_) => format!("last part, {} bytes", u16::from_le_bytes([low, high]) & 0x7fff),
        },
    }
}

// ---- the day

fn main() -> Result<(), Refusal> {
    println!("Fan card 17 for variable speed drives is on the bench. The station keeps its register exchanges.");
    let mut bytes = [0; 10 * 64];
    let mut table = Table::new(&mut bytes, Settings::fixed(64).counted().keyed());
    morning(&mut table)?;
    captures()?;
    refusals(&mut table)?;
    step("17:00", "The day's table. Any program that knows its settings can read it.");
    map(table.view());
    Ok(())
}

/// Exchanges stored, read back, replaced, counted, removed.
fn morning(table: &mut Table) -> Result<(), Refusal> {
    step("06:00", "A table: 640 zero bytes, slots of 64, counted and keyed. A content has at most 32 bytes.");
    println!("       free slots {}", table.free_count()?);
    map(table.view());

    let day = [
        read_register("card 17, card type", 21_731, 0x0001, [0x00, 0x2a], true),
        write_register("card 17, speed asked for", 21_734, 0x0010, 1450),
        read_register("card 17, fan speed", 21_740, 0x0020, [0x05, 0x9e], true),
        read_register("card 17, heat sink, tenths of a degree", 21_741, 0x0022, [0x01, 0x9c], true),
        read_register("card 17, fan speed, drive stopped", 22_300, 0x0020, [0xff, 0xec], true),
        read_register("card 17, fan speed, drive stopped, old driver", 22_301, 0x0020, [0xff, 0xec], false),
    ];
    step("06:15", "Six exchanges stored, each under the hash of its name.");
    let mut slots = Vec::new();
    for x in &day {
        let slot = table.insert(&x.key(), &x.content(), false)?;
        println!("       slot {slot}  {}", x.name);
        slots.push(slot);
    }
    map(table.view());

    step("07:30", "Read back under their keys, where they stand: the content is a part of the table, no copy.");
    for (x, &slot) in day.iter().zip(&slots) {
        let part = table.read_fixed(slot, Some(&x.key()))?;
        println!("       slot {slot}  {}", told(part.content));
    }
    let at = table.read_fixed(slots[4], None)?.content.as_ptr() as usize - table.bytes().as_ptr() as usize;
    println!("       With the drive stopped the draught turns the fan backwards. Slots 5 and 6 hold the same two bytes, ff ec:");
    println!("       -20 counts read as a signed number, which is right, and 65,516 read as an unsigned one, which is not.");
    println!("       The content of slot 5 stands at byte {at} of the table: 5 times 64, 2 of size, 4 of count, 26 of key.");

    step("08:10", "The old driver is mended, the register read again, and the wrong record in slot 6 replaced.");
    let again = read_register("card 17, fan speed, drive stopped, old driver", 29_400, 0x0020, [0xff, 0xec], true);
    table.replace(slots[5], &again.key(), &again.content(), false)?;
    let part = table.read_fixed(slots[5], Some(&again.key()))?;
    println!("       slot 6  {}", told(part.content));

    step("09:00", "Three reports cite the reverse in slot 5, so its count goes up; then all let go of it, the station too.");
    for change in [3, 0, -1, -3] {
        match table.change_count(slots[4], change)? {
            Changed::Count(n) => println!("       step {change:>2}: count {n}"),
            Changed::LastReference => {
                println!("       step {change:>2}: last reference. Nothing is written; the station may remove the record")
            }
        }
    }

    step("10:20", "The card type (slot 1) and the temperature (slot 4) are not wanted: removed, first 1, then 4.");
    table.remove(slots[0])?;
    table.remove(slots[3])?;
    println!("       free slots {}", table.free_count()?);
    map(table.view());
    let fresh = read_register("card 17, fan speed, half load", 37_260, 0x0020, [0x02, 0xd1], true);
    let slot = table.insert(&fresh.key(), &fresh.content(), false)?;
    println!("       The next exchange goes into the slot that was freed last.");
    println!("       slot {slot}  {}", told(table.read_fixed(slot, Some(&fresh.key()))?.content));
    Ok(())
}

/// A run-up of the fan: two bytes a sample, so many samples.
fn run_up(samples: u32) -> Vec<u8> {
    (0..samples).flat_map(|i| ((i * 1450 / samples) as i16).to_be_bytes()).collect()
}

/// Captures longer than a slot, as chains.
fn captures() -> Result<(), Refusal> {
    let mut bytes = vec![0; 8 * 4096];
    let mut table = Table::new(&mut bytes, Settings::multipart().counted().keyed());
    let (first, second) = (hash("card 17, run-up 1"), hash("card 17, run-up 2"));
    let mut output = vec![0; 20_000];

    step("11:00", "Captures of run-ups are longer: a multipart table of 8 slots of 4,096 bytes. A capture is a chain of slots.");
    for (name, key, samples) in [("run-up 1", &first, 6_000), ("run-up 2", &second, 2_100)] {
        let slot = table.insert(key, &run_up(samples), false)?;
        let r = table.read(slot, Some(key), &mut output)?;
        println!("       {name}: {} bytes from slot {slot} on, read back from {} slots", thousands(r.len as i64), r.visits);
    }
    map(table.view());

    step(
        "11:40",
        "Run-up 1 taken again, shorter and marked compressed: the chain keeps its first slots and frees the one left over.",
    );
    table.replace(1, &first, &run_up(2_500), true)?;
    let r = table.read(1, Some(&first), &mut output)?;
    let whole = output[..r.len] == run_up(2_500);
    println!("       {} bytes, compressed mark {}, {} slots, the same bytes: {whole}", thousands(r.len as i64), r.mark, r.visits);
    map(table.view());
    Ok(())
}

/// Each of the thirteen refusals, from a real call. Each leaves the table as it was.
fn refusals(table: &mut Table) -> Result<(), Refusal> {
    step("14:00", "What the station hears when a call cannot be done. No refused call changes a byte.");
    let s = table.settings();
    let before = table.bytes().to_vec();
    let damaged = |edit: &dyn Fn(&mut [u8])| {
        let mut copy = before.clone();
        edit(&mut copy);
        copy
    };
    let key = hash("card 17, fan speed");
    let header = damaged(&|t| t[8] = 99);
    let size = damaged(&|t| t[2 * 64 + 1] = 0x7f);
    let looped = damaged(&|t| t[64 + 2] = 1);
    let mut long = vec![0; 4 * 4096];
    let mut chains = Table::new(&mut long, Settings::multipart());
    chains.insert(&[], &run_up(6_000), false)?;
    let short = chains.insert(&[], b"-20", false);
    let no_room = chains.insert(&[], &run_up(6_000), false);
    long[4096 + 10] = 0;

    let mut answers: Vec<(&str, Option<Refusal>)> = vec![
        ("slots of 31 bytes", View::new(&before, Settings::fixed(31)).free_count().err()),
        ("a buffer of 63 bytes", View::new(&before[..63], s).free_count().err()),
        ("FILLED overwritten with 99", View::new(&header, s).free_count().err()),
        ("a key of 20 bytes", table.insert(&key[..20], b"-20", false).err()),
        ("a count where none is kept", Table::new(&mut before.clone(), Settings::fixed(64).keyed()).change_count(2, 1).err()),
        ("33 bytes into a slot for 32", table.insert(&key, &[0; 33], false).err()),
        ("3 bytes into a multipart table", short.err()),
        ("slot 0", table.remove(0).err()),
        ("a slot never filled", table.remove(8).err()),
        ("a slot that is free", table.remove(1).err()),
        ("a record under another's key", table.read_fixed(2, Some(&key)).err()),
        ("a size word overwritten", View::new(&size, s).read_fixed(2, None).err()),
        ("a chain whose link was lost", View::new(&long, Settings::multipart()).read(1, None, &mut [0; 20_000]).err()),
        ("a free slot linked to itself", View::new(&looped, s).free_count().err()),
        ("12,000 bytes, no slot left", no_room.err()),
        ("an output of 8 bytes for 24", table.read(2, None, &mut [0; 8]).err()),
    ];
    answers.sort_by_key(|(_, refusal)| *refusal);
    for (what, refusal) in answers {
        println!("       {what:<31} {}", refusal.map_or("accepted".into(), |r| r.to_string()));
    }
    println!("       The table is as it was: {}", table.bytes() == before);
    Ok(())
}
