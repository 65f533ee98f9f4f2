//! Damaged heads and buffers: every call ends with an answer or a refusal, and a refused call has changed no byte.
use indovalump::{Attrs, Op, Refusal, Sheet, Table, Value};

struct Dice(u64);

impl Dice {
    fn roll(&mut self, n: u64) -> u64 {
        self.0 ^= self.0 << 13;
        self.0 ^= self.0 >> 7;
        self.0 ^= self.0 << 17;
        (self.0 >> 11) % n
    }

    fn set(&mut self) -> Attrs {
        let mut set = Attrs::new();
        for _ in 0..self.roll(4) {
            set = set.with(self.roll(16) as u32, self.roll(256) as u32).unwrap();
        }
        set
    }
}

fn edit(d: &mut Dice, s: &mut Sheet) -> Result<(), Refusal> {
    let all = s.len().unwrap_or(40) as u64 + 3;
    let (i, n) = (d.roll(all) as u32, d.roll(9) as u32);
    match d.roll(9) {
        0 => s.insert(i, ["", "a", "bc", "\u{1F600}x", "é"][d.roll(5) as usize]),
        1 => s.insert_with_attributes(i, "xy", &d.set()),
        2 => s.insert_embed(i, d.roll(1 << 32) as u32),
        3 => s.insert_embed_with_attributes(i, 7, &d.set()),
        4 => s.format(i, n, &d.set()),
        5 => s.remove_range(i, n),
        6 => s.begin(),
        7 => s.insert_units(i, &[0xD83D, d.roll(1 << 16) as u16]),
        _ => s.apply_delta(&[Op::Retain(i, d.set()), Op::Deleted(n), Op::text("q\u{1F600}", d.set()), Op::Retain(n, d.set())]),
    }
}

fn made(d: &mut Dice, edits: u64) -> Sheet {
    let mut s = Sheet::new();
    for _ in 0..edits {
        let _ = edit(d, &mut s);
    }
    assert!(s.is_sound());
    s
}

fn damaged(d: &mut Dice, s: &Sheet) -> Sheet {
    let (head, items, units) = s.parts();
    let (mut head, mut items, mut units) = (*head, items.to_vec(), units.to_vec());
    for _ in 0..1 + d.roll(3) {
        let used = (head[1] as u64).clamp(1, 2048);
        match d.roll(7) {
            0 => head[d.roll(3) as usize] = d.roll(1 << 32) as u32,
            1 => head[d.roll(3) as usize] = d.roll(2060) as u32,
            2 => items[d.roll(used) as usize] ^= 1 << d.roll(64),
            3 => items[d.roll(used) as usize] = d.roll(1 << 50),
            4 => items[d.roll(used) as usize] = u64::MAX >> d.roll(64),
            5 => units[d.roll((head[2] as u64).clamp(1, 16384)) as usize] = 0xD800 + d.roll(0x800) as u16,
            _ => units[d.roll((head[2] as u64).clamp(1, 16384)) as usize] = d.roll(0xD800) as u16,
        }
    }
    match d.roll(12) {
        0 => items.truncate(d.roll(2049) as usize),
        1 => units.truncate(d.roll(16385) as usize),
        2 => items.push(0),
        _ => {}
    }
    Sheet::from_parts(head, items, units)
}

#[test]
fn damaged_sheets() {
    let mut d = Dice(0x5EED_0001);
    println!("seed {:#x}", d.0);
    let (mut broken, mut refused, mut accepted) = (0, 0, 0);
    for _ in 0..400 {
        let edits = d.roll(60);
        let good = made(&mut d, edits);
        for _ in 0..6 {
            let mut s = damaged(&mut d, &good);
            let sound = s.is_sound();
            for _ in 0..4 {
                let before = s.clone();
                match edit(&mut d, &mut s) {
                    Err(r) => {
                        assert!(s == before, "a refused call changed something");
                        assert_eq!(r == Refusal::Broken, !sound);
                        if sound {
                            refused += 1
                        } else {
                            broken += 1
                        }
                    }
                    Ok(()) => {
                        assert!(sound && s.is_sound());
                        accepted += 1;
                    }
                }
            }
            let _ = s.to_string();
            for read in [
                s.len().map(|_| ()),
                s.diff().map(|_| ()),
                s.joined().map(|_| ()),
                s.event().map(|_| ()),
                s.run_at(true, 1).map(|_| ()),
                s.units_of(0, 9).map(|_| ()),
            ] {
                match read {
                    Ok(()) => assert!(sound),
                    Err(r) => assert_eq!(r == Refusal::Broken, !sound),
                }
            }
        }
    }
    println!("{broken} broken, {refused} refused, {accepted} accepted");
    assert!(broken > 1000 && refused > 50 && accepted > 50);
}

#[test]
fn damaged_operations() {
    let mut d = Dice(0x5EED_0002);
    for _ in 0..4000 {
        let edits = d.roll(12);
        let mut s = made(&mut d, edits);
        let mut words: Vec<u32> = (0..d.roll(4) * 8 + d.roll(8) / 7).map(|_| d.roll(1 << 32) as u32 >> d.roll(32)).collect();
        for w in words.chunks_mut(8) {
            w[0] = d.roll(6) as u32;
        }
        let text = [0x61, 0x62, 0xD83D, 0xDE00];
        let before = s.clone();
        match s.apply_words(&words, &text) {
            Ok(()) => assert!(s.is_sound()),
            Err(_) => assert!(s == before),
        }
    }
    let mut s = Sheet::new();
    assert_eq!(s.apply_words(&[4; 8 * 257], &[]), Err(Refusal::Many));
    assert_eq!(s.apply_words(&[0; 8], &[]), Err(Refusal::Many));
    assert_eq!(s.apply_words(&[4; 7], &[]), Err(Refusal::Many));
}

#[test]
fn damaged_tables() {
    let mut d = Dice(0x5EED_0003);
    for _ in 0..300 {
        let mut t = Table::new();
        for _ in 0..d.roll(40) {
            let _ = t.name(&"n".repeat(d.roll(40) as usize));
            let _ = t.value(&Value::Int(d.roll(20) as i64 - 10));
            let _ = t.value(&Value::String("s".repeat(d.roll(40) as usize)));
            let _ = t.value(&Value::Bool(d.roll(2) == 1));
        }
        assert!(t.is_sound());
        let (head, bytes) = t.parts();
        let (mut head, mut bytes) = (*head, bytes.to_vec());
        match d.roll(4) {
            0 => head[d.roll(2) as usize] = d.roll(300) as u32,
            1 => head[d.roll(2) as usize] = d.roll(1 << 32) as u32,
            2 => bytes[d.roll(1200) as usize] = d.roll(256) as u8,
            _ => bytes.truncate(d.roll(9215) as usize),
        }
        let mut t = Table::from_parts(head, bytes);
        let (sound, before) = (t.is_sound(), t.clone());
        for answer in [t.clone().name("new"), t.clone().value(&Value::Int(77))] {
            assert!(answer.is_ok() || !sound || answer == Err(Refusal::Full));
            assert!(sound || answer == Err(Refusal::Broken));
        }
        if t.name("new").is_err() {
            assert!(t == before);
        }
        for n in 0..300 {
            assert!(sound || (t.name_of(n).is_none() && t.value_of(n).is_none()));
        }
    }
}
