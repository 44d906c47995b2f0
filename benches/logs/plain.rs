//! A decoder of recorded logs as one would write it at ease in plain Rust, std only: it prints the messages of the log of standard input, put
//! together of their packets, as `j1939bus decode` does where nothing is lost. It knows neither silence nor aborts, nor a message too long.
use std::collections::HashMap;
use std::io::{self, BufRead, BufReader, BufWriter, Write};

/// Interface, sender, destination, and whether it goes by the extended transport.
type Key = (Vec<u8>, u8, u8, bool);

struct Session {
    pgn: u32,
    size: usize,
    bytes: Vec<u8>,
    next: u32,
    offset: u32,
}

fn number(digits: &[u8], base: u64) -> Option<u64> {
    let mut n = 0u64;
    for digit in digits {
        n = n.checked_mul(base)?.checked_add(u64::from((*digit as char).to_digit(base as u32)?))?;
    }
    (!digits.is_empty()).then_some(n)
}

/// A frame of a line `(SECONDS.MICROS) IFACE ID#HEX`: its time in microseconds, interface, identifier and data.
fn frame(line: &[u8]) -> Option<(u64, &[u8], u32, Vec<u8>)> {
    let mut words = line.split(|byte| *byte == b' ');
    let time = words.next()?.strip_prefix(b"(")?.strip_suffix(b")")?;
    let point = time.iter().position(|byte| *byte == b'.')?;
    let time = number(&time[..point], 10)?.checked_mul(1_000_000)?.checked_add(number(&time[point + 1..], 10)?)?;
    let iface = words.next()?;
    let frame = words.next()?;
    let data = frame.get(9..)?;
    if frame.get(8) != Some(&b'#') || data.len() % 2 != 0 || data.len() > 16 {
        return None;
    }
    let id = number(&frame[..8], 16)? as u32;
    let bytes = data.chunks(2).map(|pair| number(pair, 16).map(|byte| byte as u8)).collect::<Option<Vec<u8>>>()?;
    Some((time, iface, id, bytes))
}

fn pgn_field(data: &[u8]) -> u32 {
    u32::from(data[5]) | u32::from(data[6]) << 8 | u32::from(data[7]) << 16
}

fn tell(out: &mut impl Write, time: u64, key: &Key, session: &Session) -> io::Result<()> {
    write!(out, "({:010}.{:06}) ", time / 1_000_000, time % 1_000_000)?;
    out.write_all(&key.0)?;
    write!(out, " given {:02X} {:02X} {:05X} {} ", key.1, key.2, session.pgn, session.size)?;
    for byte in &session.bytes {
        write!(out, "{byte:02X}")?;
    }
    out.write_all(b"\n")
}

fn packet(sessions: &mut HashMap<Key, Session>, key: Key, data: &[u8], time: u64, out: &mut impl Write) -> io::Result<()> {
    let Some(session) = sessions.get_mut(&key) else { return Ok(()) };
    if session.offset + u32::from(data[0]) != session.next {
        return Ok(());
    }
    let left = session.size - session.bytes.len();
    session.bytes.extend_from_slice(&data[1..1 + left.min(7)]);
    session.next += 1;
    if session.bytes.len() == session.size {
        tell(out, time, &key, session)?;
        sessions.remove(&key);
    }
    Ok(())
}

fn management(sessions: &mut HashMap<Key, Session>, key: Key, data: &[u8]) {
    let size = match data[0] {
        16 | 32 => usize::from(data[1]) | usize::from(data[2]) << 8,
        20 => u32::from_le_bytes([data[1], data[2], data[3], data[4]]) as usize,
        22 => {
            if let Some(session) = sessions.get_mut(&key) {
                session.offset = u32::from_le_bytes([data[2], data[3], data[4], 0]);
            }
            return;
        }
        _ => return,
    };
    let pgn = pgn_field(data);
    let pgn = if pgn >> 8 & 0xFF < 240 { pgn & 0x3_FF00 } else { pgn };
    sessions.insert(key, Session { pgn, size, bytes: Vec::new(), next: 1, offset: 0 });
}

fn main() -> io::Result<()> {
    let mut reader = BufReader::new(io::stdin().lock());
    let mut out = BufWriter::new(io::stdout().lock());
    let mut sessions = HashMap::new();
    let mut line = Vec::new();
    loop {
        line.clear();
        if reader.read_until(b'\n', &mut line)? == 0 {
            return out.flush();
        }
        let Some((time, iface, id, data)) = frame(line.strip_suffix(b"\n").unwrap_or(&line)) else { continue };
        let (group, to, from) = (id >> 16 & 0xFF, (id >> 8) as u8, id as u8);
        let key = (iface.to_vec(), from, to, group < 0xCC);
        match group {
            _ if data.len() != 8 => {}
            0xEC | 0xC8 => management(&mut sessions, key, &data),
            0xEB | 0xC7 => packet(&mut sessions, key, &data, time, &mut out)?,
            _ => {}
        }
    }
}
