//! Frames, and what they mean.

#[derive(Clone, Copy)]
pub struct Frame {
    pub id: u32,
    pub len: u8,
    pub data: [u8; 8],
}

#[derive(Clone, Copy, PartialEq, Eq)]
pub enum Kind {
    Broadcast,
    Tp,
    Etp,
}

#[derive(Clone, Copy, PartialEq)]
pub enum Wire {
    Rts { size: u32, packets: u8, most: u8, pgn: u32 },
    Bam { size: u32, packets: u8, pgn: u32 },
    Cts { granted: u8, next: u32, pgn: u32 },
    Dpo { packets: u8, offset: u32, pgn: u32 },
    End { size: u32, packets: u8, pgn: u32 },
    Abort { reason: u8, pgn: u32 },
    Packet { sequence: u8, data: [u8; 7] },
}

/// The address of all.
pub const GLOBAL: u8 = 255;

const TP_CM: u8 = 0xEC;
const TP_DT: u8 = 0xEB;
const ETP_CM: u8 = 0xC8;
const ETP_DT: u8 = 0xC7;
const REQUEST: u8 = 0xEA;
const ACKNOWLEDGEMENT: u8 = 0xE8;

/// The PDU format of a frame.
pub fn format(frame: &Frame) -> u8 {
    (frame.id >> 16) as u8
}

fn put(data: &mut [u8], number: u32) {
    for (i, byte) in data.iter_mut().enumerate() {
        *byte = (number >> (8 * i)) as u8
    }
}

fn number(data: &[u8]) -> u32 {
    data.iter().rev().fold(0u32, |number, byte| number << 8 | *byte as u32)
}

fn put_size(data: &mut [u8; 8], size: u32, is_etp: bool) {
    put(&mut data[1..if is_etp { 5 } else { 3 }], size)
}

// The bytes of a row that is no packet.
fn put_control(data: &mut [u8; 8], wire: &Wire, is_etp: bool) {
    let (control, pgn) = match *wire {
        Wire::Rts { size, packets, most, pgn } => {
            (data[3], data[4]) = if is_etp { (0xFF, 0xFF) } else { (packets, most) };
            put_size(data, size, is_etp);
            (if is_etp { 20 } else { 16 }, pgn)
        }
        Wire::Bam { size, packets, pgn } => {
            data[3] = packets;
            put_size(data, size, false);
            (32, pgn)
        }
        Wire::Cts { granted, next, pgn } => {
            data[1] = granted;
            put(&mut data[2..if is_etp { 5 } else { 3 }], next);
            (if is_etp { 21 } else { 17 }, pgn)
        }
        Wire::Dpo { packets, offset, pgn } => {
            data[1] = packets;
            put(&mut data[2..5], offset);
            (22, pgn)
        }
        Wire::End { size, packets, pgn } => {
            data[3] = if is_etp { 0xFF } else { packets };
            put_size(data, size, is_etp);
            (if is_etp { 23 } else { 19 }, pgn)
        }
        Wire::Abort { reason, pgn } => {
            data[1] = reason;
            (255, pgn)
        }
        Wire::Packet { .. } => return,
    };
    data[0] = control;
    put(&mut data[5..8], pgn)
}

pub fn write(wire: &Wire, is_etp: bool, from: u8, to: u8) -> Frame {
    let mut data = [0xFFu8; 8];
    let format = match (wire, is_etp) {
        (Wire::Packet { .. }, false) => TP_DT,
        (Wire::Packet { .. }, true) => ETP_DT,
        (_, false) => TP_CM,
        (_, true) => ETP_CM,
    };
    if let Wire::Packet { sequence, data: bytes } = wire {
        data[0] = *sequence;
        data[1..8].copy_from_slice(bytes)
    } else {
        put_control(&mut data, wire, is_etp)
    }
    Frame { id: 7 << 26 | (format as u32) << 16 | (to as u32) << 8 | from as u32, len: 8, data }
}

/// Whether a frame is of the transport protocols, so that it is malformed where it has no meaning.
pub fn is_transport(frame: &Frame) -> bool {
    (frame.id >> 24) & 3 == 0 && matches!(format(frame), TP_DT | TP_CM | ETP_DT | ETP_CM | REQUEST | ACKNOWLEDGEMENT)
}

/// What a frame means, whether it is of ETP, from whom and to whom.
pub fn read(frame: &Frame) -> Option<(Wire, bool, u8, u8)> {
    if frame.len != 8 || (frame.id >> 24) & 3 != 0 {
        return None;
    }
    let (format, to, from, data) = (format(frame), (frame.id >> 8) as u8, frame.id as u8, &frame.data);
    if from > 253 || to == 254 {
        return None;
    }
    if format == TP_DT || format == ETP_DT {
        if data[0] == 0 || format == ETP_DT && to == GLOBAL {
            return None;
        }
        let mut bytes = [0; 7];
        bytes.copy_from_slice(&data[1..8]);
        return Some((Wire::Packet { sequence: data[0], data: bytes }, format == ETP_DT, from, to));
    }
    let pgn = number(&data[5..8]);
    if pgn > 0x3FFFF {
        return None;
    }
    let wire = match (format, data[0]) {
        (TP_CM, 16) => Wire::Rts { size: number(&data[1..3]), packets: data[3], most: data[4], pgn },
        (TP_CM, 32) if to == GLOBAL => {
            return Some((Wire::Bam { size: number(&data[1..3]), packets: data[3], pgn }, false, from, to));
        }
        (ETP_CM, 20) => Wire::Rts { size: number(&data[1..5]), packets: 0, most: 255, pgn },
        (TP_CM, 17) => Wire::Cts { granted: data[1], next: data[2] as u32, pgn },
        (ETP_CM, 21) => Wire::Cts { granted: data[1], next: number(&data[2..5]), pgn },
        (ETP_CM, 22) => Wire::Dpo { packets: data[1], offset: number(&data[2..5]), pgn },
        (TP_CM, 19) => Wire::End { size: number(&data[1..3]), packets: data[3], pgn },
        (ETP_CM, 23) => Wire::End { size: number(&data[1..5]), packets: 0, pgn },
        (TP_CM, 255) | (ETP_CM, 255) => Wire::Abort { reason: data[1], pgn },
        _ => return None,
    };
    if to == GLOBAL {
        return None;
    }
    Some((wire, format == ETP_CM, from, to))
}
