//! Frames (rule F1 to rule F6): fields, writer, reader, and the timing of phase bytes.

use crate::{no, tree, FIELD_LIMIT, FIELD_WORDS, SHELLS};

/// The fields of a frame. Shells stand by their own number; numbers that the frame lacks are 0.
#[derive(Clone, Copy, Debug, Default, PartialEq, Eq)]
pub struct Fields {
    pub pass: u32,
    pub phase: u8,
    pub dim: u32,
    pub sender: u32,
    pub sent: [u32; SHELLS],
    pub taken: [u32; SHELLS],
    pub total_sent: u32,
    pub total_taken: u32,
    pub t: u32,
}

/// When an item was sent, seen from the node that gets it (rule F5).
#[derive(Clone, Copy, Debug, PartialEq, Eq)]
pub enum Timing {
    Now,
    Early,
    Late,
    Foreign,
}

/// Rule F5, by the phase bytes of an item and of a node.
pub fn timing(item: u8, node: u8) -> Timing {
    match (256 + u32::from(item) - u32::from(node)) % 256 {
        0 => Timing::Now,
        1 => Timing::Early,
        255 => Timing::Late,
        _ => Timing::Foreign,
    }
}

/// The length of a frame by rule F3. Wants pass 1 or 2 and k below p.
pub fn stated_length(p: u32, pass: u32, k: u32) -> usize {
    if pass == 1 {
        4 + 8 * (p - k) as usize + 8
    } else {
        12
    }
}

/// The step of a frame is one of the board's; else 10.
fn pass_and_dim_stand(p: u32, pass: u32, k: u32) -> bool {
    (pass == 1 || pass == 2) && k < p
}

/// The frame writer, in the order of rule R3: 1, 10 step, 10 numbers, 2, 14. Gives the length.
pub fn write(board: u32, fields: &Fields, buffer: &mut [u8]) -> Result<usize, u8> {
    let p = tree::dimension(board)?;
    if !pass_and_dim_stand(p, fields.pass, fields.dim) {
        return Err(no::FIELD);
    }
    if !numbers_stand(p, fields) {
        return Err(no::FIELD);
    }
    if fields.sender >= board {
        return Err(no::STRANGER);
    }
    let bytes = layout(p, fields);
    if buffer.len() < bytes.len() {
        return Err(no::BUFFER);
    }
    // The other bytes stay (rule F6).
    buffer[..bytes.len()].copy_from_slice(&bytes);
    Ok(bytes.len())
}

/// The frame writer on the words of a frame (rule C6 and rule C7): a phase above 255 gives 10, after 1.
pub fn write_words(board: u32, words: &[u32; FIELD_WORDS], buffer: &mut [u8]) -> Result<usize, u8> {
    tree::dimension(board)?;
    let Ok(phase) = u8::try_from(words[1]) else {
        return Err(no::FIELD);
    };
    let mut fields = Fields {
        pass: words[0],
        phase,
        dim: words[2],
        sender: words[3],
        total_sent: words[4],
        total_taken: words[5],
        t: words[6],
        ..Fields::default()
    };
    fields.sent.copy_from_slice(&words[7..7 + SHELLS]);
    fields.taken.copy_from_slice(&words[7 + SHELLS..]);
    write(board, &fields, buffer)
}

/// No number is above the limit, and those that the frame lacks are 0; else 10.
fn numbers_stand(p: u32, fields: &Fields) -> bool {
    let mut all = vec![fields.total_sent, fields.total_taken, fields.t];
    all.extend(fields.sent);
    all.extend(fields.taken);
    all.iter().all(|&n| n <= FIELD_LIMIT) && others(p, fields).iter().all(|&n| n == 0)
}

/// The numbers that a frame of this pass and dimension lacks.
fn others(p: u32, fields: &Fields) -> Vec<u32> {
    let mut others = Vec::new();
    for shell in 0..SHELLS {
        if fields.pass == 2 || (shell as u32) < fields.dim || shell as u32 >= p {
            others.push(fields.sent[shell]);
            others.push(fields.taken[shell]);
        }
    }
    others.push(if fields.pass == 1 { fields.t } else { fields.total_taken });
    others
}

/// The bytes of a frame: four of the head (rule F1), then its numbers (rule F2).
fn layout(p: u32, fields: &Fields) -> Vec<u8> {
    let mut bytes = vec![fields.pass as u8, fields.phase, fields.dim as u8, fields.sender as u8];
    for number in numbers(p, fields) {
        bytes.extend(number.to_le_bytes());
    }
    bytes
}

/// The numbers of a frame in the order of rule F3.
fn numbers(p: u32, fields: &Fields) -> Vec<u32> {
    if fields.pass == 2 {
        return vec![fields.t, fields.total_sent];
    }
    let shells = fields.dim as usize..p as usize;
    let mut numbers = Vec::new();
    numbers.extend(&fields.sent[shells.clone()]);
    numbers.extend(&fields.taken[shells]);
    numbers.push(fields.total_sent);
    numbers.push(fields.total_taken);
    numbers
}

/// The frame reader, in the order of rule R3: 1, 9, 10, 9, 10, 2.
pub fn read(board: u32, bytes: &[u8]) -> Result<Fields, u8> {
    let p = tree::dimension(board)?;
    if bytes.len() < 4 {
        return Err(no::LENGTH);
    }
    let (pass, dim) = (u32::from(bytes[0]), u32::from(bytes[2]));
    if !pass_and_dim_stand(p, pass, dim) {
        return Err(no::FIELD);
    }
    if bytes.len() != stated_length(p, pass, dim) {
        return Err(no::LENGTH);
    }
    let numbers = words(&bytes[4..]);
    if numbers.iter().any(|&n| n > FIELD_LIMIT) {
        return Err(no::FIELD);
    }
    let sender = u32::from(bytes[3]);
    if sender >= board {
        return Err(no::STRANGER);
    }
    let head = Fields { pass, phase: bytes[1], dim, sender, ..Fields::default() };
    Ok(with_numbers(p, head, &numbers))
}

/// Numbers of four bytes, the low byte first (rule F2).
fn words(bytes: &[u8]) -> Vec<u32> {
    bytes.chunks(4).map(|w| u32::from_le_bytes([w[0], w[1], w[2], w[3]])).collect()
}

/// The numbers of a frame put into their fields, in the order of `numbers`.
fn with_numbers(p: u32, head: Fields, numbers: &[u32]) -> Fields {
    let mut fields = head;
    if head.pass == 2 {
        fields.t = numbers[0];
        fields.total_sent = numbers[1];
        return fields;
    }
    let (k, count) = (head.dim as usize, (p - head.dim) as usize);
    fields.sent[k..k + count].copy_from_slice(&numbers[..count]);
    fields.taken[k..k + count].copy_from_slice(&numbers[count..2 * count]);
    fields.total_sent = numbers[2 * count];
    fields.total_taken = numbers[2 * count + 1];
    fields
}
