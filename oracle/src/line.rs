//! Reads one input line.

use crate::image::Image;

const LONGEST: usize = 64;

pub enum Line {
    Root,
    Unique,
    Call(Call),
    Release { handle: u32 },
    Hold { handle: u32 },
    Previous { handle: u32 },
    Sweep,
    ShowLive,
    NewRun,
    Load(Image),
}

/// A transition from the shape of a handle.
#[derive(Debug, Clone, Copy)]
pub struct Call {
    pub handle: u32,
    pub kind: CallKind,
}

#[derive(Debug, Clone, Copy)]
pub enum CallKind {
    Insert { key: u32, attributes: u32 },
    Change { key: u32, attributes: u32 },
    Remove { key: u32 },
    Prototype { prototype: u32 },
}

/// The line of these bytes, which end with a line feed if the line was ended.
pub fn parse(bytes: &[u8]) -> Option<Line> {
    let bytes = bytes.strip_suffix(b"\n")?;
    if let Some(words) = bytes.strip_prefix(b"L ") {
        return Image::parse(words).map(Line::Load);
    }
    if bytes.len() > LONGEST {
        return None;
    }
    let mut words = bytes.split(|byte| *byte == b' ');
    let letter = words.next()?;
    let numbers = words.map(number).collect::<Option<Vec<u32>>>()?;
    let call = |handle, kind| Some(Line::Call(Call { handle, kind }));
    match (letter, numbers.as_slice()) {
        (b"R", []) => Some(Line::Root),
        (b"U", []) => Some(Line::Unique),
        (b"I", &[handle, key, attributes]) => call(handle, CallKind::Insert { key, attributes }),
        (b"C", &[handle, key, attributes]) => call(handle, CallKind::Change { key, attributes }),
        (b"D", &[handle, key]) => call(handle, CallKind::Remove { key }),
        (b"P", &[handle, prototype]) => call(handle, CallKind::Prototype { prototype }),
        (b"F", &[handle]) => Some(Line::Release { handle }),
        (b"H", &[handle]) => Some(Line::Hold { handle }),
        (b"V", &[handle]) => Some(Line::Previous { handle }),
        (b"S", []) => Some(Line::Sweep),
        (b"?", []) => Some(Line::ShowLive),
        (b"N", []) => Some(Line::NewRun),
        _ => None,
    }
}

/// Not `str::parse`, which would take a plus sign too.
pub fn number(word: &[u8]) -> Option<u32> {
    if word.is_empty() {
        return None;
    }
    word.iter().try_fold(0u32, |number, byte| {
        let digit = byte.is_ascii_digit().then(|| u32::from(byte - b'0'))?;
        number.checked_mul(10)?.checked_add(digit)
    })
}
