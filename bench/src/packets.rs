//! GDB's remote protocol on bytes: what is heard, what is asked, and frames.

const PAYLOAD: usize = 4096;

#[derive(Debug, PartialEq, Eq)]
pub enum Item<'a> {
    Unfinished,
    Resend,
    Ignored,
    /// A frame with a wrong sum, and its length.
    WrongSum(usize),
    NoEnd,
    Packet(&'a [u8]),
}

impl Item<'_> {
    pub fn used(&self) -> usize {
        match self {
            Item::Unfinished => 0,
            Item::Resend | Item::Ignored | Item::NoEnd => 1,
            Item::WrongSum(length) => *length,
            Item::Packet(payload) => payload.len() + 4,
        }
    }
}

/// The item that the bytes received begin with.
pub fn hear(received: &[u8]) -> Item<'_> {
    let behind = match received {
        [] => return Item::Unfinished,
        [b'$', behind @ ..] => behind,
        [b'-', ..] => return Item::Resend,
        _ => return Item::Ignored,
    };
    let window = &behind[..behind.len().min(PAYLOAD + 1)];
    let Some(end) = window.iter().position(|&byte| byte == b'#') else {
        return if window.len() > PAYLOAD {
            Item::NoEnd
        } else {
            Item::Unfinished
        };
    };
    let (payload, behind) = (&behind[..end], &behind[end + 1..]);
    match behind {
        [high, low, ..] if byte(&[*high, *low]) == Some(sum(payload)) => Item::Packet(payload),
        [_, _, ..] => Item::WrongSum(payload.len() + 4),
        _ => Item::Unfinished,
    }
}

fn sum(payload: &[u8]) -> u8 {
    payload.iter().fold(0, |sum, byte| sum.wrapping_add(*byte))
}

pub fn frame(payload: &[u8]) -> Vec<u8> {
    let mut frame = vec![b'$'];
    frame.extend(payload);
    frame.extend(format!("#{:02x}", sum(payload)).bytes());
    frame
}

/// What a payload asks for.
#[derive(Debug, PartialEq, Eq)]
pub enum Command<'a> {
    WhyHalted,
    Read {
        first: u64,
        count: u64,
    },
    /// The digits of the bytes, two each.
    Write {
        first: u64,
        digits: &'a [u8],
    },
    Registers,
    Detach,
    Thread,
    Supported,
    Depth(u8),
    LastFault,
    Unknown,
}

impl Command<'_> {
    /// The command, or the number of its refusal.
    pub fn parse(payload: &[u8]) -> Result<Command<'_>, u8> {
        if let Some(digits) = payload.strip_prefix(b"Qaisle.depth:") {
            return byte(digits).map(Command::Depth).ok_or(0x22);
        }
        match payload {
            b"?" => Ok(Command::WhyHalted),
            b"g" => Ok(Command::Registers),
            b"D" => Ok(Command::Detach),
            b"qaisle.fault" => Ok(Command::LastFault),
            [b'm', rest @ ..] => read(rest),
            [b'M', rest @ ..] => write(rest),
            [b'H', ..] => Ok(Command::Thread),
            _ if payload.starts_with(b"qSupported") => Ok(Command::Supported),
            _ => Ok(Command::Unknown),
        }
    }
}

fn read(text: &[u8]) -> Result<Command<'_>, u8> {
    let (first, count) = addresses(text).ok_or(0x22)?;
    judge(first, count, true)?;
    Ok(Command::Read { first, count })
}

fn write(text: &[u8]) -> Result<Command<'_>, u8> {
    let (text, digits) = split(text, b':').ok_or(0x22)?;
    let (first, count) = addresses(text).ok_or(0x22)?;
    if !digits.iter().all(u8::is_ascii_hexdigit) {
        return Err(0x22);
    }
    let fits = digits.len() as u128 == 2 * u128::from(count);
    judge(first, count, fits)?;
    Ok(Command::Write { first, digits })
}

/// The refusals behind that of the form, in their order.
fn judge(first: u64, count: u64, digits_fit: bool) -> Result<(), u8> {
    if count == 0 {
        Err(0x23)
    } else if !digits_fit {
        Err(0x24)
    } else if first.checked_add(count - 1).is_none() {
        Err(0x25)
    } else {
        Ok(())
    }
}

fn addresses(text: &[u8]) -> Option<(u64, u64)> {
    let (first, count) = split(text, b',')?;
    Some((number(first)?, number(count)?))
}

fn split(text: &[u8], mark: u8) -> Option<(&[u8], &[u8])> {
    let at = text.iter().position(|&byte| byte == mark)?;
    Some((&text[..at], &text[at + 1..]))
}

/// A number of 1 to 16 digits.
fn number(text: &[u8]) -> Option<u64> {
    if text.is_empty() || text.len() > 16 {
        return None;
    }
    text.iter().try_fold(0, |number, &digit| {
        Some(number << 4 | u64::from(value(digit)?))
    })
}

/// A byte of two digits.
pub fn byte(text: &[u8]) -> Option<u8> {
    match text {
        [high, low] => Some(value(*high)? << 4 | value(*low)?),
        _ => None,
    }
}

fn value(digit: u8) -> Option<u8> {
    char::from(digit).to_digit(16).map(|value| value as u8)
}
