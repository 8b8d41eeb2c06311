//! A hand-written decoder and encoder of orders, with buffered files and no proof: it does the work of `fixpgw decode` and
//! `fixpgw encode` for the message NewOrder of examples/orders.toml at version 2, and for nothing else. It is what the
//! program's time is compared with, and no part of the product. Each is there twice: as Rust is mostly written, with `write!`
//! and `str::parse`; and tuned, with digits that are written and read by hand.
use std::fs::File;
use std::io::{BufReader, BufWriter, Read, Write};

const ROOT: usize = 33;
const PARTY: usize = 7;
const TAG: usize = 2;

struct Party {
    role: u8,
    party: u32,
    desk: u16,
}

struct Order {
    cl_id: u64,
    side: u8,
    symbol: [u8; 8],
    quantity: u32,
    mantissa: i64,
    account: u32,
    parties: Vec<Party>,
    tags: Vec<u16>,
}

fn fault(what: &str) -> ! {
    eprintln!("{what}");
    std::process::exit(12)
}

/// The bytes of a message, from its front on.
struct Bytes<'a>(&'a [u8]);

impl<'a> Bytes<'a> {
    fn take(&mut self, count: usize) -> &'a [u8] {
        if self.0.len() < count {
            fault("truncated");
        }
        let (front, rest) = self.0.split_at(count);
        self.0 = rest;
        front
    }

    fn u16(&mut self) -> u16 {
        u16::from_le_bytes(self.take(2).try_into().unwrap())
    }
}

fn u32_at(block: &[u8], at: usize) -> u32 {
    u32::from_le_bytes(block[at..at + 4].try_into().unwrap())
}

fn read_order(message: &[u8]) -> Order {
    let mut bytes = Bytes(message);
    let (size, template, schema, version) = (bytes.u16() as usize, bytes.u16(), bytes.u16(), bytes.u16());
    if template != 1 || schema != 100 || version < 2 || size < ROOT {
        fault("no order of version 2");
    }
    let root = bytes.take(size);
    let mut order = Order {
        cl_id: u64::from_le_bytes(root[..8].try_into().unwrap()),
        side: root[8],
        symbol: root[9..17].try_into().unwrap(),
        quantity: u32_at(root, 17),
        mantissa: i64::from_le_bytes(root[21..29].try_into().unwrap()),
        account: u32_at(root, 29),
        parties: Vec::new(),
        tags: Vec::new(),
    };
    let (size, count) = (bytes.u16() as usize, bytes.u16() as usize);
    if count > 0 && size < PARTY {
        fault("short block");
    }
    order.parties.reserve(count);
    for _ in 0..count {
        let block = bytes.take(size);
        order.parties.push(Party {
            role: block[0],
            party: u32_at(block, 1),
            desk: u16::from_le_bytes([block[5], block[6]]),
        });
    }
    let (size, count) = (bytes.u16() as usize, bytes.u16() as usize);
    if count > 0 && size < TAG {
        fault("short block");
    }
    order.tags.reserve(count);
    for _ in 0..count {
        let block = bytes.take(size);
        order.tags.push(u16::from_le_bytes([block[0], block[1]]));
    }
    order
}

fn print_order(order: &Order, out: &mut impl Write) -> std::io::Result<()> {
    writeln!(out, "message NewOrder")?;
    writeln!(out, "cl_id = {}", order.cl_id)?;
    writeln!(out, "side = {}", order.side)?;
    let end = order.symbol.iter().position(|b| *b == 0).unwrap_or(8);
    let symbol = &order.symbol[..end];
    if symbol.iter().all(|b| (0x20..=0x7e).contains(b) && *b != b'"' && *b != b'\\') {
        writeln!(out, "symbol = \"{}\"", std::str::from_utf8(symbol).unwrap())?;
    } else {
        write!(out, "symbol = x")?;
        for b in symbol {
            write!(out, "{b:02x}")?;
        }
        writeln!(out)?;
    }
    writeln!(out, "quantity = {}", order.quantity)?;
    writeln!(out, "price.mantissa = {}", order.mantissa)?;
    if order.account == u32::MAX {
        writeln!(out, "account = null")?;
    } else {
        writeln!(out, "account = {}", order.account)?;
    }
    writeln!(out, "parties = {}", order.parties.len())?;
    for (i, party) in order.parties.iter().enumerate() {
        writeln!(out, "parties[{i}].role = {}", party.role)?;
        writeln!(out, "parties[{i}].party = {}", party.party)?;
        writeln!(out, "parties[{i}].desk = {}", party.desk)?;
    }
    writeln!(out, "tags = {}", order.tags.len())?;
    for (i, tag) in order.tags.iter().enumerate() {
        writeln!(out, "tags[{i}].tag = {tag}")?;
    }
    writeln!(out, "end")
}

/// Adds the digits of a number.
fn digits(mut n: u64, out: &mut Vec<u8>) {
    let mut room = [0u8; 20];
    let mut at = room.len();
    loop {
        at -= 1;
        room[at] = b'0' + (n % 10) as u8;
        n /= 10;
        if n == 0 {
            break;
        }
    }
    out.extend_from_slice(&room[at..]);
}

/// A line of a number that may stand in an entry of a group.
fn number_line(group: &str, at: Option<usize>, name: &str, n: u64, out: &mut Vec<u8>) {
    out.extend_from_slice(group.as_bytes());
    if let Some(at) = at {
        out.push(b'[');
        digits(at as u64, out);
        out.extend_from_slice(b"].");
    }
    out.extend_from_slice(name.as_bytes());
    out.extend_from_slice(b" = ");
    digits(n, out);
    out.push(b'\n');
}

fn print_tuned(order: &Order, out: &mut Vec<u8>) {
    out.extend_from_slice(b"message NewOrder\n");
    number_line("", None, "cl_id", order.cl_id, out);
    number_line("", None, "side", order.side.into(), out);
    let end = order.symbol.iter().position(|b| *b == 0).unwrap_or(8);
    let symbol = &order.symbol[..end];
    out.extend_from_slice(b"symbol = ");
    if symbol.iter().all(|b| (0x20..=0x7e).contains(b) && *b != b'"' && *b != b'\\') {
        out.push(b'"');
        out.extend_from_slice(symbol);
        out.extend_from_slice(b"\"\n");
    } else {
        out.push(b'x');
        for b in symbol {
            let digits = b"0123456789abcdef";
            out.extend_from_slice(&[digits[usize::from(b / 16)], digits[usize::from(b % 16)]]);
        }
        out.push(b'\n');
    }
    number_line("", None, "quantity", order.quantity.into(), out);
    out.extend_from_slice(b"price.mantissa = ");
    if order.mantissa < 0 {
        out.push(b'-');
    }
    digits(order.mantissa.unsigned_abs(), out);
    out.push(b'\n');
    if order.account == u32::MAX {
        out.extend_from_slice(b"account = null\n");
    } else {
        number_line("", None, "account", order.account.into(), out);
    }
    number_line("", None, "parties", order.parties.len() as u64, out);
    for (i, party) in order.parties.iter().enumerate() {
        number_line("parties", Some(i), "role", party.role.into(), out);
        number_line("parties", Some(i), "party", party.party.into(), out);
        number_line("parties", Some(i), "desk", party.desk.into(), out);
    }
    number_line("", None, "tags", order.tags.len() as u64, out);
    for (i, tag) in order.tags.iter().enumerate() {
        number_line("tags", Some(i), "tag", (*tag).into(), out);
    }
    out.extend_from_slice(b"end\n");
}

fn decode(input: &str, out: &str, is_tuned: bool) -> std::io::Result<()> {
    let mut lines = Vec::new();
    let mut input = BufReader::with_capacity(32 * 1024, File::open(input)?);
    let mut out = BufWriter::with_capacity(32 * 1024, File::create(out)?);
    let mut header = [0u8; 6];
    let mut message = vec![0u8; 16384];
    while input.read_exact(&mut header).is_ok() {
        let size = u32::from_be_bytes([header[0], header[1], header[2], header[3]]) as usize;
        if !(14..=16390).contains(&size) || header[4..] != [0xeb, 0x50] {
            fault("no frame");
        }
        let message = &mut message[..size - 6];
        input.read_exact(message)?;
        if is_tuned {
            lines.clear();
            print_tuned(&read_order(message), &mut lines);
            out.write_all(&lines)?;
        } else {
            print_order(&read_order(message), &mut out)?;
        }
    }
    out.flush()
}

/// The lines of a text, from the first on.
struct Lines<'a> {
    left: &'a [u8],
    number: usize,
    is_tuned: bool,
}

/// The number of some digits and how many there are; none where it is too great.
fn natural(text: &[u8]) -> Option<(u64, usize)> {
    let (mut number, mut count) = (0u64, 0);
    for digit in text {
        let value = digit.wrapping_sub(b'0');
        if value > 9 {
            break;
        }
        number = number.checked_mul(10)?.checked_add(value.into())?;
        count += 1;
    }
    Some((number, count))
}

/// An integer of a field, by its sign and its magnitude.
trait Field: std::str::FromStr {
    fn of(is_negative: bool, magnitude: u64) -> Option<Self>;
}

macro_rules! fields {
    ($($t:ty)*) => {
        $(impl Field for $t {
            fn of(is_negative: bool, magnitude: u64) -> Option<Self> {
                if is_negative { Self::try_from(-i128::from(magnitude)).ok() } else { Self::try_from(magnitude).ok() }
            }
        })*
    };
}

fields!(u8 u16 u32 u64 usize i64);

impl<'a> Lines<'a> {
    fn next(&mut self) -> &'a [u8] {
        self.number += 1;
        let end = self.left.iter().position(|b| *b == b'\n').unwrap_or(self.left.len());
        let line = &self.left[..end];
        self.left = &self.left[(end + 1).min(self.left.len())..];
        line.strip_suffix(b"\r").unwrap_or(line)
    }

    fn refuse(&self) -> ! {
        fault(&format!("line {}", self.number))
    }

    /// The value on the next line, whose path begins so.
    fn value(&mut self, group: &str, at: Option<usize>, name: &str) -> &'a [u8] {
        let line = self.next();
        let rest = line.strip_prefix(group.as_bytes()).and_then(|rest| match at {
            None => Some(rest),
            Some(at) => {
                let rest = rest.strip_prefix(b"[")?;
                let (number, count) = if self.is_tuned {
                    natural(rest)?
                } else {
                    let count = rest.iter().take_while(|b| b.is_ascii_digit()).count();
                    (std::str::from_utf8(&rest[..count]).unwrap().parse().ok()?, count)
                };
                if number != at as u64 {
                    return None;
                }
                rest[count..].strip_prefix(b"].")
            }
        });
        match rest.and_then(|rest| rest.strip_prefix(name.as_bytes())).and_then(|rest| rest.strip_prefix(b" = ")) {
            Some(value) => value,
            None => self.refuse(),
        }
    }

    fn number<T: Field>(&self, value: &[u8]) -> T {
        if self.is_tuned {
            let digits = value.strip_prefix(b"-").unwrap_or(value);
            return match natural(digits) {
                Some((number, count)) if count == digits.len() && count > 0 && (digits[0] != b'0' || value.len() == 1) => {
                    T::of(digits.len() < value.len(), number).unwrap_or_else(|| self.refuse())
                }
                _ => self.refuse(),
            };
        }
        let digits = value.strip_prefix(b"-").unwrap_or(value);
        if digits.is_empty() || !digits.iter().all(u8::is_ascii_digit) || (digits[0] == b'0' && value.len() > 1) {
            self.refuse();
        }
        match std::str::from_utf8(value).unwrap().parse() {
            Ok(number) => number,
            Err(_) => self.refuse(),
        }
    }
}

fn parse_order(lines: &mut Lines) -> Order {
    if lines.next() != b"message NewOrder" {
        lines.refuse();
    }
    let value = lines.value("", None, "cl_id");
    let cl_id = lines.number(value);
    let value = lines.value("", None, "side");
    let side = lines.number(value);
    let value = lines.value("", None, "symbol");
    let text = value.strip_prefix(b"\"").and_then(|text| text.strip_suffix(b"\""));
    let mut symbol = [0u8; 8];
    match text {
        Some(text) if text.len() <= 8 => symbol[..text.len()].copy_from_slice(text),
        _ => lines.refuse(),
    }
    let value = lines.value("", None, "quantity");
    let quantity = lines.number(value);
    let value = lines.value("", None, "price.mantissa");
    let mantissa = lines.number(value);
    let value = lines.value("", None, "account");
    let account = if value == b"null" { u32::MAX } else { lines.number(value) };
    let value = lines.value("", None, "parties");
    let count: usize = lines.number(value);
    let mut parties = Vec::new();
    for i in 0..count {
        let value = lines.value("parties", Some(i), "role");
        let role = lines.number(value);
        let value = lines.value("parties", Some(i), "party");
        let party = lines.number(value);
        let value = lines.value("parties", Some(i), "desk");
        let desk = lines.number(value);
        parties.push(Party { role, party, desk });
    }
    let value = lines.value("", None, "tags");
    let count: usize = lines.number(value);
    let mut tags = Vec::new();
    for i in 0..count {
        let value = lines.value("tags", Some(i), "tag");
        tags.push(lines.number(value));
    }
    if lines.next() != b"end" {
        lines.refuse();
    }
    Order { cl_id, side, symbol, quantity, mantissa, account, parties, tags }
}

fn is_in_range(order: &Order) -> bool {
    order.cl_id < u64::MAX
        && matches!(order.side, 1 | 2)
        && order.symbol.iter().take_while(|b| **b != 0).all(|b| (0x20..=0x7e).contains(b))
        && order.quantity < u32::MAX
        && order.mantissa > i64::MIN
        && order.parties.iter().all(|p| p.role < u8::MAX && p.party < u32::MAX && p.desk < u16::MAX)
        && order.tags.iter().all(|tag| *tag < u16::MAX)
}

fn write_order(order: &Order, bytes: &mut Vec<u8>) {
    bytes.clear();
    bytes.extend_from_slice(&[0, 0, 0, 0, 0xeb, 0x50]);
    for n in [ROOT as u16, 1, 100, 2] {
        bytes.extend_from_slice(&n.to_le_bytes());
    }
    bytes.extend_from_slice(&order.cl_id.to_le_bytes());
    bytes.push(order.side);
    bytes.extend_from_slice(&order.symbol);
    bytes.extend_from_slice(&order.quantity.to_le_bytes());
    bytes.extend_from_slice(&order.mantissa.to_le_bytes());
    bytes.extend_from_slice(&order.account.to_le_bytes());
    for n in [PARTY as u16, order.parties.len() as u16] {
        bytes.extend_from_slice(&n.to_le_bytes());
    }
    for party in &order.parties {
        bytes.push(party.role);
        bytes.extend_from_slice(&party.party.to_le_bytes());
        bytes.extend_from_slice(&party.desk.to_le_bytes());
    }
    for n in [TAG as u16, order.tags.len() as u16] {
        bytes.extend_from_slice(&n.to_le_bytes());
    }
    for tag in &order.tags {
        bytes.extend_from_slice(&tag.to_le_bytes());
    }
    let size = bytes.len() as u32;
    bytes[..4].copy_from_slice(&size.to_be_bytes());
}

/// Reads and parses the whole text before it writes, as `fixpgw encode` does.
fn encode(input: &str, wire: &str, is_tuned: bool) -> std::io::Result<()> {
    let text = std::fs::read(input)?;
    let mut lines = Lines { left: &text, number: 0, is_tuned };
    let mut orders = Vec::new();
    while !lines.left.is_empty() {
        orders.push(parse_order(&mut lines));
    }
    let mut wire = BufWriter::with_capacity(32 * 1024, File::create(wire)?);
    let mut bytes = Vec::new();
    for order in &orders {
        if !is_in_range(order) || order.parties.len() > 65535 || order.tags.len() > 65535 {
            fault("out of range");
        }
        write_order(order, &mut bytes);
        wire.write_all(&bytes)?;
    }
    wire.flush()
}

fn main() -> std::io::Result<()> {
    let args: Vec<String> = std::env::args().collect();
    match args[1].as_str() {
        "decode" => decode(&args[2], &args[3], false),
        "encode" => encode(&args[2], &args[3], false),
        "decode-tuned" => decode(&args[2], &args[3], true),
        "encode-tuned" => encode(&args[2], &args[3], true),
        _ => fault("decode INPUT OUT, or encode INPUT WIRE; decode-tuned or encode-tuned, the same tuned"),
    }
}
