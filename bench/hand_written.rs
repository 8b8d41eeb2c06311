//! A hand-written loop that does the work of `fixpgw answer`, with buffered files and no proof.
//! It is what the program's time is compared with, and no part of the product.
use std::fs::File;
use std::io::{BufReader, BufWriter, Read, Write};

const SESSION: [u8; 16] = [
    0x00, 0x11, 0x22, 0x33, 0x44, 0x55, 0x66, 0x77, 0x88, 0x99, 0xaa, 0xbb, 0xcc, 0xdd, 0xee, 0xff,
];
const KEEPALIVE: u32 = 1000;

fn frame(template: u16, block: &[u8], data: Option<&[u8]>) -> Vec<u8> {
    let size = 14 + block.len() + data.map_or(0, |d| 2 + d.len());
    let mut bytes = Vec::with_capacity(size);
    bytes.extend_from_slice(&(size as u32).to_be_bytes());
    bytes.extend_from_slice(&0xEB50u16.to_be_bytes());
    bytes.extend_from_slice(&(block.len() as u16).to_le_bytes());
    bytes.extend_from_slice(&template.to_le_bytes());
    bytes.extend_from_slice(&0xF011u16.to_le_bytes());
    bytes.extend_from_slice(&0u16.to_le_bytes());
    bytes.extend_from_slice(block);
    if let Some(data) = data {
        bytes.extend_from_slice(&(data.len() as u16).to_le_bytes());
        bytes.extend_from_slice(data);
    }
    bytes
}

fn main() -> std::io::Result<()> {
    let args: Vec<String> = std::env::args().collect();
    let mut input = BufReader::with_capacity(32 * 1024, File::open(&args[1])?);
    let mut wire = BufWriter::with_capacity(32 * 1024, File::create(&args[2])?);
    let mut out = BufWriter::with_capacity(32 * 1024, File::create(&args[3])?);
    let mut header = [0u8; 6];
    let mut message = vec![0u8; 16384];
    let mut text = Vec::with_capacity(2 * 16386 + 64);
    let (mut negotiated, mut established, mut next, mut status) = (false, false, 1u64, 0);
    loop {
        match input.read_exact(&mut header) {
            Ok(()) => {}
            Err(_) => break,
        }
        let size = u32::from_be_bytes([header[0], header[1], header[2], header[3]]) as usize;
        let encoding = u16::from_be_bytes([header[4], header[5]]);
        if !(14..=16390).contains(&size) || (encoding != 0xEB50 && encoding != 0x5BE0) {
            status = 12;
            break;
        }
        let message = &mut message[..size - 6];
        input.read_exact(message)?;
        let schema = if encoding == 0xEB50 {
            u16::from_le_bytes([message[4], message[5]])
        } else {
            u16::from_be_bytes([message[4], message[5]])
        };
        if schema != 0xF011 {
            if !established || next > 1 << 26 {
                status = 12;
                break;
            }
            text.clear();
            write!(text, "deliver {next} ")?;
            for byte in header[4..].iter().chain(message.iter()) {
                text.push(b"0123456789abcdef"[(byte >> 4) as usize]);
                text.push(b"0123456789abcdef"[(byte & 15) as usize]);
            }
            text.push(b'\n');
            out.write_all(&text)?;
            next += 1;
            continue;
        }
        let template = u16::from_le_bytes([message[2], message[3]]);
        match template {
            1 if !negotiated && message[8..24] == SESSION && message[32] == 3 => {
                negotiated = true;
                let mut block = message[8..32].to_vec();
                block.push(4);
                wire.write_all(&frame(2, &block, Some(&[])))?;
            }
            4 if negotiated && !established && message[8..24] == SESSION => {
                established = true;
                let mut block = message[8..32].to_vec();
                block.extend_from_slice(&KEEPALIVE.to_le_bytes());
                block.extend_from_slice(&u64::MAX.to_le_bytes());
                wire.write_all(&frame(5, &block, None))?;
            }
            7 if established => {}
            8 => {}
            16 if message[8..24] == SESSION => {
                let mut block = SESSION.to_vec();
                block.push(1);
                wire.write_all(&frame(16, &block, Some(&[])))?;
                break;
            }
            _ => {
                status = 12;
                break;
            }
        }
    }
    wire.flush()?;
    out.flush()?;
    println!("status {status}");
    Ok(())
}
