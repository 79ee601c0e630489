//! The program: a shop as text in, its log as text out.

use crate::fault::{commits, Fault};
use crate::message::Message;
use crate::refusal::{refuse_if, Refusal};
use crate::row::ROW;
use crate::run::{run, Closing};
use crate::shop::{Shape, Shop};

/// Most bytes of an input.
pub const INPUT_MAX: usize = 65_536;
/// The event budget of the program.
pub const BUDGET: u32 = 4_096;

/// The whole output for an input.
pub fn answer(input: &[u8]) -> Vec<u8> {
    let mut log = vec![0; ROW * BUDGET as usize];
    match run_text(input, &mut log) {
        Ok(closing) => printed(&log, &closing),
        Err(Refusal(number)) => format!("refused {number}\n").into_bytes(),
    }
}

fn run_text(input: &[u8], log: &mut [u8]) -> Result<Closing, Refusal> {
    let mut lines = read(input)?;
    run(&lines.shop, &lines.owners, &mut lines.messages, log, BUDGET)
}

/// What an input says.
struct Lines {
    shop: Shop,
    owners: Vec<u32>,
    messages: Vec<Message>,
}

fn read(input: &[u8]) -> Result<Lines, Refusal> {
    refuse_if(input.len() > INPUT_MAX, 13)?;
    let mut body = input.strip_suffix(b"\n").ok_or(Refusal(13))?;
    if commits(Fault::EmptyLine) {
        body = body.strip_suffix(b"\n").unwrap_or(body);
    }
    let mut lines = body.split(|&byte| byte == b'\n');
    let [stations, width, offset, compression, mt, f, ms, q] = exactly(lines.next())?;
    let owners = numbers(lines.next().ok_or(Refusal(13))?).collect::<Result<_, _>>()?;
    let messages = lines.map(|line| message(Some(line))).collect::<Result<_, _>>()?;
    let shop = Shop {
        stations,
        width,
        offset,
        compression,
        time: Shape { branches: mt, leaves: f },
        fixed: Shape { branches: ms, leaves: q },
    };
    Ok(Lines { shop, owners, messages })
}

fn message(line: Option<&[u8]>) -> Result<Message, Refusal> {
    let [station, arrival, relative, length] = exactly(line)?;
    Ok(Message { station, arrival, relative, length, sent: 0 })
}

/// A line of exactly N numbers.
fn exactly<const N: usize>(line: Option<&[u8]>) -> Result<[u32; N], Refusal> {
    let mut found = numbers(line.ok_or(Refusal(13))?);
    let mut all = [0; N];
    for place in &mut all {
        *place = found.next().unwrap_or(Err(Refusal(13)))?;
    }
    refuse_if(found.next().is_some(), 13)?;
    Ok(all)
}

/// The numbers of a line. Where two spaces meet, or one ends the line, an empty word stands between and is refused.
fn numbers(line: &[u8]) -> impl Iterator<Item = Result<u32, Refusal>> + '_ {
    line.split(|&byte| byte == b' ').map(number)
}

/// A decimal number of 1 to 10 digits.
fn number(word: &[u8]) -> Result<u32, Refusal> {
    let digits = if commits(Fault::ElevenDigits) { 11 } else { 10 };
    refuse_if(word.is_empty() || word.len() > digits, 13)?;
    let mut value = 0_u64;
    for &byte in word {
        refuse_if(!byte.is_ascii_digit(), 13)?;
        value = value * 10 + u64::from(byte - b'0');
    }
    u32::try_from(value).map_err(|_| Refusal(13))
}

/// The log as lines, and the closing figures.
fn printed(log: &[u8], closing: &Closing) -> Vec<u8> {
    let mut out = Vec::with_capacity(40 * closing.events as usize + 100);
    out.extend_from_slice(b"slot phase first width state message length\n");
    for row in &log.as_chunks::<ROW>().0[..closing.events as usize] {
        print_row(row, &mut out);
    }
    out.extend_from_slice(if closing.done { b"done" } else { b"budget" });
    for figure in [closing.events, closing.slot, closing.sent, closing.late] {
        out.push(b' ');
        decimal(figure, &mut out);
    }
    out.push(b'\n');
    out
}

fn print_row(row: &[u8; ROW], out: &mut Vec<u8>) {
    let two = |at| u32::from(u16::from_le_bytes([row[at], row[at + 1]]));
    decimal(u32::from_le_bytes([row[0], row[1], row[2], row[3]]), out);
    out.extend_from_slice(&[b' ', b"fts"[row[4] as usize], b' ']);
    decimal(two(6), out);
    out.push(b' ');
    decimal(two(8), out);
    out.extend_from_slice(&[b' ', b"-BX"[row[5] as usize], b' ']);
    match two(10) {
        65_535 => out.push(b'-'),
        number => decimal(number, out),
    }
    out.push(b' ');
    decimal(two(12), out);
    out.push(b'\n');
}

/// Writes a number without leading zeros.
fn decimal(mut number: u32, out: &mut Vec<u8>) {
    let mut digits = [0; 10];
    let mut place = digits.len();
    loop {
        place -= 1;
        digits[place] = b'0' + (number % 10) as u8;
        number /= 10;
        if number == 0 {
            break;
        }
    }
    out.extend_from_slice(&digits[place..]);
}
