//! Texts for the program: shops written down, whole and damaged.

use crate::case::{less, shorter, Seen};
use crate::random::Random;
use crate::traffic::Traffic;
use independent::shop::Shop;
use independent::text::{answer, INPUT_MAX};
use std::io::{self, Read, Write};
use std::process::{Command, ExitStatus, Stdio};

/// What a program writes for an input, and how it ends.
fn said(program: &str, input: &[u8]) -> io::Result<(Vec<u8>, ExitStatus)> {
    let mut child = Command::new(program)
        .stdin(Stdio::piped())
        .stdout(Stdio::piped())
        .spawn()?;
    let mut stdin = child.stdin.take().expect("standard input is a pipe");
    let mut stdout = child.stdout.take().expect("standard output is a pipe");
    // A program may stop reading where the input is too long, so a write may fail.
    let _ = stdin.write_all(input);
    drop(stdin);
    let mut output = Vec::new();
    stdout.read_to_end(&mut output)?;
    Ok((output, child.wait()?))
}

/// Every kind of answer that the texts must have come to. A budget and a log are the program's own, so they never fail.
pub const ANSWERS: [&str; 9] = [
    "done",
    "budget",
    "refused 1",
    "refused 2",
    "refused 6",
    "refused 7",
    "refused 8",
    "refused 9",
    "refused 13",
];

/// Runs the program and the independent one on an input. A program that does not end well differs, whatever it wrote.
pub fn compared(program: &str, input: &[u8]) -> io::Result<Seen> {
    let ((proved, status), own) = (said(program, input)?, answer(input));
    if !status.success() {
        let difference = Some(format!("the program ended with {status}"));
        return Ok(Seen { answer: kind(&proved), difference });
    }
    let place = proved.iter().zip(&own).position(|(a, b)| a != b);
    let place = place.unwrap_or(proved.len().min(own.len()));
    let tail = |output: &[u8]| String::from_utf8_lossy(&output[place..output.len().min(place + 40)]).into_owned();
    let (left, right) = (tail(&proved), tail(&own));
    let difference = format!("output from byte {place}: proved {left:?}, independent {right:?}");
    Ok(Seen {
        answer: kind(&proved),
        difference: (proved != own).then_some(difference),
    })
}

/// The refusal, or the first word of the last line.
pub fn kind(output: &[u8]) -> String {
    let text = String::from_utf8_lossy(output);
    let last = text.lines().last().unwrap_or_default();
    if last.starts_with("refused") {
        return last.to_string();
    }
    last.split(' ').next().unwrap_or_default().to_string()
}

/// A text: a shop as it is, or damaged.
pub fn random_text(random: &mut Random) -> Vec<u8> {
    let mut text = written(&Traffic::any(random), random);
    if random.one_in(2) {
        for _ in 0..random.within(1, 2) {
            damage(&mut text, random);
        }
    }
    text
}

/// Texts at the limits of what is read.
pub fn limit_texts() -> Vec<Vec<u8>> {
    let shop = "2 10 0 1 2 4 2 2\n0 1\n";
    let mut all: Vec<String> = [
        "",
        "\n",
        " ",
        "\n\n",
        "0",
        "0\n",
        "2 10 0 1 2 4 2 2\n",
        "2 10 0 1 2 4 2 2\n0 1",
        shop,
    ]
    .map(str::to_string)
    .to_vec();
    for number in [
        "",
        "-1",
        "+1",
        "0x1",
        "00000000001",
        "0000000001",
        "4294967295",
        "4294967296",
        "9999999999",
        "99999999999",
        "1\r",
        "1\t",
    ] {
        all.push(format!("{number} 10 0 1 2 4 2 2\n0 1\n"));
        all.push(format!("2 10 0 1 2 4 2 {number}\n0 1\n"));
        all.push(format!("2 10 0 1 2 4 2 2\n0 {number}\n"));
        all.push(format!("{shop}0 0 9 {number}\n"));
    }
    for count in [0, 1, 511, 512, 513, 2_000] {
        all.push(format!("{shop}{}", "0 0 40 1\n".repeat(count)));
    }
    for owners in [1, 2, 3, 1_024, 1_025, 30_000] {
        all.push(format!("2 10 0 1 2 4 2 2\n{}1\n", "0 ".repeat(owners - 1)));
    }
    let long = format!("2 10 0 1 2 4 2 2\n{}1\n", "1 ".repeat(40_000));
    for length in [INPUT_MAX - 2, INPUT_MAX - 1, INPUT_MAX, INPUT_MAX + 1, 70_000] {
        all.push(format!("{}\n", &long[..length - 1]));
    }
    all.extend(["\n", " ", "x", "0", "\0"].map(|end| format!("{shop}{end}")));
    all.into_iter().map(String::into_bytes).collect()
}

fn written(traffic: &Traffic, random: &mut Random) -> Vec<u8> {
    let Shop { stations, width, offset, compression, time, fixed } = traffic.shop;
    let mut text = Vec::new();
    let head = [
        stations,
        width,
        offset,
        compression,
        time.branches,
        time.leaves,
        fixed.branches,
        fixed.leaves,
    ];
    line(&head, random, &mut text);
    // A table with no entries cannot be written down.
    line(
        if traffic.owners.is_empty() {
            &[0]
        } else {
            &traffic.owners
        },
        random,
        &mut text,
    );
    for one in &traffic.messages {
        line(&[one.station, one.arrival, one.relative, one.length], random, &mut text);
    }
    text
}

fn line(numbers: &[u32], random: &mut Random, text: &mut Vec<u8>) {
    for (place, number) in numbers.iter().enumerate() {
        if place > 0 {
            text.push(b' ');
        }
        let zeros = if random.one_in(40) {
            random.within(1, 11) as usize
        } else {
            0
        };
        text.extend_from_slice(format!("{number:0zeros$}").as_bytes());
    }
    text.push(b'\n');
}

fn damage(text: &mut Vec<u8>, random: &mut Random) {
    let place = random.within(0, text.len() as u32) as usize;
    let odd = random.pick(b"  \n\n0123456789\t\r-+.xX\0\xff");
    match random.within(0, 5) {
        0 => text.insert(place, odd),
        1 if place < text.len() => text[place] = odd,
        2 if place < text.len() => {
            text.remove(place);
        }
        3 => text.truncate(place),
        4 => {
            text.pop();
        }
        _ => text.extend_from_slice(&[odd, b'\n']),
    }
}

/// The shortest text found that still differs.
pub fn shrunk(program: &str, input: &[u8]) -> io::Result<Vec<u8>> {
    let mut shortest = input.to_vec();
    let mut tries = 0;
    'again: while tries < 600 {
        for candidate in shorter_texts(&shortest) {
            tries += 1;
            if compared(program, &candidate)?.difference.is_some() {
                shortest = candidate;
                continue 'again;
            }
        }
        break;
    }
    Ok(shortest)
}

/// Without some lines, without some bytes, or with a smaller digit.
pub fn shorter_texts(text: &[u8]) -> Vec<Vec<u8>> {
    let lines: Vec<&[u8]> = text.split_inclusive(|&byte| byte == b'\n').collect();
    let mut all: Vec<Vec<u8>> = shorter(&lines).into_iter().map(|lines| lines.concat()).collect();
    if text.len() <= 200 {
        all.extend(shorter(text));
        for place in (0..text.len()).filter(|&place| text[place].is_ascii_digit()) {
            for digit in less(u32::from(text[place] - b'0')) {
                let mut one = text.to_vec();
                one[place] = b'0' + digit as u8;
                all.push(one);
            }
        }
    }
    all
}
