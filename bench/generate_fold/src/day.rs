//! The day of a centre: its messages, and its capture.

/// The circuits of the day.
pub const CIRCUITS: u32 = 8;

/// A message of the day.
pub enum Message {
    /// The number 001 of its circuit is asked for.
    Request,
    /// The level of its data type, the number in its heading, and all its bytes from the heading to ETX.
    Bulletin { level: u8, ii: u32, body: Vec<u8> },
}

fn heading(i: u32, designators: &str) -> String {
    let (day, hour, minute) = (1 + i / 1440 % 28, i / 60 % 24, i % 60);
    format!("{designators} TVSV {day:02}{hour:02}{minute:02}")
}

fn body(heading: &str, text: &str) -> Vec<u8> {
    format!("{heading}\r\r\n{text}\r\r\n\x03").into_bytes()
}

fn report(i: u32) -> Message {
    let letter = char::from(b'A' + (i % 26) as u8);
    let level = match letter {
        'A' => 1,
        'B' => 2,
        'C' => 4,
        _ => 3,
    };
    let ii = i % 60;
    let heading = heading(i, &format!("S{letter}VG{ii:02}"));
    Message::Bulletin {
        level,
        ii,
        body: body(&heading, &format!("REPORT {i:06}=")),
    }
}

/// Message `i`.
pub fn message(i: u32) -> Message {
    match i % 100 {
        99 => Message::Request,
        49 => report(i - 1),
        _ => report(i),
    }
}

/// The frame of a body under a number.
pub fn frame(number: u32, body: &[u8]) -> Vec<u8> {
    let mut frame = format!("{:08}AN\x01\r\r\n{number:03}\r\r\n", 10 + body.len()).into_bytes();
    frame.extend_from_slice(body);
    frame
}

/// The capture of a day of so many messages.
pub fn capture(count: u32) -> Vec<u8> {
    let mut capture = Vec::new();
    for i in 0..count {
        let body = match message(i) {
            Message::Request => body(&heading(i, "BMRR01"), "AAAA\r\r\nSQN 001="),
            Message::Bulletin { body, .. } => body,
        };
        let frame = frame((i / CIRCUITS + 1) % 1000, &body);
        let (from, to) = (i % CIRCUITS, 3 * i % CIRCUITS);
        capture.extend_from_slice(format!("F {from:02} {:06}\n", frame.len()).as_bytes());
        capture.extend_from_slice(&frame);
        capture.extend_from_slice(format!("T {to:02}\n").as_bytes());
    }
    for c in 0..CIRCUITS {
        capture.extend_from_slice(format!("D {c:02}\n").as_bytes());
    }
    capture.extend_from_slice(b"E\n");
    capture
}
