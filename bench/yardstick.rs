//! The command `inject` in plain Rust, with nothing proved: the yardstick that bench/frames.py measures
//! against. It prints the same lines for every message but clipboard data, and ends without a status.

use std::collections::BTreeMap;
use std::io::{self, Read, Write};

const PIECE: usize = 64 * 1024;
const BODY_LIMIT: usize = 4_194_304;
const KEY_LIMIT: usize = 512;

/// The fields of a message, read one after another.
struct Fields<'a>(&'a [u8]);

impl Fields<'_> {
    fn bytes<const N: usize>(&mut self) -> Option<[u8; N]> {
        let (front, rest) = self.0.split_first_chunk()?;
        self.0 = rest;
        Some(*front)
    }

    fn byte(&mut self) -> Option<u8> {
        self.bytes().map(u8::from_be_bytes)
    }

    fn half(&mut self) -> Option<u16> {
        self.bytes().map(u16::from_be_bytes)
    }

    fn signed(&mut self) -> Option<i16> {
        self.bytes().map(i16::from_be_bytes)
    }

    fn word(&mut self) -> Option<u32> {
        self.bytes().map(u32::from_be_bytes)
    }
}

/// What is down, and the lines that were printed and not written yet.
struct Screen {
    keys: BTreeMap<u16, u16>,
    buttons: [bool; 256],
    lines: Vec<u8>,
}

impl Screen {
    fn new() -> Screen {
        Screen {
            keys: BTreeMap::new(),
            buttons: [false; 256],
            lines: Vec::new(),
        }
    }

    fn release_all(&mut self) -> io::Result<()> {
        for (button, id) in std::mem::take(&mut self.keys) {
            writeln!(self.lines, "key up {id} {button}")?;
        }
        for (number, down) in self.buttons.iter_mut().enumerate() {
            if std::mem::take(down) {
                writeln!(self.lines, "button up {number}")?;
            }
        }
        Ok(())
    }

    fn key_down(&mut self, id: u16, mask: u16, button: u16) -> io::Result<()> {
        if let Some(held) = self.keys.get(&button) {
            return writeln!(self.lines, "key rep {held} 1 {button} {mask}");
        }
        if self.keys.len() < KEY_LIMIT {
            self.keys.insert(button, id);
            writeln!(self.lines, "key down {id} {button} {mask}")?;
        }
        Ok(())
    }

    fn mouse_button(&mut self, number: u8, down: bool) -> io::Result<()> {
        let held = &mut self.buttons[usize::from(number)];
        if *held != down {
            *held = down;
            writeln!(self.lines, "button {} {number}", if down { "down" } else { "up" })?;
        }
        Ok(())
    }

    fn options(&mut self, mut fields: Fields) -> Option<io::Result<()>> {
        for _ in 0..fields.word()? / 2 {
            let (code, value) = (fields.word()?, fields.word()?);
            if let Err(error) = writeln!(self.lines, "option {code:08x} {value}") {
                return Some(Err(error));
            }
        }
        Some(Ok(()))
    }

    /// Prints the lines of one message; `None` if its fields are not there.
    fn message(&mut self, code: &[u8], mut fields: Fields) -> Option<io::Result<()>> {
        let f = &mut fields;
        Some(match code {
            b"CINN" => {
                let (x, y, number, mask) = (f.signed()?, f.signed()?, f.word()?, f.half()?);
                writeln!(self.lines, "enter {x} {y} {number} {mask}")
            }
            b"COUT" => self.release_all().and_then(|()| writeln!(self.lines, "leave")),
            b"DMMV" => {
                let (x, y) = (f.signed()?, f.signed()?);
                writeln!(self.lines, "move {x} {y}")
            }
            b"DMRM" => {
                let (dx, dy) = (f.signed()?, f.signed()?);
                writeln!(self.lines, "moveby {dx} {dy}")
            }
            b"DMWM" => {
                let (dx, dy) = (f.signed()?, f.signed()?);
                writeln!(self.lines, "wheel {dx} {dy}")
            }
            b"DKDN" => {
                let (id, mask, button) = (f.half()?, f.half()?, f.half()?);
                self.key_down(id, mask, button)
            }
            b"DKRP" => {
                let (_, mask, count, button) = (f.half()?, f.half()?, f.half()?, f.half()?);
                match self.keys.get(&button) {
                    Some(held) => writeln!(self.lines, "key rep {held} {count} {button} {mask}"),
                    None => Ok(()),
                }
            }
            b"DKUP" => {
                let (_, _, button) = (f.half()?, f.half()?, f.half()?);
                match self.keys.remove(&button) {
                    Some(held) => writeln!(self.lines, "key up {held} {button}"),
                    None => Ok(()),
                }
            }
            b"DMDN" => self.mouse_button(f.byte()?, true),
            b"DMUP" => self.mouse_button(f.byte()?, false),
            b"CSEC" => {
                let on = f.byte()? != 0;
                writeln!(self.lines, "saver {}", if on { "on" } else { "off" })
            }
            b"CROP" => writeln!(self.lines, "reset options"),
            b"DSOP" => return self.options(fields),
            b"CCLP" => {
                let clip = f.byte()?;
                writeln!(self.lines, "grab {clip}")
            }
            _ => Ok(()),
        })
    }
}

/// Prints the lines of the whole frames at the front, and returns how many bytes these have and whether
/// the stream goes on.
fn take_frames(screen: &mut Screen, bytes: &[u8]) -> io::Result<(usize, bool)> {
    let mut at = 0;
    while let Some((length, rest)) = bytes[at..].split_first_chunk::<4>() {
        let length = u32::from_be_bytes(*length) as usize;
        if length > BODY_LIMIT {
            return Ok((at, false));
        }
        let Some(body) = rest.get(..length) else { break };
        at += 4 + length;
        let Some((code, fields)) = body.split_at_checked(4) else {
            return Ok((at, false));
        };
        match screen.message(code, Fields(fields)) {
            Some(printed) => printed?,
            None => return Ok((at, false)),
        }
        if code == b"CBYE" {
            return Ok((at, false));
        }
    }
    Ok((at, true))
}

fn main() -> io::Result<()> {
    let (mut input, mut output) = (io::stdin().lock(), io::stdout().lock());
    let mut screen = Screen::new();
    let mut held = Vec::new();
    let mut piece = vec![0; PIECE];
    loop {
        let count = input.read(&mut piece)?;
        held.extend_from_slice(&piece[..count]);
        let (taken, goes_on) = take_frames(&mut screen, &held)?;
        held.drain(..taken);
        if count == 0 || !goes_on {
            screen.release_all()?;
        }
        output.write_all(&screen.lines)?;
        screen.lines.clear();
        if count == 0 || !goes_on {
            return Ok(());
        }
    }
}
