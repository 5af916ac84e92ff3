//! Writes commands as lines of a script, plainly or oddly: other forms of numbers and digits, more spaces
//! and tabs, carriage returns, comments, blank lines, a last line without its line feed.

use super::random::Random;
use crate::request::Request;
use crate::script::Command;

/// A script as far as it is written.
#[derive(Clone, Debug)]
pub struct Pen {
    text: Vec<u8>,
    odd: bool,
}

impl Pen {
    pub fn new(odd: bool) -> Pen {
        Pen {
            text: Vec::new(),
            odd,
        }
    }

    /// Writes a command as a line.
    pub fn command(&mut self, random: &mut Random, command: &Command) {
        let words = self.words(random, command);
        if !self.odd {
            self.raw(words.join(" ").as_bytes());
            return;
        }
        if random.percent(6) {
            self.idle_line(random);
        }
        let mut line = random.pick(&["", "", "", " ", "\t", " \t "]).to_string();
        for (place, word) in words.iter().enumerate() {
            if place > 0 {
                line += random.pick(&[" ", " ", " ", "\t", "  ", " \t", "\t\t "]);
            }
            line += word;
        }
        line += random.pick(&["", "", "", " ", "\t", "\r", "\r", " \r", "\t \r"]);
        self.raw(line.as_bytes());
    }

    /// Writes a line that does nothing.
    fn idle_line(&mut self, random: &mut Random) {
        let line: &[u8] = random.pick(&[
            b"".as_slice(),
            b"\r",
            b" \t",
            b"#",
            b"# a comment\r",
            b"\t  #lookup 1",
            b"#\r\r",
            b"# \xff\x00\x80 bytes of any kind",
        ]);
        self.raw(line);
    }

    /// Writes a line as it stands.
    pub fn raw(&mut self, line: &[u8]) {
        self.text.extend_from_slice(line);
        self.text.push(b'\n');
    }

    /// The script.
    pub fn finish(mut self, random: &mut Random) -> Vec<u8> {
        if self.odd && random.percent(50) {
            self.text.pop();
        }
        self.text
    }

    fn words(&self, random: &mut Random, command: &Command) -> Vec<String> {
        let mut words = vec![name(command).to_string()];
        match command {
            Command::Register { register, value } => {
                words.push(register.name().to_string());
                words.push(self.number(random, *value));
            }
            Command::Write { address, bytes } => {
                words.push(self.number(random, *address));
                words.push(self.hex(random, bytes));
            }
            Command::Fill {
                address,
                count,
                bytes,
            } => {
                words.push(self.number(random, *address));
                words.push(self.number(random, *count));
                words.push(self.hex(random, bytes));
            }
            Command::Lookup(request) | Command::Part(request) | Command::Ask(request) => {
                words.extend(self.request(random, *request));
            }
            Command::Memory {
                base: first,
                length: second,
            }
            | Command::Notice {
                start: first,
                length: second,
            } => {
                words.push(self.number(random, *first));
                words.push(self.number(random, *second));
            }
            Command::Open { slots } => words.push(self.number(random, *slots)),
            Command::Report => {}
        }
        words
    }

    fn request(&self, random: &mut Random, request: Request) -> Vec<String> {
        let stream = Some(u64::from(request.stream.0));
        let substream = request.substream.map(|given| given.0);
        let given = stream.into_iter().chain(substream);
        given.map(|number| self.number(random, number)).collect()
    }

    fn number(&self, random: &mut Random, value: u64) -> String {
        let form = if self.odd { random.below(6) } else { 0 };
        match form {
            1 => format!("{value}"),
            2 => format!("{value:#x}"),
            3 => format!("0x{value:X}"),
            4 => format!("00{value}"),
            5 => format!("0x000{value:x}"),
            _ if value < 10_000 => format!("{value}"),
            _ => format!("{value:#x}"),
        }
    }

    fn hex(&self, random: &mut Random, bytes: &[u8]) -> String {
        let upper = self.odd && random.percent(50);
        let digits = bytes.iter().map(|byte| match upper {
            true => format!("{byte:02X}"),
            false => format!("{byte:02x}"),
        });
        digits.collect()
    }
}

fn name(command: &Command) -> &'static str {
    match command {
        Command::Register { .. } => "register",
        Command::Memory { .. } => "memory",
        Command::Write { .. } => "write",
        Command::Fill { .. } => "fill",
        Command::Lookup(_) => "lookup",
        Command::Part(_) => "part",
        Command::Open { .. } => "open",
        Command::Ask(_) => "ask",
        Command::Notice { .. } => "notice",
        Command::Report => "report",
    }
}

#[cfg(test)]
mod tests {
    use super::*;
    use crate::registers::Register;
    use crate::request::{StreamId, SubstreamId};
    use crate::script::parse;

    fn a_command(random: &mut Random) -> Command {
        let mut number = || random.word() >> random.below(64);
        let (first, second) = (number(), number());
        let bytes = first.to_le_bytes()[..1 + second as usize % 8].to_vec();
        let request = Request {
            stream: StreamId(first as u32),
            substream: random.pick(&[None, Some(SubstreamId(second))]),
        };
        let register = random.pick(&Register::ALL);
        match random.below(10) {
            0 => Command::Register {
                register,
                value: first % (1 << 32),
            },
            1 => Command::Memory {
                base: first,
                length: second % 65_537,
            },
            2 => Command::Write {
                address: second,
                bytes,
            },
            3 => Command::Fill {
                address: first,
                count: second,
                bytes,
            },
            4 => Command::Lookup(request),
            5 => Command::Part(request),
            6 => Command::Open { slots: first },
            7 => Command::Ask(request),
            8 => Command::Notice {
                start: first,
                length: second,
            },
            _ => Command::Report,
        }
    }

    #[test]
    fn what_is_written_is_read_back() {
        let mut random = Random::new(21, 0);
        for odd in [false, true] {
            for _ in 0..2_000 {
                let command = a_command(&mut random);
                let mut pen = Pen::new(odd);
                pen.command(&mut random, &command);
                let lines = pen.text.split_inclusive(|byte| *byte == b'\n');
                let read: Vec<Command> = lines.filter_map(|line| parse(line).unwrap()).collect();
                assert_eq!(read, [command]);
            }
        }
    }
}
