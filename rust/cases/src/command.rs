//! The commands of the stream, big-endian, one letter and then the fields.

/// One command. `Table` and `Line` set what is current and print nothing;
/// each other command prints one line.
#[derive(Clone, Debug, PartialEq, Eq)]
pub enum Command {
    /// `T` length(2) bytes
    Table(Vec<u8>),
    /// `L` length(2) bytes
    Line(Vec<u8>),
    /// `K`
    Check,
    /// `M`
    Report,
    /// `P` or `W` allowance(8) working numbers lent(4) room length(2) fill(1)
    Read(Lending),
    /// `F` rules(2) line length(2) length(2) bytes
    WellFormed {
        rules: u16,
        line_length: u16,
        stored: Vec<u8>,
    },
}

/// What a reading is asked for and lent.
#[derive(Clone, Copy, Debug, PartialEq, Eq)]
pub struct Lending {
    /// A whole-line reading, else a prefix reading.
    pub whole: bool,
    pub allowance: u64,
    /// How many working numbers are lent.
    pub work: u32,
    /// How many bytes of room are lent.
    pub room: u16,
    /// What decides the contents of both before the call.
    pub fill: u8,
}

impl Lending {
    /// The working numbers before the call.
    pub fn work(&self) -> Vec<u32> {
        (0..u64::from(self.work))
            .map(|i| ((u64::from(self.fill) * 257 + i * 31 + 1) % 65_537) as u32)
            .collect()
    }

    /// The room before the call.
    pub fn room(&self) -> Vec<u8> {
        (0..u64::from(self.room))
            .map(|i| ((u64::from(self.fill) + i * 7) % 256) as u8)
            .collect()
    }
}

impl Command {
    pub fn encode(&self, stream: &mut Vec<u8>) {
        match self {
            Command::Table(table) => {
                stream.push(b'T');
                counted(table, stream);
            }
            Command::Line(line) => {
                stream.push(b'L');
                counted(line, stream);
            }
            Command::Check => stream.push(b'K'),
            Command::Report => stream.push(b'M'),
            Command::Read(lending) => {
                stream.push(if lending.whole { b'W' } else { b'P' });
                stream.extend(lending.allowance.to_be_bytes());
                stream.extend(lending.work.to_be_bytes());
                stream.extend(lending.room.to_be_bytes());
                stream.push(lending.fill);
            }
            Command::WellFormed {
                rules,
                line_length,
                stored,
            } => {
                stream.push(b'F');
                stream.extend(rules.to_be_bytes());
                stream.extend(line_length.to_be_bytes());
                counted(stored, stream);
            }
        }
    }
}

fn counted(bytes: &[u8], stream: &mut Vec<u8>) {
    stream.extend((bytes.len() as u16).to_be_bytes());
    stream.extend(bytes);
}

/// All commands of a stream that `encode` made.
pub fn decode(mut stream: &[u8]) -> Vec<Command> {
    let mut commands = Vec::new();
    while !stream.is_empty() {
        let letter = take(&mut stream, 1)[0];
        commands.push(match letter {
            b'T' => Command::Table(take_counted(&mut stream)),
            b'L' => Command::Line(take_counted(&mut stream)),
            b'K' => Command::Check,
            b'M' => Command::Report,
            b'P' | b'W' => Command::Read(Lending {
                whole: letter == b'W',
                allowance: take_number(&mut stream, 8),
                work: take_number(&mut stream, 4) as u32,
                room: take_number(&mut stream, 2) as u16,
                fill: take_number(&mut stream, 1) as u8,
            }),
            b'F' => Command::WellFormed {
                rules: take_number(&mut stream, 2) as u16,
                line_length: take_number(&mut stream, 2) as u16,
                stored: take_counted(&mut stream),
            },
            other => panic!("no command starts with {other}"),
        });
    }
    commands
}

fn take<'a>(stream: &mut &'a [u8], length: usize) -> &'a [u8] {
    let (front, rest) = stream.split_at(length);
    *stream = rest;
    front
}

fn take_number(stream: &mut &[u8], length: usize) -> u64 {
    take(stream, length)
        .iter()
        .fold(0, |number, &byte| number * 256 + u64::from(byte))
}

fn take_counted(stream: &mut &[u8]) -> Vec<u8> {
    let length = take_number(stream, 2) as usize;
    take(stream, length).to_vec()
}
