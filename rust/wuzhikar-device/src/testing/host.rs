// SPDX-License-Identifier: MIT OR Apache-2.0

//! A host on the bus: which token or packet comes next, by what it was answered.

pub const SET_CONFIGURATION: [u8; 8] = [0x00, 0x09, 1, 0, 0, 0, 0, 0];

/// Numbers that look random.
#[derive(Clone, Debug)]
pub struct Numbers(pub u64);

impl Numbers {
    pub fn below(&mut self, limit: usize) -> usize {
        self.0 = self.0.wrapping_mul(6364136223846793005).wrapping_add(1442695040888963407);
        (self.0 >> 33) as usize % limit
    }

    pub fn pick<T: Copy>(&mut self, some: &[T]) -> T {
        some[self.below(some.len())]
    }

    /// Whether one of so many is met.
    pub fn one_of(&mut self, count: usize) -> bool {
        self.below(count) == 0
    }
}

/// What the host does next.
#[derive(Clone, Debug)]
pub enum Act {
    Reset,
    Setup([u8; 8]),
    In,
    Out(Vec<u8>),
    Poll,
}

/// Where the host's transfer stands, as the host sees it.
#[derive(Clone, Debug, PartialEq, Eq)]
enum Stage {
    /// Over, stalled, or not begun.
    Free,
    /// A read: so many bytes are wanted.
    Reads(usize),
    /// The status stage of a read.
    Ends,
    Writes(Vec<u8>),
    /// The status stage of all others.
    Status,
}

/// Requests, one of which a transfer begins with.
const REQUESTS: [[u8; 8]; 34] = [
    [0x00, 0x09, 1, 0, 0, 0, 0, 0],
    [0x00, 0x09, 1, 0, 0, 0, 0, 0],
    [0x00, 0x09, 1, 0, 0, 0, 0, 0],
    [0x00, 0x09, 0, 0, 0, 0, 0, 0],
    [0x00, 0x05, 9, 0, 0, 0, 0, 0],
    [0x01, 0x0b, 0, 0, 0, 0, 0, 0],
    [0x02, 0x03, 0, 0, 0x81, 0, 0, 0],
    [0x02, 0x01, 0, 0, 0x81, 0, 0, 0],
    [0x02, 0x01, 0, 0, 0x81, 0, 0, 0],
    [0x80, 0x00, 0, 0, 0, 0, 2, 0],
    [0x80, 0x08, 0, 0, 0, 0, 1, 0],
    [0x80, 0x06, 0, 1, 0, 0, 64, 0],
    [0x80, 0x06, 0, 1, 0, 0, 18, 0],
    [0x80, 0x06, 0, 1, 0, 0, 16, 0],
    [0x80, 0x06, 0, 2, 0, 0, 34, 0],
    [0x80, 0x06, 2, 3, 9, 4, 255, 0],
    [0x80, 0x06, 0, 6, 0, 0, 10, 0],
    [0x81, 0x06, 0, 0x22, 0, 0, 99, 0],
    [0xa1, 0x01, 1, 1, 0, 0, 23, 0],
    [0xa1, 0x01, 3, 3, 0, 0, 6, 0],
    [0xa1, 0x03, 0, 0, 0, 0, 1, 0],
    [0xa1, 0x02, 1, 0, 0, 0, 0, 0],
    [0x21, 0x0a, 0, 0, 0, 0, 0, 0],
    [0x21, 0x0a, 0, 2, 0, 0, 0, 0],
    [0x21, 0x0b, 0, 0, 0, 0, 0, 0],
    [0x21, 0x0b, 1, 0, 0, 0, 0, 0],
    [0x21, 0x0b, 2, 0, 0, 0, 0, 0],
    [0x21, 0x09, 1, 2, 0, 0, 2, 0],
    [0x21, 0x09, 3, 3, 0, 0, 6, 0],
    [0x21, 0x09, 3, 3, 0, 0, 6, 0],
    [0x21, 0x09, 3, 3, 0, 0, 6, 0],
    [0x21, 0x09, 3, 3, 0, 0, 6, 0],
    [0x21, 0x09, 3, 3, 0, 0, 6, 0],
    [0x00, 0x07, 0, 1, 0, 0, 18, 0],
];

/// The request that sets the protocol, which a conforming host does not give up.
pub fn sets_protocol(setup: [u8; 8]) -> bool {
    setup[..2] == [0x21, 0x0b]
}

/// wLength.
fn length(setup: [u8; 8]) -> usize {
    u16::from_le_bytes([setup[6], setup[7]]).into()
}

/// The requests after which both sides begin endpoint 1 anew with DATA0.
pub fn begins_endpoint_1(setup: [u8; 8]) -> bool {
    matches!(setup, [0, 9, ..] | [1, 0x0b, ..] | [2, 1, ..])
}

/// A command that a keyboard takes on a flash without a fault.
pub fn is_conforming_command(setup: [u8; 8], data: &[u8]) -> bool {
    setup == [0x21, 9, 3, 3, 0, 0, 6, 0] && matches!(data, [3, 1..=3, 0..=3, 0..=95, 4..=6, 0])
}

/// A host. A conforming one asks what a transfer is due, gives transfers up, and resets the bus; the other one also asks and
/// sends what is not due. Neither goes on after a STALL.
#[derive(Clone, Debug)]
pub struct Host {
    conforming: bool,
    /// The bytes of a packet of endpoint 1. With 8 or 16 a conforming host gives up no request that begins the endpoint anew, and
    /// with 8 it does not set the protocol: it would take two parts of reports for one.
    size: usize,
    setup: [u8; 8],
    stage: Stage,
    /// A packet of the transfer came.
    has_read: bool,
    data: Vec<u8>,
}

impl Host {
    pub fn new(conforming: bool, size: usize) -> Host {
        Host { conforming, size, setup: [0; 8], stage: Stage::Free, has_read: false, data: Vec::new() }
    }

    pub fn next(&mut self, numbers: &mut Numbers) -> Act {
        match numbers.below(if self.conforming { 200 } else { 90 }) {
            0 => return Act::Reset,
            1..25 => return Act::Poll,
            _ => {}
        }
        let nonconforming = !self.conforming && numbers.one_of(12);
        let gives_up = numbers.one_of(16)
            && !(self.conforming && (sets_protocol(self.setup) || self.size < 32 && begins_endpoint_1(self.setup)));
        match &self.stage {
            Stage::Free => Act::Setup(self.request(numbers)),
            _ if gives_up => Act::Setup(self.request(numbers)),
            Stage::Reads(_) | Stage::Ends if nonconforming => numbers.pick(&[Wrong::In, Wrong::Out]).act(),
            Stage::Writes(_) if nonconforming => numbers.pick(&[Wrong::In, Wrong::Out, Wrong::Empty]).act(),
            Stage::Status if nonconforming => numbers.pick(&[Wrong::Out, Wrong::Empty]).act(),
            // A host may end a read at any time, and does not go on with it then.
            Stage::Reads(_) if numbers.one_of(20) => {
                self.stage = Stage::Ends;
                Act::Out(Vec::new())
            }
            _ => self.due(),
        }
    }

    /// What the transfer under way is due.
    pub fn due(&self) -> Act {
        match &self.stage {
            Stage::Free => Act::Poll,
            Stage::Reads(_) | Stage::Status => Act::In,
            Stage::Ends => Act::Out(Vec::new()),
            Stage::Writes(data) => Act::Out(data.clone()),
        }
    }

    /// The request that it begins.
    fn request(&self, numbers: &mut Numbers) -> [u8; 8] {
        let setup = request(numbers);
        if self.conforming && self.size == 8 && sets_protocol(setup) { SET_CONFIGURATION } else { setup }
    }

    /// A transfer begins; a write sends these data.
    pub fn began(&mut self, setup: [u8; 8], data: Vec<u8>) {
        (self.setup, self.has_read) = (setup, false);
        self.stage = match length(setup) {
            0 => Stage::Status,
            length if setup[0] & 0x80 != 0 => Stage::Reads(length),
            _ => {
                self.data = data;
                Stage::Writes(self.data.clone())
            }
        };
    }

    /// A packet of endpoint 0 came. Whether it ended a transfer.
    pub fn came(&mut self, packet: &[u8]) -> bool {
        let status = self.stage == Stage::Status;
        self.has_read = true;
        self.stage = match self.stage {
            Stage::Reads(left) if packet.len() == 8 && left > 8 => Stage::Reads(left - 8),
            Stage::Reads(_) | Stage::Ends => Stage::Ends,
            _ => Stage::Free,
        };
        status
    }

    /// An OUT packet was acknowledged.
    pub fn taken(&mut self) {
        let wrote = matches!(self.stage, Stage::Writes(_));
        self.stage = if wrote { Stage::Status } else { Stage::Free };
    }

    pub fn stalled(&mut self) {
        self.stage = Stage::Free;
    }

    /// Whether the status stage of a read is due of which a packet came.
    pub fn ends_a_read(&self) -> bool {
        self.stage == Stage::Ends && self.has_read
    }

    /// Whether no transfer is under way.
    pub fn is_free(&self) -> bool {
        self.stage == Stage::Free
    }

    pub fn setup(&self) -> [u8; 8] {
        self.setup
    }

    #[cfg(test)]
    pub fn is_conforming(&self) -> bool {
        self.conforming
    }

    /// The data of the write under way.
    pub fn data(&self) -> &[u8] {
        &self.data
    }
}

/// What is not due.
#[derive(Clone, Copy)]
enum Wrong {
    In,
    Out,
    Empty,
}

impl Wrong {
    fn act(self) -> Act {
        match self {
            Wrong::In => Act::In,
            Wrong::Out => Act::Out(vec![1, 2, 3]),
            Wrong::Empty => Act::Out(Vec::new()),
        }
    }
}

fn request(numbers: &mut Numbers) -> [u8; 8] {
    match numbers.below(40) {
        0 => [(); 8].map(|()| numbers.below(256) as u8),
        _ => numbers.pick(&REQUESTS),
    }
}

/// The data of a write: of few entries, so that commands meet the same one, and now and then a wrong one.
pub fn data(setup: [u8; 8], numbers: &mut Numbers) -> Vec<u8> {
    match (setup[2], setup[3]) {
        (3, 3) => {
            let operation = numbers.pick(&[0, 1, 1, 1, 1, 1, 2, 3, 7]);
            let code = numbers.pick(&[[4, 0], [5, 0], [6, 0], [0xe9, 0x40], [0xe1, 0], [1, 0], [0, 0x30]]);
            vec![3, operation, numbers.pick(&[0, 0, 0, 1, 4]), numbers.below(3) as u8, code[0], code[1]]
        }
        _ => vec![1; length(setup).min(8)],
    }
}
