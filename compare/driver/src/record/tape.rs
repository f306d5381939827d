//! The file of recorded answers: its records and how they are written (README, "Recorded answers").

/// What a record is of: an image for those after it, or a call.
#[derive(Clone, Copy, Debug, Default, PartialEq, Eq)]
pub enum Call {
    #[default]
    Image,
    Lookup,
    Judge,
    Index,
    IndexPage,
    Size,
    NewLeaf,
    NewBranch,
    Insert,
    Delete,
    InsertBranch,
    Split,
    SplitWrite,
    FreeNew,
    FreeInit,
    FreePages,
    Release,
    Allocate,
    FreeList,
    FreeSize,
    MetaRead,
    MetaWrite,
    Fnv1a,
    Quick,
}

/// The calls' names, in the order of their numbers.
const NAMES: [&str; 24] = [
    "not readable",
    "lookup",
    "judge",
    "index",
    "index_page",
    "size",
    "new_leaf",
    "new_branch",
    "insert",
    "delete",
    "insert_branch",
    "split",
    "split_write",
    "free_new",
    "free_init",
    "free_pages",
    "release",
    "allocate",
    "free_list",
    "free_size",
    "meta_read",
    "meta_write",
    "fnv1a",
    "quick",
];

const ARGUMENTS: usize = 9;
const PARTS: usize = 5;
const HEAD: usize = 8 * (3 + ARGUMENTS + PARTS);

/// The most bytes of a file, which stands in the repository, and the program's buffers: for a record or an image, output of bytes, output of words.
const FILE: usize = 1_572_864;
const RECORD: usize = 65_536;
const OUT: usize = 32_768;
const LIST: usize = 4_096;

/// A call with its arguments, and what it answers.
#[derive(Default)]
pub struct Record<'a> {
    pub call: Call,
    pub number: u64,
    pub arguments: &'a [u64],
    pub room: usize,
    pub block: &'a [u8],
    pub key: &'a [u8],
    pub other: &'a [u8],
    pub fields: &'a [u64],
    pub output: &'a [u8],
}

impl Record<'_> {
    /// The head and the parts.
    fn bytes(&self) -> Vec<u8> {
        let mut arguments = self.arguments.to_vec();
        arguments.resize(ARGUMENTS, 0);
        let fields = words(self.fields);
        let parts = [self.block, self.key, self.other, &fields, self.output];
        let mut end = HEAD as u64;
        let ends = parts.map(|part| {
            end += part.len() as u64;
            end
        });
        let head = [&[self.call as u64, self.number], arguments.as_slice(), &[self.room as u64], &ends].concat();
        [words(&head), parts.concat()].concat()
    }

    /// Whether the program's buffers hold it.
    fn fits(&self) -> bool {
        let room = if matches!(self.call, Call::Split | Call::FreeList) { LIST } else { OUT };
        self.room <= room && self.bytes().len() <= RECORD
    }
}

/// The records so far, and how many there are of each call.
#[derive(Default)]
pub struct Tape {
    pub bytes: Vec<u8>,
    counts: [u64; NAMES.len()],
}

impl Tape {
    pub fn add(&mut self, record: &Record) {
        assert!(record.fits(), "a record of {:?} is too long for the program", record.call);
        let packed = packed(&record.bytes());
        self.bytes.extend((packed.len() as u64).to_le_bytes());
        self.bytes.extend(packed);
        assert!(self.bytes.len() < FILE, "the file is too long");
        if record.call != Call::Image {
            self.counts[record.call as usize] += 1;
        }
    }

    /// What the program prints where no answer differs.
    pub fn summary(&self) -> String {
        let row = |call: usize| format!("{}: {} same, 0 differ\n", NAMES[call], self.counts[call]);
        let rows: String = (1..NAMES.len()).chain([0]).map(row).collect();
        rows + &format!("{} answers, 0 differ\n", self.counts.iter().sum::<u64>())
    }
}

/// Numbers as bytes, the lowest first.
pub fn words(numbers: &[u64]) -> Vec<u8> {
    numbers.iter().flat_map(|number| number.to_le_bytes()).collect()
}

/// The bytes with each run of up to 255 zeros as a zero and their count.
fn packed(bytes: &[u8]) -> Vec<u8> {
    let mut packed = Vec::new();
    let mut at = 0;
    while at < bytes.len() {
        let zeros = bytes[at..].iter().take(255).take_while(|byte| **byte == 0).count();
        match zeros {
            0 => packed.push(bytes[at]),
            _ => packed.extend([0, zeros as u8]),
        }
        at += zeros.max(1);
    }
    packed
}
