//! The program `page` (request [7]) on images: what it prints is what the
//! oracle's load and page give.

use std::fs::{self, File};
use std::io::{ErrorKind, Write};
use std::path::PathBuf;
use std::process::{Command, Stdio};

use oracle::random::{self, Rng};
use oracle::{Floor, LONGEST_PAGE, STANDARD};

use crate::{blank, call::Call, images, makers, tally::Lines, Extent};

/// The environment variable that names the program.
pub const NAME: &str = "CEROMBY_PAGE";

/// The longest records that can stand before a faulty one without a fault of
/// their own: kind 1 and kind 2 for four hoppers, eight layouts, 64 tiles of
/// sixteen canisters, those of the hoppers too.
const GOOD: usize = (4 + 28) + (4 + 24) + 8 * (4 + 16) + 64 * (4 + 6 + 16 * 8);
/// The longest record, by the length that it can give itself.
const LONGEST_RECORD: usize = 4 + 65_535;
/// No answer depends on a byte after these.
const MATTERS: usize = GOOD + LONGEST_RECORD;

/// What the paper lets the program print.
fn due(bytes: &[u8]) -> Vec<u8> {
    let loaded = oracle::load(bytes);
    match loaded.refusal {
        0 => page(&loaded.floor),
        refusal => format!("refused {refusal}\n").into_bytes(),
    }
}

fn page(floor: &Floor) -> Vec<u8> {
    let mut buffer = vec![0; LONGEST_PAGE];
    let answer = oracle::page(floor, &mut buffer);
    assert_eq!(answer.refusal, 0, "a loaded floor has a page");
    buffer.truncate(answer.length as usize);
    buffer
}

/// Inputs with what is stored as their output, by the papers.
fn stored() -> Vec<(Vec<u8>, &'static str)> {
    let mut two = vec![20, 0, 1, 0, 2, 1, 1, 0, 100, 0, 30, 0, 10, 0, 20, 0];
    two.extend([1, 0, 0, 0, 0, 0, 0, 0]);
    two.extend([12, 0, 2, 0, 0, 0, 0, 0, 0, 0, 0, 0, 0, 0, 0, 0]);
    two.extend([6, 0, 3, 0, 0, 1, 255, 0, 0, 0]);
    two.extend([6, 0, 3, 0, 1, 1, 0, 0, 0, 0]);
    two.extend([0, 0, 4, 0]);
    let mut twelve = two.clone();
    twelve[45] = 2;
    let mut more = two.clone();
    more.push(0);
    let blank = "| 0 - --| 0 - --| 0 - --| 0 - --|\n\
                 | 0 - --| 0 - --| 0 -  0| 0 - --|\n\
                 | 0 - --| 0 - --| 0 - --| 0 - --|\n\
                 | 0 - --| 0 - --| 0 - --| 0 - --|\n";
    vec![
        (Vec::new(), blank),
        (vec![20], "refused 9\n"),
        (two[..63].to_vec(), "refused 9\n"),
        (two, "| 0 - --| 0 -  0|\n"),
        (twelve, "refused 12\n"),
        (more, "refused 9\n"),
    ]
}

/// How the program gets its input.
#[derive(Clone, Copy)]
enum Way {
    Pipe,
    Pieces,
    File,
}

const WAYS: [(Way, &str); 3] = [
    (Way::Pipe, "a pipe"),
    (Way::Pieces, "a pipe in pieces"),
    (Way::File, "a file"),
];
const ANSWERS: [u8; 8] = [0, 9, 10, 11, 1, 2, 3, 12];
/// Lengths about the last byte that matters.
const EDGES: [usize; 3] = [MATTERS - 1, MATTERS, MATTERS + 1];
/// What a record of the longest length can be answered with, cut or whole.
const EDGE_ANSWERS: [u8; 3] = [9, 10, 11];

/// What was met.
#[derive(Default)]
struct Met {
    answers: [u64; ANSWERS.len()],
    ways: [u64; WAYS.len()],
    /// Inputs of zero bytes, of one to three, and beyond `MATTERS` + 1.
    sizes: [u64; 3],
    edges: [[u64; EDGE_ANSWERS.len()]; EDGES.len()],
}

impl Met {
    fn note(&mut self, bytes: &[u8], way: usize) {
        let refusal = oracle::load(bytes).refusal;
        if let Some(at) = ANSWERS.iter().position(|answer| *answer == refusal) {
            self.answers[at] += 1;
        }
        self.ways[way] += 1;
        let length = bytes.len();
        let size = [length == 0, (1..4).contains(&length), length > MATTERS + 1];
        for (count, met) in self.sizes.iter_mut().zip(size) {
            *count += u64::from(met);
        }
        let edge = EDGES.iter().position(|edge| *edge == length);
        let answer = EDGE_ANSWERS.iter().position(|answer| *answer == refusal);
        if let (Some(edge), Some(answer)) = (edge, answer) {
            self.edges[edge][answer] += 1;
        }
    }

    /// All counts. A record cut in its last byte is 9, a whole one is not.
    fn lines(&self) -> Lines {
        let mut lines = Lines::default();
        let mut line = |name: &str, count: u64| {
            lines.event(&format!("page program, {name}"), count, 1);
        };
        for (answer, count) in ANSWERS.iter().zip(self.answers) {
            line(&format!("answer {answer}"), count);
        }
        for ((_, name), count) in WAYS.iter().zip(self.ways) {
            line(name, count);
        }
        let names = ["zero bytes", "one to three bytes", "many bytes more"];
        for (name, count) in names.iter().zip(self.sizes) {
            line(name, count);
        }
        for (edge, counts) in EDGES.iter().zip(self.edges) {
            for (answer, count) in EDGE_ANSWERS.iter().zip(counts) {
                if (*answer == 9) == (*edge < MATTERS) {
                    line(&format!("{edge} bytes, answer {answer}"), count);
                }
            }
        }
        lines
    }
}

struct Runner {
    program: PathBuf,
    /// For inputs that are files.
    file: PathBuf,
    rng: Rng,
    met: Met,
    made: usize,
}

impl Runner {
    /// Runs the program on an input and compares what it prints.
    fn check(&mut self, bytes: &[u8], due: &[u8]) -> Result<(), String> {
        let way = self.made % WAYS.len();
        self.made += 1;
        let told = self.run(bytes, WAYS[way].0);
        let told = told.map_err(|error| format!("{}: {error}", self.program.display()))?;
        self.met.note(bytes, way);
        match told == due {
            true => Ok(()),
            false => Err(format!(
                "{} bytes through {}: it prints\n{}\nand not\n{}\nthe bytes: {}",
                bytes.len(),
                WAYS[way].1,
                told.escape_ascii(),
                due.escape_ascii(),
                shown(bytes)
            )),
        }
    }

    fn run(&mut self, bytes: &[u8], way: Way) -> std::io::Result<Vec<u8>> {
        let mut command = Command::new(&self.program);
        command.stdout(Stdio::piped()).stderr(Stdio::piped());
        let child = match way {
            Way::File => {
                fs::write(&self.file, bytes)?;
                command.stdin(File::open(&self.file)?).spawn()?
            }
            Way::Pipe | Way::Pieces => {
                let mut child = command.stdin(Stdio::piped()).spawn()?;
                let piece = match way {
                    Way::Pieces => 1 + self.rng.below(4_096) as usize,
                    _ => usize::MAX,
                };
                if let Some(mut input) = child.stdin.take() {
                    feed(&mut input, bytes, piece)?;
                }
                child
            }
        };
        let output = child.wait_with_output()?;
        match output.status.code() {
            Some(0) if output.stderr.is_empty() => Ok(output.stdout),
            _ => Err(std::io::Error::other(format!(
                "{}, standard error {}",
                output.status,
                output.stderr.escape_ascii()
            ))),
        }
    }
}

/// Hands the bytes over. A program that has read what matters may have ended.
fn feed(input: &mut impl Write, bytes: &[u8], piece: usize) -> std::io::Result<()> {
    for bytes in bytes.chunks(piece.min(bytes.len().max(1))) {
        match input.write_all(bytes) {
            Err(error) if error.kind() == ErrorKind::BrokenPipe => break,
            made => made?,
        }
    }
    Ok(())
}

/// The first bytes, by twos of hex digits.
fn shown(bytes: &[u8]) -> String {
    let shown = &bytes[..bytes.len().min(2_000)];
    let hex: Vec<String> = shown.iter().map(|byte| format!("{byte:02x}")).collect();
    hex.join(" ")
}

/// Records without a fault of their own, as long as they can be: as many of
/// the 75 as asked.
fn good_records(count: usize) -> Vec<u8> {
    let mut records = Vec::new();
    let mut put = |kind: u16, body: &[u8]| {
        let mut record = (body.len() as u16).to_le_bytes().to_vec();
        record.extend(kind.to_le_bytes());
        record.extend(body);
        records.push(record);
    };
    let mut settings = vec![8, 8, 60, 0];
    for measure in [
        STANDARD.width,
        STANDARD.length,
        STANDARD.gap,
        STANDARD.travel,
    ] {
        settings.extend(measure.to_le_bytes());
    }
    settings.extend(1u64.to_le_bytes());
    settings.extend((15u64 << 60).to_le_bytes());
    put(1, &settings);
    put(2, &[7; 24]);
    for _ in 0..8 {
        put(5, &[9; 16]);
    }
    for tile in 0..64 {
        let mut body = vec![tile, 2, 3, 4, 5, 16];
        body.extend([11; 128]);
        put(3, &body);
    }
    put(4, &[]);
    records[..count].concat()
}

/// A record that gives itself a length, with as many bytes as are asked.
fn record(kind: u16, length: u16, body: usize) -> Vec<u8> {
    let mut record = length.to_le_bytes().to_vec();
    record.extend(kind.to_le_bytes());
    record.extend(vec![0; body]);
    record
}

/// Inputs at the edges of what matters: a record of the longest length after
/// good ones, one byte short, whole, and with bytes after it.
fn edges() -> Vec<Vec<u8>> {
    let mut inputs = Vec::new();
    let longest = usize::from(u16::MAX);
    for before in [0, 1, 2, 9, 10, 11, 40, 73, 74] {
        for kind in [1, 2, 3, 4, 5, 0, u16::MAX] {
            let bodies = match before {
                74 => vec![longest - 1, longest, longest + 1, longest + 4_096],
                _ => vec![longest - 1, longest],
            };
            for body in bodies {
                let mut bytes = good_records(before);
                bytes.extend(record(kind, u16::MAX, body));
                inputs.push(bytes);
            }
        }
    }
    for more in [0, 1, 2, 4, 65_535, 65_539, 200_000, 1_000_000] {
        let mut bytes = good_records(75);
        bytes.extend(vec![0; more]);
        inputs.push(bytes);
    }
    let mut last = good_records(74);
    last.extend(record(4, u16::MAX, longest));
    for more in [100_000, 1_000_000] {
        let mut bytes = last.clone();
        bytes.extend(vec![255; more]);
        inputs.push(bytes);
    }
    inputs
}

/// An image, good or damaged, at times with many bytes after it.
fn any_image(rng: &mut Rng) -> Vec<u8> {
    let mut bytes = makers::image(&random::floor(rng)).unwrap_or_default();
    if rng.chance(1, 40) {
        if let Call::Load { bytes } = blank::short_load(rng) {
            return bytes;
        }
    }
    if rng.chance(2, 3) {
        images::damage(rng, &mut bytes);
    }
    if rng.chance(1, 40) {
        let more = rng.range(1, 100_000) as usize;
        bytes.extend(vec![rng.draw() as u8; more]);
    }
    bytes
}

fn all(runner: &mut Runner, extent: Extent) -> Result<(), String> {
    if good_records(74).len() != GOOD || MATTERS != 74_591 {
        return Err(format!("{GOOD} bytes before, {MATTERS} that matter"));
    }
    for (bytes, due) in stored() {
        runner.check(&bytes, due.as_bytes())?;
        runner.check(&bytes, &self::due(&bytes))?;
    }
    let mut rng = Rng::new(Rng::new(extent.seed ^ 77).draw());
    let mut inputs = edges();
    inputs.extend((0..extent.images / 100).map(|_| any_image(&mut rng)));
    for bytes in inputs {
        let due = due(&bytes);
        if due != self::due(&bytes[..bytes.len().min(MATTERS)]) {
            return Err(format!("bytes after {MATTERS} matter: {}", shown(&bytes)));
        }
        // Long inputs in each of the ways.
        let times = if bytes.len() < EDGES[0] {
            1
        } else {
            WAYS.len()
        };
        for _ in 0..times {
            runner.check(&bytes, &due)?;
        }
    }
    Ok(())
}

/// Runs the program on its inputs. Gives the counts if it passed.
pub fn run(extent: Extent, program: PathBuf) -> Option<Vec<String>> {
    let file = format!("ceromby-page-{}", std::process::id());
    let mut runner = Runner {
        program,
        file: std::env::temp_dir().join(file),
        rng: Rng::new(extent.seed),
        met: Met::default(),
        made: 0,
    };
    let made = all(&mut runner, extent);
    // There may be none yet.
    let _ = fs::remove_file(&runner.file);
    if let Err(text) = made {
        println!("trouble with the page program: {text}");
        return None;
    }
    let lines = runner.met.lines();
    lines.print();
    println!(
        "page program: {}; seed {}, {} inputs",
        lines.verdict(),
        extent.seed,
        runner.made
    );
    lines.missing.is_empty().then_some(lines.all)
}
