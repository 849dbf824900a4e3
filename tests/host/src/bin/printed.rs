//! Compares what grouprun and quietrun print with the paper's printed run in their modes, on the stored tables and on random ones: whole, damaged, cut and
//! nonsense. GROUPRUN and QUIETRUN name the programs; SEED (or the first argument) chooses the tables, TABLES their number.
use host::claims::{p1_table, P1_PRINTED};
use host::generate::{count, damage_table, record_starts, small_count, table};
use host::paper::mode::Mode;
use host::paper::printed::printed;
use host::random::Random;
use std::collections::BTreeMap;
use std::fs::{self, File};
use std::path::{Path, PathBuf};
use std::process::Command;

/// the folder of tests/vectors whose tables are run quietly
const QUIET_TABLES: &str = "t03";

struct Programs {
    grouprun: PathBuf,
    quietrun: PathBuf,
    /// the table on its way to the program, kept if they differ
    input: PathBuf,
    /// how many tables ended in which line
    ends: BTreeMap<String, u64>,
}

impl Programs {
    fn compare_both(&mut self, name: &str, table: &[u8], stored: Option<&str>) {
        Mode::BOTH.iter().for_each(|mode| self.compare(*mode, name, table, stored));
    }

    fn compare(&mut self, mode: Mode, name: &str, table: &[u8], stored: Option<&str>) {
        fs::write(&self.input, table).expect("the table is written");
        let program = if mode.is_quiet() { &self.quietrun } else { &self.grouprun };
        let answer = Command::new(program).stdin(File::open(&self.input).expect("the table is there")).output().expect("the program runs");
        let (given, expected) = (String::from_utf8_lossy(&answer.stdout), printed(mode, table));
        let agree = given == expected && stored.is_none_or(|stored| stored == expected) && answer.status.success();
        if !agree {
            println!("printed: {name} by {} differs; the table is kept in {}", program.display(), self.input.display());
            let line = given.lines().zip(expected.lines()).position(|(a, b)| a != b);
            println!("  status {:?}, {} and {} bytes, first line that differs: {line:?}", answer.status, given.len(), expected.len());
            if let Some(line) = line {
                println!("  program: {}\n  paper:   {}", given.lines().nth(line).unwrap_or(""), expected.lines().nth(line).unwrap_or(""));
            }
            if stored.is_some_and(|stored| stored != expected) {
                println!("  the paper's run is not the stored one");
            }
            std::process::exit(1);
        }
        let last = expected.lines().last().unwrap_or("");
        let kind = match last.split(' ').nth(1) {
            _ if last.starts_with("refused") => last,
            Some("kept") => "kept to the end",
            Some("broken") => "broken at the end",
            _ => "no cycle",
        };
        *self.ends.entry(format!("mode {}, {kind}", mode.number())).or_default() += 1;
    }
}

fn stored(programs: &mut Programs, vectors: &Path) {
    let mut tables: Vec<PathBuf> = Vec::new();
    for folder in fs::read_dir(vectors).expect("tests/vectors") {
        let files = fs::read_dir(folder.expect("a folder").path()).expect("a folder of tables");
        tables.extend(files.map(|file| file.expect("a file").path()).filter(|path| path.extension().is_some_and(|end| end == "tab")));
    }
    tables.sort();
    assert!(!tables.is_empty(), "no stored table");
    let mut quiet_tables = 0;
    for path in &tables {
        let stored = fs::read_to_string(path.with_extension("out")).expect("a stored run");
        let quiet = path.parent().is_some_and(|folder| folder.ends_with(QUIET_TABLES));
        let mode = if quiet { Mode::Quiet } else { Mode::Always };
        quiet_tables += usize::from(quiet);
        programs.compare(mode, &path.display().to_string(), &fs::read(path).expect("a stored table"), Some(&stored));
    }
    assert!(quiet_tables > 0, "no stored table in {QUIET_TABLES}");
    println!("printed: {} stored tables agree, {quiet_tables} of them quiet", tables.len());
}

fn random_table(random: &mut Random) -> Vec<u8> {
    let long = random.once_in(60);
    let n = if long { small_count(random) } else { count(random) };
    let cycles = if long { random.below(4000) } else { random.below(25) };
    let mut bytes = table(random, n, cycles);
    if random.once_in(2) {
        for _ in 0..1 + random.below(2) {
            // damage is done to records that are still where they were
            if bytes.len() > 12 && record_starts(&bytes).iter().all(|at| at + 3 <= bytes.len()) {
                damage_table(random, &mut bytes);
            }
        }
    }
    match random.below(40) {
        0 => bytes.truncate(random.below(20)),
        1 => {
            let len = random.below(500);
            bytes = random.bytes(len);
        }
        _ => {}
    }
    bytes
}

fn main() {
    let here = Path::new(env!("CARGO_MANIFEST_DIR"));
    let argument = std::env::args().nth(1).or_else(|| std::env::var("SEED").ok());
    let seed: u64 = argument.map_or(1, |text| text.parse().expect("SEED is a number"));
    let count: u64 = std::env::var("TABLES").map_or(2000, |text| text.parse().expect("TABLES is a number"));
    let program = |variable: &str, name: &str| std::env::var(variable).map_or_else(|_| here.join("../../target/bin").join(name), PathBuf::from);
    let (grouprun, quietrun) = (program("GROUPRUN", "grouprun"), program("QUIETRUN", "quietrun"));
    let input = std::env::temp_dir().join(format!("printed-{}.tab", std::process::id()));
    println!("printed: seed {seed}, {count} random tables");
    let mut programs = Programs { grouprun, quietrun, input, ends: BTreeMap::new() };
    stored(&mut programs, &here.join("../vectors"));
    programs.compare_both("the run of the paper", &p1_table(), Some(P1_PRINTED));
    let whole = p1_table();
    for len in 0..whole.len() {
        programs.compare_both(&format!("{len} bytes of the run of the paper"), &whole[..len], None);
    }
    let mut random = Random::new(seed);
    for k in 0..count {
        programs.compare_both(&format!("random table {k}"), &random_table(&mut random), None);
    }
    fs::remove_file(&programs.input).expect("the last table is removed");
    programs.ends.iter().for_each(|(end, count)| println!("  {end}: {count}"));
    println!("printed: {} tables agree", programs.ends.values().sum::<u64>());
}
