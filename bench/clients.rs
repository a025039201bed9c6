// Asks a library with the API of the Rust crate nodejs-semver one kind of question about values that are kept, 500 times a round:
// clients.rs KIND ROUNDS. It prints a sum of the answers. bench/clients counts the instructions of a question. The kind resolver:all is a
// resolver's work: versions and ranges of some packages are read, for each range the best version is chosen, and the versions are sorted.
use std::hint::black_box;

use nodejs_semver::{OutsideDirection, Range, Version};

const COUNT: usize = 500;
const PACKAGES: usize = 300;
// Of a package.
const VERSIONS: usize = 110;
const RANGES: usize = 20;
const PRE: [&str; 9] = ["", "", "", "", "-alpha.1", "-beta.2", "-rc.10", "-0", "-x.7.z.92"];
const BUILD: [&str; 7] = ["", "", "", "", "", "+build.7", "+sha.5114f85"];
const WORDS: [&str; 6] = ["1.x", "*", "2", ">1.2", "<=3.4.5", "1.2.3"];

struct Numbers(u64);

impl Numbers {
    fn below(&mut self, end: u64) -> u64 {
        self.0 ^= self.0 << 13;
        self.0 ^= self.0 >> 7;
        self.0 ^= self.0 << 17;
        self.0 % end
    }

    fn pick<'a>(&mut self, all: &[&'a str]) -> &'a str {
        all[self.below(all.len() as u64) as usize]
    }

    fn release(&mut self) -> String {
        format!("{}.{}.{}", self.below(9), self.below(30), self.below(60))
    }

    fn version(&mut self) -> String {
        let release = self.release();
        let pre = self.pick(&PRE);
        release + pre + self.pick(&BUILD)
    }

    fn range(&mut self) -> String {
        match self.below(8) {
            0..=2 => format!("^{}", self.version()),
            3 => format!("~{}.{}", self.below(9), self.below(9)),
            4 => format!(">={} <{}.0.0", self.version(), self.below(9) + 5),
            5 => format!("{}.0.0 - {}.2.0", self.below(3), self.below(3) + 3),
            6 => {
                let count = self.below(3) + 2;
                (0..count).map(|_| format!("^{}", self.release())).collect::<Vec<_>>().join(" || ")
            }
            _ => self.pick(&WORDS).to_string(),
        }
    }

    /// A version and a range of a kind.
    fn of(&mut self, kind: &str) -> (String, String) {
        match kind {
            "caret" => (self.release(), format!("^{}", self.release())),
            "ties" => {
                let name = self.pick(&["alpha", "beta", "rc"]);
                (format!("1.2.3-{name}.{}", self.below(40)), self.range())
            }
            _ => (self.version(), self.range()),
        }
    }
}

/// The texts of a package: three of four versions are releases.
fn package(numbers: &mut Numbers) -> (Vec<String>, Vec<String>) {
    let listed = |at| if at % 4 == 0 { numbers.version() } else { numbers.release() };
    let versions = (0..VERSIONS).map(listed).collect();
    (versions, (0..RANGES).map(|_| numbers.range()).collect())
}

/// The sum of the first numbers of the best versions.
fn resolve(packages: &[(Vec<String>, Vec<String>)]) -> u64 {
    let mut sum = 0;
    for (versions, ranges) in packages {
        let mut read: Vec<Version> = versions.iter().map(|it| Version::parse(it).unwrap()).collect();
        for it in ranges {
            let range = Range::parse(it).unwrap();
            sum += range.max_satisfying(&read).map_or(0, Version::major);
        }
        read.sort();
        sum += read[0].patch();
    }
    sum
}

fn main() {
    let words: Vec<String> = std::env::args().collect();
    let (question, kind) = words[1].split_once(':').unwrap();
    let rounds: usize = words[2].parse().unwrap();
    let mut numbers = Numbers(88172645463325252);
    let texts: Vec<(String, String)> = (0..COUNT).map(|_| numbers.of(kind)).collect();
    let versions: Vec<Version> = texts.iter().map(|it| Version::parse(&it.0).unwrap()).collect();
    let ranges: Vec<Range> = texts.iter().map(|it| Range::parse(&it.1).unwrap()).collect();
    let mut sum = 0u64;
    if question == "resolver" {
        let packages: Vec<_> = (0..PACKAGES).map(|_| package(&mut numbers)).collect();
        (0..rounds).for_each(|_| sum += resolve(black_box(&packages)));
        return println!("{sum}");
    }
    for _ in 0..rounds {
        for at in 0..COUNT {
            let other = (at * 7 + 3) % COUNT;
            let (version, range) = (black_box(&versions[at]), black_box(&ranges[at]));
            sum += match question {
                "version" => Version::parse(black_box(&texts[at].0)).unwrap().major(),
                "range" => Range::parse(black_box(&texts[at].1)).is_ok() as u64,
                "compare" => (version < &versions[other]) as u64,
                "satisfies" => range.satisfies(&versions[other]) as u64,
                "intersect" => range.intersect(&ranges[other]).is_some() as u64,
                "difference" => range.difference(&ranges[other]).is_some() as u64,
                "min_version" => range.min_version().is_some() as u64,
                "allows_any" => range.allows_any(&ranges[other]) as u64,
                "outside" => range.outside(&versions[other], OutsideDirection::Higher, false).unwrap() as u64,
                "diff" => version.diff(&versions[other]).is_some() as u64,
                "inc" => version.inc("minor", None, None).unwrap().minor(),
                "print" => version.to_string().len() as u64,
                "max" if at < 10 => range.max_satisfying(&versions).is_some() as u64,
                _ => 0,
            };
        }
    }
    println!("{sum}");
}
