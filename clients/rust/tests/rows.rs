//! The rows of the program `semver_lines`: each line of its input, and the answer that it must get.
//! They stand in the repository, and not in the package.

use nodejs_semver::{IdentifierBase, IncrementError, OutsideDirection, Range, Version};
use std::fs;

type Said = Result<String, &'static str>;

fn version(text: &str) -> Result<Version, &'static str> {
    Version::parse(text).map_err(|_| "bad version")
}

fn range(text: &str) -> Result<Range, &'static str> {
    Range::parse(text).map_err(|_| "bad range")
}

fn or_none<T: ToString>(found: Option<T>) -> Said {
    Ok(found.map_or("none".to_owned(), |it| it.to_string()))
}

fn increment(fields: &[&str]) -> Said {
    let base = match fields.get(3) {
        None => None,
        Some(&"false") => Some(IdentifierBase::False),
        Some(number) => Some(IdentifierBase::Value(number.parse().unwrap())),
    };
    match version(fields[0])?.inc(fields[1], fields.get(2).copied(), base) {
        Ok(next) => Ok(next.to_string()),
        Err(IncrementError::InvalidIncrementArgument(_)) => Err("bad argument"),
        Err(IncrementError::InvalidIdentifier(_)) => Err("bad identifier"),
        Err(IncrementError::NotAPrerelease(_)) => Err("not a prerelease"),
        Err(IncrementError::Overflow) => Err("overflow"),
    }
}

fn best(fields: &[&str], is_greatest: bool) -> Said {
    let range = range(fields[0])?;
    let versions = fields[1..]
        .iter()
        .map(|it| version(it))
        .collect::<Result<Vec<_>, _>>()?;
    or_none(match is_greatest {
        true => range.max_satisfying(&versions),
        false => range.min_satisfying(&versions),
    })
}

fn outside(fields: &[&str]) -> Said {
    let direction = OutsideDirection::try_from(fields[2].chars().next().unwrap()).unwrap();
    let is_outside = range(fields[0])?.outside(&version(fields[1])?, direction, false);
    Ok(is_outside.unwrap().to_string())
}

/// What the package answers, or "no question" if it has no such call.
fn answer(line: &str) -> Said {
    let (kind, rest) = line.split_once(';').ok_or("no question")?;
    let fields: Vec<&str> = rest.split(';').collect();
    let two = || Ok::<_, &'static str>((range(fields[0])?, range(fields[1])?));
    match kind {
        "cmp" => {
            let order = version(fields[0])?.cmp(&version(fields[1])?);
            Ok(format!("{order:?}").to_lowercase())
        }
        "sat" => Ok(range(fields[0])?
            .satisfies(&version(fields[1])?)
            .to_string()),
        "pre" => {
            let (range, version) = (range(fields[0])?, version(fields[1])?);
            Ok(version.satisfies_with_prerelease(&range, true).to_string())
        }
        "ver" => Ok(version(fields[0])?.to_string()),
        "range" => Ok(range(fields[0])?.to_string()),
        "and" => two().and_then(|(one, other)| or_none(one.intersect(&other))),
        "minus" => two().and_then(|(one, other)| or_none(one.difference(&other))),
        "all" => two().map(|(one, other)| one.allows_all(&other).to_string()),
        "any" => two().map(|(one, other)| one.allows_any(&other).to_string()),
        "least" => or_none(range(fields[0])?.min_version()),
        "max" => best(&fields, true),
        "min" => best(&fields, false),
        "inc" => increment(&fields),
        "diff" => or_none(version(fields[0])?.diff(&version(fields[1])?)),
        "out" => outside(&fields),
        _ => Err("no question"),
    }
}

fn lines(name: &str) -> Vec<Vec<u8>> {
    let folder = concat!(env!("CARGO_MANIFEST_DIR"), "/../../crates/semver_lines");
    let text = fs::read(format!("{folder}/{name}")).unwrap();
    text.split(|byte| *byte == b'\n')
        .map(<[u8]>::to_vec)
        .collect()
}

#[test]
fn rows() {
    let (mut asked, mut wrong) = (0, Vec::new());
    for (line, wanted) in lines("stdin").into_iter().zip(lines("stdout")) {
        let wanted = String::from_utf8(wanted).unwrap();
        // A text of Rust is UTF-8, and has its fields.
        let Ok(line) = String::from_utf8(line) else {
            continue;
        };
        if wanted == "bad line" {
            continue;
        }
        let said = answer(&line).unwrap_or_else(str::to_owned);
        if said != "no question" {
            asked += 1;
            if said != wanted {
                wrong.push(format!("{line}: {said}, not {wanted}"));
            }
        }
    }
    assert!(asked > 350, "{asked} rows");
    assert!(wrong.is_empty(), "{}", wrong.join("\n"));
}
