//! The crate's names, numbers, sentences and declarations are those of include/mazurlot.h.

use mazurlot::{Reason, MOST_LEAVES, MSDH, RECORD_NUMBERS, STATE_NUMBERS, WORK_BYTES};

const HEADER: &str = include_str!("../../../include/mazurlot.h");
const SYS: &str = include_str!("../src/sys.rs");
const STATE: &str = include_str!("../src/state.rs");

/// Name, value and comment of each line that defines a name as a number.
fn defined() -> Vec<(&'static str, u64, &'static str)> {
    let line = |line: &'static str| {
        let (name, rest) = line.strip_prefix("#define MAZURLOT_")?.split_once(' ')?;
        let (value, comment) = rest.split_once("/*").unwrap_or((rest, ""));
        Some((name, value.trim().parse().ok()?, comment.trim_end_matches("*/").trim()))
    };
    HEADER.lines().filter_map(line).collect()
}

/// A name as this crate writes it: `BadBoxSize` for `BAD_BOX_SIZE`.
fn as_case(name: &str) -> String {
    name.split('_').map(|word| word[..1].to_string() + &word[1..].to_lowercase()).collect()
}

#[test]
fn refusals_are_those_of_the_header() {
    let all = defined();
    let first = all.iter().position(|(name, ..)| *name == "SMALL_WORK_AREA").unwrap();
    let named: Vec<_> = all[first..].iter().map(|(name, number, sentence)| (as_case(name), *number, sentence.to_string())).collect();
    let here = |number| Reason::from_number(number).map(|reason| (format!("{reason:?}"), reason.number(), reason.to_string()));
    assert_eq!(named, (1..).map_while(here).collect::<Vec<_>>());
    assert_eq!(named.len(), 26);
    assert_eq!(Reason::from_number(0), None);
}

#[test]
fn lengths_are_those_of_the_header() {
    let value = |wanted: &str| defined().iter().find(|(name, ..)| *name == wanted).map(|(_, value, _)| *value as usize);
    assert_eq!(value("STATE_NUMBERS"), Some(STATE_NUMBERS));
    assert_eq!(value("WORK_BYTES"), Some(WORK_BYTES));
    assert_eq!(value("RECORD_NUMBERS"), Some(RECORD_NUMBERS));
    assert_eq!(value("MOST_LEAVES"), Some(MOST_LEAVES));
    for (name, value) in [("LEAVES", value("STATE_LEAVES")), ("TIMESCALE", value("STATE_TIMESCALE"))] {
        assert!(STATE.contains(&format!("const {name}: usize = {};", value.unwrap())), "{name}");
    }
    assert!(HEADER.contains("#define MAZURLOT_BRAND_MSDH MAZURLOT_BRAND('m', 's', 'd', 'h')"));
    assert_eq!(MSDH, *b"msdh");
}

/// Of each declaration that starts so and ends with `;`, its name and its parameters.
fn declared<'a>(text: &'a str, start: &str) -> Vec<(&'a str, Vec<String>)> {
    let one = |rest: &'a str| {
        let (name, parameters) = rest.split_once(';')?.0.split_once(')')?.0.split_once('(')?;
        let words = |parameter: &str| parameter.split_whitespace().collect::<Vec<_>>().join(" ");
        Some((name, parameters.split(',').map(words).filter(|parameter| !parameter.is_empty()).collect()))
    };
    text.split(start).skip(1).filter_map(one).collect()
}

/// A parameter of the header as Rust declares it: `piece: *const u8` for `const uint8_t *piece`.
fn in_rust(parameter: &str) -> String {
    let (kind, name) = parameter.rsplit_once(' ').unwrap();
    let (pointer, kind) = match (name.starts_with('*'), kind.strip_prefix("const ")) {
        (true, Some(kind)) => ("*const ", kind),
        (true, None) => ("*mut ", kind),
        _ => ("", kind),
    };
    let known = [("uint8_t", "u8"), ("uint32_t", "u32"), ("uint64_t", "u64"), ("size_t", "usize"), ("double", "f64")];
    let (_, kind) = known.iter().find(|(in_c, _)| *in_c == kind).unwrap();
    format!("{}: {pointer}{kind}", name.trim_start_matches('*'))
}

#[test]
fn declarations_are_those_of_the_header() {
    let translated = |(name, parameters): (&'static str, Vec<String>)| (name, parameters.iter().map(|one| in_rust(one)).collect());
    let header: Vec<(&str, Vec<String>)> = declared(HEADER, "\nuint64_t ").into_iter().map(translated).collect();
    assert_eq!(header, declared(SYS, "    fn "));
    assert_eq!(header.len(), 7);
    assert_eq!(SYS.matches(") -> u64;").count(), 7);
}
