//! This crate says what `include/lca.h` says, which is read here as text, and the archive has its version.

use lca::{calls, cells, Refusal, VERSION};

const HEADER: &str = include_str!("../../../include/lca.h");
const FFI: &str = include_str!("../src/ffi.rs");

/// The number behind `before` in the line of the header that begins so.
fn number_after(before: &str) -> Option<u64> {
    let rest = HEADER
        .lines()
        .find_map(|line| line.trim_start().strip_prefix(before))?;
    let digits = rest.split(|c: char| !c.is_ascii_digit()).next()?;
    digits.parse().ok()
}

#[test]
fn the_header_has_the_version_of_this_crate() {
    assert_eq!(
        number_after("#define LCA_VERSION "),
        Some(VERSION.into()),
        "the header's version is on the left, this crate's on the right: raise both, LCA_VERSION in include/lca.h and lca::VERSION"
    );
}

#[test]
fn the_archive_has_the_version_of_this_crate() {
    assert_eq!(
        calls::version(),
        VERSION,
        "the archive's version is on the left, this crate's on the right: raise both, in crates/lca (specs/Version.antt and src/lib.rt) \
         and lca::VERSION, and make the archive again by `bash tools/build.sh lca`"
    );
}

#[test]
fn the_header_has_the_numbers_of_refusals_by_the_same_names() {
    let card = [
        ("BARE", Refusal::BARE),
        ("OVERSIZE", Refusal::OVERSIZE),
        ("MISFIT", Refusal::MISFIT),
        ("OFF_SHEET", Refusal::OFF_SHEET),
        ("ROOTLESS", Refusal::ROOTLESS),
        ("SECOND_ROOT", Refusal::SECOND_ROOT),
        ("LOOP", Refusal::LOOP),
        ("STALE", Refusal::STALE),
        ("NOTHING_LISTED", Refusal::NOTHING_LISTED),
        ("NO_SUCH_PART", Refusal::NO_SUCH_PART),
        ("ADRIFT", Refusal::ADRIFT),
        ("ILLEGIBLE", Refusal::ILLEGIBLE),
    ];
    for ((name, number), row) in card.into_iter().zip(1..) {
        assert_eq!(number, row, "{name}");
        assert_eq!(
            number_after(&format!("LCA_{name} = ")),
            Some(number.into()),
            "LCA_{name}"
        );
        let word = Refusal { number, place: 0 }.word();
        assert_eq!(word.to_uppercase().replace(' ', "_"), name);
        let case = format!("case LCA_{name}: return \"{word}\";");
        assert!(HEADER.contains(&case), "lca_word has no `{case}`");
    }
}

#[test]
fn the_header_has_the_same_limits() {
    let in_header = |name| number_after(&format!("LCA_{name} = ")).unwrap();
    assert_eq!(in_header("MOST_PARTS"), cells::MOST_PARTS as u64);
    assert_eq!(in_header("ANSWER_CELLS"), cells::ANSWER as u64);
    assert_eq!(in_header("TRAIL_CELLS"), cells::TRAIL as u64);
    assert_eq!(in_header("NO_CELL"), cells::NO_CELL.into());
}

/// What stands between `open` and the next `)` of a text, without the spaces at its ends, cut at commas.
fn list_after<'a>(text: &'a str, open: &str) -> Vec<&'a str> {
    let (_, rest) = text.split_once(open).unwrap_or_else(|| panic!("{open}"));
    let (list, _) = rest.split_once(')').unwrap();
    let items = list.split(',').map(str::trim);
    items.filter(|item| !item.is_empty()).collect()
}

/// An argument of C, as Rust declares it: a name and a type.
fn in_rust(argument: &str) -> String {
    let name = argument.rsplit([' ', '*']).next().unwrap();
    let kind = match argument.strip_suffix(name).unwrap().trim() {
        "const uint16_t *" => "*const u16",
        "uint16_t *" => "*mut u16",
        "const uint32_t *" => "*const u32",
        "uint64_t *" => "*mut u64",
        "size_t" => "usize",
        other => panic!("{other}"),
    };
    format!("{name}: {kind}")
}

#[test]
fn the_header_declares_the_same_calls_with_the_same_arguments() {
    let calls = FFI.lines().filter_map(|line| {
        let name = line.trim_start().strip_prefix("pub fn ")?;
        name.split('(').next()
    });
    let calls: Vec<&str> = calls.collect();
    let declared = HEADER
        .lines()
        .filter(|line| line.starts_with("uint32_t lca_"));
    assert_eq!(calls.len(), declared.count());
    for name in calls {
        let (c, rust) = (format!("\nuint32_t {name}("), format!("pub fn {name}("));
        let c = list_after(HEADER, &c)
            .into_iter()
            .filter(|&none| none != "void");
        let c: Vec<String> = c.map(in_rust).collect();
        assert_eq!(c, list_after(FFI, &rust), "{name}");
    }
}
