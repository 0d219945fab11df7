//! Declarations are not checked by any linker, so they are compared here with the library's source, word for word: those of
//! the C header, those of `raw`, and those of the parts that the comparison alone calls. A function that is exported and not
//! declared, or declared and not exported, is found too.

use mouldgrey::{Refusal, StopReason};
use std::fs;
use std::path::Path;

/// A file of the repository.
fn text(path: &str) -> String {
    let root = Path::new(env!("CARGO_MANIFEST_DIR")).join("../..");
    let file = root.join(path);
    fs::read_to_string(&file).unwrap_or_else(|why| panic!("{}: {why}", file.display()))
}

/// A function's name, its parameters with their types as the source has them, and what it returns.
struct Exported {
    name: String,
    parameters: Vec<(String, String)>,
    answer: String,
}

/// The functions under C names in a source file.
fn exported(path: &str) -> Vec<Exported> {
    let source = text(path);
    let mut functions = Vec::new();
    for part in source.split("pub extern \"C\" fn ").skip(1) {
        let (head, rest) = part.split_once('(').expect("parameters");
        let (inside, rest) = rest.split_once(')').expect("an end of the parameters");
        let answer = rest.split(['{', '\n']).next().expect("an answer");
        let parameters = inside.split(',').map(str::trim).filter(|it| !it.is_empty());
        functions.push(Exported {
            // A lifetime may follow the name.
            name: head.split('<').next().expect("a name").to_string(),
            parameters: parameters.map(parameter).collect(),
            answer: answer.trim().trim_start_matches("->").trim().to_string(),
        });
    }
    assert!(
        !functions.is_empty(),
        "{path} has no function under a C name"
    );
    functions
}

fn parameter(text: &str) -> (String, String) {
    let (name, kind) = text.split_once(": ").expect("a name and a type");
    let name = match (name, kind) {
        // The length of a text that is not passed itself.
        ("text", "usize") => "text_len",
        _ => name,
    };
    (name.to_string(), kind.replace("&'a ", "&"))
}

/// What a reference points to, and whether it may be written.
fn pointee(kind: &str) -> Option<(&str, bool)> {
    let (inside, writes) = match kind.strip_prefix("&mut [") {
        Some(inside) => (inside, true),
        None => (kind.strip_prefix("&[")?, false),
    };
    Some((inside.strip_suffix(']')?, writes))
}

/// The structs that fixed arrays are in C and in Rust: the parameter's name, the array, and both names.
const STRUCTS: [(&str, &str, &str, &str); 27] = [
    ("opening", "u32; 6", "struct mouldgrey_opening", "Opening"),
    ("header", "u32; 12", "struct mouldgrey_header", "Header"),
    ("merged", "u32; 5", "struct mouldgrey_merged", "Merged"),
    ("staged", "u32; 1", "uint32_t", "u32"),
    ("sound", "u32; 1", "uint32_t", "u32"),
    ("matched", "u32; 1", "uint32_t", "u32"),
    ("position", "u32; 1", "uint32_t", "u32"),
    ("length", "u64; 1", "uint64_t", "u64"),
    ("words", "u64; 1", "uint64_t", "u64"),
    ("bytes", "u64; 1", "uint64_t", "u64"),
    ("row", "u32; 2", "struct mouldgrey_row", "Row"),
    ("cell", "u32; 2", "struct mouldgrey_cell", "Cell"),
    ("range", "u32; 3", "struct mouldgrey_range", "Range"),
    ("version", "u32; 2", "struct mouldgrey_version", "Version"),
    (
        "condition",
        "u32; 3",
        "struct mouldgrey_constraint",
        "Constraint",
    ),
    ("subset", "u32; 3", "struct mouldgrey_subset", "Subset"),
    ("first", "u32; 3", "struct mouldgrey_subset", "Subset"),
    ("second", "u32; 3", "struct mouldgrey_subset", "Subset"),
    ("answer", "u32; 3", "struct mouldgrey_subset", "Subset"),
    ("page", "u32; 4", "struct mouldgrey_page", "Page"),
    ("failure", "u32; 3", "struct mouldgrey_failure", "Failure"),
    ("answer", "u32; 4", "struct mouldgrey_step", "Step"),
    ("answer", "u32; 2", "struct mouldgrey_sequence", "Sequence"),
    ("head", "u32; 6", "struct mouldgrey_listing", "Listing"),
    (
        "head",
        "u32; 7",
        "struct mouldgrey_numbered_listing",
        "NumberedListing",
    ),
    ("verdict", "u64; 2", "struct mouldgrey_verdict", "Verdict"),
    (
        "answer",
        "u32; 7",
        "struct mouldgrey_query_result",
        "QueryResult",
    ),
];

/// The names of the struct that a fixed array is.
fn structure(parameter: &str, array: &str) -> (&'static str, &'static str) {
    let found = STRUCTS
        .iter()
        .find(|(name, kind, ..)| (*name, *kind) == (parameter, array));
    let (_, _, in_c, in_rust) =
        found.unwrap_or_else(|| panic!("no struct for {parameter}: [{array}]"));
    (in_c, in_rust)
}

fn in_c(kind: &str) -> &'static str {
    match kind {
        "u8" => "uint8_t",
        "u32" => "uint32_t",
        "u64" => "uint64_t",
        "usize" => "size_t",
        "bool" => "bool",
        "Constraint" => "struct mouldgrey_constraint",
        _ => panic!("no C type for {kind}"),
    }
}

impl Exported {
    fn declared_in_c(&self) -> String {
        let mut parameters = Vec::new();
        for (name, kind) in &self.parameters {
            match pointee(kind) {
                None => parameters.push(format!("{} {name}", in_c(kind))),
                Some((array, writes)) if array.contains(';') => {
                    let prefix = if writes { "" } else { "const " };
                    parameters.push(format!("{prefix}{} *{name}", structure(name, array).0));
                }
                Some((words, writes)) => {
                    let prefix = if writes { "" } else { "const " };
                    parameters.push(format!("{prefix}{} *{name}", in_c(words)));
                    parameters.push(format!("size_t {name}_len"));
                }
            }
        }
        if parameters.is_empty() {
            parameters.push("void".to_string());
        }
        let parameters = parameters.join(", ");
        format!("{} {}({parameters})", in_c(&self.answer), self.name)
    }

    fn declared_in_rust(&self) -> String {
        let mut parameters = Vec::new();
        for (name, kind) in &self.parameters {
            match pointee(kind) {
                None => parameters.push(format!("{name}: {kind}")),
                Some((array, writes)) if array.contains(';') => {
                    let pointer = if writes { "*mut" } else { "*const" };
                    parameters.push(format!("{name}: {pointer} {}", structure(name, array).1));
                }
                Some((words, writes)) => {
                    let pointer = if writes { "*mut" } else { "*const" };
                    parameters.push(format!("{name}: {pointer} {words}"));
                    parameters.push(format!("{name}_len: usize"));
                }
            }
        }
        let parameters = parameters.join(", ");
        format!("{}({parameters}) -> {}", self.name, self.answer)
    }
}

/// The text with every run of spaces as one, and none inside brackets' ends.
fn squeezed(text: &str) -> String {
    let words: Vec<&str> = text.split_whitespace().collect();
    words
        .join(" ")
        .replace("( ", "(")
        .replace(", )", ")")
        .replace(",)", ")")
}

/// What a declaration of a name looks like up to its semicolon.
fn declarations(text: &str, before: &str) -> Vec<String> {
    let parts = text.split(';').map(squeezed);
    let found = parts.filter_map(|part| {
        let from = part.rfind(before)?;
        Some(part[from..].to_string())
    });
    found.collect()
}

fn without_comments(text: &str) -> String {
    let mut kept = String::new();
    for (place, part) in text.split("/*").enumerate() {
        kept.push_str(match place {
            0 => part,
            _ => part.split_once("*/").expect("an end of the comment").1,
        });
    }
    kept
}

fn sorted(mut lines: Vec<String>) -> Vec<String> {
    lines.sort();
    lines
}

/// The crates whose functions the library has.
const CRATES: [&str; 10] = [
    "abi_table_c",
    "abi_read_c",
    "abi_row_c",
    "abi_query_c",
    "abi_refresh_c",
    "abi_precedence_c",
    "abi_vault_c",
    "abi_listing_c",
    "abi_image_c",
    "abi_replay_c",
];

fn shipped() -> Vec<Exported> {
    let sources = CRATES.map(|name| format!("crates/{name}/src/lib.rt"));
    sources.iter().flat_map(|path| exported(path)).collect()
}

/// The structs of the header have as many fields as the arrays have elements, in order and by the names of `raw`.
#[test]
fn structs() {
    let header = without_comments(&text("include/mouldgrey.h"));
    let source = text("bindings/rust/src/raw.rs") + &text("bindings/rust/src/header.rs");
    for (_, array, c_name, in_rust) in STRUCTS {
        let Some(name) = c_name.strip_prefix("struct ") else {
            continue;
        };
        let (element, count) = array.split_once("; ").expect("an array");
        let fields = |text: &str, start: &str, end: &str| -> Vec<String> {
            let (_, rest) = text.split_once(start).unwrap_or_else(|| panic!("{start}"));
            let (inside, _) = rest.split_once('}').expect("an end of the struct");
            let lines = inside.lines().map(str::trim);
            let lines = lines.filter(|line| !line.is_empty() && !line.starts_with("//"));
            lines
                .map(|line| line.trim_end_matches(end).to_string())
                .collect()
        };
        let c = fields(&header, &format!("struct {name} {{"), ";");
        let rust = fields(&source, &format!("pub struct {in_rust} {{"), ",");
        let names: Vec<&str> = c
            .iter()
            .map(|field| field.strip_prefix(in_c(element)).expect("its type").trim())
            .collect();
        assert_eq!(names.len().to_string(), count, "{name}");
        let expected: Vec<String> = names
            .iter()
            .map(|name| format!("pub {}: {element}", in_rust_field(name)))
            .collect();
        assert_eq!(rust, expected, "{name}");
    }
}

/// A header's field `largest` is a method's name in Rust.
fn in_rust_field(name: &str) -> &str {
    match name {
        "largest" => "largest_value",
        name => name,
    }
}

#[test]
fn header_for_c() {
    let header = without_comments(&text("include/mouldgrey.h"));
    let code: Vec<&str> = header
        .lines()
        .filter(|line| !line.starts_with('#'))
        .collect();
    let declared = declarations(&code.join("\n"), "uint32_t mouldgrey_");
    let expected = shipped().iter().map(Exported::declared_in_c).collect();
    assert_eq!(sorted(declared), sorted(expected));
}

/// The declarations of a Rust file.
fn declared_in(path: &str) -> Vec<String> {
    let declared = declarations(&text(path), "pub fn mouldgrey_");
    let declared = declared
        .iter()
        .map(|line| line["pub fn ".len()..].to_string());
    sorted(declared.collect())
}

#[test]
fn raw_declarations() {
    let mut expected: Vec<String> = shipped().iter().map(Exported::declared_in_rust).collect();
    // The one function that is written in C.
    expected.push("mouldgrey_refusal_text(number: u32) -> *const std::ffi::c_char".to_string());
    assert_eq!(declared_in("bindings/rust/src/raw.rs"), sorted(expected));
}

#[test]
fn declarations_of_single_parts() {
    let parts = exported("crates/test_probes/src/lib.rt");
    let expected = parts.iter().map(Exported::declared_in_rust).collect();
    assert_eq!(
        declared_in("oracle/single_parts/src/raw.rs"),
        sorted(expected)
    );
}

/// A name such as `OutOfBounds` as OUT_OF_BOUNDS.
fn shouted(name: &str) -> String {
    let mut shouted = String::new();
    for letter in name.chars() {
        if letter.is_uppercase() && !shouted.is_empty() {
            shouted.push('_');
        }
        shouted.push(letter.to_ascii_uppercase());
    }
    shouted
}

#[test]
fn numbers_by_name() {
    let header = text("include/mouldgrey.h");
    let refusals = Refusal::ALL.map(|it| (format!("{it:?}"), it.number()));
    let stops = StopReason::ALL.map(|it| (format!("{it:?}"), it.number()));
    for (name, number) in refusals.iter().chain(&stops) {
        let name = format!("MOULDGREY_{}", shouted(name));
        let defined = header.lines().any(|line| {
            let mut words = line.split_whitespace();
            let mut is = |word: &str| words.next() == Some(word);
            is("#define") && is(&name) && is(&number.to_string())
        });
        assert!(defined, "#define {name} {number}");
    }
}
