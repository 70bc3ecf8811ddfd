//! Holds the C header, the crate and the proved code to each other: constants by name and number, structs with their fields in order,
//! functions with their parameters and answers; and the items of header, crate and archive to those of ST 0601.

#[path = "header/items.rs"]
mod items;

use oysterknoll::{
    version, Knowing, Reason, LONGEST_LISTING, LONGEST_PACKET, TABLE_WORDS, VERSION,
};
use std::collections::BTreeMap;

const HEADER: &str = include_str!("../../include/oysterknoll.h");
const CRATE: &str = include_str!("../src/lib.rs");
const RAW: &str = include_str!("../src/raw.rs");
const PROVED: &str = include_str!("../../crates/oysterknoll/src/lib.rt");
const LISTING: &str = include_str!("../../crates/listing/src/lib.rt");
const LISTING_DEFINED: &str = include_str!("../../crates/listing/specs/Listing.antt");

/// Every constant of the header, by its name after `OYK_`. A macro with parameters is none.
fn header_constants() -> BTreeMap<String, u64> {
    let code = without_comments(HEADER);
    let defined = code
        .lines()
        .filter_map(|line| line.strip_prefix("#define OYK_")?.split_once(' '));
    let constants = defined.filter(|(name, _)| !name.contains('('));
    distinct(constants.map(|(name, value)| (name.to_string(), number(value.trim()))))
}

/// Every constant of the crate, by the name that it has in the header.
fn crate_constants() -> BTreeMap<String, u64> {
    let (low, high) = Knowing::ALL.words();
    let sizes = [
        ("VERSION", VERSION),
        ("TABLE_WORDS", TABLE_WORDS as u64),
        ("LONGEST_PACKET", LONGEST_PACKET as u64),
        ("LONGEST_LISTING", LONGEST_LISTING as u64),
        ("KNOWS_ALL_LOW", low),
        ("KNOWS_ALL_HIGH", high),
        // What the crate takes any number for that it does not name.
        ("MISSING", 0),
        ("NO_MORE", 0),
        ("NOT_LISTED", 0),
        ("UNIT_NONE", 0),
    ];
    let sizes = sizes.map(|(name, value)| (name.to_string(), value));
    let reasons = Reason::ALL.iter().map(|reason| {
        let name = format!("REFUSED_{}", upper_snake(&format!("{reason:?}")));
        (name, reason.number())
    });
    distinct(sizes.into_iter().chain(reasons).chain(raw_kinds()))
}

/// The kinds and units that the crate's private module names.
fn raw_kinds() -> impl Iterator<Item = (String, u64)> {
    let lines = RAW
        .lines()
        .filter_map(|line| line.strip_prefix("pub const "));
    lines.map(|line| {
        let (name, value) = line.split_once(": u64 = ").expect("a kind is a word");
        (name.to_string(), number(value.trim_end_matches(';')))
    })
}

/// The pairs as a map; no name may stand twice.
fn distinct(pairs: impl Iterator<Item = (String, u64)>) -> BTreeMap<String, u64> {
    let mut map = BTreeMap::new();
    for (name, value) in pairs {
        assert!(
            map.insert(name.clone(), value).is_none(),
            "{name} stands twice"
        );
    }
    map
}

/// A number in decimal, or in hexadecimal as `UINT64_C(0x...)`.
fn number(text: &str) -> u64 {
    let hexadecimal = text
        .strip_prefix("UINT64_C(0x")
        .and_then(|rest| rest.strip_suffix(')'));
    match hexadecimal {
        Some(digits) => u64::from_str_radix(digits, 16),
        None => text.parse(),
    }
    .expect("a number")
}

/// `SetNotGood` as `SET_NOT_GOOD`.
fn upper_snake(name: &str) -> String {
    let mut out = String::new();
    for (i, letter) in name.char_indices() {
        if i > 0 && letter.is_uppercase() {
            out.push('_');
        }
        out.extend(letter.to_uppercase());
    }
    out
}

/// C or Rust without its comments.
fn without_comments(code: &str) -> String {
    let mut out = String::new();
    let mut rest = code;
    while let Some((before, comment)) = rest.split_once("/*") {
        out.push_str(before);
        rest = comment.split_once("*/").expect("a comment ends").1;
    }
    out.push_str(rest);
    let lines = out
        .lines()
        .map(|line| line.split_once("//").map_or(line, |(code, _)| code));
    lines.map(|line| format!("{line}\n")).collect()
}

/// The header's declarations: what is neither a comment nor a line for the preprocessor.
fn declarations() -> String {
    let mut out = String::new();
    let mut goes_on = false;
    for line in without_comments(HEADER).lines() {
        let for_preprocessor = goes_on || line.starts_with('#');
        goes_on = for_preprocessor && line.ends_with('\\');
        if !for_preprocessor {
            out += line;
            out += "\n";
        }
    }
    out
}

/// The part of the code after `from` and before `to`.
fn between<'a>(code: &'a str, from: &str, to: &str) -> &'a str {
    let (_, rest) = code.split_once(from).expect("a start");
    rest.split_once(to).expect("an end").0
}

/// `oyk_count_answer` as `CountAnswer`.
fn camel(name: &str) -> String {
    let words = name.strip_prefix("oyk_").expect("a name of the header");
    let capital = |word: &str| word[..1].to_uppercase() + &word[1..];
    words.split('_').map(capital).collect()
}

/// A type of C as Rust has it.
fn type_in_rust(kind: &str) -> String {
    match kind {
        "uint8_t" => "u8".to_string(),
        "uint64_t" => "u64".to_string(),
        "int64_t" => "i64".to_string(),
        "size_t" => "usize".to_string(),
        other => camel(other),
    }
}

/// A C declaration such as `const uint8_t *packet` as `packet: *const u8`.
fn in_rust(declaration: &str) -> String {
    let (kind, name) = declaration
        .trim()
        .rsplit_once(' ')
        .expect("a type and a name");
    let (constant, kind) = match kind.strip_prefix("const ") {
        Some(kind) => (true, kind),
        None => (false, kind),
    };
    let lent = match (name.starts_with('*'), constant) {
        (true, true) => "*const ",
        (true, false) => "*mut ",
        (false, _) => "",
    };
    let (name, kind) = (name.trim_start_matches('*'), type_in_rust(kind));
    format!("{name}: {lent}{kind}")
}

/// The parts of a list, without line ends and spaces around.
fn parts(list: &str, end: char) -> impl Iterator<Item = String> + '_ {
    let parts = list
        .split(end)
        .map(|part| part.split_whitespace().collect::<Vec<_>>().join(" "));
    parts.filter(|part| !part.is_empty())
}

/// Each struct, by its name in Rust, with its fields in order.
type Structs = BTreeMap<String, Vec<String>>;

fn header_structs() -> Structs {
    let code = declarations();
    let declared = code.split("typedef struct ").skip(1).map(|declaration| {
        let (name, rest) = declaration.split_once(" {").expect("fields");
        let (fields, rest) = rest.split_once('}').expect("an end of fields");
        assert!(rest.starts_with(&format!(" {name};")), "{name}");
        let fields = parts(fields, ';').map(|field| in_rust(&field));
        (camel(name), fields.collect())
    });
    declared.collect()
}

/// The structs of Rust or of the proved code that are laid out as in C.
fn structs(code: &str) -> Structs {
    let declared = code.split("#[repr(C)]\n").skip(1);
    let declared = declared.map(|rest| {
        rest.strip_prefix("#[derive(Clone, Copy)]\n")
            .unwrap_or(rest)
    });
    let declared = declared.filter_map(|rest| rest.strip_prefix("pub struct "));
    let structs = declared.map(|declaration| {
        let (name, rest) = declaration.split_once(" {").expect("fields");
        let (fields, _) = rest.split_once('}').expect("an end of fields");
        let public = |field: String| field.strip_prefix("pub ").expect("public").to_string();
        (name.to_string(), parts(fields, ',').map(public).collect())
    });
    structs.collect()
}

/// Each function by its name, with its parameters in order and its answer.
type Functions = BTreeMap<String, (Vec<String>, String)>;

fn header_functions() -> Functions {
    let code = declarations();
    let declared = code.split(';').filter_map(|part| part.split_once('('));
    let functions = declared.map(|(head, list)| {
        let (answer, name) = head.trim().rsplit_once(' ').expect("an answer");
        let list = parts(list.trim_end().trim_end_matches(')'), ',');
        let lent = list.filter(|part| part != "void");
        let parameters = lent.map(|part| in_rust(&part)).collect();
        (name.to_string(), (parameters, type_in_rust(answer)))
    });
    functions.collect()
}

fn raw_functions() -> Functions {
    let block = between(RAW, "extern \"C\" {", "\n}");
    let functions = block.split("fn ").skip(1).map(|declaration| {
        let (name, list, answer) = signature(declaration);
        (name, (parts(list, ',').collect(), answer))
    });
    functions.collect()
}

/// The functions of the proved code as C sees them.
fn proved_functions() -> Functions {
    let declared = PROVED.split("pub extern \"C\" fn ").skip(1);
    let functions = declared.map(|declaration| {
        let (name, list, answer) = signature(declaration);
        let lent = parts(list, ',').flat_map(|parameter| lent(&parameter));
        (name, (lent.collect(), answer))
    });
    functions.collect()
}

/// Name, list of parameters and answer of a function in Rust or in the proved code, after `fn`.
fn signature(declaration: &str) -> (String, &str, String) {
    let (name, rest) = declaration.split_once('(').expect("parameters");
    let (list, rest) = rest.split_once(')').expect("an end of parameters");
    let answer = rest.trim_start().strip_prefix("-> ").expect("an answer");
    let end = |letter: char| letter == ';' || letter.is_whitespace();
    let answer = answer.split(end).next().unwrap_or_default();
    (name.to_string(), list, answer.to_string())
}

/// A parameter of the proved code as C sees it: a slice such as `packet: &[u8]` is a pointer and its length.
fn lent(parameter: &str) -> Vec<String> {
    let (name, kind) = parameter.split_once(": ").expect("a name and a type");
    let slice = |start| kind.strip_prefix(start)?.strip_suffix(']');
    let pointer = match (slice("&["), slice("&mut [")) {
        (Some(element), _) => format!("{name}: *const {element}"),
        (_, Some(element)) => format!("{name}: *mut {element}"),
        _ => return vec![parameter.to_string()],
    };
    vec![pointer, format!("{name}_len: usize")]
}

/// The number that ends a line of the code, after `start`.
fn number_after(start: &str, code: &str) -> u64 {
    number(between(code, start, "\n").trim_end_matches(';'))
}

#[test]
fn constants_agree() {
    assert_eq!(header_constants(), crate_constants());
    assert_eq!(Reason::ALL.len(), 22);
}

#[test]
fn reasons_go_by_their_numbers() {
    for (number, reason) in (1..).zip(Reason::ALL) {
        assert_eq!(reason.number(), number);
        assert_eq!(Reason::from_number(number), Some(*reason));
    }
    assert_eq!(Reason::from_number(0), None);
    assert_eq!(Reason::from_number(23), None);
    assert_eq!(Reason::from_number(u64::MAX), None);
}

#[test]
fn structs_agree() {
    assert_eq!(header_structs(), structs(RAW));
    assert_eq!(header_structs(), structs(PROVED));
    assert_eq!(header_structs().len(), 13);
}

#[test]
fn functions_agree() {
    assert_eq!(header_functions(), raw_functions());
    assert_eq!(header_functions(), proved_functions());
    assert_eq!(header_functions().len(), 17);
}

#[test]
fn versions_agree() {
    assert_eq!(number_after("#define OYK_VERSION ", HEADER), VERSION);
    assert_eq!(version(), VERSION);
}

#[test]
fn longest_listing_is_the_proved_bound() {
    let bound = number_after("\nlargest = ", LISTING_DEFINED);
    assert_eq!(bound, number_after("pub const LARGEST: usize = ", LISTING));
    assert_eq!(bound, number_after("#define OYK_LONGEST_LISTING ", HEADER));
    assert_eq!(
        bound,
        number_after("pub const LONGEST_LISTING: usize = ", CRATE)
    );
}
