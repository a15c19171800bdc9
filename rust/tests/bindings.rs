//! The interface stands four times: in the header, in `src/lent.rs`, in the Rattle sources, and as symbols of the archive.
//! Nothing but this holds them to each other, and a call by a wrong declaration is undefined.

mod common;

use std::collections::BTreeMap;
use std::fs;

/// What one place declares: each item by its kind and name, with its parts in order. The parts of a function are its
/// arguments as C takes them and its answer, those of a struct its fields, that of a constant its value. Functions and
/// constants have the header's names; structs and all types have the crate's.
#[derive(Clone, Default, Debug)]
struct Declared {
    place: &'static str,
    items: BTreeMap<String, Vec<String>>,
}

impl Declared {
    fn at(place: &'static str) -> Declared {
        Declared { place, ..Declared::default() }
    }

    fn put(&mut self, item: String, parts: Vec<String>) {
        assert!(!self.items.contains_key(&item), "{item} stands twice in {}", self.place);
        self.items.insert(item, parts);
    }

    /// The items but those of one kind.
    fn without(mut self, kind: &str) -> Declared {
        self.items.retain(|item, _| !item.starts_with(kind));
        self
    }
}

/// The items that only one of two places has.
fn missing(one: &Declared, other: &Declared) -> Vec<String> {
    let only = |one: &Declared, other: &Declared| {
        let lacking = one.items.keys().filter(|item| !other.items.contains_key(*item));
        lacking.map(|item| format!("{item}: in {}, not in {}", one.place, other.place)).collect::<Vec<_>>()
    };
    [only(one, other), only(other, one)].concat()
}

/// The parts in which two places differ, of the items that both have.
fn differing(one: &Declared, other: &Declared) -> Vec<String> {
    let mut reports = Vec::new();
    for (item, parts) in &one.items {
        let Some(others) = other.items.get(item) else { continue };
        for at in 0..parts.len().max(others.len()) {
            let [part, another] = [parts, others].map(|parts| parts.get(at).map_or("nothing", String::as_str));
            if part != another {
                let (here, there) = (one.place, other.place);
                reports.push(format!("{item}, part {}: {part} in {here}, {another} in {there}", at + 1));
            }
        }
    }
    reports
}

fn differences(one: &Declared, other: &Declared) -> Vec<String> {
    [missing(one, other), differing(one, other)].concat()
}

const PREFIX: &str = "sibukyaran_";

/// The text between two marks, and what stands behind the second.
fn between<'a>(text: &'a str, from: &str, to: &str) -> (&'a str, &'a str) {
    let (_, rest) = text.split_once(from).unwrap_or_else(|| panic!("no {from:?} in {text:.80?}"));
    rest.split_once(to).unwrap_or_else(|| panic!("no {to:?} behind {from:?} in {text:.80?}"))
}

/// The trimmed parts of a list, but empty ones.
fn listed(list: &str, mark: char) -> impl Iterator<Item = &str> {
    list.split(mark).map(str::trim).filter(|part| !part.is_empty())
}

// The header.

/// The crate's name of a struct: `sibukyaran_plan_numbers` is `PlanNumbers`. One without the prefix stays as it is.
fn struct_name(name: &str) -> String {
    let Some(words) = name.strip_prefix(PREFIX) else { return name.into() };
    words.split('_').map(|word| word[..1].to_uppercase() + &word[1..]).collect()
}

/// A type of C as Rust spells it. One that is not known stays as it is, and so differs.
fn c_type(text: &str) -> String {
    let text = text.trim();
    if let Some(to) = text.strip_suffix('*') {
        let to = to.trim();
        return match to.strip_prefix("const ") {
            Some(to) => format!("*const {}", c_type(to)),
            None => format!("*mut {}", c_type(to)),
        };
    }
    match text {
        "uint8_t" => "u8".into(),
        "uint32_t" => "u32".into(),
        "uint64_t" => "u64".into(),
        "int64_t" => "i64".into(),
        "size_t" => "usize".into(),
        _ => text.strip_prefix("struct ").map_or(text.into(), struct_name),
    }
}

/// `const uint64_t *a`: the name behind and the type before it.
fn c_name_and_type(text: &str) -> (&str, String) {
    let at = text.trim_end().rfind([' ', '*']).map_or(0, |at| at + 1);
    (text[at..].trim(), c_type(&text[..at]))
}

fn c_part(text: &str) -> String {
    let (name, kind) = c_name_and_type(text);
    format!("{name}: {kind}")
}

fn without_comments(mut text: &str) -> String {
    let mut rest = String::new();
    while let Some((before, behind)) = text.split_once("/*") {
        rest += before;
        text = behind.split_once("*/").expect("a comment that ends").1;
    }
    rest + text
}

/// The header's constants but its version, which tests/header.rs holds to the crate's, and the text without its lines for
/// the preprocessor and for C++.
fn preprocessed(text: &str, header: &mut Declared) -> String {
    let (mut rest, mut cpp) = (String::new(), false);
    for line in text.lines() {
        let words: Vec<&str> = line.split_whitespace().collect();
        match words[..] {
            ["#ifdef", "__cplusplus"] => cpp = true,
            ["#endif"] => cpp = false,
            ["#define", name, value] if !name.contains("_VERSION") => {
                header.put(format!("constant {name}"), vec![value.into()]);
            }
            _ if cpp || line.starts_with('#') => (),
            _ => rest = rest + line + "\n",
        }
    }
    rest
}

fn header(text: &str) -> Declared {
    let mut header = Declared::at("the header");
    let text = preprocessed(&without_comments(text), &mut header);
    let mut rest = text.as_str();
    while let Some(end) = rest.find([';', '{']) {
        let (head, behind) = rest.split_at(end);
        if behind.starts_with('{') {
            let (fields, behind) = between(behind, "{", "};");
            let name = head.trim().strip_prefix("struct ").expect("a struct before a brace");
            header.put(format!("struct {}", struct_name(name)), listed(fields, ';').map(c_part).collect());
            rest = behind;
        } else {
            let (head, arguments) = head.split_once('(').expect("a function before a semicolon");
            let arguments = arguments.trim_end().strip_suffix(')').expect("arguments end");
            let (name, answer) = c_name_and_type(head);
            let parts = listed(arguments, ',').map(c_part).chain([format!("-> {answer}")]);
            header.put(format!("function {name}"), parts.collect());
            rest = &behind[1..];
        }
    }
    assert_eq!(rest.trim(), "", "the header is read to its end");
    header
}

// Rust and Rattle.

/// A type without the path before it.
fn plain_type(text: &str) -> &str {
    text.rsplit("::").next().unwrap().trim()
}

/// An argument as C takes it: a slice is a pointer and a count, and a map is its six.
fn as_c(argument: &str) -> Vec<String> {
    let (name, kind) = argument.split_once(':').unwrap_or_else(|| panic!("no type in {argument:?}"));
    let (name, kind) = (name.trim(), kind.trim());
    let slice = |start: &str| kind.strip_prefix(start)?.strip_suffix(']').map(plain_type);
    let both = |pointer: String| vec![format!("{name}: {pointer}"), format!("{name}_len: usize")];
    match (slice("&["), slice("&mut ["), kind) {
        (Some(of), ..) => both(format!("*const {of}")),
        (_, Some(of), _) => both(format!("*mut {of}")),
        (.., "Map") => ["slots: usize", "count: usize", "pairs: &[u32]", "values: &[u64]"].map(as_c).concat(),
        _ => vec![format!("{name}: {}", plain_type(kind))],
    }
}

/// `name(arguments) -> answer` in front of a text: the name, and the parts.
fn rust_function(text: &str) -> (String, Vec<String>) {
    let (name, rest) = text.split_once('(').expect("arguments");
    let (arguments, rest) = rest.split_once(')').expect("arguments end");
    let answer = rest.trim_start().strip_prefix("->").expect("an answer");
    let answer = answer.split_whitespace().next().expect("an answer's type");
    let mut parts: Vec<String> = listed(arguments, ',').flat_map(as_c).collect();
    parts.push(format!("-> {}", plain_type(answer)));
    (name.trim().into(), parts)
}

/// The text without lines that are comments.
fn without_comment_lines(text: &str) -> String {
    text.lines().filter(|line| !line.trim_start().starts_with("//")).collect::<Vec<_>>().join("\n")
}

/// The structs that have C's layout.
fn put_structs(text: &str, declared: &mut Declared) {
    for part in text.split("#[repr(C)]").skip(1) {
        let (head, fields) = part.split_once('{').expect("fields");
        let (_, name) = head.split_once("struct ").expect("a struct behind repr(C)");
        let (fields, _) = fields.split_once('}').expect("fields end");
        let fields = listed(fields, ',').map(|field| field.strip_prefix("pub ").unwrap_or(field));
        declared.put(format!("struct {}", name.trim()), fields.flat_map(as_c).collect());
    }
}

fn lent(text: &str) -> Declared {
    let mut lent = Declared::at("lent.rs");
    let text = without_comment_lines(text);
    assert_eq!(text.matches("extern").count(), 1, "the list is all that is declared");
    put_structs(&text, &mut lent);
    for line in text.lines().filter_map(|line| line.strip_prefix("pub const ")) {
        let (name, rest) = line.split_once(": u32 = ").expect("a constant of u32");
        lent.put(format!("constant SIBUKYARAN_{name}"), vec![rest.trim_end_matches(';').into()]);
    }
    let (list, _) = between(&text, "\nlibrary! {\n", "\n}");
    for declaration in listed(list, ';') {
        let (name, parts) = rust_function(declaration.strip_prefix("fn ").expect("a function"));
        lent.put(format!("function {PREFIX}{name}"), parts);
    }
    lent
}

/// An argument of Rattle's that is a word of C++, and what the header and the crate say for it.
const NEW: (&str, &str) = (" new: ", " new_values: ");

/// The exported functions and the structs of Rattle sources.
fn rattle(sources: &[String]) -> Declared {
    let mut rattle = Declared::at("Rattle");
    for text in sources {
        let text = without_comment_lines(text);
        put_structs(&text, &mut rattle);
        for exported in text.split("#[unsafe(no_mangle)]").skip(1) {
            let declaration = exported.trim_start().strip_prefix("pub extern \"C\" fn ").expect("a function of C");
            let (name, parts) = rust_function(&declaration.replacen(NEW.0, NEW.1, 1));
            rattle.put(format!("function {name}"), parts);
        }
    }
    rattle
}

/// The files of the C library's crate, and of the one that declares the record that it takes.
fn rattle_sources() -> Vec<String> {
    let mut sources = Vec::new();
    for krate in ["sibukyaran", "linear_transformation"] {
        let folder = common::repository().join("crates").join(krate).join("src");
        for file in fs::read_dir(&folder).unwrap_or_else(|error| panic!("{}: {error}", folder.display())) {
            let path = file.unwrap().path();
            if path.extension().is_some_and(|end| end == "rt") {
                sources.push(fs::read_to_string(path).unwrap());
            }
        }
    }
    sources
}

// The archive.

/// The names in an archive's symbol table, which is its first member, `/`: a count, so many offsets, four bytes each, most
/// first, and so many names that end in 0.
fn symbols(archive: &[u8]) -> Vec<String> {
    let header = archive.strip_prefix(b"!<arch>\n").expect("an archive");
    let (header, members) = header.split_at(60);
    assert_eq!(&header[..16], b"/               ", "the first member is the symbol table");
    let size: usize = std::str::from_utf8(&header[48..58]).unwrap().trim().parse().unwrap();
    let (count, rest) = members[..size].split_first_chunk().unwrap();
    let count = u32::from_be_bytes(*count) as usize;
    let names = rest[4 * count..].split(|&byte| byte == 0).take(count);
    names.map(|name| String::from_utf8(name.to_vec()).unwrap()).collect()
}

/// The functions that an archive exports, by their names alone.
fn exported(archive: &[u8]) -> Declared {
    let mut exported = Declared::at("the archive");
    for symbol in symbols(archive).iter().filter(|symbol| symbol.starts_with(PREFIX)) {
        exported.put(format!("function {symbol}"), Vec::new());
    }
    exported
}

// The four, held to each other.

fn the_header() -> String {
    common::text("include/sibukyaran.h")
}

fn the_crate() -> String {
    common::text("rust/src/lent.rs")
}

#[test]
fn the_four_places_agree() {
    let header = header(&the_header());
    let functions = header.clone().without("struct").without("constant");
    let reports = [
        differences(&header, &lent(&the_crate())),
        differences(&header.without("constant"), &rattle(&rattle_sources())),
        missing(&functions, &exported(&fs::read(common::archive()).unwrap())),
    ];
    assert_eq!(reports.concat().join("\n"), "");
}

/// A text in a file, what stands there instead, and what is reported then.
type Change = (&'static str, &'static str, &'static [&'static str]);

fn changed(text: &str, from: &str, to: &str) -> String {
    assert!(text.contains(from), "{from:?} can be changed");
    text.replacen(from, to, 1)
}

const HEADER_CHANGES: [Change; 11] = [
    ("uint32_t m);", "uint64_t m);", &["function sibukyaran_residue, part 2: m: u64 in the header, m: u32 in lent.rs"]),
    (
        "uint32_t sibukyaran_gcd(uint32_t a, uint32_t b);",
        "",
        &["function sibukyaran_gcd: in lent.rs, not in the header"],
    ),
    (
        "sibukyaran_gcd(uint32_t a, uint32_t b)",
        "sibukyaran_gcd(uint32_t b, uint32_t a)",
        &[
            "function sibukyaran_gcd, part 1: b: u32 in the header, a: u32 in lent.rs",
            "function sibukyaran_gcd, part 2: a: u32 in the header, b: u32 in lent.rs",
        ],
    ),
    (
        "sibukyaran_min_period(const uint64_t *v",
        "sibukyaran_min_period(uint64_t *v",
        &["function sibukyaran_min_period, part 1: v: *mut u64 in the header, v: *const u64 in lent.rs"],
    ),
    (
        "uint64_t sibukyaran_wrapping_mul",
        "unsigned sibukyaran_wrapping_mul",
        &["function sibukyaran_wrapping_mul, part 3: -> unsigned in the header, -> u64 in lent.rs"],
    ),
    (
        "uint32_t sibukyaran_gcd",
        "uint32_t sibukyaran_gcf",
        &[
            "function sibukyaran_gcf: in the header, not in lent.rs",
            "function sibukyaran_gcd: in lent.rs, not in the header",
        ],
    ),
    ("    size_t moves;\n", "", &["struct PassNumbers, part 3: nothing in the header, moves: usize in lent.rs"]),
    ("bool value;", "int64_t value;", &["struct Truth, part 2: value: i64 in the header, value: bool in lent.rs"]),
    (
        "struct sibukyaran_truth {",
        "struct truth {",
        &["struct truth: in the header, not in lent.rs", "struct Truth: in lent.rs, not in the header"],
    ),
    (
        "uint32_t sibukyaran_residue(",
        "uint32_t residue(",
        &[
            "function residue: in the header, not in lent.rs",
            "function sibukyaran_residue: in lent.rs, not in the header",
        ],
    ),
    (
        "SIBUKYARAN_DIRECT 2",
        "SIBUKYARAN_DIRECT 3",
        &["constant SIBUKYARAN_DIRECT, part 1: 3 in the header, 2 in lent.rs"],
    ),
];

#[test]
fn changes_of_the_header_are_reported() {
    let right = lent(&the_crate());
    for (from, to, reports) in HEADER_CHANGES {
        assert_eq!(differences(&header(&changed(&the_header(), from, to)), &right), reports);
    }
}

const CRATE_CHANGES: [Change; 4] = [
    (
        "fn map_refusal(map: Map)",
        "fn map_refusal(slots: usize, count: usize, pairs: &[u32])",
        &[
            "function sibukyaran_map_refusal, part 5: values: *const u64 in the header, -> u32 in lent.rs",
            "function sibukyaran_map_refusal, part 6: values_len: usize in the header, nothing in lent.rs",
            "function sibukyaran_map_refusal, part 7: -> u32 in the header, nothing in lent.rs",
        ],
    ),
    (
        "fn write_map_file(map: Map, out: &mut [u8])",
        "fn write_map_file(map: Map, out: &[u8])",
        &["function sibukyaran_write_map_file, part 7: out: *mut u8 in the header, out: *const u8 in lent.rs"],
    ),
    ("#[repr(C)]\n", "", &["struct Numbers: in the header, not in lent.rs"]),
    ("pub const BSGS: u32 = 0;", "", &["constant SIBUKYARAN_BSGS: in the header, not in lent.rs"]),
];

#[test]
fn changes_of_the_crate_are_reported() {
    let right = header(&the_header());
    for (from, to, reports) in CRATE_CHANGES {
        assert_eq!(differences(&right, &lent(&changed(&the_crate(), from, to))), reports);
    }
}

const RATTLE_CHANGES: [Change; 3] = [
    (
        "fn sibukyaran_residue(x: i64, m: u32)",
        "fn sibukyaran_residue(x: i64, m: u64)",
        &["function sibukyaran_residue, part 2: m: u32 in the header, m: u64 in Rattle"],
    ),
    (
        "    pub even_there: bool,\n",
        "",
        &["struct PairRecord, part 2: even_there: bool in the header, nothing in Rattle"],
    ),
    (
        "#[unsafe(no_mangle)]\npub extern \"C\" fn sibukyaran_gcd",
        "pub fn gcd",
        &["function sibukyaran_gcd: in the header, not in Rattle"],
    ),
];

#[test]
fn changes_of_the_rattle_sources_are_reported() {
    let right = header(&the_header()).without("constant");
    let sources = rattle_sources().join("\n");
    for (from, to, reports) in RATTLE_CHANGES {
        assert_eq!(differences(&right, &rattle(&[changed(&sources, from, to)])), reports);
    }
}

#[test]
fn changes_of_the_symbols_are_reported() {
    let functions = header(&the_header()).without("struct").without("constant");
    let mut bytes = fs::read(common::archive()).unwrap();
    let name = b"sibukyaran_gcd\0";
    // The symbol table comes first.
    let at = bytes.windows(name.len()).position(|bytes| bytes == name).unwrap();
    bytes[at + name.len() - 2] = b'f';
    let reports = [
        "function sibukyaran_gcd: in the header, not in the archive",
        "function sibukyaran_gcf: in the archive, not in the header",
    ];
    assert_eq!(missing(&functions, &exported(&bytes)), reports);
}
