//! What is declared for other languages is what the library has. The functions of `crates/export_c`, the prototypes of
//! `c/vimrothi.h` and the declarations of this crate are read from their files and compared: names, the order of the
//! parameters, their types, and the result. So are the numbers and limits that the header and this crate name, and the
//! words of the numbers with documents 01 and 02.

use std::fs;
use std::path::Path;

use vimrothi::calls::REPORT_ROOM;
use vimrothi::words;

/// A function as C is to call it. Types are written as Rust writes them.
#[derive(Debug, PartialEq)]
struct Function {
    name: String,
    /// Name and type of each.
    parameters: Vec<(String, String)>,
    result: String,
}

/// The text of a file of the project.
fn text_of(path: &str) -> String {
    let file = Path::new(env!("CARGO_MANIFEST_DIR")).join("../..").join(path);
    fs::read_to_string(&file).unwrap_or_else(|error| panic!("{}: {error}", file.display()))
}

/// The functions of a text in Rattle or Rust, each after the same mark. `passed` tells what a parameter is for C.
fn functions_after(mark: &str, text: &str, passed: fn(&str, &str) -> Vec<(String, String)>) -> Vec<Function> {
    let code: Vec<&str> = text.lines().filter(|line| !line.trim().starts_with("//")).collect();
    let code = code.join(" ");
    let read = |rest: &str| {
        let (name, rest) = rest.split_once('(').expect("parameters after the name");
        let (parameters, rest) = rest.split_once(')').expect("an end of the parameters");
        let result = rest.trim().strip_prefix("-> ").expect("a result");
        let result = result.split([' ', ';']).next().unwrap_or_default();
        let parameters = parameters.split(',').filter(|parameter| !parameter.trim().is_empty());
        let parts = parameters.map(|parameter| parameter.split_once(':').expect("a type after the name"));
        Function {
            name: name.to_string(),
            parameters: parts.flat_map(|(name, of)| passed(name.trim(), of.trim())).collect(),
            result: result.to_string(),
        }
    };
    code.split(mark).skip(1).map(read).collect()
}

/// The functions of `crates/export_c`. A slice is passed as a pointer and a length, a reference as a pointer.
fn exported() -> Vec<Function> {
    fn passed(name: &str, of: &str) -> Vec<(String, String)> {
        let (pointer, target) = match (of.strip_prefix("&mut "), of.strip_prefix('&')) {
            (Some(target), _) => ("*mut", target),
            (None, Some(target)) => ("*const", target),
            (None, None) => return vec![(name.to_string(), of.to_string())],
        };
        match target.strip_prefix('[').and_then(|slice| slice.strip_suffix(']')) {
            Some(item) => vec![
                (name.to_string(), format!("{pointer} {item}")),
                (format!("{name}_len"), "usize".to_string()),
            ],
            None => vec![(name.to_string(), format!("{pointer} {target}"))],
        }
    }
    let functions = functions_after("extern \"C\" fn ", &text_of("crates/export_c/src/lib.rt"), passed);
    assert!(!functions.is_empty(), "export_c has functions");
    functions
}

/// The functions that this crate declares.
fn declared_here() -> Vec<Function> {
    let as_it_is = |name: &str, of: &str| vec![(name.to_string(), of.to_string())];
    functions_after("pub fn ", &text_of("rust/vimrothi/src/declared.rs"), as_it_is)
}

/// A text in C without its comments.
fn without_comments(mut text: &str) -> String {
    let mut code = String::new();
    while let Some((before, comment)) = text.split_once("/*") {
        code.push_str(before);
        text = comment.split_once("*/").expect("an end of the comment").1;
    }
    code + text
}

/// The prototypes of a C header: what ends in a semicolon and has parameters, outside comments and directives.
fn prototypes(header: &str) -> Vec<Function> {
    let code = without_comments(header);
    let lines: Vec<&str> = code.lines().filter(|line| !line.starts_with('#')).collect();
    let code = lines.join(" ");
    let statements = code.split(';').filter_map(|statement| statement.split_once('('));
    let read = |(head, parameters): (&str, &str)| {
        let (result, name) = in_rust(head);
        let parameters = parameters
            .trim_end()
            .strip_suffix(')')
            .expect("an end of the parameters");
        let parts = parameters.split(',').map(in_rust).map(|(of, name)| (name, of));
        Function {
            name,
            parameters: parts.collect(),
            result,
        }
    };
    statements.map(read).collect()
}

/// The type, as Rust writes it, and the name of what C declares.
fn in_rust(declared: &str) -> (String, String) {
    let of = |word: &str| match word {
        "size_t" => "usize",
        "uint8_t" => "u8",
        "uint16_t" => "u16",
        "uint32_t" => "u32",
        "int32_t" => "i32",
        "int64_t" => "i64",
        _ => panic!("'{declared}' has a type that no function of the library takes"),
    };
    let spaced = declared.replace('*', " * ");
    let words: Vec<&str> = spaced.split_whitespace().collect();
    match words[..] {
        [item, name] => (of(item).to_string(), name.to_string()),
        [item, "*", name] => (format!("*mut {}", of(item)), name.to_string()),
        ["const", item, "*", name] => (format!("*const {}", of(item)), name.to_string()),
        _ => panic!("'{declared}' is not a type and a name"),
    }
}

/// Tests that these are the functions of `crates/export_c`, one for one.
fn same_as_exported(functions: &[Function]) {
    let names = |functions: &[Function]| -> Vec<String> { functions.iter().map(|one| one.name.clone()).collect() };
    let exported = exported();
    assert_eq!(names(functions), names(&exported));
    for (declared, exported) in functions.iter().zip(&exported) {
        assert_eq!(declared, exported);
    }
}

#[test]
fn the_header_declares_the_functions_of_export() {
    same_as_exported(&prototypes(&text_of("c/vimrothi.h")));
}

#[test]
fn this_crate_declares_the_functions_of_export() {
    same_as_exported(&declared_here());
}

#[test]
fn a_header_with_a_fault_is_told_from_a_good_one() {
    let header = text_of("c/vimrothi.h");
    let faults = [
        ("uint16_t *index", "uint32_t *index"),
        ("const int32_t *list", "int32_t *list"),
        ("int64_t *first, size_t first_len", "int64_t *first, uint32_t first_len"),
        ("size_t *readings, size_t *points", "size_t *points, size_t *readings"),
        ("size_t *taken", "size_t taken"),
        ("size_t *capacity, size_t *room", "size_t *room, size_t *capacity"),
        ("int32_t *book, size_t book_len", "const int32_t *book, size_t book_len"),
        ("int32_t number", "uint32_t number"),
        ("size_t book_room", "uint32_t book_room"),
        ("size_t vimrothi_report", "uint8_t vimrothi_report"),
        ("uint8_t vimrothi_list(", "uint8_t vimrothi_listing("),
        (
            "uint8_t vimrothi_load(",
            "uint8_t vimrothi_more(size_t d); uint8_t vimrothi_load(",
        ),
        ("uint8_t vimrothi_fresh(", "/* uint8_t vimrothi_fresh("),
    ];
    for (good, bad) in faults {
        let spoilt = header.replacen(good, bad, 1);
        assert_ne!(spoilt, header, "'{good}' is in the header");
        assert_ne!(prototypes(&spoilt), exported(), "'{bad}' is seen");
    }
}

/// The whole numbers that a text in Rattle or Rust gives a public name.
fn constants(text: &str) -> Vec<(String, usize)> {
    let named = text.lines().filter_map(|line| {
        let (name, rest) = line.strip_prefix("pub const ")?.split_once(':')?;
        let number = rest.split_once(" = ")?.1.strip_suffix(';')?;
        Some((name.to_string(), number.parse().ok()?))
    });
    named.collect()
}

/// The whole numbers that the header defines, by their names without the prefix.
fn defined_for_c() -> Vec<(String, usize)> {
    let header = text_of("c/vimrothi.h");
    let named = header.lines().filter_map(|line| {
        let mut words = line.strip_prefix("#define VIMROTHI_")?.split_whitespace();
        Some((words.next()?.to_string(), words.next()?.parse().ok()?))
    });
    named.collect()
}

/// The numbers that a text in Rattle gives the cases of `Refusal`, by the cases' names as a constant has them.
fn numbered_cases(text: &str) -> Vec<(String, usize)> {
    let numbered = text.lines().filter_map(|line| {
        let (case, number) = line.trim().strip_prefix("Refusal::")?.strip_suffix(',')?.split_once(" => ")?;
        let mut name = String::new();
        for letter in case.chars() {
            if letter.is_uppercase() && !name.is_empty() {
                name.push('_');
            }
            name.extend(letter.to_uppercase());
        }
        Some((name, number.parse().ok()?))
    });
    numbered.collect()
}

/// The refusal numbers of the library, after 0 for a call that was done.
fn refusal_numbers() -> Vec<(String, usize)> {
    let mut numbers = vec![("DONE".to_string(), 0)];
    numbers.extend(numbered_cases(&text_of("crates/lattice/src/refusals.rt")));
    assert!(numbers.len() > 1, "the library has refusal numbers");
    numbers
}

#[test]
fn the_numbers_have_the_librarys_names() {
    assert_eq!(constants(&text_of("rust/vimrothi/src/numbers.rs")), refusal_numbers());
    let defined = defined_for_c();
    let numbers = defined.iter().skip_while(|(name, _)| name != "DONE");
    assert!(numbers.eq(&refusal_numbers()), "the header's numbers: {defined:?}");
}

#[test]
fn the_limits_are_the_librarys() {
    let limits = constants(&text_of("crates/lattice/src/limits.rt"));
    let rooms = constants(&text_of("crates/report/src/lib.rt"));
    let limit = |name: &str| {
        let of_library = limits.iter().chain(&rooms).find(|(known, _)| known == name);
        of_library.unwrap_or_else(|| panic!("the library has no '{name}'")).1
    };
    let expected = [
        ("MOST_D", limit("MOST_D")),
        ("MOST_FINENESS", limit("MOST_FINENESS")),
        ("MOST_CAPACITY", limit("MOST_CAPACITY")),
        // The book's room: no table holds more readings.
        ("MOST_ROOM", limit("MOST_READINGS")),
        ("COORDINATE_LIMIT", limit("FARTHEST")),
        ("VALUE_LIMIT", limit("MOST_VALUE")),
        ("REPORT_ROOM", limit("ROOM")),
    ];
    let defined = defined_for_c();
    let before_numbers = defined.iter().take_while(|(name, _)| name != "DONE");
    let header: Vec<(&str, usize)> = before_numbers.map(|(name, number)| (name.as_str(), *number)).collect();
    assert_eq!(header, expected);
    assert_eq!(REPORT_ROOM, limit("ROOM"));
}

#[test]
fn a_head_is_passed_in_the_order_of_the_parameters() {
    let exported = exported();
    let fields: Vec<&str> = exported[0].parameters[..6]
        .iter()
        .map(|(name, _)| name.as_str())
        .collect();
    let all = |before: &str| {
        fields
            .iter()
            .map(|name| format!("{before}(h).{name}"))
            .collect::<Vec<_>>()
            .join(", ")
    };
    let header = text_of("c/vimrothi.h");
    assert!(header.contains(&format!("#define VIMROTHI_HEAD(h) {}\n", all("&"))));
    assert!(header.contains(&format!("#define VIMROTHI_HEAD_VALUES(h) {}\n", all(""))));
}

#[test]
fn the_words_are_the_documents() {
    let document = text_of("docs/01-scope.md");
    let row = |line: &str| {
        let (number, told) = line.strip_prefix("| ")?.strip_suffix(" |")?.split_once(" | ")?;
        Some((number.parse::<u8>().ok()?, told.to_string()))
    };
    let rows: Vec<(u8, String)> = document.lines().filter_map(row).collect();
    assert_eq!(rows.len(), 16, "document 01 has 16 numbers");
    for (number, told) in rows {
        // "a fourth lent slice of room B, 1 to 4,096 (1 otherwise; 7 now comes above B"
        let told = match number {
            1 => told.replace("S or C", "S, C or B"),
            7 => told.replace("4,096", "B"),
            _ => told,
        };
        assert_eq!(words(number), told);
    }
    let requests = text_of("docs/02-change-requests.md");
    for number in [19, 20] {
        let told = format!("{number} {} (", words(number));
        assert!(requests.contains(&told), "document 02 has '{told}'");
    }
}
