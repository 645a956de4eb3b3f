//! Holds src/ffi.rs, src/lib.rs and include/thymebarrel.h to each other: the Rust
//! declarations are written as C beside the header, and C and C++ compilers take
//! both only where they are the same.

mod common;
use common::*;
use std::path::PathBuf;
use std::process::Command;
use thymebarrel::{Cards, Reason, Refusal, Stream, CARD_BYTES, JSON_BYTES, STACK_BYTES};

const DECLARATIONS: &str = include_str!("../src/ffi.rs");
const HEADER: &str = include_str!("../../include/thymebarrel.h");
const STRICT: [&str; 5] = ["-Wall", "-Wextra", "-Wpedantic", "-Wconversion", "-Werror"];

/// The functions of the `extern "C"` block, as C.
fn declared() -> Vec<String> {
    let (_, block) = DECLARATIONS
        .split_once("extern \"C\" {")
        .expect("the block");
    let (block, _) = block.split_once("\n}").expect("its end");
    block
        .split(';')
        .map(|f| f.split_whitespace().collect::<Vec<_>>().join(" "))
        .filter(|f| !f.is_empty())
        .map(|f| as_c(&f))
        .collect()
}

/// `fn f( a: *const u8, b: usize, ) -> u8` as `uint8_t f(const uint8_t *a, size_t b);`
fn as_c(function: &str) -> String {
    let (head, result) = function.split_once(" -> ").expect("a result");
    let (name, parameters) = head
        .strip_prefix("fn ")
        .expect("fn")
        .split_once('(')
        .expect("(");
    let parameters: Vec<String> = parameters
        .trim_end_matches(')')
        .split(',')
        .filter_map(|p| p.trim().split_once(": "))
        .map(|(name, kind)| format!("{} {name}", c_type(kind)))
        .collect();
    format!("{} {name}({});", c_type(result), parameters.join(", "))
}

fn c_type(kind: &str) -> &'static str {
    match kind {
        "u8" => "uint8_t",
        "usize" => "size_t",
        "*const u8" => "const uint8_t *",
        "*mut u8" => "uint8_t *",
        "*mut usize" => "size_t *",
        other => panic!("no C type is known for {other}"),
    }
}

/// The numbers that the header names.
fn defined() -> Vec<(String, usize)> {
    HEADER
        .lines()
        .filter_map(|line| line.strip_prefix("#define "))
        .filter_map(|line| {
            let mut words = line.split_whitespace();
            Some((words.next()?.to_string(), words.next()?.parse().ok()?))
        })
        .collect()
}

/// The value that this crate gives a name of the header.
fn in_rust(name: &str) -> usize {
    let of = |reason: Reason| usize::from(reason.number());
    match name.strip_prefix("THYMEBARREL_").expect("the prefix") {
        "JSON_BYTES" => JSON_BYTES,
        "CARD_BYTES" => CARD_BYTES,
        "CONVERTED" => 0,
        "MORE" => usize::from(Stream::MORE),
        "STREAM_WORDS" => Stream::WORDS,
        "STACK_BYTES" => STACK_BYTES,
        "VERSION_MAJOR" => version(0),
        "VERSION_MINOR" => version(1),
        "VERSION_PATCH" => version(2),
        "CARD_LEFT_OPEN" => of(Reason::LeftOpen),
        "STREAM_UNFIT" => of(Reason::Unfit),
        "NOT_ONE_CARD" => of(Reason::NotOneCard),
        "OVER_ROOM" => of(Reason::OverRoom),
        "NOT_TEXT" => of(Reason::NotText),
        "OFF_GRAMMAR" => of(Reason::OffGrammar),
        "NOT_VERSION_4" => of(Reason::NotVersion4),
        "BAD_PARAMETER" => of(Reason::BadParameter),
        "REPEATED" => of(Reason::Repeated),
        "BAD_UID_OR_KIND" => of(Reason::BadUidOrKind),
        "NO_FN" => of(Reason::NoFn),
        "NOT_JSON" => of(Reason::NotJson),
        "NOT_A_CARD" => of(Reason::NotACard),
        "NOT_CARRIED" => of(Reason::NotCarried),
        "OUTPUT_TOO_SHORT" => of(Reason::OutputTooShort),
        "BAD_STEM_OR_NUMBER" => of(Reason::BadStemOrNumber),
        other => panic!("this crate has no name for {other}"),
    }
}

/// A part of this crate's version.
fn version(part: usize) -> usize {
    let part = env!("CARGO_PKG_VERSION").split('.').nth(part);
    part.and_then(|part| part.parse().ok()).expect("a number")
}

#[test]
fn the_header_has_this_crates_version() {
    let line = concat!(
        "#define THYMEBARREL_VERSION \"",
        env!("CARGO_PKG_VERSION"),
        "\""
    );
    assert!(HEADER.lines().any(|other| other == line), "{line}");
}

/// The header, these declarations after it, and an assertion for each number.
fn source(declarations: &[String]) -> String {
    let assertion = |(name, _): &(String, usize)| {
        format!(
            "enum {{ same_{name} = 1 / ({name} == {}) }};",
            in_rust(name)
        )
    };
    let assertions: Vec<String> = defined().iter().map(assertion).collect();
    format!(
        "#include \"thymebarrel.h\"\n#ifdef __cplusplus\nextern \"C\" {{\n#endif\n{}\n{}\n#ifdef __cplusplus\n}}\n#endif\n",
        declarations.join("\n"),
        assertions.join("\n"),
    )
}

fn file(name: &str) -> PathBuf {
    PathBuf::from(env!("CARGO_TARGET_TMPDIR")).join(name)
}

/// Whether both compilers take the source; what they say where they do not.
fn compiles(name: &str, source: &str) -> Result<(), String> {
    let file = file(name);
    std::fs::write(&file, source).expect("the source is written");
    for (compiler, language, standard) in [("cc", "c", "-std=c99"), ("c++", "c++", "-std=c++11")] {
        let output = Command::new(compiler)
            .args(["-fsyntax-only", standard, "-x", language])
            .args(STRICT)
            .arg("-I")
            .arg(path("include"))
            .arg(&file)
            .output()
            .expect("the compiler runs");
        if !output.status.success() {
            return Err(text(&output.stderr));
        }
    }
    Ok(())
}

#[test]
fn the_declarations_and_the_header_are_the_same() {
    assert_eq!(compiles("same.c", &source(&declared())), Ok(()));
}

#[test]
fn every_function_of_the_header_is_declared() {
    let in_header = HEADER
        .lines()
        .filter(|line| line.starts_with(|c: char| c.is_ascii_lowercase()))
        .filter(|line| line.contains(" thymebarrel_"))
        .count();
    assert_eq!(in_header, declared().len());
    assert!(in_header > 0 && defined().len() > 10);
}

#[test]
fn a_wrong_declaration_is_found() {
    let right = declared();
    for (name, from, to) in [
        (
            "result.c",
            "uint8_t thymebarrel_card",
            "size_t thymebarrel_card",
        ),
        ("const.c", "const uint8_t * card,", "uint8_t * card,"),
        ("width.c", "size_t * place", "uint8_t * place"),
        ("count.c", "size_t number, ", ""),
    ] {
        let wrong: Vec<String> = right.iter().map(|d| d.replace(from, to)).collect();
        assert_ne!(wrong, right, "{name}");
        assert!(compiles(name, &source(&wrong)).is_err(), "{name}");
    }
}

#[test]
fn a_wrong_number_is_found() {
    let wrong = source(&declared()).replace("THYMEBARREL_NO_FN == 10", "THYMEBARREL_NO_FN == 9");
    assert!(compiles("number.c", &wrong).is_err());
}

/// A program of examples/, built by that compiler.
fn built(example: &str, compiler: &str, standard: &str, language: &str) -> PathBuf {
    let folder = std::env::var_os("THYMEBARREL_LIB");
    let library = folder.map_or(path("target/staticlib"), PathBuf::from);
    let program = file(&format!("{example}-{language}"));
    let output = Command::new(compiler)
        .args([standard, "-O1", "-x", language])
        .args(STRICT)
        .arg("-I")
        .arg(path("include"))
        .arg(path(&format!("examples/{example}.c")))
        .args(["-x", "none"])
        .arg(library.join("libthymebarrel.a"))
        .arg("-o")
        .arg(&program)
        .output()
        .expect("the compiler runs");
    assert!(output.status.success(), "{}", text(&output.stderr));
    program
}

const LANGUAGES: [(&str, &str, &str); 2] = [("cc", "-std=c99", "c"), ("c++", "-std=c++11", "c++")];

#[test]
fn the_converter_in_c_gives_what_this_crate_gives() {
    for (compiler, standard, language) in LANGUAGES {
        let program = built("convert", compiler, standard, language);
        for name in SAMPLES {
            let json = sample(&format!("{name}.json"));
            let output = run(&mut Command::new(&program), &sample(&format!("{name}.vcf")));
            assert_eq!(text(&output.stdout), text(&json));
            let output = run(Command::new(&program).arg("home"), &json);
            assert_eq!(
                text(&output.stdout),
                text(&sample(&format!("home/{name}.vcf")))
            );
        }
        let cards = REFUSED.iter().map(|row| (row, None));
        let json = REFUSED_JSON.iter().map(|row| (row, Some("home")));
        for ((name, number, place), word) in cards.chain(json) {
            let output = run(Command::new(&program).args(word), &sample(name));
            assert_eq!(output.status.code(), Some(1));
            let what = Reason::of(*number).expect("a reason").meaning();
            let told = format!("refused {number} at place {place}\n{what}\n");
            assert_eq!(text(&output.stderr), told, "{name}");
        }
    }
}

#[test]
fn the_stream_in_c_gives_what_this_crate_gives() {
    let names = SAMPLES.iter().map(|name| format!("{name}.vcf"));
    let refused = REFUSED.iter().map(|(name, ..)| name.to_string());
    let cards: Vec<Vec<u8>> = names.chain(refused).map(|name| sample(&name)).collect();
    let stream = [&cards.concat()[..], b"junk\nBEGIN:VCARD\nBEGIN:VCARD"].concat();
    let mut want = String::new();
    for answer in Cards::new(b"reg", &stream[..]) {
        want += &match answer.expect("a slice can be read").result {
            Ok(json) => json,
            Err(Refusal { number, place }) => format!("refused {number} at place {place}"),
        };
        want.push('\n');
    }
    for (compiler, standard, language) in LANGUAGES {
        let program = built("stream", compiler, standard, language);
        let output = run(&mut Command::new(&program), &stream);
        assert_eq!(text(&output.stdout), want);
    }
}

/// thymebarrel_reason.h stands alone, and says what this crate says.
#[test]
fn the_words_in_c_are_those_of_this_crate() {
    let source = "#include \"thymebarrel_reason.h\"\n#include <stdio.h>\nint main(void) { unsigned k; for (k = 0; k < 300; k++) printf(\"%s|%s\\n\", thymebarrel_reason(k), thymebarrel_advice(k)); return 0; }\n";
    for (compiler, standard, language) in LANGUAGES {
        let (file, program) = (
            file(&format!("reason.{language}")),
            file(&format!("reason-{language}")),
        );
        std::fs::write(&file, source).expect("the source is written");
        let mut command = Command::new(compiler);
        let command = command
            .args([standard, "-x", language])
            .args(STRICT)
            .arg("-I")
            .arg(path("include"));
        let output = command
            .arg(&file)
            .arg("-o")
            .arg(&program)
            .output()
            .expect("the compiler runs");
        assert!(output.status.success(), "{}", text(&output.stderr));
        let lines = text(&run(&mut Command::new(&program), b"").stdout);
        for (k, line) in lines.lines().enumerate() {
            let reason = u8::try_from(k).ok().and_then(Reason::of);
            let want = match (k, reason) {
                (_, Some(reason)) => format!("{}|{}", reason.meaning(), reason.advice()),
                (0, _) => "Converted.|".to_string(),
                (255, _) => "No line answered yet: hand in more of the stream.|".to_string(),
                _ => "|".to_string(),
            };
            assert_eq!(line, want, "{k}");
        }
        assert_eq!(lines.lines().count(), 300);
    }
}
