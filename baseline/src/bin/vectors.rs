//! Prints test vectors for other implementations: `vectors KIND COUNT SEED`.
//! The README gives the format.

use std::io::{self, BufWriter, Write};
use std::process::ExitCode;
use thymebarrel_baseline::generate::{self, Rng, Step};
use thymebarrel_baseline::limits::{CARD_BYTES, JSON_BYTES};
use thymebarrel_baseline::*;

fn main() -> ExitCode {
    let arguments: Vec<String> = std::env::args().skip(1).collect();
    let Some((vector, count, seed)) = read_arguments(&arguments) else {
        eprintln!("usage: vectors card|json|normcard|normjson|lookup|stream COUNT SEED");
        return ExitCode::FAILURE;
    };
    let mut rng = Rng::new(seed);
    let mut out = BufWriter::new(io::stdout().lock());
    for _ in 0..count {
        if writeln!(out, "{}", vector(&mut rng)).is_err() {
            return ExitCode::FAILURE;
        }
    }
    ExitCode::SUCCESS
}

type Vector = fn(&mut Rng) -> String;

fn read_arguments(arguments: &[String]) -> Option<(Vector, usize, u64)> {
    let [kind, count, seed] = arguments else {
        return None;
    };
    let vector: Vector = match kind.as_str() {
        "card" => card_vector,
        "json" => json_vector,
        "normcard" => normcard_vector,
        "normjson" => normjson_vector,
        "lookup" => lookup_vector,
        "stream" => stream_vector,
        _ => return None,
    };
    Some((vector, count.parse().ok()?, seed.parse().ok()?))
}

/// Hex digits, or "-" for no bytes.
fn hex(bytes: &[u8]) -> String {
    if bytes.is_empty() {
        return "-".to_string();
    }
    bytes.iter().map(|byte| format!("{byte:02x}")).collect()
}

/// Mostly the full room; now and then one that just fits, or just does not.
fn room(rng: &mut Rng, full: usize, length: usize) -> usize {
    match rng.below(20) {
        0 => length,
        1 => length.saturating_sub(1),
        2 => rng.below(length + 1),
        _ => full,
    }
}

fn card_vector(rng: &mut Rng) -> String {
    let input = generate::card(rng);
    let (stem, number) = (generate::stem(rng), generate::number(rng));
    let length = card_to_json(&input, &stem, number, JSON_BYTES).bytes.len();
    let room = room(rng, JSON_BYTES, length);
    let answer = card_to_json(&input, &stem, number, room);
    let (stem, input, output) = (hex(&stem), hex(&input), hex(&answer.bytes));
    let Answer {
        number: refusal,
        place,
        ..
    } = answer;
    format!("card\t{stem}\t{number}\t{room}\t{input}\t{refusal}\t{place}\t{output}")
}

fn json_vector(rng: &mut Rng) -> String {
    let input = generate::json(rng);
    let length = json_to_card(&input, CARD_BYTES).bytes.len();
    let room = room(rng, CARD_BYTES, length);
    let answer = json_to_card(&input, room);
    let (input, output) = (hex(&input), hex(&answer.bytes));
    format!(
        "json\t{room}\t{input}\t{}\t{}\t{output}",
        answer.number, answer.place
    )
}

fn normcard_vector(rng: &mut Rng) -> String {
    loop {
        let input = generate::card(rng);
        let (stem, number) = (generate::good_stem(rng), 1 + rng.below(999_999) as u64);
        if card_to_json(&input, &stem, number, JSON_BYTES).number == 0 {
            let output = hex(&normal_card(&input, &stem, number));
            return format!(
                "normcard\t{}\t{number}\t{}\t{output}",
                hex(&stem),
                hex(&input)
            );
        }
    }
}

fn normjson_vector(rng: &mut Rng) -> String {
    loop {
        let input = generate::json(rng);
        if json_to_card(&input, CARD_BYTES).number == 0 {
            return format!("normjson\t{}\t{}", hex(&input), hex(&normal_json(&input)));
        }
    }
}

fn lookup_vector(rng: &mut Rng) -> String {
    let input = generate::json(rng);
    let name = generate::member_name(rng, &input);
    let found = look_up(&input, &name);
    // The answer is a part of the input, so its place is a distance.
    let start = match found.is_empty() {
        true => 0,
        false => found.as_ptr() as usize - input.as_ptr() as usize,
    };
    format!(
        "lookup\t{}\t{}\t{start}\t{}",
        hex(&input),
        hex(&name),
        found.len()
    )
}

/// At most a dozen calls on under 600 bytes. What a call leaves unconsumed is
/// fed again by the next.
fn stream_vector(rng: &mut Rng) -> String {
    let mut reader = Reader::fresh();
    let mut fields = vec!["stream".to_string()];
    for step in generate::stream(rng, 600) {
        match step {
            Step::Bytes(bytes) => feed(rng, &mut reader, &bytes, &mut fields),
            Step::End => {
                let stem = generate::stem(rng);
                let told = reader.end(&stem);
                fields.push(format!("e:{}={}", hex(&stem), answer_field(&told)));
            }
        }
    }
    fields.truncate(1 + 12);
    fields.join("\t")
}

fn feed(rng: &mut Rng, reader: &mut Reader, mut bytes: &[u8], fields: &mut Vec<String>) {
    while !bytes.is_empty() {
        let length = match rng.below(4) {
            0 => rng.below(bytes.len() + 1),
            _ => bytes.len(),
        };
        let stem = generate::stem(rng);
        let piece = &bytes[..length];
        let told = reader.piece(&stem, piece);
        bytes = &bytes[told.consumed..];
        fields.push(format!(
            "p:{}:{}={}",
            hex(&stem),
            hex(piece),
            answer_field(&told)
        ));
    }
}

fn answer_field(told: &Told) -> String {
    let consumed = told.consumed;
    match &told.what {
        What::More => format!("more:{consumed}"),
        What::Json(json) => format!("json:{consumed}:{}", hex(json)),
        What::Refused(number, place) => format!("no:{consumed}:{number}:{place}"),
    }
}
