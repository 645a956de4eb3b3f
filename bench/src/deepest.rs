//! Searches for the input that takes most stack: mixes of what inputs can have, changed a
//! little at a time, each change kept where the call goes deeper. Sizes count as much as
//! contents, since scratch is chosen by them.

use thymebarrel_baseline::generate::Rng;

/// How much there is of each thing.
type Mix = [usize; 7];

/// Amounts from none to more than fits; a mix that does not fit is refused, and so goes
/// less deep.
const AMOUNTS: [usize; 22] = [0, 0, 1, 2, 3, 5, 8, 13, 30, 60, 100, 200, 400, 500, 900, 1_000, 1_800, 2_000, 4_000, 8_000, 16_000, 30_000];

/// Changes of a mix that are tried.
const STEPS: usize = 1_500;
/// Mixes that are begun with.
const STARTS: u64 = 4;

/// The greatest that was found: its stack, and the input.
pub fn search(make: fn(&Mix) -> Vec<u8>, stack: fn(&[u8]) -> usize) -> (usize, Vec<u8>) {
    let climbs = (0..STARTS).map(|seed| climb(&mut Rng::new(seed), make, stack));
    climbs.max_by_key(|(stack, _)| *stack).expect("there are starts")
}

fn climb(rng: &mut Rng, make: fn(&Mix) -> Vec<u8>, stack: fn(&[u8]) -> usize) -> (usize, Vec<u8>) {
    let mut mix = [0; 7];
    let mut best = (0, Vec::new());
    for _ in 0..STEPS {
        let mut other = mix;
        for _ in 0..1 + rng.below(2) {
            let k = rng.below(mix.len());
            other[k] = match rng.below(3) {
                0 => rng.pick(&AMOUNTS),
                1 => mix[k] + rng.below(40),
                _ => mix[k].saturating_sub(rng.below(40)),
            };
        }
        let input = make(&other);
        let depth = stack(&input);
        if depth >= best.0 {
            (mix, best) = (other, (depth, input));
        }
    }
    best
}

fn joined(count: usize, item: impl Fn(usize) -> String) -> String {
    (0..count).map(item).collect::<Vec<_>>().join(",")
}

/// JSON: commas, which a line writes as two bytes; kept JSPROP lines; arrays in each other;
/// components; entries; other members; white space.
pub fn text([commas, kept, depth, components, entries, members, space]: &Mix) -> Vec<u8> {
    let depth = depth % 16;
    let value = format!("{}1,]", "[".repeat(depth));
    let nested = format!("{}1{}", "[".repeat(depth), "]".repeat(depth));
    let kept = joined(*kept, |_| format!(r#"["jsprop",{{"jsptr":"m"}},"unknown","{value}"]"#));
    let components = joined(*components, |k| format!(r#"{{"kind":"{}","value":"{k}"}}"#, ["surname", "surname2"][k % 2]));
    let entries = joined(*entries, |k| format!(r#""k{k}":{{"address":"a"}}"#));
    let members: String = (0..*members).map(|k| format!(r#","m{k}":{nested}"#)).collect();
    let commas = ",".repeat(*commas);
    let json = format!(
        r#"{{"@type":"Card","version":"1.0","uid":"u","name":{{"components":[{components}]}},"emails":{{{entries}}},"notes":{{"n":{{"note":"{commas}"}}}}{members},"vCardProps":[{kept}]{}}}"#,
        " ".repeat(*space),
    );
    json.into_bytes()
}

/// A card: quotes, which JSON writes as two bytes; JSPROP lines; arrays in each other;
/// surnames; telephones; kept lines; folds.
pub fn card([quotes, members, depth, surnames, entries, kept, folds]: &Mix) -> Vec<u8> {
    let depth = depth % 16;
    let nested = format!("{}1{}", "[".repeat(depth), "]".repeat(depth));
    let names = joined(*surnames, |k| format!("s{k}"));
    let members: String = (0..*members).map(|k| format!("JSPROP;JSPTR=\"m{k}\":{nested}\n")).collect();
    let entries: String = (0..*entries).map(|k| format!("TEL;PROP-ID=k{k};TYPE=cell:{k}\n")).collect();
    let kept = "X-K;A=b:c\n".repeat(*kept);
    let card = format!(
        "BEGIN:VCARD\nVERSION:4.0\nFN:a\nN:{names};;;;;{names}\nNOTE:{}{}\n{members}{entries}{kept}END:VCARD\n",
        "\"".repeat(*quotes),
        "\n x".repeat(*folds),
    );
    card.into_bytes()
}
