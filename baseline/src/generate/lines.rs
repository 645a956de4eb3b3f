//! The unfolded lines of a card that is mostly accepted.

use super::{params, values, Rng};

const PROPERTIES: [&str; 16] = [
    "N", "N", "NICKNAME", "EMAIL", "TEL", "TEL", "URL", "NOTE", "TITLE", "ROLE", "ORG", "JSPROP",
    "JSPROP", "X-A", "BDAY", "FN",
];

/// VERSION, then the rest in any order.
pub fn card_lines(rng: &mut Rng) -> Vec<Vec<u8>> {
    let mut lines = vec![line(rng, "FN")];
    if rng.chance(35) {
        lines.push(uid_line(rng));
    }
    if rng.chance(25) {
        lines.push(kind_line(rng));
    }
    // Some cards have many lines of one property, so that keys collide.
    let favourite = rng.pick(&PROPERTIES);
    let devoted = rng.chance(30);
    for _ in 0..rng.below(8) {
        let property = match devoted {
            true => favourite,
            false => rng.pick(&PROPERTIES),
        };
        lines.push(line(rng, property));
    }
    rng.shuffle(&mut lines);
    lines.insert(0, format!("{}:4.0", rng.any_case("VERSION")));
    lines.into_iter().map(String::into_bytes).collect()
}

fn uid_line(rng: &mut Rng) -> String {
    let params = ["", "", "", ";VALUE=uri", ";value=URI", ";VALUE=\"uri\""];
    let values = ["u", "urn:uuid:1", " ", "a\\,b", "\"", "\\", "é"];
    let name = rng.any_case("UID");
    format!("{name}{}:{}", rng.pick(&params), rng.pick(&values))
}

fn kind_line(rng: &mut Rng) -> String {
    let kinds = ["individual", "Org", "x-Foo", "GROUP", "1", "-"];
    format!("{}:{}", rng.any_case("KIND"), rng.pick(&kinds))
}

fn group(rng: &mut Rng) -> &'static str {
    match rng.below(30) {
        0 => "item1.",
        1 => "A-b.",
        _ => "",
    }
}

fn line(rng: &mut Rng, property: &str) -> String {
    let params = match property {
        "FN" => params::fn_params(rng).to_string(),
        "JSPROP" => params::jsprop_params(rng),
        "N" if rng.chance(85) => String::new(),
        _ => params::params(rng, property),
    };
    let value = match property {
        "N" => values::name(rng),
        "NICKNAME" => values::nickname(rng),
        "TEL" => values::number(rng),
        "URL" => values::uri(rng),
        "ORG" => values::organization(rng),
        "JSPROP" => values::json(rng),
        _ => values::text(rng),
    };
    format!("{}{}{params}:{value}", group(rng), rng.any_case(property))
}
