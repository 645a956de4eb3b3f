//! Reads vCardProps back as kept lines. None is refusal 12: "an entry of
//! vCardProps that no kept line in its place gives". What 13 forbids is let
//! pass here; 13 is sought afterwards.

use crate::chars::is_lower_name;
use crate::contact::Contact;
use crate::json::Value;
use crate::judge::{Judge, Verdict};
use crate::line::{Line, Param};

/// `contact` holds all that converts, so all that stands before kept lines.
pub fn read_kept(value: &Value, contact: &Contact) -> Option<Vec<Line>> {
    let mut judge = judge_after(contact);
    value
        .as_array()?
        .iter()
        .map(|entry| {
            let line = read_line(entry)?;
            matches!(judge.judge(&line), Verdict::Kept).then_some(line)
        })
        .collect()
}

/// The judge as it stands after the converted lines of this contact. Each line
/// of the seven maps is written with its key as PROP-ID.
fn judge_after(contact: &Contact) -> Judge {
    let keys = |entries: &Vec<(String, _)>| entries.iter().map(|(key, _)| key.clone()).collect();
    Judge {
        has_full: contact.full.is_some(),
        has_components: contact.has_components(),
        prop_ids: std::array::from_fn(|map| keys(&contact.maps[map])),
        members: contact
            .members
            .iter()
            .map(|(name, _)| name.clone())
            .collect(),
    }
}

/// An entry as a line of `kept::kept_form`.
fn read_line(entry: &Value) -> Option<Line> {
    let [name, params, value_type, value] = entry.as_array()? else {
        return None;
    };
    let mut line = Line::bare(&read_property_name(name)?, value.as_str()?.to_string());
    for (name, value) in params.as_object()? {
        let values = read_values(value)?;
        if name == "group" {
            line.group = Some(read_group(&values)?);
        } else {
            line.params.push(read_param(name, values)?);
        }
    }
    let value_type = value_type.as_str().filter(|name| is_lower_name(name))?;
    if value_type != "unknown" {
        line.params.push(Param::one("VALUE", value_type));
    }
    line.is_within_counts().then_some(line)
}

/// A line of these names is never kept.
fn read_property_name(value: &Value) -> Option<String> {
    let name = value.as_str().filter(|name| is_lower_name(name))?;
    let never_kept = ["begin", "end", "version", "uid", "kind"].contains(&name);
    (!never_kept).then(|| name.to_ascii_uppercase())
}

/// A string, or an array of at least one; an array of one stands for it.
fn read_values(value: &Value) -> Option<Vec<String>> {
    let items = match value {
        Value::Array(items) => items.as_slice(),
        other => std::slice::from_ref(other),
    };
    let values: Option<Vec<String>> = items
        .iter()
        .map(|item| item.as_str().map(str::to_string))
        .collect();
    values.filter(|values| !values.is_empty())
}

fn read_group(values: &[String]) -> Option<String> {
    match values {
        [group] if is_lower_name(group) => Some(group.clone()),
        _ => None,
    }
}

fn read_param(name: &str, values: Vec<String>) -> Option<Param> {
    let allowed = is_lower_name(name) && name != "value";
    allowed.then(|| Param {
        name: name.to_ascii_uppercase(),
        values,
    })
}
