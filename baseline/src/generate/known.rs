//! JSON texts whose answer is known: a whole card with one change. What number
//! must come is written in `causes` from 01's text, apart from the converter.

use super::json_text;
use super::tree::Members;
use super::Rng;
use crate::json::{self, Value};
use crate::limits::JSON_DEPTH;

/// Stand in a tree for surrogates alone, which no string of a tree can hold.
const ALONE: [(&str, &str); 2] = [("\u{e000}", "\\ud800"), ("\u{e001}", "\\udc00")];

/// A card with all that 01 lists, accepted. `'` stands for a double quote.
const WHOLE: &str = "{'@type':'Card','version':'1.0','uid':'u','kind':'individual',\
    'name':{'full':'Ada Moss','components':[{'kind':'surname','value':'Moss'},\
    {'kind':'given','value':'Ada'},{'kind':'credential','value':'PhD'}],'isOrdered':false},\
    'nicknames':{'k':{'name':'Addie','contexts':{'private':true,'work':true},'pref':1}},\
    'emails':{'k':{'address':'a@b','contexts':{'work':true},'pref':100}},\
    'phones':{'k':{'number':'tel:+41-1','contexts':{'private':true},\
    'features':{'mobile':true,'voice':true},'pref':2}},\
    'links':{'k':{'uri':'https://a.example','contexts':{'work':true},'pref':3}},\
    'notes':{'k':{'note':'x, y'}},'titles':{'k':{'name':'Boss','kind':'role'}},\
    'organizations':{'k':{'name':'ABC; Inc.','units':[{'name':'North'},{'name':'South'}]}},\
    'a/b~c':{'m':[1,'x',null]},\
    'vCardProps':[['x-foo',{'group':'item1','x-a':'1','x-b':['2','3']},'unknown','v'],\
    ['bday',{},'date','2000']]}";

/// Members that may stand or not.
const OPTIONAL: [&str; 11] = [
    "kind",
    "name",
    "nicknames",
    "emails",
    "phones",
    "links",
    "notes",
    "titles",
    "organizations",
    "a/b~c",
    "vCardProps",
];

/// Entries that may stand beside the changed one.
const MORE: [(&str, &str, &str); 7] = [
    ("nicknames", "more-1", "{'name':'','contexts':{}}"),
    ("emails", "more-2", "{'address':'x\\ny'}"),
    ("phones", "more-3", "{'number':'1','features':{}}"),
    ("links", "more-4", "{'uri':'a,b;c'}"),
    ("notes", "more-5", "{'note':'\\t\\ud83d\\ude00'}"),
    ("titles", "more-6", "{'name':'t'}"),
    ("organizations", "more-7", "{'units':[{'name':'u'}]}"),
];

/// A change that makes one answer certain.
pub struct Cause {
    /// The refusal, or 0.
    pub number: u32,
    pub name: String,
    pub(super) how: How,
}

pub(super) enum How {
    Changed(Vec<Change>),
    /// A text of its own, without chance for more.
    Made(fn(&mut Rng) -> Vec<u8>),
}

/// At a place of the tree, given as names and indices with `>` between; `.` is
/// the whole.
pub(super) enum Change {
    /// One of these values; a new member or item if there is none.
    Put(String, Vec<&'static str>),
    Drop(String),
    /// The member once more.
    Twice(String),
}

impl Cause {
    pub fn text(&self, rng: &mut Rng) -> Vec<u8> {
        let changes = match &self.how {
            How::Made(text) => return text(rng),
            How::Changed(changes) => changes,
        };
        let mut tree = tree(WHOLE);
        for change in changes {
            apply(rng, &mut tree, change);
        }
        if let Value::Object(members) = &mut tree {
            vary(rng, members, changes);
        }
        shuffle(rng, &mut tree);
        let text = json_text::print(rng, &tree);
        with_surrogates(text).into_bytes()
    }
}

fn tree(text: &str) -> Value {
    let text = text.replace('\'', "\"");
    match json::read(text.as_bytes(), JSON_DEPTH + 1) {
        Ok(document) => document.value,
        Err(place) => panic!("{text}: no JSON at {place}"),
    }
}

fn apply(rng: &mut Rng, tree: &mut Value, change: &Change) {
    match change {
        Change::Put(place, values) => put(tree, place, self::tree(rng.pick(values))),
        Change::Drop(place) => {
            let (parent, name) = parent(tree, place);
            match parent {
                Value::Object(members) => members.retain(|(other, _)| other != name),
                other => panic!("{place}: no object: {other:?}"),
            }
        }
        Change::Twice(place) => {
            let (parent, name) = parent(tree, place);
            match parent {
                Value::Object(members) => {
                    let member = members.iter().find(|(other, _)| other == name).cloned();
                    members.extend(member);
                }
                other => panic!("{place}: no object: {other:?}"),
            }
        }
    }
}

fn put(tree: &mut Value, place: &str, value: Value) {
    if place == "." {
        *tree = value;
        return;
    }
    match parent(tree, place) {
        (Value::Object(members), name) => {
            match members.iter_mut().find(|(other, _)| other == name) {
                Some(member) => member.1 = value,
                None => members.push((name.to_string(), value)),
            }
        }
        (Value::Array(items), index) => match items.get_mut(number(index)) {
            Some(item) => *item = value,
            None => items.push(value),
        },
        (other, _) => panic!("{place}: nothing inside {other:?}"),
    }
}

/// What holds the place, and the place's name in it.
fn parent<'a, 'p>(tree: &'a mut Value, place: &'p str) -> (&'a mut Value, &'p str) {
    let (outer, name) = place.rsplit_once('>').unwrap_or(("", place));
    let parts = outer.split('>').filter(|part| !part.is_empty());
    let parent = parts.fold(tree, |inside, part| match inside {
        Value::Object(members) => {
            let member = members.iter_mut().find(|(other, _)| other == part);
            &mut member.unwrap_or_else(|| panic!("{place}: no {part}")).1
        }
        Value::Array(items) => &mut items[number(part)],
        other => panic!("{place}: nothing inside {other:?}"),
    });
    (parent, name)
}

fn number(index: &str) -> usize {
    index.parse().expect("an index")
}

/// Other members go, other entries come: nothing that the change turns on.
fn vary(rng: &mut Rng, members: &mut Members, changes: &[Change]) {
    let touched: Vec<&str> = changes.iter().map(|change| change.top()).collect();
    let leave = rng.pick(&[0, 0, 30, 80]);
    members.retain(|(name, _)| {
        let may_go = OPTIONAL.contains(&name.as_str()) && !touched.contains(&name.as_str());
        !(may_go && rng.chance(leave))
    });
    for (map, key, entry) in MORE {
        let found = members.iter_mut().find(|(name, _)| name == map);
        if let Some((_, Value::Object(entries))) = found {
            let is_new = entries.iter().all(|(other, _)| other != key);
            if is_new && rng.chance(30) {
                let at = rng.below(entries.len() + 1);
                entries.insert(at, (key.to_string(), tree(entry)));
            }
        }
    }
}

impl Change {
    /// The top-level member that it is in.
    fn top(&self) -> &str {
        let (Change::Put(place, _) | Change::Drop(place) | Change::Twice(place)) = self;
        place.split('>').next().unwrap_or_default()
    }
}

/// Members of every object in any order.
fn shuffle(rng: &mut Rng, tree: &mut Value) {
    match tree {
        Value::Object(members) => {
            rng.shuffle(members);
            members
                .iter_mut()
                .for_each(|(_, value)| shuffle(rng, value));
        }
        Value::Array(items) => items.iter_mut().for_each(|item| shuffle(rng, item)),
        _ => {}
    }
}

fn with_surrogates(mut text: String) -> String {
    for (stand_in, alone) in ALONE {
        let code = u32::from(stand_in.chars().next().unwrap_or_default());
        text = text.replace(stand_in, alone);
        text = text.replace(&format!("\\u{code:04x}"), alone);
        text = text.replace(&format!("\\u{code:04X}"), alone);
    }
    text
}
