//! Entries of vCardProps that no kept line in its place gives (12).

use super::*;

#[rustfmt::skip]
const NOT_A_LINE: [Row; 13] = [
    ("kept: no array", "vCardProps>1", NO_ARRAY),
    ("kept: not four items", "vCardProps>1", &["[]", "['x',{},'unknown']", "['x',{},'unknown','v','w']"]),
    ("kept: the name is no string", "vCardProps>1>0", NO_STRING),
    ("kept: a name never kept", "vCardProps>1>0", &["'begin'", "'end'", "'version'", "'uid'", "'kind'"]),
    ("kept: no lower-case name", "vCardProps>1>0", &["'X'", "''", "'a b'", "'é'", "'x\\n'", "'x_y'"]),
    ("kept: parameters are no object", "vCardProps>1>1", NO_OBJECT),
    ("kept: no lower-case parameter name", "vCardProps>1>1", &["{'X':'1'}", "{'':'1'}", "{'a b':'1'}", "{'x_y':'1'}"]),
    ("kept: a parameter value", "vCardProps>1>1", &["{'value':'text'}", "{'value':['uri']}"]),
    ("kept: a parameter without a string", "vCardProps>1>1", &[
        "{'x':[]}", "{'x':null}", "{'x':1}", "{'x':['a',1]}", "{'x':{}}", "{'x':[['a']]}",
    ]),
    ("kept: no group", "vCardProps>1>1", &[
        "{'group':'A'}", "{'group':''}", "{'group':['a','b']}", "{'group':[]}", "{'group':'a.b'}",
    ]),
    ("kept: no type", "vCardProps>1>2", &["'Text'", "''", "'a b'", "'UNKNOWN'", "'é'"]),
    ("kept: the type is no string", "vCardProps>1>2", NO_STRING),
    ("kept: the value is no string", "vCardProps>1>3", NO_STRING),
];

pub fn not_a_kept_line() -> Vec<Cause> {
    rows(12, &NOT_A_LINE)
}

const ENTRY: &str = "vCardProps>1";

#[rustfmt::skip]
const WOULD_CONVERT: [Row; 10] = [
    ("would be dropped: FN", ENTRY, &["['fn',{'derived':'TRUE'},'unknown','a']", "['fn',{'derived':['true']},'unknown','\\\\x']"]),
    ("would convert: NICKNAME", ENTRY, &["['nickname',{},'unknown','a']", "['nickname',{'pref':'1'},'unknown','a\\\\,b']"]),
    ("would convert: EMAIL", ENTRY, &["['email',{'type':['home','WORK']},'unknown','a']", "['email',{'prop-id':'free'},'unknown','a']"]),
    ("would convert: TEL", ENTRY, &[
        "['tel',{'type':'cell,voice'},'unknown','1']", "['tel',{},'uri','tel:1']", "['tel',{'pref':['100']},'unknown','']",
    ]),
    ("would convert: URL", ENTRY, &["['url',{},'uri','a']", "['url',{'type':'work'},'unknown','\\\\x']"]),
    ("would convert: NOTE", ENTRY, &["['note',{},'unknown','a']", "['note',{'prop-id':'free'},'unknown','a\\nb']"]),
    ("would convert: TITLE", ENTRY, &["['title',{},'unknown','a']"]),
    ("would convert: ROLE", ENTRY, &["['role',{},'unknown','a']"]),
    ("would convert: ORG", ENTRY, &["['org',{},'unknown','a;b']", "['org',{},'unknown',';b']"]),
    ("would convert: JSPROP", ENTRY, &["['jsprop',{'jsptr':'new'},'unknown','1']", "['jsprop',{'jsptr':'n~1w'},'unknown','[\\'x\\']']"]),
];

/// A line that would convert, or be dropped, where all that converts has been read.
pub fn would_convert() -> Vec<Cause> {
    let no_full = put("name", &["{'components':[{'kind':'given','value':'a'}]}"]);
    let no_components = put("name", &["{'full':'a'}", "{'components':[],'full':'a'}"]);
    let (full, components) = ("['fn',{},'unknown','a']", "['n',{},'unknown','a;b']");
    let mut causes = rows(12, &WOULD_CONVERT);
    causes.push(changed(
        12,
        "would convert: FN",
        vec![no_full, put(ENTRY, &[full])],
    ));
    causes.push(changed(
        12,
        "would convert: N",
        vec![no_components, put(ENTRY, &[components])],
    ));
    causes
}
