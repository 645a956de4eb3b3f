//! What no line can carry (13), and what is just accepted.

use super::*;
use crate::table::MAPS;

#[rustfmt::skip]
const NOT_CARRIED: [Row; 15] = [
    ("uid with a control", "uid", &["'\\u0001'", "'a\\n'", "'\\r'", "'\\u007f'"]),
    ("full with a control", "name>full", &["'\\u0001'", "'a\\r'", "'\\u007f'", "'\\u0000'"]),
    ("a component with a control", "name>components>1>value", &["'\\u001f'", "'a\\r'", "'\\u007f'"]),
    ("a unit with a control", "organizations>k>units>1>name", &["'\\b'", "'a\\r'", "'\\u007f'"]),
    ("an LF in a link", "links>k>uri", &["'a\\nb'"]),
    ("a tel: number with a control", "phones>k>number", &["'tel:\\u0001'", "'tel:1\\n\\r'"]),
    ("a member name with a control", "a\u{1}", &["1"]),
    ("a member name with LF", "a\nb", &["1"]),
    ("a member name with DEL", "a\u{7f}", &["1"]),
    ("a member name with a quote", "a\"b", &["1"]),
    ("a kept value with a control", "vCardProps>1>3", &["'\\u0001'", "'a\\n'", "'\\u007f'"]),
    ("a parameter with a control", "vCardProps>0>1>x-a", &["'\\u0001'", "'a\\n'", "['a','\\u007f']"]),
    ("a parameter with a quote", "vCardProps>0>1>x-a", &["'\\u0022'", "['a','b\\u0022']"]),
    ("surname equal to surname2", "name>components", &[
        "[{'kind':'surname','value':'Foo'},{'kind':'surname2','value':'Foo'}]",
        "[{'kind':'surname2','value':'b'},{'kind':'surname2','value':'a'},{'kind':'given','value':'c'},{'kind':'surname','value':'a'}]",
    ]),
    ("credential equal to generation", "name>components", &[
        "[{'kind':'generation','value':'Jr.'},{'kind':'credential','value':'Jr.'}]",
        "[{'kind':'credential','value':'x'},{'kind':'credential','value':'Jr.'},{'kind':'generation','value':'Jr.'}]",
    ]),
];

pub fn not_carried() -> Vec<Cause> {
    let mut causes = rows(13, &NOT_CARRIED);
    causes.extend(MAPS.into_iter().map(|map| {
        let place = format!("{}>k>{}", map.member(), map.text_member());
        let control = put(&place, &["'\\u0001'", "'a\\r'", "'\\u007f'"]);
        changed(13, &format!("{}: a control", map.member()), vec![control])
    }));
    causes
}

#[rustfmt::skip]
const ACCEPTED: [Row; 21] = [
    ("a whole card", "uid", &["'u'", "' '", "'\\t'", "'\\ud83d\\ude00'"]),
    ("depth 16", "deep", &["[[[[[[[[[[[[[[[]]]]]]]]]]]]]]]", "[[[[[[[[[[[[[[['a']]]]]]]]]]]]]]]"]),
    ("components all empty", "name", &["{'components':[]}", "{'components':[{'kind':'title','value':''}]}"]),
    ("empty surname and surname2", "name>components", &[
        "[{'kind':'surname','value':''},{'kind':'surname2','value':''},{'kind':'generation','value':'x'}]",
    ]),
    ("components out of order", "name>components", &[
        "[{'kind':'generation','value':'x'},{'kind':'given','value':'y'},{'kind':'surname','value':'x'}]",
    ]),
    ("LF in TEXT", "name>full", &["'a\\nb'", "'\\n'"]),
    ("a tab and letters beyond ASCII", "notes>k>note", &["'\\té€😀'"]),
    ("an empty text", "emails>k>address", &["''"]),
    ("no title kind", "titles>k", &["{'name':''}"]),
    ("units only", "organizations>k", &["{'units':[{'name':''},{'name':'a'}]}", "{'name':'','units':[{'name':'a;b'}]}"]),
    ("empty units", "organizations>k>units", &["[]"]),
    ("a tel: number with LF", "phones>k>number", &["'tel:1\\n2'"]),
    ("controls inside a member", "x", &["'\\u0001\\n\\u007f'", "{'\\u0000':['\\r']}"]),
    ("no entry is kept", "vCardProps", &["[]"]),
    ("group last, and in an array", "vCardProps>1>1", &["{'x':'1','group':['a']}"]),
    ("a second FN", "vCardProps>1", &["['fn',{'x':'1'},'unknown','a']", "['fn',{'derived':['TRUE','TRUE']},'unknown','a']"]),
    ("a kept EMAIL", "vCardProps>1", &["['email',{'prop-id':'free'},'text','a']", "['email',{'pref':'101'},'unknown','a']"]),
    ("a kept TEL", "vCardProps>1", &["['tel',{},'uri','TEL:1']", "['tel',{'type':'home,'},'unknown','1']"]),
    ("a kept NICKNAME", "vCardProps>1", &["['nickname',{},'unknown','a,b']", "['nickname',{},'unknown','a\\\\\\\\,b']"]),
    ("a kept JSPROP", "vCardProps>1", &[
        "['jsprop',{'jsptr':'uid'},'unknown','1']", "['jsprop',{'jsptr':'/n'},'unknown','1']", "['jsprop',{'jsptr':'n'},'unknown','[1,]']",
    ]),
    ("a kept N", "vCardProps>1", &["['n',{},'unknown',';;']", "['n',{},'unknown','a;;;;;;;']"]),
];

pub fn accepted() -> Vec<Cause> {
    let mut causes = rows(0, &ACCEPTED);
    causes.extend(MAPS.into_iter().map(|map| {
        let name = format!("{}: empty", map.member());
        changed(0, &name, vec![put(map.member(), &["{}"])])
    }));
    let used = put("vCardProps>1", &["['email',{'prop-id':'k'},'unknown','a']"]);
    let email = put("emails>k>address", &["'a'"]);
    causes.push(changed(0, "a used PROP-ID", vec![email, used]));
    causes
}
