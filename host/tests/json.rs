//! `vorruda check --json` prints JSON, in which the verdict stands.

mod command_line;

use std::collections::BTreeMap;
use std::str::Chars;

use command_line::{file, vorruda};
use vorruda_host::check::check;
use vorruda_host::pairs::{Pair, Pairs, ValuedPairs};
use vorruda_host::refusal_text::refusal_text;
use vorruda_host::verdict::Verdict;

/// A value of JSON, without those that aren't written.
#[derive(Debug, PartialEq)]
enum Json {
    Number(u64),
    Text(String),
    List(Vec<Json>),
    Object(BTreeMap<String, Json>),
}

/// Reads one value, or panics.
fn value(text: &mut Chars) -> Json {
    match text.clone().next().unwrap() {
        '{' => {
            let pairs = items(text, '}', |text| {
                let name = string(text);
                assert_eq!(text.next(), Some(':'));
                (name, value(text))
            });
            let count = pairs.len();
            let object: BTreeMap<String, Json> = pairs.into_iter().collect();
            assert_eq!(object.len(), count, "a name stands twice");
            Json::Object(object)
        }
        '[' => Json::List(items(text, ']', value)),
        '"' => Json::Text(string(text)),
        _ => {
            let digits: String = text.clone().take_while(char::is_ascii_digit).collect();
            *text = text.as_str()[digits.len()..].chars();
            Json::Number(digits.parse().unwrap())
        }
    }
}

/// What stands between brackets, with commas between.
fn items<T>(text: &mut Chars, end: char, item: impl Fn(&mut Chars) -> T) -> Vec<T> {
    text.next();
    let mut items = Vec::new();
    while text.clone().next() != Some(end) {
        if !items.is_empty() {
            assert_eq!(text.next(), Some(','));
        }
        items.push(item(text));
    }
    text.next();
    items
}

fn string(text: &mut Chars) -> String {
    assert_eq!(text.next(), Some('"'));
    let mut string = String::new();
    loop {
        match text.next().unwrap() {
            '"' => return string,
            '\\' => string.push(match text.next().unwrap() {
                'n' => '\n',
                'u' => {
                    let digits: String = text.take(4).collect();
                    char::from_u32(u32::from_str_radix(&digits, 16).unwrap()).unwrap()
                }
                c @ ('"' | '\\') => c,
                c => panic!("\\{c}"),
            }),
            c => {
                assert!(c >= ' ', "a control character");
                string.push(c);
            }
        }
    }
}

/// The object that is printed of a pair, whose exit status is that of the verdict.
fn printed(pair: &Pair) -> BTreeMap<String, Json> {
    let job = file("json_job.bin", &pair.job);
    let certificate = file("json_cert.bin", &pair.certificate);
    let ran = vorruda(&[
        "check",
        "--json",
        job.to_str().unwrap(),
        certificate.to_str().unwrap(),
    ]);
    let verdict = check(&pair.job, &pair.certificate);
    assert_eq!(ran.status, i32::from(verdict.number() != 0), "{ran:?}");
    let line = ran.text.strip_suffix('\n').expect("a line");
    assert!(!line.contains('\n'), "{line}");
    let mut text = line.chars();
    let Json::Object(object) = value(&mut text) else {
        panic!("{line}");
    };
    assert_eq!(text.as_str(), "", "{line}");
    object
}

#[test]
fn verdicts_in_json() {
    let mut refused = 0;
    let pairs = Pairs::new(0x15)
        .take(120)
        .chain(ValuedPairs::new(0x16).take(120));
    for pair in pairs {
        let verdict = check(&pair.job, &pair.certificate);
        let object = printed(&pair);
        let number = |name: &str| match object[name] {
            Json::Number(number) => number,
            ref other => panic!("{name}: {other:?}"),
        };
        assert_eq!(number("number"), u64::from(verdict.number()));
        let names: &[&str] = match verdict {
            Verdict::Accepted(_) => &["bads", "members", "covers", "links"],
            Verdict::Refused(_) => &["place", "rule", "name"],
        };
        let told: Vec<u64> = names.iter().map(|name| number(name)).collect();
        assert_eq!(told, verdict.told()[..names.len()]);
        let word = if verdict.number() == 0 {
            "accepted"
        } else {
            "refused"
        };
        assert_eq!(object["verdict"], Json::Text(word.to_string()));
        if let Verdict::Refused(refusal) = verdict {
            let text = refusal_text(refusal.number).unwrap();
            assert_eq!(object["text"], Json::Text(text.to_string()));
            assert!(matches!(&object["words"], Json::List(words) if !words.is_empty()));
            refused += 1;
        }
    }
    assert!(refused > 100);
}
