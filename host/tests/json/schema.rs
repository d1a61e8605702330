//! A validator of values: those words of JSON Schema that host/json-schema.json uses. A word that it does not know is an error.

use std::collections::BTreeSet;

use super::reader::Value;

/// The names of an object's entries that a schema speaks of.
type Spoken = BTreeSet<String>;

/// Says where and how a value breaks its schema.
pub fn validate(root: &Value, value: &Value) -> Result<(), String> {
    check(root, root, value, "").map(|_| ())
}

fn check(root: &Value, schema: &Value, value: &Value, at: &str) -> Result<Spoken, String> {
    let words = schema.entries().ok_or("a schema is an object")?;
    let mut spoken = Spoken::new();
    for (word, rule) in words {
        spoken.extend(check_word(root, (word, rule), value, at)?);
    }
    let names = value.entries().unwrap_or_default().iter();
    if schema.get("unevaluatedProperties") == Some(&Value::Bool(false)) {
        for (name, _) in names {
            if !spoken.contains(name) {
                return Err(format!("{at}: {name} is unknown"));
            }
        }
    }
    Ok(spoken)
}

fn check_word(
    root: &Value,
    (word, rule): (&str, &Value),
    value: &Value,
    at: &str,
) -> Result<Spoken, String> {
    let wrong = |what: &str| Err(format!("{at}: {what} {rule:?}, and is {value:?}"));
    match word {
        "$schema" | "$defs" | "title" | "description" | "unevaluatedProperties" => {}
        "$ref" => return check(root, definition(root, rule.text()), value, at),
        "allOf" => {
            let mut spoken = Spoken::new();
            for schema in rule.list() {
                spoken.extend(check(root, schema, value, at)?);
            }
            return Ok(spoken);
        }
        "oneOf" => return one_of(root, rule.list(), value, at),
        "type" if !has_type(rule, value) => return wrong("has to be"),
        "const" if rule != value => return wrong("has to be"),
        "enum" if !rule.list().contains(value) => return wrong("has to be one of"),
        "minimum" if is_less(value, rule) => return wrong("has to be at least"),
        "maximum" if is_less(rule, value) => return wrong("has to be at most"),
        "type" | "const" | "enum" | "minimum" | "maximum" => {}
        "required" => {
            let missing = rule.list().iter();
            let mut missing = missing.filter(|name| value.get(name.text()).is_none());
            if let Some(name) = missing.next() {
                return Err(format!("{at}: {name:?} is missing"));
            }
        }
        "properties" => return properties(root, rule, value, at),
        "items" => {
            if let Value::List(values) = value {
                for (i, item) in values.iter().enumerate() {
                    check(root, rule, item, &format!("{at}/{i}"))?;
                }
            }
        }
        _ => return Err(format!("the validator does not know {word}")),
    }
    Ok(Spoken::new())
}

fn definition<'a>(root: &'a Value, reference: &str) -> &'a Value {
    let name = reference.strip_prefix("#/$defs/").expect("a definition");
    &root["$defs"][name]
}

fn one_of(root: &Value, schemas: &[Value], value: &Value, at: &str) -> Result<Spoken, String> {
    let tried = schemas.iter().map(|schema| check(root, schema, value, at));
    let (fitting, others): (Vec<_>, Vec<_>) = tried.partition(Result::is_ok);
    match fitting.len() {
        1 => fitting.into_iter().next().expect("there is one"),
        count => Err(format!("{at}: {count} of several forms fit: {others:?}")),
    }
}

fn properties(root: &Value, rules: &Value, value: &Value, at: &str) -> Result<Spoken, String> {
    let mut spoken = Spoken::new();
    for (name, schema) in rules.entries().ok_or("properties are an object")? {
        if let Some(entry) = value.get(name) {
            check(root, schema, entry, &format!("{at}/{name}"))?;
            spoken.insert(name.clone());
        }
    }
    Ok(spoken)
}

fn has_type(rule: &Value, value: &Value) -> bool {
    let own = match value {
        Value::Null => "null",
        Value::Bool(_) => "boolean",
        Value::Number(_) => "integer",
        Value::Text(_) => "string",
        Value::List(_) => "array",
        Value::Object(_) => "object",
    };
    match rule {
        Value::List(types) => types.iter().any(|ty| *ty == own),
        ty => *ty == own,
    }
}

/// What is no number passes every bound.
fn is_less(a: &Value, b: &Value) -> bool {
    matches!((a, b), (Value::Number(a), Value::Number(b)) if a < b)
}

#[test]
fn finds_what_breaks_a_schema() {
    let read = |text| super::reader::read(text).unwrap();
    let schema = read(
        r##"{"allOf": [{"$ref": "#/$defs/a"}], "required": ["b"], "unevaluatedProperties": false,
            "properties": {"b": {"type": "array", "items": {"oneOf": [{"const": 1}, {"enum": ["x", null]}]}}},
            "$defs": {"a": {"type": "object", "properties": {"a": {"type": ["integer", "null"], "minimum": 3, "maximum": 9}}}}}"##,
    );
    let fits = |text| validate(&schema, &read(text)).is_ok();
    assert!(fits(r#"{"a": 3, "b": [1, "x", null]}"#));
    assert!(fits(r#"{"b": []}"#));
    for wrong in [
        r#"{"a": 2, "b": []}"#,
        r#"{"a": 10, "b": []}"#,
        r#"{"a": "3", "b": []}"#,
        r#"{"a": 3}"#,
        r#"{"b": [2]}"#,
        r#"{"b": [], "c": 1}"#,
        "[]",
    ] {
        assert!(!fits(wrong), "{wrong}");
    }
    assert!(validate(&read(r#"{"pattern": "x"}"#), &read("1")).is_err());
}
