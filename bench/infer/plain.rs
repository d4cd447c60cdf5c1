//! The same in plain Rust: each row into serde_json's `Value`, the distinct types of rows in a hash set, and at the end their coercion.
use serde_json::Value;
use std::collections::{HashMap, HashSet};
use std::io::{self, BufRead, BufReader};

#[derive(Clone, PartialEq, Eq, Hash)]
enum Type {
    Null,
    Boolean,
    Int64,
    Float64,
    Utf8,
    List(Box<Type>),
    Struct(Vec<(String, Type)>),
}

fn type_of(value: &Value) -> Type {
    match value {
        Value::Null => Type::Null,
        Value::Bool(_) => Type::Boolean,
        Value::Number(number) if number.is_f64() => Type::Float64,
        Value::Number(_) => Type::Int64,
        Value::String(_) => Type::Utf8,
        Value::Array(items) => match coerced(&distinct(items.iter().map(type_of))) {
            Type::Null => Type::Null,
            item => Type::List(Box::new(item)),
        },
        Value::Object(members) => {
            let typed = members.iter().map(|(name, value)| (name.clone(), type_of(value)));
            Type::Struct(typed.filter(|(_, member)| *member != Type::Null).collect())
        }
    }
}

/// The distinct types that aren't Null, in order of first appearance.
fn distinct(types: impl Iterator<Item = Type>) -> Vec<Type> {
    let (mut seen, mut kept) = (HashSet::new(), vec![]);
    for one in types.filter(|one| *one != Type::Null) {
        if !seen.contains(&one) {
            seen.insert(one.clone());
            kept.push(one);
        }
    }
    kept
}

fn coerced(types: &[Type]) -> Type {
    let Some(first) = types.first() else {
        return Type::Null;
    };
    if types.iter().all(|one| one == first) {
        return first.clone();
    }
    if types.iter().all(|one| matches!(one, Type::Struct(_))) {
        return struct_of(types);
    }
    match types {
        [Type::List(one), Type::List(other)] => list_of(one, other),
        [Type::List(item), other] | [other, Type::List(item)] => list_of(other, item),
        [Type::Int64, Type::Float64] | [Type::Float64, Type::Int64] => Type::Float64,
        [Type::Int64, Type::Boolean] | [Type::Boolean, Type::Int64] => Type::Int64,
        _ => Type::Utf8,
    }
}

fn list_of(one: &Type, other: &Type) -> Type {
    Type::List(Box::new(coerced(&[one.clone(), other.clone()])))
}

fn struct_of(types: &[Type]) -> Type {
    let (mut names, mut members): (Vec<&str>, HashMap<&str, Vec<Type>>) = (vec![], HashMap::new());
    for one in types {
        let Type::Struct(fields) = one else { continue };
        for (name, member) in fields {
            let found = members.entry(name).or_insert_with(|| {
                names.push(name);
                vec![]
            });
            found.push(member.clone());
        }
    }
    let typed = names.iter().map(|name| (name.to_string(), coerced(&distinct(members[name].iter().cloned()))));
    Type::Struct(typed.collect())
}

fn text(one: &Type) -> String {
    match one {
        Type::Null => "Null".into(),
        Type::Boolean => "Boolean".into(),
        Type::Int64 => "Int64".into(),
        Type::Float64 => "Float64".into(),
        Type::Utf8 => "Utf8".into(),
        Type::List(item) => format!("List({})", text(item)),
        Type::Struct(fields) => {
            let typed: Vec<String> = fields.iter().map(|(name, member)| format!("{name:?}:{}", text(member))).collect();
            format!("Struct{{{}}}", typed.join(","))
        }
    }
}

fn main() {
    let mut source = BufReader::with_capacity(1 << 16, io::stdin());
    let (mut line, mut seen, mut kept) = (String::new(), HashSet::new(), vec![]);
    while source.read_line(&mut line).unwrap() > 0 {
        let row = line.trim();
        if !row.is_empty() {
            let one = type_of(&serde_json::from_str(row).unwrap());
            if one != Type::Null && !seen.contains(&one) {
                seen.insert(one.clone());
                kept.push(one);
            }
        }
        line.clear();
    }
    println!("{}", text(&coerced(&kept)));
}
