//! What an item's value stands for, as the wrapper tells it: numbers as the archive answers them, the double of type 8 as it is, and texts
//! with the coding that 000, table 9, names for their type.

use crate::sheets::Item;
use crate::texts::shown;

#[derive(Clone, Debug, PartialEq)]
pub enum Value {
    Number(f64),
    Text(String),
}

pub fn value(item: &Item) -> Value {
    let item = sxf::Item { code: item.code, kind: item.kind, scale: item.scale, bytes: &item.value };
    match item.value() {
        sxf::Value::Text(text) => Value::Text(shown(text)),
        sxf::Value::Decimal { whole, power } => Value::Number(format!("{whole}e{power}").parse().expect("a decimal number")),
        sxf::Value::Double(number) => Value::Number(number.value().expect("a number")),
        sxf::Value::Unread => panic!("no sheet has {item:?}"),
    }
}
