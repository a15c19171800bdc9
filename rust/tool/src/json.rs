//! JSON, as far as the tool writes it.

use std::fmt;

/// A value. Numbers are whole, and slots have up to 64 bits: a reader must take them so.
pub enum Json {
    /// A number.
    Number(i128),
    /// A truth.
    Truth(bool),
    /// A text.
    Text(String),
    /// Nothing.
    Null,
    /// Values in order.
    List(Vec<Json>),
    /// Values by name.
    Object(Vec<(&'static str, Json)>),
}

impl Json {
    /// A list of numbers.
    pub fn numbers<T: Copy + TryInto<i128>>(list: &[T]) -> Json {
        Json::List(list.iter().map(|&number| Json::number(number)).collect())
    }

    /// A number.
    pub fn number<T: TryInto<i128>>(number: T) -> Json {
        Json::Number(number.try_into().ok().expect("each number of the tool has fewer than 128 bits"))
    }
}

fn write_text(f: &mut fmt::Formatter, text: &str) -> fmt::Result {
    f.write_str("\"")?;
    for c in text.chars() {
        match c {
            '"' | '\\' => write!(f, "\\{c}")?,
            c if (c as u32) < 0x20 => write!(f, "\\u{:04x}", c as u32)?,
            c => write!(f, "{c}")?,
        }
    }
    f.write_str("\"")
}

impl fmt::Display for Json {
    fn fmt(&self, f: &mut fmt::Formatter) -> fmt::Result {
        match self {
            Json::Number(number) => write!(f, "{number}"),
            Json::Truth(truth) => write!(f, "{truth}"),
            Json::Text(text) => write_text(f, text),
            Json::Null => f.write_str("null"),
            Json::List(list) => {
                for (at, value) in list.iter().enumerate() {
                    write!(f, "{}{value}", if at == 0 { "[" } else { "," })?;
                }
                f.write_str(if list.is_empty() { "[]" } else { "]" })
            }
            Json::Object(fields) => {
                for (at, (name, value)) in fields.iter().enumerate() {
                    write!(f, "{}\"{name}\":{value}", if at == 0 { "{" } else { "," })?;
                }
                f.write_str(if fields.is_empty() { "{}" } else { "}" })
            }
        }
    }
}

#[cfg(test)]
mod tests {
    use super::Json;

    #[test]
    fn values_are_written_as_json() {
        let value = Json::Object(vec![
            ("slots", Json::number(u64::MAX)),
            ("index", Json::number(-1)),
            ("text", Json::Text("a \"b\" \\ \n é".to_string())),
            ("lists", Json::List(vec![Json::numbers(&[1u32, 2]), Json::List(vec![]), Json::Null])),
            ("finished", Json::Truth(true)),
            ("none", Json::Object(vec![])),
        ]);
        let text = "{\"slots\":18446744073709551615,\"index\":-1,\"text\":\"a \\\"b\\\" \\\\ \\u000a é\",\
                    \"lists\":[[1,2],[],null],\"finished\":true,\"none\":{}}";
        assert_eq!(value.to_string(), text);
    }
}
