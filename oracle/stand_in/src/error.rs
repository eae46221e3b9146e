//! Errors, as far as the five files name them. No answer that is compared depends on them.

pub type Result<T> = std::result::Result<T, Error>;

/// The reasons that the five files can give.
#[derive(Debug, Clone, PartialEq)]
pub enum Error {
    OutOfRange { parameter: String, id: Option<String>, got: f64 },
    UnknownOption { parameter: String, got: String, expected: Vec<String> },
}

fn out_of_range(name: &str, got: f64) -> Error {
    Error::OutOfRange { parameter: name.to_string(), id: None, got }
}

/// `value` finite and at least `min`.
pub fn check_at_least(name: &str, value: f64, min: f64) -> Result<()> {
    if value.is_finite() && value >= min {
        Ok(())
    } else {
        Err(out_of_range(name, value))
    }
}

/// `value` finite and above `bound`.
pub fn check_above(name: &str, value: f64, bound: f64) -> Result<()> {
    if value.is_finite() && value > bound {
        Ok(())
    } else {
        Err(out_of_range(name, value))
    }
}
