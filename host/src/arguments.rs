//! Arguments of the form `--name value`, in any order.

use std::fmt::Display;
use std::str::FromStr;

pub struct Arguments {
    given: Vec<(String, String)>,
}

impl Arguments {
    /// The program's own arguments. Every name must be one of `known`.
    pub fn read(known: &[&str]) -> Result<Arguments, String> {
        let mut words = std::env::args().skip(1);
        let mut given = Vec::new();
        while let Some(word) = words.next() {
            let name = word.strip_prefix("--").filter(|name| known.contains(name));
            let name =
                name.ok_or(format!("unknown argument {word}; known: --{}", known.join(" --")))?;
            let value = words.next().ok_or(format!("--{name} needs a value"))?;
            given.push((name.to_string(), value));
        }
        Ok(Arguments { given })
    }

    pub fn all(&self, name: &str) -> Vec<&str> {
        let named = self.given.iter().filter(|(given, _)| given == name);
        named.map(|(_, value)| value.as_str()).collect()
    }

    /// The last value given under a name.
    pub fn last(&self, name: &str) -> Option<&str> {
        self.all(name).last().copied()
    }

    pub fn set<T: FromStr>(&self, name: &str, place: &mut T) -> Result<(), String>
    where
        T::Err: Display,
    {
        if let Some(value) = self.last(name) {
            *place = value.parse().map_err(|error| format!("--{name} {value}: {error}"))?;
        }
        Ok(())
    }
}

/// The names of a stream's parameters, as arguments.
pub const STREAM: [&str; 12] = [
    "seed",
    "records",
    "candidate",
    "databases",
    "least-width",
    "greatest-width",
    "jobs",
    "bad",
    "noise",
    "kept",
    "oldest",
    "left-over",
];

pub fn stream(arguments: &Arguments) -> Result<crate::streams::Parameters, String> {
    let mut stream = crate::streams::Parameters::default();
    arguments.set("seed", &mut stream.seed)?;
    arguments.set("records", &mut stream.records)?;
    arguments.set("candidate", &mut stream.candidate)?;
    arguments.set("databases", &mut stream.databases)?;
    arguments.set("least-width", &mut stream.least_width)?;
    arguments.set("greatest-width", &mut stream.greatest_width)?;
    arguments.set("jobs", &mut stream.jobs)?;
    arguments.set("bad", &mut stream.bad)?;
    arguments.set("noise", &mut stream.noise)?;
    arguments.set("kept", &mut stream.kept)?;
    arguments.set("oldest", &mut stream.oldest)?;
    arguments.set("left-over", &mut stream.left_over)?;
    Ok(stream)
}
