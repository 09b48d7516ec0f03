//! The table on standard output and the same numbers as comma-separated lines.

use std::fmt::Write;

pub struct Report {
    csv: String,
    /// The implementations, a column each.
    names: Vec<&'static str>,
}

/// Three digits that count, without an exponent.
fn short(value: f64) -> String {
    match value {
        value if value >= 100.0 => format!("{value:.0}"),
        value if value >= 10.0 => format!("{value:.1}"),
        value => format!("{value:.2}"),
    }
}

impl Report {
    pub fn new(names: Vec<&'static str>) -> Report {
        Report { csv: "section,of,implementation,value,unit\n".to_string(), names }
    }

    pub fn title(&self, text: &str) {
        let columns: String = self.names.iter().map(|name| format!("{name:>14}")).collect();
        println!("\n{text:<60}{columns}");
    }

    /// One row of the table: a value for each implementation.
    pub fn row(&mut self, section: &str, of: &str, values: &[f64], unit: &str) {
        let columns: String = values.iter().map(|&value| format!("{:>14}", short(value))).collect();
        println!("{:<60}{columns}", format!("  {of}, {unit}"));
        for (name, value) in self.names.iter().zip(values) {
            writeln!(self.csv, "{section},{of},{name},{value},{unit}").expect("text takes all");
        }
    }

    /// A line that is about one thing only.
    pub fn single(&mut self, section: &str, of: &str, name: &str, value: f64, unit: &str) {
        println!("{:<60}{:>14}", format!("  {name}, {unit}"), short(value));
        writeln!(self.csv, "{section},{of},{name},{value},{unit}").expect("text takes all");
    }

    pub fn csv(&self) -> &str {
        &self.csv
    }
}
