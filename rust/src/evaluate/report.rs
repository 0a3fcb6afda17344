//! What experiments tell: tables printed at once and kept for docs/EVALUATION.md, pictures, and
//! what turned out otherwise than it has to.

use std::fs;
use std::io;
use std::path::Path;
use std::time::Instant;

/// The mark of a figure that depends on the machine.
pub const MACHINE: &str = "†";

/// How an experiment is run.
#[derive(Clone, Copy)]
pub struct Setting {
    pub seed: u64,
    /// Smaller, to try the program out: what it finds is no result.
    pub quick: bool,
}

impl Setting {
    /// A number of the full run, or that of the quick one.
    pub fn either(&self, full: u64, quick: u64) -> u64 {
        if self.quick {
            quick
        } else {
            full
        }
    }
}

/// A table of an experiment.
pub struct Table {
    /// The name of its region in the document.
    pub name: &'static str,
    /// Whether the seed makes a difference.
    pub seeded: bool,
    /// What was done, a sentence or more.
    pub set_up: String,
    pub head: Vec<String>,
    pub rows: Vec<Vec<String>>,
}

#[derive(Default)]
pub struct Report {
    regions: Vec<(&'static str, String)>,
    pictures: Vec<(&'static str, String)>,
    failures: Vec<String>,
}

/// A row from texts.
pub fn row<const N: usize>(cells: [&str; N]) -> Vec<String> {
    cells.map(String::from).to_vec()
}

/// An error with its sign.
pub fn percent(error: f64) -> String {
    format!("{error:+.2} %")
}

/// An error without its sign.
pub fn size(error: f64) -> String {
    format!("{:.2} %", error.abs())
}

/// The table in Markdown, its columns of equal width.
fn markdown(table: &Table) -> String {
    let columns = table.head.len();
    assert!(
        table.rows.iter().all(|row| row.len() == columns),
        "{}",
        table.name
    );
    let lines = || std::iter::once(&table.head).chain(&table.rows);
    let width = |column: usize| lines().map(|line| line[column].chars().count()).max();
    let widths: Vec<usize> = (0..columns).filter_map(width).collect();
    let written = |line: &Vec<String>| {
        let cells = line.iter().zip(&widths);
        let cells: Vec<String> = cells
            .map(|(cell, &width)| format!(" {cell:<width$} |"))
            .collect();
        format!("|{}\n", cells.concat())
    };
    let rule: Vec<String> = widths
        .iter()
        .map(|width| format!("{}|", "-".repeat(width + 2)))
        .collect();
    let rows: Vec<String> = table.rows.iter().map(written).collect();
    format!(
        "{}|{}\n{}",
        written(&table.head),
        rule.concat(),
        rows.concat()
    )
}

/// Text in lines of at most so many characters.
fn wrapped(text: &str, width: usize) -> String {
    let mut lines = vec![String::new()];
    for word in text.split_whitespace() {
        let line = lines.last_mut().expect("there is a first line");
        if !line.is_empty() && line.chars().count() + 1 + word.chars().count() > width {
            lines.push(word.into());
        } else {
            if !line.is_empty() {
                line.push(' ');
            }
            line.push_str(word);
        }
    }
    lines.join("\n")
}

impl Report {
    /// Prints a table and keeps it, with its seed and the time since `began`.
    pub fn table(&mut self, setting: Setting, began: Instant, table: Table) {
        let took = began.elapsed().as_secs_f64();
        let seed = match table.seeded {
            true => format!("Seed {}.", setting.seed),
            false => "No seed.".into(),
        };
        let said = format!(
            "Set-up: {} {seed} Run time {took:.1} s {MACHINE}.",
            table.set_up
        );
        let text = format!("{}\n\n{}", wrapped(&said, 130), markdown(&table));
        println!("## {}\n\n{text}", table.name);
        self.regions.push((table.name, text));
    }

    /// Keeps a picture.
    pub fn picture(&mut self, name: &'static str, file: String) {
        self.pictures.push((name, file));
    }

    /// Notes what turned out otherwise than it has to.
    pub fn require(&mut self, holds: bool, what: &str) {
        if !holds {
            println!("FAILED: {what}\n");
            self.failures.push(what.into());
        }
    }

    /// Whether everything turned out as it has to.
    pub fn is_good(&self) -> bool {
        self.failures.is_empty()
    }

    /// Writes the regions of EVALUATION.md and the pictures in evaluation/.
    pub fn write(&self, docs: &Path) -> io::Result<()> {
        let page = docs.join("EVALUATION.md");
        let mut text = fs::read_to_string(&page)?;
        for (name, region) in &self.regions {
            text = with_region(&text, name, region).ok_or_else(|| missing(name))?;
        }
        fs::write(page, text)?;
        let folder = docs.join("evaluation");
        fs::create_dir_all(&folder)?;
        for (name, file) in &self.pictures {
            fs::write(folder.join(format!("{name}.svg")), file)?;
        }
        Ok(())
    }
}

fn missing(name: &str) -> io::Error {
    io::Error::other(format!("EVALUATION.md has no region {name}"))
}

/// The text with what stands between the region's marks replaced; none where a mark is missing.
fn with_region(text: &str, name: &str, region: &str) -> Option<String> {
    let begin = format!("<!-- table {name} -->\n");
    let (before, rest) = text.split_once(&begin)?;
    let (_, after) = rest.split_once("<!-- end -->")?;
    Some(format!("{before}{begin}\n{region}\n<!-- end -->{after}"))
}

#[cfg(test)]
mod tests {
    use super::*;

    #[test]
    fn a_region_is_replaced_and_nothing_else() {
        let text =
            "a\n<!-- table one -->\nold\n<!-- end -->\nb\n<!-- table two -->\n<!-- end -->\nc";
        let one = with_region(text, "one", "new\n").unwrap();
        let expected =
            "a\n<!-- table one -->\n\nnew\n\n<!-- end -->\nb\n<!-- table two -->\n<!-- end -->\nc";
        assert_eq!(one, expected);
        assert_eq!(with_region(&one, "one", "new\n").unwrap(), expected);
        assert_eq!(with_region(text, "three", "new"), None);
    }

    #[test]
    fn tables_line_up() {
        let table = Table {
            name: "one",
            seeded: true,
            set_up: String::new(),
            head: row(["a", "long"]),
            rows: vec![row(["wide", "b"])],
        };
        assert_eq!(
            markdown(&table),
            "| a    | long |\n|------|------|\n| wide | b    |\n"
        );
    }

    #[test]
    fn text_wraps_between_words() {
        assert_eq!(wrapped("one two  three", 7), "one two\nthree");
    }
}
