//! Two makes of `replay` on one script.

use crate::scripts::Script;
use crate::suite::Verdict;
use soak::process;
use soak::sums::Sums;
use soak::table::Table;
use std::path::Path;

/// What the second program, the product, answered to a script that both
/// answer alike.
pub fn answers_alike(programs: [&Path; 2], script: &Script) -> Result<Vec<Vec<u8>>, String> {
    let input = joined(&script.0);
    let [library, product] = process::run_both(programs, &input);
    for (name, outcome) in [("library", &library), ("product", &product)] {
        if let Some(trouble) = &outcome.trouble {
            return Err(format!("the {name}'s program {trouble}"));
        }
    }
    let [library, product] = [library, product].map(|outcome| split(&outcome.output));
    let pairs = library.iter().zip(&product).zip(&script.0);
    for ((wanted, got), line) in pairs {
        if wanted != got {
            return Err(format!(
                "to {}\nthe library answers {}\nthe product answers {}",
                shown(line),
                shown(wanted),
                shown(got)
            ));
        }
    }
    let wanted = script.0.len();
    if library.len() != wanted || product.len() != wanted {
        let (library, product) = (library.len(), product.len());
        return Err(format!(
            "{wanted} lines, but {library} answers of the library and {product} of the product"
        ));
    }
    Ok(product)
}

/// What the product answered, in figures.
#[derive(Clone, Debug, Default)]
pub struct Answered {
    /// How often each answer was given.
    pub table: Table,
    /// What the looks at the sum of what waits were behind.
    pub sums: Sums,
}

/// Both programs answer alike; the product's answers are counted.
pub fn alike(programs: [&Path; 2], script: &Script, answered: &mut Answered) -> Verdict {
    let answers = answers_alike(programs, script)?;
    for (line, answer) in script.0.iter().zip(&answers) {
        let word = line.split(|&octet| octet == b'\t').next();
        answered.table.count(word.unwrap_or_default(), answer);
    }
    answered.sums.see_all(&script.0, &answers);
    Ok(())
}

/// Every other script lacks its last line end.
fn joined(lines: &[Vec<u8>]) -> Vec<u8> {
    let mut input = lines.join(&b'\n');
    let ended = lines.len().is_multiple_of(2) || lines.last().is_some_and(Vec::is_empty);
    if ended && !lines.is_empty() {
        input.push(b'\n');
    }
    input
}

fn split(output: &[u8]) -> Vec<Vec<u8>> {
    match output.strip_suffix(b"\n") {
        None if output.is_empty() => Vec::new(),
        None => vec![b"an answer without its line end".to_vec()],
        Some(whole) => whole.split(|&o| o == b'\n').map(<[u8]>::to_vec).collect(),
    }
}

/// A line, cut where it would fill a page.
fn shown(line: &[u8]) -> String {
    let text = line.escape_ascii().to_string().replace("\\t", "\t");
    match text.char_indices().nth(400) {
        Some((cut, _)) => format!("{} ...", &text[..cut]),
        None => text,
    }
}
