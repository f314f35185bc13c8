//! Comparing with a file of vectors.

use crate::hex::from_hex;
use crate::judge::Judge;
use crate::lines::judged_line;

/// Compares every line of the text; says how many there were, or gives the
/// lines that differ.
pub fn compare_vectors(judge: &Judge, text: &str) -> Result<usize, String> {
    let vectors = text.lines().enumerate();
    let mut compared = 0;
    let mut differing = Vec::new();
    for (index, line) in vectors.filter(|(_, line)| !line.starts_with('#')) {
        compared += 1;
        if let Err(difference) = compare_vector(judge, line) {
            differing.push(format!("line {}: {difference}", index + 1));
        }
    }
    if differing.is_empty() {
        Ok(compared)
    } else {
        let count = differing.len();
        let all = differing.join("\n");
        Err(format!("{all}\n{count} of {compared} vectors differ"))
    }
}

fn compare_vector(judge: &Judge, line: &str) -> Result<(), String> {
    let (column, expected) = line.split_once('\t').ok_or("no tab")?;
    let digits = if column == "-" { "" } else { column };
    let log = from_hex(digits).ok_or("the log is not hexadecimal")?;
    let (_, own) = judged_line(judge, &log);
    if own == expected {
        Ok(())
    } else {
        Err(format!("\nown: {own}\nfile: {expected}"))
    }
}

#[cfg(test)]
mod tests {
    use super::*;

    const OUTSIDE: &str = include_str!("../vectors/order-04.tsv");

    #[test]
    fn outside_vectors_agree() {
        assert_eq!(compare_vectors(&Judge::default(), OUTSIDE), Ok(275));
    }

    #[test]
    fn a_wrong_vector_is_found() {
        let right = "0202000000\taccepted 1 0 0\t0202000000\tfields=1 mallocs=0 live=0";
        assert_eq!(compare_vectors(&Judge::default(), right), Ok(1));
        let wrong = right.replace("fields=1", "fields=2");
        assert!(compare_vectors(&Judge::default(), &wrong).is_err());
    }
}
