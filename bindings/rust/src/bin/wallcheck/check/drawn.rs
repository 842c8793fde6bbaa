//! Whether a drawing has the shapes that a page names, and names no others.

use crate::drawing::Drawing;
use crate::faults::Faults;
use crate::page::unused;
use crate::shown;
use crate::words::letter_by_letter;
use kressedach::Formula;

/// The number of each shape's name; or what is wrong with the drawing, all of it.
pub fn numbers(drawing: &Drawing, names: &[&str], formula: &Formula) -> Result<Vec<u16>, Faults> {
    if drawing.by != "name" {
        return Err(format!("'check' goes by names: the heading is to have name, and it has {}", drawing.by).into());
    }
    let number = |label: &String| names.iter().position(|name| name == label);
    let (mut numbers, mut wrong) = (Vec::new(), Vec::new());
    for (label, row) in drawing.labels.iter().zip(&drawing.rows) {
        match number(label) {
            Some(number) => numbers.push(number as u16),
            None => wrong.push(format!("row {row}: the page has no name {}; {}", shown::quoted(label), letter_by_letter(names, label))),
        }
    }
    let never = unused(formula, names.len());
    let lacks = (0..names.len()).filter(|shape| !never.contains(shape) && !numbers.contains(&(*shape as u16)));
    wrong.extend(lacks.map(|shape| format!("{} is not there, and the formula uses it", names[shape])));
    wrong.into_iter().collect::<Faults>().or(numbers)
}

/// What is no fault and worth a word: shapes that the formula never uses, and names that have no shape.
pub fn remarks(drawing: &Drawing, numbers: &[u16], names: &[&str], formula: &Formula) -> Vec<String> {
    let never = unused(formula, names.len());
    let (drawn, without): (Vec<usize>, Vec<usize>) = never.into_iter().partition(|shape| numbers.contains(&(*shape as u16)));
    let row = |shape: usize| numbers.iter().position(|number| usize::from(*number) == shape).map_or(0, |at| drawing.rows[at]);
    let mut remarks: Vec<String> =
        drawn.iter().map(|shape| format!("row {}: the formula never uses {}", row(*shape), names[*shape])).collect();
    if !without.is_empty() {
        let without: Vec<&str> = without.into_iter().map(|shape| names[shape]).collect();
        remarks.push(format!("outside everywhere, without a shape: {}", without.join(" ")));
    }
    remarks
}
