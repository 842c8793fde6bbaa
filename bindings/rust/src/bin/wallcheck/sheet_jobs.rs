//! What is asked of sheets alone: to read them, their names, the contracted tree, the move to the other edition.

use crate::answer::Answer;
use crate::asked::Asked;
use crate::csv;
use crate::files::Files;
use crate::stop::Stop;
use crate::words;
use std::fmt::Write as _;

pub fn read(asked: &Asked) -> Result<Answer, Stop> {
    let files = Files::asked(asked)?;
    if asked.has("--names") {
        return names(files).map(Answer::text);
    }
    let read = kressedach::read(files.sheets()).map_err(|refusal| files.refused(refusal))?;
    let numbers = format!("{},{},{},{}", read.names, read.leaves, read.formula.start, read.formula.end);
    Ok(Answer::text(format!("names,leaves,first,past\n{numbers}\n")))
}

pub fn moved(asked: &Asked) -> Result<Answer, Stop> {
    let files = Files::asked(asked)?;
    kressedach::move_sheet(files.sheets()).map(Answer::sheet).map_err(|refusal| files.refused(refusal))
}

fn names(files: Files) -> Result<String, Stop> {
    let mut text = String::from("shape,name\n");
    for (shape, name) in files.names()?.iter().enumerate() {
        let _ = writeln!(text, "{shape},{}", csv::quoted(name));
    }
    Ok(text)
}

fn size(files: Files) -> Result<String, Stop> {
    let size = kressedach::build(files.sheets()).map_err(|refusal| files.refused(refusal))?.size;
    Ok(format!("leaves,nodes,rounds,height\n{},{},{},{}\n", size.leaves, size.nodes, size.rounds, size.height))
}

pub fn list(asked: &Asked) -> Result<Answer, Stop> {
    let files = Files::asked(asked)?;
    if asked.has("--size") {
        return size(files).map(Answer::text);
    }
    let names = files.names()?;
    let dwarf = kressedach::build(files.sheets()).map_err(|refusal| files.refused(refusal))?;
    let mut text = String::from("node,kind,first,second,meaning\n");
    for (number, node) in dwarf.nodes.iter().enumerate() {
        let meaning = csv::quoted(&words::of_node(node, &names)).into_owned();
        let _ = writeln!(text, "{number},{},{},{},{meaning}", node.kind.number(), node.first, node.second);
    }
    Ok(Answer::text(text))
}
