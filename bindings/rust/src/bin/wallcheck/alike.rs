//! Table, help, manual page and completions have the same commands and options.

use crate::table::{named, Command, COMMANDS, OPTIONS};
use crate::{completions, help, man};
use std::collections::BTreeSet;

type Names<'a> = BTreeSet<&'a str>;

fn of_table(command: &Command) -> Names<'static> {
    command.options().flat_map(|option| option.names.iter().copied()).collect()
}

/// The words of a text that are options, cut off at what is no letter of one.
fn options(text: &str) -> Names<'_> {
    let words = text.split(|letter: char| letter.is_whitespace() || "'\",;:()[].=".contains(letter));
    words
        .filter(|word| {
            word.len() > 1 && word.starts_with('-') && word[1..].starts_with(|letter: char| letter == '-' || letter.is_alphabetic())
        })
        .collect()
}

/// What is said from a mark on up to another.
fn between<'a>(text: &'a str, from: &str, to: &str) -> &'a str {
    let rest = text.split_once(from).unwrap_or_else(|| panic!("no {from:?} in {text}")).1;
    rest.split_once(to).map_or(rest, |(part, _)| part)
}

fn one_line(text: &str) -> String {
    text.split_whitespace().collect::<Vec<_>>().join(" ")
}

#[test]
fn the_help_is_the_tables() {
    let overview = help::of(None);
    assert!(overview.lines().count() <= 60 && overview.lines().all(|line| line.len() <= 80), "{overview}");
    let listed: Vec<&str> = overview.lines().filter_map(|line| line.strip_prefix("  wallcheck ")?.split(' ').next()).collect();
    let due: Vec<&str> = COMMANDS.iter().map(|command| command.name).chain(["--help"]).collect();
    assert_eq!(listed, due);
    for command in COMMANDS {
        assert!(one_line(&overview).contains(&one_line(&format!("{} {}", command.takes.join(" "), command.about))), "{}", command.name);
        let page = help::of(Some(command));
        assert!(page.starts_with(&help::usage(command)) && page.lines().all(|line| line.len() <= 80), "{page}");
        let list = between(&page, "\nOptions:\n\n", "\n\n");
        let heads: String = list.lines().filter_map(|line| line.strip_prefix("  -")).map(|line| format!("-{line}\n")).collect();
        let heads: Names = heads.lines().flat_map(|line| line.split("  ").next()).flat_map(options).collect();
        assert_eq!(heads, of_table(command), "{}", command.name);
        for option in command.options() {
            assert!(one_line(list).contains(&format!("{} {}", help::written(option), option.about)), "{} {}", command.name, option.name());
        }
        // what a page speaks of is there
        let known: Names = OPTIONS.iter().flat_map(|option| option.names.iter().copied()).chain(["--"]).collect();
        assert!(options(&page).is_subset(&known), "{}: {:?}", command.name, options(&page).difference(&known));
        assert!(!help::about(command.name).is_empty());
    }
    assert!(help::PARTS.iter().flat_map(|(_, commands)| *commands).all(|command| named(command.as_bytes()).is_some()));
}

#[test]
fn the_manual_page_is_the_tables() {
    let page = man::page().replace("\\-", "-");
    for command in COMMANDS {
        let usage = help::usage(command);
        assert!(between(&page, ".SH SYNOPSIS\n", ".SH").contains(&usage));
        let section = between(&page, &format!("\n.SS {usage}"), "\n.S");
        let heads: Names = section.lines().filter_map(|line| line.strip_prefix(".B ")).flat_map(options).collect();
        assert_eq!(heads, of_table(command), "{}", command.name);
        for option in command.options() {
            let about = option.about.to_string();
            assert!(section.contains(&format!(".B {}\n{about}", help::written(option))), "{} {}", command.name, option.name());
        }
    }
    let requests = [".TH", ".SH", ".SS", ".TP", ".PP", ".B ", ".nf", ".fi"];
    let strange = page.lines().find(|line| line.starts_with(['.', '\'']) && !requests.iter().any(|request| line.starts_with(request)));
    assert_eq!(strange, None);
}

#[test]
fn the_completions_are_the_tables() {
    let [bash, zsh, fish] = [completions::bash(), completions::zsh(), completions::fish()];
    for command in COMMANDS {
        let (name, due) = (command.name, of_table(command));
        let words: Names = between(&bash, &format!("\n        {name}) options='"), "'").split(' ').collect();
        assert_eq!(words, due, "bash {name}");
        let line = between(&zsh, &format!("\n            {name}) _arguments"), "\n");
        let words: Names = line.split(" '").filter(|word| word.starts_with('-')).filter_map(|word| word.split(['=', '[']).next()).collect();
        assert_eq!(words, due, "zsh {name}");
        let seen = format!("'__fish_seen_subcommand_from {name}' -");
        let flags: BTreeSet<String> = fish.lines().filter_map(|line| line.split_once(&seen)).flat_map(|(_, rest)| flags(rest)).collect();
        assert_eq!(flags, due.iter().map(|name| name.to_string()).collect(), "fish {name}");
    }
    for text in [&bash, &zsh, &fish] {
        let filled = text.split('@').all(|part| !part.starts_with(|letter: char| letter.is_uppercase()));
        assert!(filled && COMMANDS.iter().all(|command| text.contains(command.name)));
    }
}

/// The options of a line of fish, after a first minus.
fn flags(line: &str) -> Vec<String> {
    let words: Vec<&str> = line.split(" -d '").next().unwrap_or_default().split(' ').collect();
    let long = |pair: &[&str]| match pair[0].trim_start_matches('-') {
        "l" => Some(format!("--{}", pair[1])),
        "s" => Some(format!("-{}", pair[1])),
        _ => None,
    };
    words.windows(2).filter_map(long).collect()
}
