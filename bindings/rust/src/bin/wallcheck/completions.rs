//! Completions for shells, made from the table.

use crate::answer::Answer;
use crate::asked::Asked;
use crate::stop::{no_such, Stop};
use crate::table::{is_file, Command, Opt, COMMANDS, NO_FILES, OPTIONS};

pub const SHELLS: &[&str] = &["bash", "zsh", "fish"];

pub fn completions(asked: &Asked) -> Result<Answer, Stop> {
    match asked.words()[0] {
        b"bash" => Ok(Answer::text(bash())),
        b"zsh" => Ok(Answer::text(zsh())),
        b"fish" => Ok(Answer::text(fish())),
        other => Err(no_such("shell", other)),
    }
}

/// What may stand for a word that is no file.
fn choices(word: &str) -> &'static [&'static str] {
    NO_FILES.iter().find(|(other, _)| *other == word).map_or(&[], |(_, choices)| *choices)
}

/// The options that stand without a command.
fn alone() -> impl Iterator<Item = &'static Opt> {
    OPTIONS.iter().filter(|option| option.commands.is_empty() || option.names.contains(&"--help"))
}

fn names<'a>(options: impl Iterator<Item = &'a Opt>) -> String {
    options.flat_map(|option| option.names.iter().copied()).collect::<Vec<_>>().join(" ")
}

pub fn bash() -> String {
    let commands: Vec<&str> = COMMANDS.iter().map(|command| command.name).collect();
    let mut of_commands = String::new();
    let mut of_values = String::new();
    for command in COMMANDS {
        let words: Vec<&str> = command.takes.iter().flat_map(|word| choices(word)).copied().collect();
        of_commands += &format!("        {}) options='{}' words='{}' ;;\n", command.name, names(command.options()), words.join(" "));
        for (option, value) in command.options().filter_map(|option| Some((option.name(), option.value?))) {
            let (words, files) = (choices(value).join(" "), u8::from(is_file(value)));
            of_values += &format!("        {}:{option}) options='' words='{words}' files={files} ;;\n", command.name);
        }
    }
    BASH.replace("@ALONE@", &names(alone()))
        .replace("@EVERY@", &commands.join("|"))
        .replace("@NAMES@", &commands.join(" "))
        .replace("        @COMMANDS@\n", &of_commands)
        .replace("        @VALUES@\n", &of_values)
}

const BASH: &str = include_str!("help/completions.bash");

pub fn zsh() -> String {
    let quoted = |text: &str| text.replace('\'', "'\\''").replace(':', "\\:").replace('[', "\\[").replace(']', "\\]");
    let action = |word: &str| match (is_file(word), choices(word)) {
        (true, _) => "_files".into(),
        (false, []) => " ".into(),
        (false, choices) => format!("({})", choices.join(" ")),
    };
    let option = |option: &Opt| {
        let value = option.value.map_or(String::new(), |value| format!(":{value}:{}", action(value)));
        let mark = if option.value.is_some() && option.name().starts_with("--") { "=" } else { "" };
        option.names.iter().map(|name| format!(" '{name}{mark}[{}]{value}'", quoted(option.about))).collect::<String>()
    };
    let of = |command: &Command| {
        let words = command.takes.iter().enumerate().map(|(k, word)| {
            let name = word.trim_matches(['[', ']']);
            format!(" '{}{}:{name}:{}'", k + 1, if name == *word { "" } else { ":" }, action(word))
        });
        let options = command.options().map(option).collect::<String>();
        format!("            {}) _arguments{options}{} ;;\n", command.name, words.collect::<String>())
    };
    let described: String = COMMANDS.iter().map(|command| format!("        '{}:{}'\n", command.name, quoted(command.about))).collect();
    ZSH.replace("        @DESCRIBED@\n", &described)
        .replace(" @ALONE@", &alone().map(option).collect::<String>())
        .replace("            @COMMANDS@\n", &COMMANDS.iter().map(of).collect::<String>())
}

const ZSH: &str = include_str!("help/completions.zsh");

pub fn fish() -> String {
    let quoted = |text: &str| format!("'{}'", text.replace('\\', "\\\\").replace('\'', "\\'"));
    let mut text = String::from("# Completions of wallcheck for fish.\ncomplete -c wallcheck -e\n");
    let flags = |option: &Opt| {
        let names: Vec<String> = option
            .names
            .iter()
            .map(|name| name.strip_prefix("--").map_or(format!("-s {}", &name[1..]), |long| format!("-l {long}")))
            .collect();
        let value = match option.value {
            None => String::new(),
            Some(value) if is_file(value) => " -r -F".into(),
            Some(value) => format!(" -x -a {}", quoted(&choices(value).join(" "))),
        };
        format!("{}{value} -d {}", names.join(" "), quoted(option.about))
    };
    for option in alone() {
        text += &format!("complete -c wallcheck -n __fish_use_subcommand {}\n", flags(option));
    }
    for command in COMMANDS {
        let seen = format!("complete -c wallcheck -n '__fish_seen_subcommand_from {}'", command.name);
        text += &format!("complete -c wallcheck -f -n __fish_use_subcommand -a {} -d {}\n", command.name, quoted(command.about));
        for option in command.options() {
            text += &format!("{seen} {}\n", flags(option));
        }
        for word in command.takes.iter().filter(|word| !is_file(word)) {
            text += &format!("{seen} -f -a {}\n", quoted(&choices(word).join(" ")));
        }
    }
    text
}
