//! The commands as a man page, and as a completion for bash.

use super::{usage, COMMANDS};

/// The man page, in the macros of man.
pub fn man() -> String {
    let version = env!("CARGO_PKG_VERSION");
    let mut page = format!(
        ".\\\" Written by 'hub help --man'.\n.TH HUB 1 \"\" \"hub {version}\" \"Kozhimbur\"\n\
         .SH NAME\nhub \\- the tool for people who write programs for chess-clock hubs\n\
         .SH SYNOPSIS\n.B hub\n.I COMMAND\n[words and options]\n.SH DESCRIPTION\n\
         A program is a text, an outline of nodes or the bytes of its nodes; it is compiled to a\n\
         netlist of gates, delays and latches, and run instant by instant. Every rule of the\n\
         language is asked of the proved product; the tool reads, explains and shows.\n\
         Every command takes\n.BR \\-\\-json ,\nand prints one value then.\n.SH COMMANDS\n"
    );
    for command in COMMANDS {
        let about = escaped(command.about);
        page += &format!(".TP\n.B {}\n{about}.\n", escaped(&usage(command)));
        for line in command.more.lines() {
            let shown = escaped(line.trim_start());
            // What is indented is an example, on a line of its own.
            page += &match line.starts_with(' ') {
                true => format!(".br\n\\ \\ {shown}\n.br\n"),
                false => format!("{shown}\n"),
            };
        }
        page += &format!(".IP\nExample:\n.B {}\n", escaped(command.example));
    }
    page + ".SH EXIT STATUS\n0 ended or done, 1 refused, failed or denied, 2 open, 64 wrong usage or a\n\
        file that can't be had, 70 a fault of the tool.\n.SH ENVIRONMENT\n.TP\n.B NO_COLOR\n\
        If it is set, nothing is coloured; without it colours are used on a terminal.\n\
        .SH SEE ALSO\ndocs/LANGUAGE.md, the page on the language; docs/JSON.md, what scripts get.\n"
}

/// A line as the macros take it.
fn escaped(line: &str) -> String {
    let line = line.replace('\\', "\\e").replace('-', "\\-");
    match line.starts_with(['.', '\'']) {
        true => format!("\\&{line}"),
        false => line,
    }
}

/// The completion: commands, their options, and files.
pub fn bash() -> String {
    let names: Vec<&str> = COMMANDS.iter().map(|command| command.name).collect();
    let names = names.join(" ");
    let mut options = String::new();
    for command in COMMANDS {
        let own = command.options.names().join(" ");
        options += &format!("        {}) options='{own}' ;;\n", command.name);
    }
    format!(
        "# Completion of hub for bash, written by 'hub help --bash': source this file.\n\
         _hub() {{\n    \
             local word=${{COMP_WORDS[COMP_CWORD]}} options=''\n    \
             if [ \"$COMP_CWORD\" -eq 1 ]; then\n        \
                 mapfile -t COMPREPLY < <(compgen -W '{names}' -- \"$word\")\n        \
                 return\n    \
             fi\n    \
             case ${{COMP_WORDS[1]}} in\n{options}    \
             esac\n    \
             if [ \"${{COMP_WORDS[COMP_CWORD-1]}}\" = --as ]; then\n        \
                 options='text short outline program netlist'\n    \
             elif [ \"${{COMP_WORDS[1]}}\" = help ] && [ \"$COMP_CWORD\" -eq 2 ]; then\n        \
                 options=\"$options {names}\"\n    \
             elif [ \"${{word#-}}\" = \"$word\" ]; then\n        \
                 mapfile -t COMPREPLY < <(compgen -f -- \"$word\")\n        \
                 return\n    \
             fi\n    \
             mapfile -t COMPREPLY < <(compgen -W \"$options\" -- \"$word\")\n\
         }}\n\
         complete -o filenames -F _hub hub ./hub\n"
    )
}
