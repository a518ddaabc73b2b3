//! How commands are called: their arguments and options, what is missing, and help.

use prep_tools::text::nearest::nearest;
use prep_tools::text::trouble::Trouble;

/// How a command ended.
#[derive(Clone, Copy, PartialEq, Eq, Debug)]
pub enum Outcome {
    /// As it should; exit code 0.
    Fine,
    /// With something that a script should notice; exit code 1.
    Noticed,
    /// It couldn't do its work, and has said why; exit code 2.
    Failed,
}

/// Why a command couldn't do its work; exit code 2.
pub enum Failure {
    /// In words.
    Words(String),
    /// A file isn't a sheet.
    Trouble(Trouble),
}

impl From<String> for Failure {
    fn from(words: String) -> Failure {
        Failure::Words(words)
    }
}

impl From<Trouble> for Failure {
    fn from(trouble: Trouble) -> Failure {
        Failure::Trouble(trouble)
    }
}

/// What a command does with what is given.
pub type Run = fn(&Given) -> Result<Outcome, Failure>;

/// One command.
pub struct Command {
    /// Its name.
    pub name: &'static str,
    /// The ways to call it: the names of the arguments.
    pub forms: &'static [&'static [&'static str]],
    /// Its options.
    pub options: &'static [Switch],
    /// What it does, in one line.
    pub about: &'static str,
    /// What else there is to say about it.
    pub more: &'static str,
    /// Does it.
    pub run: Run,
}

/// An option of a command.
pub struct Switch {
    /// Its name, with two dashes.
    pub name: &'static str,
    /// The name of its value, if it takes one.
    pub value: Option<&'static str>,
    /// What it does.
    pub about: &'static str,
}

/// What is given to a command.
#[derive(Default)]
pub struct Given<'a> {
    /// The arguments; their number is that of one of the forms.
    pub arguments: Vec<&'a str>,
    /// The options, each with its value after it if it takes one.
    pub options: Vec<&'a str>,
}

impl<'a> Given<'a> {
    /// An argument; there are as many as the form has.
    pub fn at(&self, index: usize) -> &'a str {
        self.arguments[index]
    }

    /// Whether an option is given.
    pub fn has(&self, option: &str) -> bool {
        self.options.contains(&option)
    }

    /// An argument that is a number.
    pub fn number<T: std::str::FromStr>(&self, index: usize, name: &str) -> Result<T, String> {
        let word = self.at(index);
        word.parse()
            .map_err(|_| format!("{name} isn't a number that fits: {word}"))
    }
}

impl Command {
    /// Reads what is given to the command.
    pub fn read<'a>(&self, words: &[&'a str]) -> Result<Given<'a>, String> {
        let mut given = Given::default();
        let mut words = words.iter();
        while let Some(word) = words.next() {
            if !word.starts_with("--") {
                given.arguments.push(word);
                continue;
            }
            given.options.push(word);
            if let Some(value) = self.option(word)?.value {
                let missing = || self.wrong(&format!("{value} is missing after {word}"));
                given.options.push(words.next().ok_or_else(missing)?);
            }
        }
        self.count(&given.arguments)?;
        Ok(given)
    }

    fn option(&self, word: &str) -> Result<&Switch, String> {
        let found = self.options.iter().find(|option| option.name == word);
        found.ok_or_else(|| {
            let hint = perhaps(word, self.options.iter().map(|option| option.name));
            self.wrong(&format!("there is no option {word}{hint}"))
        })
    }

    /// Whether there are as many arguments as some form has; if not, the first that is missing or too much.
    fn count(&self, arguments: &[&str]) -> Result<(), String> {
        let given = arguments.len();
        if self.forms.iter().any(|form| form.len() == given) {
            return Ok(());
        }
        match self.forms.iter().find(|form| form.len() > given) {
            Some(form) => Err(self.wrong(&format!("{} is missing", form[given]))),
            None => {
                let most = self.forms.iter().map(|form| form.len()).max().unwrap_or(0);
                Err(self.wrong(&format!("{} is one argument too many", arguments[most])))
            }
        }
    }

    /// What is wrong with the call, and how it should be.
    pub fn wrong(&self, what: &str) -> String {
        format!("{}: {what}\n{}", self.name, self.calls())
    }

    /// The ways to call the command, a line each.
    fn calls(&self) -> String {
        let calls: Vec<String> = self.forms.iter().map(|form| self.call(form)).collect();
        format!("  {}", calls.join("\n  "))
    }

    fn call(&self, form: &[&str]) -> String {
        let mut call = format!("prep-tools {}", self.name);
        for argument in form {
            call += &format!(" {argument}");
        }
        for Switch { name, value, .. } in self.options {
            let value = value.map(|value| format!(" {value}")).unwrap_or_default();
            call += &format!(" [{name}{value}]");
        }
        call
    }

    /// The help for this command.
    pub fn help(&self) -> String {
        let mut help = format!("{}\n\n{}\n", self.calls(), sentence(self.about));
        if !self.more.is_empty() {
            help += &format!("{}\n", self.more);
        }
        for option in self.options {
            let value = option.value.map(|value| format!(" {value}")).unwrap_or_default();
            help += &format!("\n  {}{value}: {}\n", option.name, option.about);
        }
        help
    }
}

/// A line as a sentence.
fn sentence(line: &str) -> String {
    let mut letters = line.chars();
    let first = letters.next().map(|first| first.to_uppercase().to_string());
    format!("{}{}.", first.unwrap_or_default(), letters.as_str())
}

/// A hint at the known word that was perhaps meant.
pub fn perhaps<'a>(word: &str, known: impl Iterator<Item = &'a str>) -> String {
    nearest(word, known).map_or(String::new(), |known| format!(", perhaps {known}"))
}

/// The help for all commands.
pub fn help(commands: &[Command]) -> String {
    let mut help = "\
A FILE holds a sheet: its text form, see TEXT-FORM.md, or its words, the sheet printer's input. Which of the two
it is, is told by what is in it. `-` is standard input, or standard output where something is written.

"
    .to_string();
    for command in commands {
        for (order, form) in command.forms.iter().enumerate() {
            let call = command.call(form);
            let about = if order == 0 { command.about } else { "" };
            help += format!("{call:<46} {about}").trim_end();
            help.push('\n');
        }
    }
    help + "\nprep-tools COMMAND --help tells more about a command, prep-tools --version which version this is.\n"
}
