//! What the comparisons take from the command line, and how they end.

use std::env;
use std::process::exit;

/// The words of the command line, `--wrong` apart, and the models that are compared.
pub struct Options<M> {
    pub plain: Vec<String>,
    wrong: Option<String>,
    usage: &'static str,
    model: M,
    wrong_models: Vec<(&'static str, M)>,
}

impl<M: Copy> Options<M> {
    /// Reads the command line. The wrong models are those that `--wrong` can name.
    pub fn read(usage: &'static str, model: M, wrong_models: Vec<(&'static str, M)>) -> Options<M> {
        let mut options = Options {
            plain: Vec::new(),
            wrong: None,
            usage,
            model,
            wrong_models,
        };
        for argument in env::args().skip(1) {
            if argument == "--wrong" {
                options.wrong = Some(options.wrong_models[0].0.to_string());
            } else if let Some(name) = argument.strip_prefix("--wrong=") {
                options.wrong = Some(name.to_string());
            } else if argument.starts_with("--") {
                options.refuse();
            } else {
                options.plain.push(argument);
            }
        }
        options
    }

    /// Says how the program is called, and ends it.
    pub fn refuse(&self) -> ! {
        let names: Vec<&str> = self.wrong_models.iter().map(|&(name, _)| name).collect();
        eprintln!("{} [--wrong | --wrong=NAME | --wrong=all]", self.usage);
        eprintln!("wrong models: {}", names.join(", "));
        exit(2)
    }

    /// The program that is named first, before at most two numbers.
    pub fn program(&self) -> &str {
        match &self.plain[..] {
            [program] | [program, _] | [program, _, _] => program,
            _ => self.refuse(),
        }
    }

    /// The number in this place of the command line, if one stands there.
    pub fn number(&self, at: usize, otherwise: u64) -> u64 {
        match self.plain.get(at) {
            Some(text) => text.parse().unwrap_or_else(|_| self.refuse()),
            None => otherwise,
        }
    }

    /// Compares with the model, with the wrong model that was named, or with every
    /// wrong one, and ends the program. `differs` is true where a difference was found;
    /// the excused models are those that it cannot find out.
    pub fn compare(&self, excused: &[&str], differs: impl Fn(M) -> bool) -> ! {
        let failed = match self.wrong.as_deref() {
            None => differs(self.model),
            Some("all") => !self.finds_all(excused, differs),
            Some(name) => match self.wrong_models.iter().find(|&&(each, _)| each == name) {
                Some(&(_, model)) => differs(model),
                None => self.refuse(),
            },
        };
        exit(i32::from(failed))
    }

    fn finds_all(&self, excused: &[&str], differs: impl Fn(M) -> bool) -> bool {
        let mut missed = Vec::new();
        for &(name, model) in &self.wrong_models {
            println!("== wrong model {name}");
            if !differs(model) && !excused.contains(&name) {
                missed.push(name);
            }
        }
        let tried = self.wrong_models.len() - excused.len();
        match missed.is_empty() {
            true => println!("== all {tried} wrong models that can be found out were found out"),
            false => println!("== NOT found out: {}", missed.join(", ")),
        }
        missed.is_empty()
    }
}
