//! The arguments of the tools: options with a value, as `--name VALUE` or `--name=VALUE`, and names.

pub struct Options {
    given: Vec<(String, String)>,
    /// What is no option, in order.
    pub names: Vec<String>,
}

impl Options {
    /// `known` are the options that the tool has. Everything after `--` is a name.
    pub fn read(arguments: impl IntoIterator<Item = String>, known: &[&str]) -> Result<Options, String> {
        let mut options = Options { given: Vec::new(), names: Vec::new() };
        let mut rest = arguments.into_iter();
        while let Some(argument) = rest.next() {
            if argument == "--" {
                options.names.extend(rest);
                break;
            }
            if !argument.starts_with('-') {
                options.names.push(argument);
                continue;
            }
            let (name, value) = match argument.split_once('=') {
                Some((name, value)) => (name.to_string(), Some(value.to_string())),
                None => (argument, None),
            };
            if !known.contains(&name.as_str()) {
                return Err(format!("there is no option {name}"));
            }
            let value = value.or_else(|| rest.next()).ok_or_else(|| format!("{name} needs a value"))?;
            options.given.push((name, value));
        }
        Ok(options)
    }

    /// The last value given.
    pub fn value(&self, name: &str) -> Option<&str> {
        self.given.iter().rfind(|(given, _)| given == name).map(|(_, value)| value.as_str())
    }

    pub fn number(&self, name: &str, usual: u64) -> Result<u64, String> {
        self.value(name).map_or(Ok(usual), |text| text.parse().map_err(|_| format!("{name}: {text} is no number")))
    }

    /// A number that is not 0.
    pub fn count(&self, name: &str, usual: u64) -> Result<u64, String> {
        match self.number(name, usual)? {
            0 => Err(format!("{name}: 0 is too small")),
            count => Ok(count),
        }
    }
}

/// Whether only help is wanted.
pub fn wants_help(arguments: &[String]) -> bool {
    arguments.iter().take_while(|argument| *argument != "--").any(|argument| argument == "--help" || argument == "-h")
}

#[cfg(test)]
mod tests {
    use super::*;

    fn read(line: &str) -> Result<Options, String> {
        Options::read(line.split_whitespace().map(str::to_string), &["--seed", "--oracle"])
    }

    #[test]
    fn values_and_names() {
        let options = read("one --seed 3 --oracle=a=b two --seed=4 -- --seed").unwrap();
        assert_eq!(options.names, ["one", "two", "--seed"]);
        assert_eq!(options.value("--oracle"), Some("a=b"));
        assert_eq!(options.number("--seed", 1), Ok(4));
        assert_eq!(read("").unwrap().number("--seed", 1), Ok(1));
    }

    #[test]
    fn mistakes() {
        let mistake = |line: &str| read(line).err().unwrap_or_default();
        assert_eq!(mistake("--sead 3"), "there is no option --sead");
        assert_eq!(mistake("--seed"), "--seed needs a value");
        assert_eq!(read("--seed x").unwrap().number("--seed", 1), Err("--seed: x is no number".to_string()));
        assert_eq!(read("--seed 0").unwrap().count("--seed", 1), Err("--seed: 0 is too small".to_string()));
    }

    #[test]
    fn help() {
        let wants = |line: &str| wants_help(&line.split_whitespace().map(str::to_string).collect::<Vec<_>>());
        assert!(wants("--seed 3 --help") && wants("-h"));
        assert!(!wants("--seed 3") && !wants("-- --help"));
    }
}
