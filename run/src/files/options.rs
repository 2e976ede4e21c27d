//! What `hidewillow-files` is told.
use super::journal::Wrong;
use std::net::SocketAddr;

pub const HELP: &str = "\
Serves a folder to hidewillow-run.

Usage: hidewillow-files FOLDER               over standard input and output, as ssh starts it
       hidewillow-files --listen 127.0.0.1:PORT --secret-file FILE FOLDER
                                             at a port of this machine, to those who say the secret (for tests)

  -h, --help                                 prints this
  -V, --version                              prints the version

For tests:
  --delay-ms N          each request is answered so much later     --bandwidth BYTES  so many bytes a second each way
  --refuse-percent N    epochs are refused at random               --seed N           what the random ones depend on
  --die-at N            is killed at the Nth moment of its epochs  --boot TEXT        which run of the machine it takes this for
  --wrong no-sync|no-list|half                                     is a wrong server, which tests must find
";

#[derive(Clone, Debug, Default)]
pub struct Options {
    pub folder: String,
    pub listen: Option<SocketAddr>,
    pub secret_file: Option<String>,
    pub delay_ms: u64,
    pub bandwidth: Option<u64>,
    pub refuse_percent: u64,
    pub seed: u64,
    pub die_at: Option<u64>,
    pub boot: Option<String>,
    pub wrong: Option<Wrong>,
}

/// Reads the words of a command; an error says what is wrong with them.
pub fn read(words: impl IntoIterator<Item = String>) -> Result<Options, String> {
    let mut options = Options::default();
    let mut words = words.into_iter();
    while let Some(word) = words.next() {
        if !word.starts_with('-') {
            if !std::mem::replace(&mut options.folder, word).is_empty() {
                return Err("more than one folder".into());
            }
            continue;
        }
        let value = words.next().ok_or_else(|| format!("{word} is no option, or wants a value"))?;
        options.set(&word, value)?;
    }
    if options.folder.is_empty() {
        return Err("the folder is missing".into());
    }
    if options.listen.is_some() != options.secret_file.is_some() {
        return Err("--listen and --secret-file go together".into());
    }
    Ok(options)
}

impl Options {
    fn set(&mut self, word: &str, value: String) -> Result<(), String> {
        let wrong = || format!("{word} can't be {value}");
        let number = || value.parse::<u64>().map_err(|_| wrong());
        match word {
            "--listen" => {
                let address: SocketAddr = value.parse().map_err(|_| wrong())?;
                if !address.ip().is_loopback() {
                    return Err(format!("{address} is no address of this machine alone; over a network, use ssh"));
                }
                self.listen = Some(address);
            }
            "--secret-file" => self.secret_file = Some(value),
            "--delay-ms" => self.delay_ms = number()?,
            "--bandwidth" => self.bandwidth = Some(number()?.max(1)),
            "--refuse-percent" => self.refuse_percent = number()?,
            "--seed" => self.seed = number()?,
            "--die-at" => self.die_at = Some(number()?),
            "--boot" => self.boot = Some(value),
            "--wrong" => {
                self.wrong = Some(match value.as_str() {
                    "no-sync" => Wrong::NoSync,
                    "no-list" => Wrong::NoList,
                    "half" => Wrong::Half,
                    _ => return Err(wrong()),
                });
            }
            _ => return Err(format!("{word} is no option")),
        }
        Ok(())
    }
}
