//! `hidewillow-run --at PLACE [..] -- COMMAND ..`: runs a command over a folder of another machine.
use hidewillow_run::asked;
use hidewillow_run::run::options::{Options, HELP};

fn main() {
    if let Some(text) = asked(std::env::args_os().nth(1), "hidewillow-run", HELP) {
        print!("{text}");
        return;
    }
    let status = match Options::parse(std::env::args_os().skip(1)) {
        Ok(options) => hidewillow_run::run::run(options),
        Err(why) => {
            eprintln!("hidewillow-run: {why}\nhidewillow-run --help tells all options");
            2
        }
    };
    std::process::exit(status);
}
