//! The server of a folder: `hidewillow-files FOLDER`, over standard input and output.
use hidewillow_run::asked;
use hidewillow_run::files::options::{self, Options};
use hidewillow_run::files::{journal, session};
use nix::sys::resource::{getrlimit, setrlimit, Resource};
use nix::sys::stat::{umask, Mode};
use std::io;
use std::net::TcpListener;
use std::process::ExitCode;
use std::sync::Arc;
use std::thread;

fn serve(options: Options) -> io::Result<()> {
    std::fs::metadata(&options.folder).map_err(|it| io::Error::new(it.kind(), format!("{}: {it}", options.folder)))?;
    // Modes are as clients say, and an epoch holds each folder that it changes open.
    umask(Mode::empty());
    let (_, most) = getrlimit(Resource::RLIMIT_NOFILE)?;
    setrlimit(Resource::RLIMIT_NOFILE, most, most)?;
    if let Some(moment) = options.die_at {
        journal::die_at(moment);
    }
    match (options.listen, &options.secret_file) {
        (Some(address), Some(file)) => {
            let secret = std::fs::read(file)?;
            listen(TcpListener::bind(address)?, options, secret)
        }
        _ => session::serve(&options, io::stdin(), io::stdout(), b""),
    }
}

fn listen(listener: TcpListener, options: Options, secret: Vec<u8>) -> io::Result<()> {
    eprintln!("listening on {}", listener.local_addr()?);
    let shared = Arc::new((options, secret));
    for stream in listener.incoming() {
        let (stream, shared) = (stream?, shared.clone());
        stream.set_nodelay(true)?;
        let reader = stream.try_clone()?;
        thread::spawn(move || {
            if let Err(error) = session::serve(&shared.0, reader, stream, &shared.1) {
                eprintln!("hidewillow-files: {error}");
            }
        });
    }
    Ok(())
}

fn main() -> ExitCode {
    if let Some(text) = asked(std::env::args_os().nth(1), "hidewillow-files", options::HELP) {
        print!("{text}");
        return ExitCode::SUCCESS;
    }
    let options = match options::read(std::env::args().skip(1)) {
        Ok(options) => options,
        Err(why) => {
            eprintln!("hidewillow-files: {why}\nhidewillow-files --help tells all options");
            return ExitCode::from(2);
        }
    };
    match serve(options) {
        Ok(()) => ExitCode::SUCCESS,
        Err(error) => {
            eprintln!("hidewillow-files: {error}");
            ExitCode::FAILURE
        }
    }
}
