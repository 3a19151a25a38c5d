//! Answers in gpg's place whether signatures are good, and how far their signers are trusted: by the engine, from the
//! user's own trust roots. Programs that ask gpg find it under the names `gpg`, `gpgv` and `gpgconf`, and those that
//! ask sopv as `tukyamid-sopv`. Whatever isn't verified here is done by the real programs (docs/CLIENTS.md).

mod answer;
mod blocks;
mod callers;
mod colons;
mod config;
mod connecting;
mod contents;
mod examine;
mod homes;
mod human;
mod inputs;
mod listed;
mod listing;
mod names;
mod options;
mod real;
mod relay;
mod service;
mod shim;
mod socket;
mod sopv;
mod sources;
mod starting;
mod status;
mod streams;
mod table;
mod trust;
mod verifying;
mod way;
mod whom;
mod words;

use std::ffi::OsString;
use std::io::Write;
use std::process::ExitCode;

use answer::Answer;
use config::{Config, Policy};
use examine::Code;
use inputs::Names;
use listing::Listing;
use names::Program;
use relay::Relay;
use sources::{rewound, Again};
use status::Status;
use streams::{open, Stream};
use verifying::Verifying;
use words::{Call, Command, Place};

const FATAL: u8 = 2;

fn main() -> ExitCode {
    let mut words = std::env::args_os();
    let program = Program::named(&words.next().unwrap_or_default());
    let words: Vec<OsString> = words.collect();
    ExitCode::from(run(program, &words))
}

fn run(program: Program, words: &[OsString]) -> u8 {
    let call = match program {
        Program::Gpg => Call::of_gpg(words),
        Program::Gpgv => Call::of_gpgv(words),
        Program::Gpgconf if shim::is_asked_for_programs(words) => {
            return shim::list_programs(words).unwrap_or_else(|error| fatal(&error.to_string()));
        }
        Program::Gpgconf => return become_real(program, words),
        Program::Sopv => return sopv::run(words),
    };
    match call.command {
        Command::Other => become_real(program, words),
        Command::ListKeys => list(&call, words),
        Command::Guess | Command::Verify | Command::Decrypt => verify(program, &call, words),
    }
}

fn list(call: &Call, words: &[OsString]) -> u8 {
    let (config, policy) = match settings(call) {
        Ok(settings) => settings,
        Err(why) => return fatal(&why),
    };
    let is_unread = call.foreign.as_ref().map_or(false, |name| name.starts_with('-'));
    if is_unread || homes::is_of_named_keyring(call, &config) {
        return become_real(Program::Gpg, words);
    }
    let run = |now| Listing::new(&config, &policy, now).run(words, call.has_colons);
    verifying::now().map_or_else(|why| fatal(&why), run)
}

fn verify(program: Program, call: &Call, words: &[OsString]) -> u8 {
    let (mut status, mut text) = match streams_of(call) {
        Ok(streams) => streams,
        Err(why) => return fatal(&why),
    };
    let mut answer = Answer { status: &mut status, text: &mut text };
    let settings = settings(call).and_then(|(config, policy)| Ok((config, policy, verifying::now()?)));
    let (config, policy, now) = match settings {
        Ok(settings) => settings,
        Err(why) => return refuse(&mut answer, &why),
    };
    let is_elsewhere = program == Program::Gpgv || homes::is_of_named_keyring(call, &config);
    let relay = |again: Again, answer: &mut Answer| match rewound(again) {
        Ok(again) => Relay { program, call, config: &config, policy: &policy, again, now }.run(answer),
        Err(error) => refuse(answer, &error.to_string()),
    };
    let exit = match &call.foreign {
        Some(what) if policy.is_strict => {
            refuse(&mut answer, &format!("your configuration is strict, and {what} isn't known here"))
        }
        None if is_elsewhere && policy.is_strict => relay(Again::new(), &mut answer),
        None if !is_elsewhere => {
            let done = Verifying { call, config: &config, policy: &policy, now }.run(&mut answer);
            done.unwrap_or_else(|again| relay(again, &mut answer))
        }
        _ => return become_real(program, words),
    };
    // Whoever lost an answer must not take the exit status for one.
    if status.is_broken() {
        FATAL
    } else {
        exit
    }
}

/// The configuration, and the policy for the program that asks.
fn settings(call: &Call) -> Result<(Config, Policy), String> {
    let config = Config::load().map_err(|unusable| unusable.to_string())?;
    let callers = match config.has_callers() {
        true => callers::names(|name| config.has_caller(name), call.status.as_ref())?,
        false => Vec::new(),
    };
    let policy = config.policy_for(&callers).clone();
    Ok((config, policy))
}

fn streams_of(call: &Call) -> Result<(Status, Stream), String> {
    check_descriptors(call)?;
    let named = |place: &Place, what: &str| {
        open(place).map_err(|error| match place {
            Place::Descriptor(number) => format!("can't open fd {number} for {what}: {error}"),
            Place::File(path) => format!("can't open '{}' for {what}: {error}", path.to_string_lossy()),
        })
    };
    let status = call.status.as_ref().map(|place| named(place, "status output")).transpose()?;
    let text = match &call.logger {
        Some(place) => Stream::to(named(place, "logging")?),
        None => streams::descriptor(2).map_or_else(|_| Stream::none(), Stream::to),
    };
    Ok((Status::over(status.map_or_else(Stream::none, Stream::to)), text))
}

/// Every descriptor that the caller names has to be the caller's.
fn check_descriptors(call: &Call) -> Result<(), String> {
    let names = Names { has_special: call.has_special_names };
    let places = [&call.status, &call.logger].into_iter().flatten().filter_map(|place| match place {
        Place::Descriptor(number) => Some(*number),
        Place::File(_) => None,
    });
    let files = call.files.iter().chain(&call.output).filter_map(|name| names.descriptor_of(name));
    for number in places.chain(files) {
        streams::check(number).map_err(|error| format!("can't open fd {number}: {error}"))?;
    }
    Ok(())
}

/// Answers that nothing can be said.
fn refuse(answer: &mut Answer, why: &str) -> u8 {
    answer.status.failure("verify", Code::General);
    answer.say(&format!("verify signatures failed: {why}"));
    FATAL
}

fn become_real(program: Program, words: &[OsString]) -> u8 {
    let error = real::become_real(program, words);
    fatal(&error.to_string())
}

fn fatal(why: &str) -> u8 {
    // If nobody reads it, the exit status has to do.
    let _ = writeln!(std::io::stderr(), "tukyamid-gpg: {}", human::on_one_line(why));
    FATAL
}
