//! `vahmizar ask`.

use std::ffi::OsStr;
use std::fmt::Write;
use std::fs;
use std::net::{IpAddr, Ipv4Addr};
use std::path::Path;
use std::process::ExitCode;

use vahmizar::{Answer, Moment, Question, Records, Reply};

use crate::arguments::Arguments;
use crate::failure::Failure;
use crate::{moments, names, refusal, say, show, types};

const NO_SUCH_TYPE: &str = "no records of this type, but the name has others";
const NOT_OURS: &str = "not ours: no zone of these records holds this name";
const NO_ADDRESS: &str = "this is no address: write it as 192.0.2.1 or 2001:db8::1";
const NO_TYPE: &str = "this is no record type: write A, MX or another by name, or its number";

/// Prints how a question ends, and the records that belong to it. The status
/// tells the outcome to scripts.
pub fn ask(arguments: Arguments) -> Result<ExitCode, Failure> {
    arguments.only(&["--client", "--at"])?;
    let [path, name, record_type] = arguments.exactly(["RECORDS", "NAME", "TYPE"])?;
    let path = Path::new(path);
    let wire = name
        .to_str()
        .ok_or("this is no text")
        .and_then(names::parse)
        .map_err(|words| wrong(name, words))?;
    let record_type = record_type
        .to_str()
        .and_then(types::parse)
        .ok_or_else(|| wrong(record_type, NO_TYPE))?;
    let client = client(arguments.client.as_deref())?;
    let moment = moment(arguments.at.as_deref())?;
    let question = Question::new(&wire, record_type, client, moment);
    let bytes = fs::read(path).map_err(|error| Failure::file(path, error))?;
    let records = Records::new(&bytes);
    let refused = |refused| refusal::of_asking(path, &bytes, refused);
    let reply = records.ask(&question).map_err(refused)?;
    let zone = records.zone(&question).map_err(refused)?;
    let (name, zone) = (shown(&wire), shown(zone.unwrap_or_default()));
    let (status, words) = ending(&reply, &zone);
    let mut said = format!("{name} {}: {words}\n", types::show(record_type));
    match &reply {
        Reply::Records(answers) => show_records(&mut said, &name, answers),
        Reply::Referral { servers, .. } => show_records(&mut said, &zone, servers),
        _ => (),
    }
    say(&said)?;
    Ok(ExitCode::from(status))
}

/// How a question ends: the exit status, and words for people.
fn ending(reply: &Reply<'_>, zone: &str) -> (u8, String) {
    match reply {
        Reply::Records(answers) => match answers.len() {
            1 => (0, "1 record".to_owned()),
            count => (0, format!("{count} records")),
        },
        Reply::Referral { .. } => (3, format!("referral to the name servers of {zone}")),
        Reply::NoSuchType => (4, NO_SUCH_TYPE.to_owned()),
        Reply::NoSuchName => (5, format!("no such name in our zone {zone}")),
        Reply::NotOurs => (6, NOT_OURS.to_owned()),
        other => (2, other.outcome().to_string()),
    }
}

fn show_records(said: &mut String, owner: &str, answers: &[Answer<'_>]) {
    for answer in answers {
        let record_type = types::show(answer.record_type);
        let data = show::data(answer.record_type, answer.data);
        let lifetime = answer.lifetime;
        writeln!(said, "{owner} {lifetime} {record_type} {data}").expect("strings take all");
    }
}

/// A name that is whole.
fn shown(wire: &[u8]) -> String {
    names::split(wire).map_or_else(String::new, |(name, _)| name)
}

fn client(text: Option<&str>) -> Result<IpAddr, Failure> {
    match text {
        None => Ok(Ipv4Addr::LOCALHOST.into()),
        Some(text) => text.parse().map_err(|_| wrong(text.as_ref(), NO_ADDRESS)),
    }
}

fn moment(text: Option<&str>) -> Result<Moment, Failure> {
    match text {
        None => Ok(Moment::now()),
        Some(text) => moments::parse(text).map_err(|words| wrong(text.as_ref(), &words)),
    }
}

fn wrong(word: &OsStr, words: &str) -> Failure {
    Failure::usage(format!("{}: {words}", word.display()))
}
