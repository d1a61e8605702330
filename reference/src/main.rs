//! The command: the Rust's answers to sheets, and the stored list of them.

use std::collections::BTreeMap;
use std::io::{Read, Write};
use std::process::ExitCode;

use reference::{
    Answer, DEPARTURES, Difference, Script, Sheet, TextArch, X64, check_cases, check_recorded,
    join_pieces, read_differences, read_join_differences, read_list, read_pieces, read_text_for,
    run_sheet, run_steps, samples, write_list, write_sheet, write_text,
};

const USAGE: &str = "\
reference run [--arch N] [--symbols N] FILE   answer a binary sheet
reference text [--arch N] [--symbols N] FILE  answer a sheet written as text
reference sheet FILE                          text to a binary sheet, on standard output
reference join [--arch N] FILE                link pieces written as text
reference answers                             write the list of answers to standard output
reference show FILE                           print a list of answers
reference differences [FOLDER]                print what the Rust answers to differences.txt
reference joins [FOLDER]                      print what its linker answers to joins.txt
reference check [FOLDER]                      compare with what FOLDER keeps
FILE may be -; N is 1 (X86), 2 (X64, the default) or 6 (AArch64), and goes
before what a text says; FOLDER is the one of differences.txt and joins.txt, by
default reference; the list of answers is ../crates/finish_answers/stdin from it.";

fn main() -> ExitCode {
    let arguments: Vec<String> = std::env::args().skip(1).collect();
    let words: Vec<&str> = arguments.iter().map(String::as_str).collect();
    let result = match words[..] {
        ["run", ref rest @ ..] => run(rest),
        ["text", ref rest @ ..] => text(rest),
        ["sheet", file] => sheet(file),
        ["join", ref rest @ ..] => join(rest),
        ["answers"] => print_bytes(&write_list(&samples())),
        ["show", file] => show(file),
        ["differences"] => differences("reference"),
        ["differences", folder] => differences(folder),
        ["joins"] => joins("reference"),
        ["joins", folder] => joins(folder),
        ["check"] => check("reference"),
        ["check", folder] => check(folder),
        _ => Err(USAGE.into()),
    };
    match result {
        Ok(()) => ExitCode::SUCCESS,
        Err(message) => {
            eprintln!("{message}");
            ExitCode::FAILURE
        }
    }
}

type Done = Result<(), String>;

struct Options<'a> {
    arch: Option<u32>,
    symbols: Option<u32>,
    file: &'a str,
}

fn options<'a>(mut words: &[&'a str]) -> Result<Options<'a>, String> {
    let mut options = Options {
        arch: None,
        symbols: None,
        file: "-",
    };
    loop {
        match words {
            ["--arch", number, rest @ ..] => {
                options.arch = Some(number.parse().map_err(|_| USAGE)?);
                words = rest;
            }
            ["--symbols", number, rest @ ..] => {
                options.symbols = Some(number.parse().map_err(|_| USAGE)?);
                words = rest;
            }
            [file] => {
                options.file = file;
                return Ok(options);
            }
            _ => return Err(USAGE.into()),
        }
    }
}

fn read(file: &str) -> Result<Vec<u8>, String> {
    let mut bytes = Vec::new();
    let result = if file == "-" {
        std::io::stdin().read_to_end(&mut bytes).map(|_| ())
    } else {
        std::fs::read(file).map(|read| bytes = read)
    };
    result
        .map(|()| bytes)
        .map_err(|error| format!("{file}: {error}"))
}

fn read_string(file: &str) -> Result<String, String> {
    String::from_utf8(read(file)?).map_err(|_| format!("{file}: not text"))
}

fn read_script(file: &str, arch: Option<u32>) -> Result<Script, String> {
    let arch = arch.and_then(TextArch::from_number);
    read_text_for(arch, &read_string(file)?).map_err(|error| format!("{file}: {error}"))
}

fn print_bytes(bytes: &[u8]) -> Done {
    std::io::stdout()
        .write_all(bytes)
        .map_err(|error| error.to_string())
}

/// Ends quietly when the reader of a long listing goes away.
fn print_line(line: &str) -> Done {
    print_bytes(line.as_bytes())?;
    print_bytes(b"\n")
}

fn run(words: &[&str]) -> Done {
    let options = options(words)?;
    let sheet = read(options.file)?;
    let arch = options.arch.unwrap_or(X64);
    print_answer(&run_sheet(arch, options.symbols.unwrap_or(0), &sheet))
}

fn text(words: &[&str]) -> Done {
    let options = options(words)?;
    let script = read_script(options.file, options.arch)?;
    let named = script.arch.map(|arch| arch.number());
    let arch = options.arch.or(named).unwrap_or(X64);
    let symbols = options.symbols.or(script.symbols).unwrap_or(0);
    print_answer(&run_steps(arch, symbols, &script.calls))
}

fn sheet(file: &str) -> Done {
    let steps = read_script(file, None)?.calls;
    let calls: Option<Vec<_>> = steps.iter().map(|step| step.call().cloned()).collect();
    let sheet = calls
        .and_then(|calls| write_sheet(&calls))
        .ok_or("a call does not fit a sheet")?;
    print_bytes(&sheet)
}

fn join(words: &[&str]) -> Done {
    let options = options(words)?;
    let text = read_string(options.file)?;
    let pieces = read_pieces(options.arch.unwrap_or(X64), &text)?;
    print_line(&join_pieces(&pieces).to_string())
}

fn print_answer(answer: &Answer) -> Done {
    print_line(&format!("{answer}"))?;
    match &answer.finished {
        Some(finished) if finished.code().len() > 64 => print_code(finished.code()),
        _ => Ok(()),
    }
}

fn print_code(code: &[u8]) -> Done {
    for (i, line) in code.chunks(16).enumerate() {
        let bytes: Vec<String> = line.iter().map(|byte| format!("{byte:02X}")).collect();
        print_line(&format!("{:08X}  {}", i * 16, bytes.join(" ")))?;
    }
    Ok(())
}

fn show(file: &str) -> Done {
    let entries = read_list(&read(file)?).ok_or("the list breaks its format")?;
    for (i, entry) in entries.iter().enumerate() {
        let sample = &entry.sample;
        print_line(&format!(
            "{i}: architecture {}, {} symbols",
            sample.arch, sample.symbols
        ))?;
        let calls: Vec<_> = match Sheet::read(&sample.sheet) {
            Ok(sheet) => sheet.calls().collect(),
            Err(index) => return Err(format!("the sheet is malformed at {index}")),
        };
        print_line(&format!("    {}", write_text(&calls)))?;
        print_entry(entry)?;
    }
    Ok(())
}

fn print_entry(entry: &reference::Entry) -> Done {
    let Some(record) = &entry.record else {
        let error = entry.error.map_or("nothing".into(), |e| e.to_string());
        return print_line(&format!("    {error} at {}", entry.index));
    };
    print_line(&format!(
        "    length {}, alignment {}, layouts {}, checksum {:08X}",
        record.length, record.alignment, record.layouts, record.checksum
    ))?;
    print_line(&format!("    labels {:?}", record.labels))?;
    for r in &record.relocations {
        print_line(&format!(
            "    relocation at {} of kind {} to {:#X}, addend {}",
            r.offset, r.kind, r.target, r.addend
        ))?;
    }
    print_code(&record.code)
}

fn differences(folder: &str) -> Done {
    let text = read_string(&format!("{folder}/differences.txt"))?;
    for difference in read_differences(&text)? {
        let answer = difference.run();
        print_line(&format!(
            "{} | {} | {} | {} => {answer}",
            difference.name, difference.number, difference.arch, difference.sheet
        ))?;
    }
    Ok(())
}

fn joins(folder: &str) -> Done {
    let text = read_string(&format!("{folder}/joins.txt"))?;
    for difference in read_join_differences(&text)? {
        let answer = join_pieces(&difference.pieces);
        print_line(&format!(
            "{} | {} | {} | {} => {answer}",
            difference.name, difference.number, difference.arch, difference.text
        ))?;
    }
    Ok(())
}

/// What a gate runs where the Rust is at hand.
fn check(folder: &str) -> Done {
    let failed = check_cases();
    if !failed.is_empty() {
        return Err(format!("cases that fail: {failed}"));
    }
    print_line("cases A to L hold")?;
    check_answers(folder)?;
    check_differences(folder)?;
    check_joins(folder)
}

fn check_answers(folder: &str) -> Done {
    let list = write_list(&samples());
    let kept = format!("{folder}/../crates/finish_answers/stdin");
    if list != read(&kept)? {
        return Err(format!("{kept} is not what the Rust answers"));
    }
    count(&list)
}

fn check_differences(folder: &str) -> Done {
    let text = read_string(&format!("{folder}/differences.txt"))?;
    let page = read_string(&format!("{folder}/../docs/DIFFERENCES.md"))?;
    let differences = read_differences(&text)?;
    let hold = |complaint: &str, holds: &dyn Fn(&Difference) -> bool| {
        let failing = differences.iter().filter(|d| !holds(d));
        no_names(complaint, failing.map(|d| d.name.as_str()))
    };
    hold("the Rust's answer is not as kept", &|d| {
        d.run().to_string() == d.answer
    })?;
    hold("the screen of stored recordings lets through", &|d| {
        d.is_screened()
    })?;
    hold("docs/DIFFERENCES.md does not name", &|d| {
        page.contains(&format!("`{}`", d.name))
    })?;
    let is_shown = |departure| differences.iter().any(|d| d.shows(departure));
    let unshown = DEPARTURES.iter().filter(|departure| !is_shown(departure));
    no_names(
        "differences.txt has no line of this name that meets the departure",
        unshown.map(|departure| departure.name),
    )?;
    print_line(&format!("{} differences are as kept", differences.len()))
}

fn check_joins(folder: &str) -> Done {
    let text = read_string(&format!("{folder}/joins.txt"))?;
    let page = read_string(&format!("{folder}/../docs/DIFFERENCES.md"))?;
    let joins = read_join_differences(&text)?;
    if !check_recorded() {
        return Err("recorded pieces are not linked as those that are written".into());
    }
    let changed = joins
        .iter()
        .filter(|join| join_pieces(&join.pieces).to_string() != join.answer);
    no_names(
        "the linker's answer is not as kept",
        changed.map(|join| join.name.as_str()),
    )?;
    let unnamed = joins
        .iter()
        .filter(|join| !page.contains(&format!("`{}`", join.name)));
    no_names(
        "docs/DIFFERENCES.md does not name",
        unnamed.map(|join| join.name.as_str()),
    )?;
    print_line(&format!("{} joins are as kept", joins.len()))
}

/// Fails with a complaint about some names, if there are any.
fn no_names<'a>(complaint: &str, names: impl Iterator<Item = &'a str>) -> Done {
    let names: Vec<_> = names.collect();
    match names.is_empty() {
        true => Ok(()),
        false => Err(format!("{complaint}: {}", names.join(", "))),
    }
}

/// Recordings by architecture and answer.
fn count(list: &[u8]) -> Done {
    let entries = read_list(list).ok_or("the list breaks its format")?;
    let mut answers: BTreeMap<(u32, String), u32> = BTreeMap::new();
    for entry in &entries {
        let answer = match (&entry.error, &entry.record) {
            (Some(error), _) => error.to_string(),
            (None, Some(record)) if record.layouts > 0 => "finished, with layouts".into(),
            (None, _) => "finished, without".into(),
        };
        *answers.entry((entry.sample.arch, answer)).or_default() += 1;
    }
    print_line(&format!(
        "{} recordings, {} bytes, as stored",
        entries.len(),
        list.len()
    ))?;
    for ((arch, answer), number) in answers {
        print_line(&format!("    architecture {arch}: {number} {answer}"))?;
    }
    Ok(())
}
