//! The command line's options.

use std::ffi::{OsStr, OsString};
use std::path::{Path, PathBuf};

use sheet_text::{escaped, nearest, shown};
use wargnifla::{Arch, Extent, Radix, Style};

use super::mistake::Mistake;

/// What `--help` prints, and the one list of options: a mistyped one is compared with those that stand here.
pub const HELP: &str = "\
usage: wargnifla [OPTIONS] FILE ..

Records a sheet of calls, finishes it, and shows the code. FILE is a sheet in text or binary
form; - is standard input. Several are each finished and then joined, in the order given: calls
of symbols that one of them defines are filled.

How sheets are read
  --arch x86|x64|aarch64   the architecture, whatever the sheet says (x64 if neither says)
  --symbols N              how many symbols there are, whatever the sheet says (as many as it
                           names if neither says)
  --text, --binary         take every FILE for text, or for a binary sheet
  --join                   join even one FILE, and so fill its calls of symbols that it defines

What is written; to - it goes to standard output, in the place of the listing
  -o FILE                  the finished code
  --object FILE            an ELF object for the system linker
  --debug                  with --object: the text's lines in it, as DWARF
  --write-sheet FILE       the calls as a binary sheet; not where sheets are joined
  --picture FILE           a page for a browser that draws the rounds to scale, step by step, or
                           joined sheets

What the listing shows
  --source                 the lines of the text, each above what it made; not of binary sheets
  --rounds                 what each round of relaxation lengthened, and why, and which
                           alignments it skipped
  --open                   how many entries name a label that is not bound, after each call;
                           where one is refused, too
  --mistake KIND           what a mistake writes, wrong on purpose, beside what is right:
                           from-start, one-round or old-padding
  --full                   long runs of bytes, long lines and tables, and all rounds whole
  --hex                    offsets in hexadecimal
  --json                   all that is known as one JSON object, in the place of the listing

What is shown without a FILE
  --list-kinds             the codes of label uses and the kinds of relocations
  -h, --help               this text
  -V, --version            the version

Exit status: 0 finished; 1 refused; 2 bad usage, a file that can't be read or written, malformed
text, or what fits no object or binary sheet; 3 an error of this program itself.
Files are written only where the code is finished. What was recorded and is not in the code is
said on standard error.
";

/// What `--help` prints for a command of some name.
pub fn help(command: &str) -> String {
    HELP.replacen("wargnifla", command, 1)
}

/// The names of the options that the help lists.
fn known_options() -> impl Iterator<Item = &'static str> {
    let lines = HELP.lines().filter(|line| line.starts_with("  -"));
    let names = lines.filter_map(|line| line.trim_start().split("  ").next());
    names.flat_map(|names| names.split(", ").filter_map(|name| name.split(' ').next()))
}

/// What the command is asked to do.
#[derive(Debug, PartialEq, Eq)]
pub enum Request {
    Help,
    Version,
    ListKinds,
    Run(Options),
}

#[derive(Clone, Copy, Debug, PartialEq, Eq)]
pub enum Form {
    Text,
    Binary,
}

#[derive(Debug, Default, PartialEq, Eq)]
pub struct Options {
    pub files: Vec<OsString>,
    pub join: bool,
    pub output: Option<PathBuf>,
    pub object: Option<PathBuf>,
    pub debug: bool,
    pub write_sheet: Option<PathBuf>,
    pub picture: Option<PathBuf>,
    pub arch: Option<Arch>,
    pub symbols: Option<u32>,
    pub source: bool,
    pub rounds: bool,
    pub open: bool,
    pub mistake: Option<Mistake>,
    pub full: bool,
    pub hex: bool,
    pub json: bool,
    pub form: Option<Form>,
}

impl Options {
    /// Whether the sheets are joined.
    pub fn joins(&self) -> bool {
        self.join || self.files.len() > 1
    }

    pub fn style(&self) -> Style {
        Style {
            extent: match self.full {
                true => Extent::Full,
                false => Extent::Brief,
            },
            offsets: match self.hex {
                true => Radix::Hexadecimal,
                false => Radix::Decimal,
            },
        }
    }

    /// Where code, object, sheet and page are to go, by the options that say so.
    pub fn outputs(&self) -> [(&'static str, Option<&Path>); 4] {
        [
            ("-o", self.output.as_deref()),
            ("--object", self.object.as_deref()),
            ("--write-sheet", self.write_sheet.as_deref()),
            ("--picture", self.picture.as_deref()),
        ]
    }

    /// Whether an output takes the listing's place on standard output.
    pub fn writes_standard_output(&self) -> bool {
        let mut paths = self.outputs().into_iter().filter_map(|(_, path)| path);
        paths.any(|path| is_dash(path.as_os_str()))
    }
}

/// Whether a name stands for standard input or output.
pub fn is_dash(name: &OsStr) -> bool {
    name == "-"
}

/// The name of a file that is read, as messages have it.
pub fn input_text(file: &OsStr) -> String {
    match is_dash(file) {
        true => "standard input".into(),
        false => file_text(file),
    }
}

/// What a page about a file is called: its name without the folders.
pub fn title(file: &OsStr) -> String {
    match Path::new(file).file_name() {
        Some(name) if !is_dash(file) => file_text(name),
        _ => input_text(file),
    }
}

/// What a page about several files is called.
pub fn titles(files: &[OsString]) -> String {
    const MOST: usize = 3;
    let shown = if files.len() > MOST { MOST - 1 } else { MOST };
    let names: Vec<String> = files.iter().take(shown).map(|file| title(file)).collect();
    match files.len() - names.len() {
        0 => names.join(", "),
        left => format!("{} and {left} more", names.join(", ")),
    }
}

/// A file's name as messages have it.
pub fn file_text(name: &OsStr) -> String {
    name.to_string_lossy().chars().map(escaped).collect()
}

/// Reads the arguments; what is wrong with them otherwise.
pub fn parse(arguments: impl IntoIterator<Item = OsString>) -> Result<Request, String> {
    let mut arguments = arguments.into_iter();
    let mut options = Options::default();
    let mut files = Vec::new();
    while let Some(argument) = arguments.next() {
        if argument == "--" {
            files.extend(arguments);
            break;
        }
        let Some(given) = Given::new(&argument) else {
            files.push(argument);
            continue;
        };
        if let Some(request) = given.request()? {
            return Ok(request);
        }
        given.set(&mut options, &mut arguments)?;
    }
    options.files = files;
    check(&options)?;
    Ok(Request::Run(options))
}

/// An option as it is given.
struct Given {
    name: String,
    /// What stands behind `=`, or behind the letter of `-oFILE`.
    value: Option<OsString>,
}

impl Given {
    /// Nothing where the argument is a file.
    fn new(argument: &OsStr) -> Option<Self> {
        let bytes = argument.as_encoded_bytes();
        if bytes.len() < 2 || bytes[0] != b'-' {
            return None;
        }
        let (name, value) = match bytes {
            [b'-', b'-', ..] => match bytes.iter().position(|byte| *byte == b'=') {
                Some(at) => (&bytes[..at], Some(&bytes[at + 1..])),
                None => (bytes, None),
            },
            [b'-', b'o', value @ ..] if !value.is_empty() && !lacks_dash(argument) => {
                (&bytes[..2], Some(value))
            }
            _ => (bytes, None),
        };
        Some(Self {
            name: String::from_utf8_lossy(name).into(),
            value: value.map(os_string),
        })
    }

    /// What is asked for without files.
    fn request(&self) -> Result<Option<Request>, String> {
        let request = match self.name.as_str() {
            "-h" | "--help" => Request::Help,
            "-V" | "--version" => Request::Version,
            "--list-kinds" => Request::ListKinds,
            _ => return Ok(None),
        };
        self.flag().map(|_| Some(request))
    }

    /// Sets what the option says; its value may be the next of some arguments.
    fn set(
        self,
        options: &mut Options,
        next: &mut impl Iterator<Item = OsString>,
    ) -> Result<(), String> {
        match self.name.as_str() {
            "-o" => self.set_once(&mut options.output, self.path(next)?),
            "--object" => self.set_once(&mut options.object, self.path(next)?),
            "--write-sheet" => self.set_once(&mut options.write_sheet, self.path(next)?),
            "--picture" => self.set_once(&mut options.picture, self.path(next)?),
            "--arch" => self.set_once(&mut options.arch, arch(&self.value(next)?)?),
            "--symbols" => self.set_once(&mut options.symbols, symbols(&self.value(next)?)?),
            "--text" => self.set_form(&mut options.form, Form::Text),
            "--binary" => self.set_form(&mut options.form, Form::Binary),
            "--mistake" => self.set_once(&mut options.mistake, mistake(&self.value(next)?)?),
            "--debug" => self.flag().map(|flag| options.debug = flag),
            "--join" => self.flag().map(|flag| options.join = flag),
            "--source" => self.flag().map(|flag| options.source = flag),
            "--rounds" => self.flag().map(|flag| options.rounds = flag),
            "--open" => self.flag().map(|flag| options.open = flag),
            "--full" => self.flag().map(|flag| options.full = flag),
            "--hex" => self.flag().map(|flag| options.hex = flag),
            "--json" => self.flag().map(|flag| options.json = flag),
            unknown => Err(no_option(unknown)),
        }
    }

    /// True, for an option that takes no value.
    fn flag(&self) -> Result<bool, String> {
        match &self.value {
            None => Ok(true),
            Some(_) => Err(format!("{} takes no value", self.name)),
        }
    }

    fn value(&self, next: &mut impl Iterator<Item = OsString>) -> Result<OsString, String> {
        let value = self.value.clone().or_else(|| next.next());
        value.ok_or_else(|| format!("{} needs a value", self.name))
    }

    fn path(&self, next: &mut impl Iterator<Item = OsString>) -> Result<PathBuf, String> {
        let path = self.value(next)?;
        if path.is_empty() {
            return Err(format!("{} needs the name of a file", self.name));
        }
        // It would be written to a file whose name starts with '='.
        let is_equated = |value: &OsString| value.as_encoded_bytes().starts_with(b"=");
        if self.name == "-o" && self.value.as_ref().is_some_and(is_equated) {
            return Err("-o takes a file as -o FILE or -oFILE".into());
        }
        Ok(path.into())
    }

    /// An option may be repeated, but says one thing.
    fn set_once<T: PartialEq>(&self, place: &mut Option<T>, value: T) -> Result<(), String> {
        if place.as_ref().is_some_and(|before| *before != value) {
            return Err(format!(
                "{} is given twice, with different values",
                self.name
            ));
        }
        *place = Some(value);
        Ok(())
    }

    fn set_form(&self, place: &mut Option<Form>, form: Form) -> Result<(), String> {
        self.flag()?;
        self.set_once(place, form)
            .map_err(|_| "--text and --binary exclude each other".into())
    }
}

/// Whether an argument is an option that is written with one dash for two.
fn lacks_dash(argument: &OsStr) -> bool {
    let argument = argument.to_string_lossy();
    let name = argument.split('=').next().unwrap_or_default();
    known_options().any(|known| known.strip_prefix('-') == Some(name))
}

fn no_option(name: &str) -> String {
    let meant = nearest(name, known_options());
    let meant = meant.map_or(String::new(), |meant| format!(" (did you mean {meant}?)"));
    format!("there is no option {}{meant}", shown(name))
}

#[cfg(unix)]
fn os_string(bytes: &[u8]) -> OsString {
    std::os::unix::ffi::OsStringExt::from_vec(bytes.to_vec())
}

#[cfg(not(unix))]
fn os_string(bytes: &[u8]) -> OsString {
    String::from_utf8_lossy(bytes).into_owned().into()
}

/// What is wrong with options that are each right.
fn check(options: &Options) -> Result<(), String> {
    if options.files.is_empty() {
        return Err("a FILE is missing; - is standard input".into());
    }
    let inputs = options.files.iter().filter(|file| is_dash(file));
    if inputs.count() > 1 {
        return Err("standard input, -, can be one FILE alone".into());
    }
    if options.debug && options.object.is_none() {
        return Err("--debug is about an object, which --object writes".into());
    }
    let of_one_sheet = [
        ("--write-sheet", options.write_sheet.is_some()),
        ("--mistake", options.mistake.is_some()),
    ];
    match of_one_sheet.into_iter().find(|(_, is_given)| *is_given) {
        Some((option, _)) if options.joins() => Err(format!(
            "{option} is about one sheet, and can't be given where sheets are joined"
        )),
        _ if options.mistake.is_some() => check_mistake(options),
        _ if options.json => check_json(options),
        _ => Ok(()),
    }
}

/// Wrong code is shown alone: it goes into no file, and nothing is said of the right code that it could be taken for.
fn check_mistake(options: &Options) -> Result<(), String> {
    let outputs = options
        .outputs()
        .map(|(option, path)| (option, path.is_some()));
    let shown = [
        ("--json", options.json),
        ("--source", options.source),
        ("--rounds", options.rounds),
        ("--open", options.open),
    ];
    let mut others = outputs.into_iter().chain(shown);
    match others.find(|(_, is_given)| *is_given) {
        Some((option, _)) => Err(format!(
            "--mistake only shows code that is wrong on purpose, and can't be given with {option}"
        )),
        _ => Ok(()),
    }
}

/// What can't be given beside `--json`.
fn check_json(options: &Options) -> Result<(), String> {
    let is_printed = |path: &Path| is_dash(path.as_os_str());
    let mut outputs = options.outputs().into_iter();
    if let Some((option, _)) = outputs.find(|(_, path)| path.is_some_and(is_printed)) {
        return Err(format!("--json and {option} both write to standard output"));
    }
    let of_listing = [
        ("--source", options.source),
        ("--rounds", options.rounds),
        ("--open", options.open),
        ("--full", options.full),
        ("--hex", options.hex),
    ];
    match of_listing.into_iter().find(|(_, is_given)| *is_given) {
        Some((option, _)) => Err(format!(
            "{option} is about the listing, whose place --json takes"
        )),
        None => Ok(()),
    }
}

fn arch(word: &OsStr) -> Result<Arch, String> {
    let word = word.to_string_lossy();
    Arch::from_name(&word)
        .ok_or_else(|| format!("--arch takes x86, x64 or aarch64, not '{}'", shown(&word)))
}

fn mistake(word: &OsStr) -> Result<Mistake, String> {
    let word = word.to_string_lossy();
    Mistake::from_name(&word).ok_or_else(|| {
        format!(
            "--mistake takes from-start, one-round or old-padding, not '{}'",
            shown(&word)
        )
    })
}

fn symbols(word: &OsStr) -> Result<u32, String> {
    let word = word.to_string_lossy();
    word.parse().map_err(|_| {
        format!(
            "--symbols takes a number up to 4294967295, not '{}'",
            shown(&word)
        )
    })
}

#[cfg(test)]
mod tests {
    use super::*;

    fn parsed(arguments: &str) -> Result<Request, String> {
        parse(arguments.split_whitespace().map(OsString::from))
    }

    #[test]
    fn reads_every_option() {
        let all = "--arch X86 --symbols 3 --source --rounds --open --full --hex --text -o out --object object --debug --write-sheet sheet --picture page in";
        let expected = Options {
            files: vec!["in".into()],
            join: false,
            output: Some("out".into()),
            object: Some("object".into()),
            debug: true,
            write_sheet: Some("sheet".into()),
            picture: Some("page".into()),
            arch: Some(Arch::X86),
            symbols: Some(3),
            source: true,
            rounds: true,
            open: true,
            mistake: None,
            full: true,
            hex: true,
            json: false,
            form: Some(Form::Text),
        };
        assert_eq!(parsed(all), Ok(Request::Run(expected)));
        let options = options("--mistake one-round --full --hex in");
        assert_eq!(options.mistake, Some(Mistake::OneRound));
        assert_eq!(parsed("x --help"), Ok(Request::Help));
        assert_eq!(parsed("-V"), Ok(Request::Version));
    }

    fn options(arguments: &str) -> Options {
        match parsed(arguments) {
            Ok(Request::Run(options)) => options,
            other => panic!("{other:?}"),
        }
    }

    #[test]
    fn values_stand_behind_the_option_or_in_it() {
        assert_eq!(options("-oout in").output, Some("out".into()));
        let equal = options("--object=a=b --arch=x64 --symbols=7 in");
        assert_eq!(equal, options("--object a=b --arch X64 --symbols 7 in"));
        let twice = options("-o out --arch x64 --text --hex in -oout --arch=X64 --text --hex");
        assert_eq!(twice, options("-o out --arch x64 --text --hex in"));
    }

    #[cfg(unix)]
    #[test]
    fn values_need_not_be_text() {
        let argument = |bytes: &[u8]| os_string(bytes);
        let arguments = [argument(b"--object=\xFF"), argument(b"\xFE")];
        let Ok(Request::Run(options)) = parse(arguments) else {
            panic!("an object and a file");
        };
        assert_eq!(options.object, Some(argument(b"\xFF").into()));
        assert_eq!(options.files, [argument(b"\xFE")]);
        let unknown = parse([argument(b"-\xFF")]).unwrap_err();
        assert!(unknown.contains("no option -\u{fffd}"), "{unknown}");
    }

    #[test]
    fn the_help_lists_what_is_known_in_lines_that_fit_a_terminal() {
        assert!(HELP.lines().all(|line| line.chars().count() <= 100));
        assert!(known_options().count() > 15);
        for name in known_options() {
            let tried = parsed(&format!("{name} x64 a"));
            let sentence = tried.err().unwrap_or_default();
            assert!(!sentence.contains("no option"), "{name}: {sentence}");
        }
        assert!(help("./run").starts_with("usage: ./run [OPTIONS] FILE"));
    }

    #[test]
    fn dash_is_a_file_and_so_is_what_follows_two() {
        assert_eq!(options("-").files, ["-"]);
        assert_eq!(options("-- --full").files, ["--full"]);
    }

    #[test]
    fn several_files_are_joined_and_one_where_that_is_said() {
        assert_eq!(options("a --hex - b").files, ["a", "-", "b"]);
        assert!(options("a b").joins());
        assert!(!options("a").joins());
        assert!(options("--join a").joins());
    }

    #[test]
    fn pages_are_called_by_their_files() {
        let called = |files: &str| titles(&options(files).files);
        assert_eq!(called("x/a -"), "a, standard input");
        assert_eq!(called("a b c"), "a, b, c");
        assert_eq!(called("a b c d"), "a, b and 2 more");
    }

    #[test]
    fn says_what_is_wrong() {
        let fails = |arguments: &str, expected: &str| {
            let sentence = parsed(arguments).unwrap_err();
            assert!(sentence.contains(expected), "{sentence}");
        };
        fails("", "FILE is missing");
        fails("- a -", "standard input, -, can be one FILE alone");
        fails("a --debug", "--debug is about an object");
        fails("a b --write-sheet c", "--write-sheet is about one sheet");
        fails("--join a --write-sheet b", "--write-sheet is about one");
        fails("--fast a", "no option --fast");
        fails("--objct=x a", "no option --objct (did you mean --object?)");
        fails("--HEX a", "did you mean --hex?");
        fails("-open a", "no option -open (did you mean --open?)");
        fails("-object=b a", "no option -object");
        fails("a -o", "-o needs a value");
        fails("a --object= b", "--object needs the name of a file");
        fails("--hex=1 a", "--hex takes no value");
        fails("-o=b a", "-o takes a file as -o FILE or -oFILE");
        fails("--help=1", "--help takes no value");
        fails("-o a -ob c", "-o is given twice, with different values");
        fails("--arch x64 --arch=x86 a", "--arch is given twice");
        fails("--symbols 3 --symbols 4 a", "--symbols is given twice");
        fails("--text a --binary", "--text and --binary exclude each");
        fails("--json -o - a", "--json and -o both write to standard");
        fails("--json --hex a", "--hex is about the listing");
        fails("--json --source a", "--source is about the listing");
        fails("--arch mips a", "'mips'");
        fails("--symbols -1 a", "'-1'");
        fails("--mistake typo a", "'typo'");
        fails("--mistake one-round a b", "--mistake is about one sheet");
        for other in [
            "-o b",
            "--object b",
            "--write-sheet b",
            "--picture b",
            "--source",
            "--rounds",
            "--open",
            "--json",
        ] {
            let sentence = format!("can't be given with {}", &other.replace(" b", ""));
            fails(&format!("--mistake one-round a {other}"), &sentence);
        }
    }
}
