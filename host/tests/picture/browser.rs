//! A browser without a screen, where one is at hand.

use std::env;
use std::fs::{self, File};
use std::io::{self, Write};
use std::path::{Path, PathBuf};
use std::process::{Child, Command, Stdio};
use std::sync::Once;
use std::sync::atomic::{AtomicU32, Ordering};
use std::thread::sleep;
use std::time::{Duration, Instant};

const NAMES: [&str; 3] = ["chromium", "chromium-browser", "google-chrome"];

static SAID: Once = Once::new();

/// What one look at a page may take.
const LIMIT: Duration = Duration::from_secs(300);

/// The first browser on the path that runs; where there is none, a sentence says that the test is passed over.
pub fn find() -> Option<PathBuf> {
    let folders = env::var_os("PATH").unwrap_or_default();
    let found = NAMES.iter().find_map(|name| {
        let mut places = env::split_paths(&folders).map(|folder| folder.join(name));
        places.find(|place| runs(place))
    });
    if found.is_none() {
        SAID.call_once(say_what_is_passed_over);
    }
    found
}

/// Whether a browser says its version: some systems have a command of its name that only says how to install one.
fn runs(browser: &Path) -> bool {
    let mut asked = Command::new(browser);
    asked.arg("--version").stdin(Stdio::null());
    asked.stdout(Stdio::null()).stderr(Stdio::null());
    asked.status().is_ok_and(|status| status.success())
}

/// Says it on standard error itself: what a test prints is shown only where it fails.
fn say_what_is_passed_over() {
    let names = NAMES.join(", ");
    let _ = writeln!(
        io::stderr(),
        "passed over: the pages of --picture in a browser, of which none is at hand ({names})"
    );
}

/// Opens a page, with what follows `#` in its address, runs a script at its end, and gives the lines that the script noted.
///
/// # Panics
///
/// If the browser fails, takes too long, or notes nothing.
pub fn lines(browser: &Path, page: &str, address: &str, script: &str) -> Vec<String> {
    noted(&dom(browser, &with_script(page, script), address)).remove(0)
}

/// Opens pages in frames of one, so many pixels wide, which takes less time than to open each, and runs a script at the end of each.
///
/// # Panics
///
/// As [`lines`].
pub fn lines_of_all(
    browser: &Path,
    pages: &[String],
    width: u32,
    script: &str,
) -> Vec<Vec<String>> {
    let frames: String = pages
        .iter()
        .map(|page| {
            let page = with_script(page, script)
                .replace('&', "&amp;")
                .replace('"', "&quot;");
            format!("<iframe width=\"{width}\" height=\"1000\" srcdoc=\"{page}\"></iframe>\n")
        })
        .collect();
    let collect = "addEventListener('load', () => {
        for (const frame of document.querySelectorAll('iframe')) {
            document.body.append(frame.contentDocument.querySelector('pre.noted'));
            frame.removeAttribute('srcdoc');
        }
    });";
    let outer = format!(
        "<!DOCTYPE html><html lang=\"en\"><head><script>{collect}</script></head><body>{frames}</body></html>"
    );
    noted(&dom(browser, &outer, ""))
}

/// What a page has become once its scripts have run.
fn dom(browser: &Path, page: &str, address: &str) -> String {
    static OPENED: AtomicU32 = AtomicU32::new(0);
    let number = OPENED.fetch_add(1, Ordering::Relaxed);
    let folder = PathBuf::from(env!("CARGO_TARGET_TMPDIR")).join(format!("browser-{number}"));
    let _ = fs::remove_dir_all(&folder);
    fs::create_dir_all(&folder).unwrap();
    let (file, dump) = (folder.join("page.html"), folder.join("dom.html"));
    fs::write(&file, page).unwrap();
    let child = Command::new(browser)
        .args(["--headless=new", "--no-sandbox", "--disable-gpu"])
        .args(["--no-first-run", "--disable-extensions"])
        .args(["--disable-dev-shm-usage", "--window-size=1200,1000"])
        .args(["--virtual-time-budget=5000", "--dump-dom"])
        .arg(format!("--user-data-dir={}", folder.join("user").display()))
        .arg(format!("file://{}#{address}", file.display()))
        .stdin(Stdio::null())
        .stdout(File::create(&dump).unwrap())
        .stderr(Stdio::null())
        .spawn()
        .unwrap();
    wait(child);
    let dom = fs::read_to_string(dump).unwrap();
    fs::remove_dir_all(folder).unwrap();
    dom
}

/// Waits for a browser, but not for ever.
fn wait(mut child: Child) {
    let start = Instant::now();
    loop {
        if let Some(status) = child.try_wait().unwrap() {
            assert!(status.success(), "the browser ended with {status}");
            return;
        }
        if start.elapsed() > LIMIT {
            let _ = child.kill();
            let _ = child.wait();
            panic!("the browser took more than {LIMIT:?}");
        }
        sleep(Duration::from_millis(20));
    }
}

/// The lines that the scripts noted, page by page.
fn noted(dom: &str) -> Vec<Vec<String>> {
    let pages = dom.split("<pre class=\"noted\">").skip(1);
    let noted: Vec<Vec<String>> = pages
        .map(|page| {
            let (lines, _) = page.split_once("</pre>").unwrap();
            lines.lines().map(unescaped).collect()
        })
        .collect();
    assert!(!noted.is_empty(), "nothing was noted in {dom}");
    noted
}

/// A copy of a page that notes its errors from the start, and what a script at its end has noted by `note`.
fn with_script(page: &str, script: &str) -> String {
    let errors = "<head><script>const noted = [];
        const note = line => noted.push(line);
        addEventListener('error', event => note(`error: ${event.message}`));
        console.error = (...words) => note(`error: ${words.join(' ')}`);
        </script>";
    let end = format!(
        "<script>{{ {script}\n}}</script><script>
        const pre = document.createElement('pre');
        pre.className = 'noted';
        pre.textContent = noted.join('\\n');
        document.body.append(pre);
        </script></body>"
    );
    page.replacen("<head>", errors, 1)
        .replacen("</body>", &end, 1)
}

fn unescaped(line: &str) -> String {
    line.replace("&lt;", "<")
        .replace("&gt;", ">")
        .replace("&nbsp;", "\u{a0}")
        .replace("&amp;", "&")
}
