//! The page in a real browser: each parent is clicked, and the bytes that light up are those of the file. Without a browser it is skipped.

mod common;

use common::{Folder, Repo, put, said};
use std::{
    env, fs,
    io::Write,
    path::Path,
    process::{Command, Stdio},
    thread,
    time::{Duration, Instant},
};

const DRIVER: &str = include_str!("driver.js");

fn browser() -> Option<String> {
    let names = env::var("CHROMIUM").into_iter().chain(["chromium", "chromium-browser", "google-chrome"].map(str::to_owned));
    let runs =
        |n: &String| Command::new(n).arg("--version").stdout(Stdio::null()).stderr(Stdio::null()).status().is_ok_and(|s| s.success());
    let found = names.into_iter().find(runs);
    if found.is_none() {
        // Straight to standard error, so that it is seen also where the test runner keeps what a test prints.
        let _ = writeln!(std::io::stderr(), "browser test: skipped, for there is no Chromium here");
    }
    found
}

/// The page of a path, driven in the browser: the lines that the driver wrote.
fn drive(browser: &str, path: &Path, folder: &Folder) -> (String, Vec<Vec<String>>) {
    let out = folder.join("page.html");
    said(&["files", "--html", out.to_str().unwrap(), path.to_str().unwrap()]);
    let page = fs::read_to_string(&out).unwrap();
    fs::write(folder.join("driven.html"), page.replace("</body>", &format!("<script>{DRIVER}</script></body>"))).unwrap();
    let dom = fs::File::create(folder.join("dom")).unwrap();
    let mut child = Command::new(browser)
        .args(["--headless", "--no-sandbox", "--disable-gpu", "--window-size=1200,900", "--dump-dom"])
        .arg(format!("--user-data-dir={}", folder.join("profile").display()))
        .arg(format!("file://{}", folder.join("driven.html").display()))
        .stdout(dom)
        .stderr(Stdio::null())
        .spawn()
        .unwrap();
    let start = Instant::now();
    while child.try_wait().unwrap().is_none() {
        if start.elapsed() > Duration::from_secs(90) {
            child.kill().unwrap();
            panic!("the browser did not end");
        }
        thread::sleep(Duration::from_millis(50));
    }
    let dom = fs::read_to_string(folder.join("dom")).unwrap();
    let lines = dom.split("<pre id=\"answer\">ANSWER\n").nth(1).and_then(|t| t.split("\nEND").next()).expect("the driver ran");
    (page, lines.lines().map(|l| l.split(' ').map(str::to_owned).collect()).collect())
}

#[test]
fn parents() {
    let Some(browser) = browser() else { return };
    let (repo, folder) = (Repo::chain(), Folder::new());
    let (page, lines) = drive(&browser, repo.path(), &folder);
    assert!(page.contains("Verification accepted the chain, 9 commits") && !page.contains("http://") && !page.contains("src="));
    let files: Vec<Vec<u8>> = repo.files().iter().map(|f| fs::read(f).unwrap()).collect();
    let clicked: Vec<&Vec<String>> = lines.iter().filter(|l| l[0] == "parent").collect();
    assert_eq!(clicked.len(), 12);
    for line in clicked {
        let (bytes, at): (&Vec<u8>, usize) = (&files[line[1].parse::<usize>().unwrap()], line[2].parse().unwrap());
        let hex: String = bytes[at..at + 4].iter().map(|b| format!("{b:02x}")).collect();
        assert_eq!(line[3], hex, "{line:?}");
        assert_eq!(u32::from_str_radix(&hex, 16).unwrap() & 0x7fff_ffff, line[4].parse::<u32>().unwrap(), "{line:?}");
        assert_eq!(line[5], "true", "{line:?}");
        assert!(line[6].parse::<usize>().unwrap().abs_diff(at) <= 2, "{line:?}");
        assert_eq!(line[7].parse::<usize>().unwrap(), bytes.len());
    }
    let fan: Vec<&Vec<String>> = lines.iter().filter(|l| l[0] == "part" && l[2] == "oidf").collect();
    assert_eq!(fan.len(), 3);
    assert!(fan.iter().all(|l| l[3].parse::<usize>().unwrap().abs_diff(1024) <= 2), "{fan:?}");
    assert!(!lines.iter().any(|l| l[0] == "hurt"));
}

#[test]
fn damage() {
    let Some(browser) = browser() else { return };
    let (repo, folder) = (Repo::chain(), Folder::new());
    let files = repo.files();
    let mut bytes = fs::read(&files[1]).unwrap();
    let end = bytes.len();
    bytes[end - 1] ^= 1;
    put(&files[1], &bytes);
    let (page, lines) = drive(&browser, repo.path(), &folder);
    assert!(page.contains("refused 62 (wrong checksum)") && page.contains("trailer wrong"));
    let hurt: Vec<String> = lines.iter().filter(|l| l[0] == "hurt").map(|l| l[1..].join(" ")).collect();
    assert_eq!(hurt, [format!("1 damaged: bytes {} to {}", end - 20, end - 1)]);
    fs::remove_file(&files[0]).unwrap();
    let (page, lines) = drive(&browser, repo.path(), &folder);
    assert!(page.contains("could not read") && page.contains("of the whole chain") && page.contains("file position"));
    assert!(lines.iter().any(|l| l[0] == "parent" && l[1] == "2"));
}

#[test]
fn writing() {
    let (repo, folder) = (Repo::single(), Folder::new());
    let (path, graph) = (repo.path().to_str().unwrap().to_owned(), repo.info().join("commit-graph"));
    let before = fs::read(&graph).unwrap();
    let (code, _, errors) = said(&["files", "--html", graph.to_str().unwrap(), &path]);
    assert_eq!((code, errors.contains("left alone"), fs::read(&graph).unwrap() == before), (2, true, true));
    let out = folder.join("a.html");
    for _ in 0..2 {
        assert_eq!(said(&["files", &path, "--html", out.to_str().unwrap()]), (0, String::new(), String::new()));
    }
    for words in
        [&["files", "--html"][..], &["list", "--html", "x", &path], &["files", "--html", folder.join("no/x").to_str().unwrap(), &path]]
    {
        assert_eq!(said(words).0, 2, "{words:?}");
    }
}
