//! The script ./climboat at the root, in a clone of nothing but stand-ins: what it builds, when, how it tells how far it is, and what it says where it cannot.
#![cfg(unix)]
use std::fs;
use std::os::unix::fs::PermissionsExt;
use std::os::unix::process::{CommandExt, ExitStatusExt};
use std::path::{Path, PathBuf};
use std::process::{Command, Output, Stdio};
use std::time::{Duration, SystemTime};

/// A folder with the script, files that it builds from, and tools of its own.
struct Clone(PathBuf);

/// rt takes every crates.txt below the folder that it works in for a repository's, so none is left behind.
impl Drop for Clone {
    fn drop(&mut self) {
        let _ = fs::remove_dir_all(&self.0);
    }
}

impl Clone {
    fn new(name: &str) -> Clone {
        let root = Path::new(env!("CARGO_TARGET_TMPDIR")).join(name);
        let _ = fs::remove_dir_all(&root);
        for folder in ["crates", "tools", "bindings/rust/src", "bin"] {
            fs::create_dir_all(root.join(folder)).unwrap();
        }
        for file in [
            "crates/lib",
            "crates.txt",
            "bindings/rust/build.rs",
            "bindings/rust/Cargo.toml",
            "bindings/rust/Cargo.lock",
        ] {
            fs::write(root.join(file), "").unwrap();
        }
        let clone = Clone(root);
        clone.own("climboat");
        for tool in [
            "bash", "readlink", "dirname", "find", "mkdir", "touch", "tail", "cp", "flock",
        ] {
            clone.borrow(tool);
        }
        clone.tool("tools/staticlib", "echo archive >>../calls; mkdir -p ../target/native; touch ../target/native/libclimboat.a");
        clone
    }

    /// A clone with the repository's own tools/staticlib, crates to count, and a stand-in for rt.
    fn proving(name: &str, rt: &str) -> Clone {
        let clone = Clone::new(name);
        clone.all_tools();
        clone.own("tools/staticlib");
        for tool in ["awk", "grep", "mv", "sleep"] {
            clone.borrow(tool);
        }
        clone.tool("bin/uname", "echo x86_64");
        // io is the kit's, and edges is not needed
        let crates =
            "exact:\nfloat: exact\nclimboat staticlib: float exact io\nedges: float exact\n";
        fs::write(clone.0.join("crates.txt"), crates).unwrap();
        fs::create_dir_all(clone.0.join("crates/climboat")).unwrap();
        clone.tool(
            "bin/rt",
            &format!("cd ..\nmkdir -p crates/climboat/out\n{rt}"),
        );
        clone
    }

    /// A file of the repository, as it is.
    fn own(&self, file: &str) {
        let root = Path::new(env!("CARGO_MANIFEST_DIR")).join("../..");
        fs::copy(root.join(file), self.0.join(file)).unwrap();
    }

    /// A tool of this machine, where it has it.
    fn borrow(&self, tool: &str) {
        if let Some(found) = found(tool) {
            std::os::unix::fs::symlink(found, self.0.join("bin").join(tool)).unwrap();
        }
    }

    /// A stand-in that runs in its own folder.
    fn tool(&self, name: &str, body: &str) {
        let file = self.0.join(name);
        fs::write(
            &file,
            format!(
                "#!{}\ncd \"${{0%/*}}\"\n{body}\n",
                self.0.join("bin/bash").display()
            ),
        )
        .unwrap();
        fs::set_permissions(&file, fs::Permissions::from_mode(0o755)).unwrap();
    }

    fn all_tools(&self) {
        self.tool("bin/rt", "");
        self.tool("bin/gcc", "");
        let program = "mkdir -p ../target/rust/release; cp program ../target/rust/release/climboat";
        self.tool("bin/program", "echo \"ran $*\"; exit 1");
        self.tool("bin/cargo", &format!("echo cargo >>../calls; {program}"));
    }

    fn command(&self) -> Command {
        // a shell ignores interrupts in what it starts behind itself: where these tests run so, the script is to hear them all the same
        let mut command = Command::new("/usr/bin/env");
        command
            .arg("--default-signal=INT")
            .arg(self.0.join("bin/bash"))
            .arg(self.0.join("climboat"))
            .args(["sat", "T 1"])
            .env("PATH", self.0.join("bin"));
        command
    }

    fn run(&self) -> Output {
        self.command().output().unwrap()
    }

    /// What was called to build since the last time that this was asked.
    fn calls(&self) -> String {
        let file = self.0.join("calls");
        let calls = fs::read_to_string(&file).unwrap_or_default();
        let _ = fs::remove_file(file);
        calls
    }

    fn change(&self, file: &str) {
        let later = SystemTime::now() + Duration::from_secs(60);
        fs::File::options()
            .write(true)
            .open(self.0.join(file))
            .unwrap()
            .set_modified(later)
            .unwrap();
    }
}

/// Where this machine has a tool.
fn found(tool: &str) -> Option<PathBuf> {
    let path = std::env::var_os("PATH").unwrap();
    std::env::split_paths(&path)
        .map(|folder| folder.join(tool))
        .find(|file| file.is_file())
}

fn text(bytes: &[u8]) -> String {
    String::from_utf8_lossy(bytes).into_owned()
}

#[test]
fn what_is_missing_is_named_with_status_3() {
    let clone = Clone::new("missing");
    let output = clone.run();
    assert_eq!(
        (output.status.code(), text(&output.stdout).as_str()),
        (Some(3), "")
    );
    assert!(
        text(&output.stderr).starts_with("climboat: cannot be built here, missing: rt cargo gcc\n"),
        "{}",
        text(&output.stderr)
    );
    assert_eq!(clone.calls(), "");
}

#[test]
fn it_builds_once_and_then_starts_at_once() {
    let clone = Clone::new("once");
    clone.all_tools();
    for (calls, lines) in [("archive\ncargo\n", 2), ("", 0)] {
        let output = clone.run();
        assert_eq!(
            (output.status.code(), text(&output.stdout).as_str()),
            (Some(1), "ran sat T 1\n")
        );
        assert_eq!(
            text(&output.stderr).lines().count(),
            lines,
            "{}",
            text(&output.stderr)
        );
        assert_eq!(clone.calls(), calls);
    }
}

#[test]
fn a_change_is_built_again() {
    for (file, calls) in [
        ("crates/lib", "archive\ncargo\n"),
        ("bindings/rust/Cargo.toml", "cargo\n"),
    ] {
        let clone = Clone::new("changed");
        clone.all_tools();
        clone.run();
        clone.calls();
        clone.change(file);
        assert_eq!(clone.run().status.code(), Some(1));
        assert_eq!(clone.calls(), calls, "{file}");
    }
}

#[test]
fn a_build_that_fails_shows_why_with_status_3() {
    let clone = Clone::new("fails");
    clone.all_tools();
    clone.tool("tools/staticlib", "echo one proof is wrong; exit 7");
    let output = clone.run();
    assert_eq!(
        (output.status.code(), text(&output.stdout).as_str()),
        (Some(3), "")
    );
    assert!(
        text(&output.stderr).ends_with("one proof is wrong\nclimboat: could not be built\n"),
        "{}",
        text(&output.stderr)
    );
}

/// An rt that has proved one crate before, takes its time for the others, and says more than how far it is.
const SLOW: &str = "echo 'library exact: modules loaded=44 checked=0'
echo 'checked float::sqrt, 1 of 1'
sleep 1.2
echo 'fn float::sqrt: proved'
echo 'crate float: modules loaded=1 checked=1'
echo 'checked climboat::pT, 1 of 1'
sleep 1.2
: >crates/climboat/out/libclimboat.a";

/// What `SLOW` lets staticlib say.
const STAGES: [&str; 3] = [
    "staticlib: 1 of 3 crates proved, at float",
    "staticlib: 2 of 3 crates proved, at climboat",
    "staticlib: 3 of 3 crates proved, libclimboat.a made",
];

/// A line without the time that stands last in it, as 0:07.
#[track_caller]
fn untimed(line: &str) -> &str {
    let (line, time) = line.trim_end().rsplit_once(", ").unwrap();
    let (minutes, seconds) = time.split_once(':').unwrap();
    assert!(
        minutes.parse::<u32>().is_ok() && seconds.len() == 2 && seconds.parse::<u32>().is_ok(),
        "{line:?} {time:?}"
    );
    line
}

#[test]
fn elsewhere_than_on_a_terminal_a_line_tells_of_each_crate() {
    let clone = Clone::proving("lines", SLOW);
    let output = clone.run();
    assert_eq!(
        (output.status.code(), text(&output.stdout).as_str()),
        (Some(1), "ran sat T 1\n")
    );
    let err = text(&output.stderr);
    let told: Vec<&str> = err
        .lines()
        .filter(|line| line.starts_with("staticlib: "))
        .map(untimed)
        .collect();
    assert_eq!(told, STAGES, "{err}");
    // what is built is said before and after
    assert_eq!(err.lines().count(), 2 + STAGES.len(), "{err}");
    assert!(!err.contains('\r'), "{err:?}");
    assert_eq!(text(&clone.run().stderr), "");
}

#[test]
fn where_the_symbols_have_a_crate_of_their_own_that_one_is_built() {
    let rt = "echo 'checked climboat_c::pT, 1 of 1'\nmkdir -p crates/climboat_c/out\n: >crates/climboat_c/out/libclimboat_c.a";
    let clone = Clone::proving("symbols", rt);
    let crates = "exact:\nclimboat: exact\nclimboat_c staticlib: climboat exact\n";
    fs::write(clone.0.join("crates.txt"), crates).unwrap();
    fs::create_dir_all(clone.0.join("crates/climboat_c")).unwrap();
    let output = clone.run();
    let err = text(&output.stderr);
    assert_eq!(output.status.code(), Some(1), "{err}");
    let last = err.lines().rfind(|line| line.starts_with("staticlib: "));
    assert_eq!(
        last.map(untimed),
        Some("staticlib: 3 of 3 crates proved, libclimboat.a made")
    );
    assert!(clone.0.join("target/native/libclimboat.a").exists());
}

#[test]
fn on_a_terminal_one_line_is_written_over() {
    let Some(script) = found("script") else {
        eprintln!("the terminal is LEFT OUT: missing script");
        return;
    };
    let clone = Clone::proving("terminal", SLOW);
    let output = Command::new(script)
        .args(["-q", "-e", "-c"])
        .arg("exec bash ../climboat sat 'T 1'")
        .arg("/dev/null")
        .current_dir(clone.0.join("bin"))
        .env("PATH", clone.0.join("bin"))
        .env("SHELL", clone.0.join("bin/bash"))
        .env("TERM", "xterm")
        .env_remove("COLUMNS")
        .stdin(Stdio::null())
        .output()
        .unwrap();
    let shown = text(&output.stdout);
    assert_eq!(output.status.code(), Some(1), "{shown:?}");
    let lines: Vec<&str> = shown.split("\r\n").collect();
    assert_eq!(lines.len(), 5, "{shown:?}");
    assert_eq!(
        lines[2..],
        ["climboat: building the command", "ran sat T 1", ""]
    );
    let mut told: Vec<&str> = lines[1].split('\r').skip(1).collect();
    // the time goes on while the crate is the same
    assert!(told.len() > STAGES.len(), "{shown:?}");
    assert!(told.iter().all(|line| line.len() == 79), "{shown:?}");
    told = told.into_iter().map(untimed).collect();
    told.dedup();
    assert_eq!(told, STAGES, "{shown:?}");
}

#[test]
fn a_proof_that_fails_shows_the_end_of_the_log_with_status_3() {
    let clone = Clone::proving("refused", "echo one proof is wrong; exit 1");
    let output = clone.run();
    assert_eq!(
        (output.status.code(), text(&output.stdout).as_str()),
        (Some(3), "")
    );
    let log = "target/native/libclimboat.log";
    let end = format!("staticlib: libclimboat.a could not be made; the end of {log}:\none proof is wrong\nclimboat: could not be built\n");
    assert!(
        text(&output.stderr).ends_with(&end),
        "{}",
        text(&output.stderr)
    );
    assert_eq!(
        fs::read_to_string(clone.0.join(log)).unwrap(),
        "one proof is wrong\n"
    );
    assert!(!clone.0.join("target/native/libclimboat.a").exists());
}

#[test]
fn an_interrupt_stops_what_rt_has_started() {
    // what a shell starts behind itself does not hear an interrupt
    let late = "echo 'checked float::sqrt, 1 of 1'\n(sleep 2; : >late) &\n: >started\nwait";
    let clone = Clone::proving("interrupted", late);
    let child = clone
        .command()
        .process_group(0)
        .stdout(Stdio::piped())
        .stderr(Stdio::piped())
        .spawn()
        .unwrap();
    let started = clone.0.join("started");
    for _ in 0..1000 {
        if started.exists() {
            break;
        }
        std::thread::sleep(Duration::from_millis(20));
    }
    // a terminal's interrupt goes to the group
    let kill = format!("kill -s INT -- -{}", child.id());
    let killed = Command::new("bash").args(["-c", &kill]).status().unwrap();
    assert!(killed.success());
    let output = child.wait_with_output().unwrap();
    assert_eq!(output.status.signal(), Some(2), "{output:?}");
    std::thread::sleep(Duration::from_millis(2500));
    assert!(!clone.0.join("late").exists());
    assert!(!clone.0.join("target/native/libclimboat.a").exists());
}
