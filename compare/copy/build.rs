// Makes the test copy in OUT_DIR: the Rust of ../shared/docs/src with the edits of the list `edits`, each checked against its place and against docs/DIFFERENCES.md.
use std::fs;
use std::path::Path;

/// The files of document 01's modules, with common/boundaries.rs for B23, and region 5's, under the Rust's module names.
const MODULES: [(&str, &[&str]); 6] = [
    ("algo", &["polynomial", "polynomial_steps", "root"]),
    ("common", &["boundaries", "constant"]),
    ("r1", &["region1_gfe", "region1_pT", "region1_pair_ext"]),
    ("r2", &["region2_gfe", "region2_pT", "region2_pair_ext"]),
    ("r4", &["region4_sat_pT"]),
    ("r5", &["region5_gfe", "region5_sums", "region5_pT", "region5_pair_ext"]),
];

/// Files that are made of another than the Rust's of that name: region 5 has region 2's operations (document 02, §2), over the tables of the Rust's region5_gfe.rs.
const MADE_OF: [(&str, &str); 2] = [("r5/region5_sums.rs", "r2/region2_gfe.rs"), ("r5/region5_pT.rs", "r2/region2_pT.rs")];

struct Edit {
    line: usize,
    entries: String,
    place: String,
    times: usize,
    old: String,
    new: String,
}

fn main() {
    if let Err(message) = make() {
        eprintln!("compare/copy: {message}");
        std::process::exit(1);
    }
}

fn make() -> Result<(), String> {
    let here = std::env::var("CARGO_MANIFEST_DIR").map_err(|e| e.to_string())?;
    let out = std::env::var("OUT_DIR").map_err(|e| e.to_string())?;
    let rust = format!("{here}/../../../shared/docs/src/src");
    let edits = list(&read(&format!("{here}/edits"))?)?;
    let rows = differences(&read(&format!("{here}/../../docs/DIFFERENCES.md"))?);
    for edit in &edits {
        edit.belongs(&rows)?;
    }
    let mut root = String::new();
    for (module, files) in MODULES {
        root += &format!("#[allow(warnings)]\npub mod {module} {{\n");
        for file in files {
            let place = format!("{module}/{file}.rs");
            let of = MADE_OF.iter().find(|(made, _)| *made == place).map_or(place.as_str(), |(_, of)| of);
            let text = edited(&place, read(&format!("{rust}/{of}"))?, &edits)?;
            let to = format!("{out}/{place}");
            write(&to, &text)?;
            root += &format!("    #[path = {to:?}]\n    pub mod {file};\n    pub use self::{file}::*;\n");
        }
        root += "}\n";
    }
    write(&format!("{out}/root.rs"), &root)?;
    link(&here);
    Ok(())
}

/// The logarithm comes from Climboat's archive, for whoever links the copy.
fn link(here: &str) {
    let native = format!("{here}/../../target/native");
    println!("cargo:rustc-link-search=native={native}");
    println!("cargo:rustc-link-lib=static:-bundle=exports");
    println!("cargo:rerun-if-changed={native}/libexports.a");
}

fn read(path: &str) -> Result<String, String> {
    println!("cargo:rerun-if-changed={path}");
    fs::read_to_string(path).map_err(|e| format!("{path}: {e}"))
}

fn write(path: &str, text: &str) -> Result<(), String> {
    let folder = Path::new(path).parent().ok_or("no folder")?;
    fs::create_dir_all(folder).and_then(|()| fs::write(path, text)).map_err(|e| format!("{path}: {e}"))
}

/// The first column of the table under "## Differences".
fn differences(page: &str) -> Vec<String> {
    let lines = page.lines().skip_while(|line| *line != "## Differences").skip(1);
    let table = lines.take_while(|line| !line.starts_with("## "));
    table.filter_map(|line| line.strip_prefix("| ")?.split(" | ").next().map(String::from)).skip(1).collect()
}

/// The list as edits; its form is told in its head.
fn list(text: &str) -> Result<Vec<Edit>, String> {
    let lines: Vec<(usize, &str)> = (1..).zip(text.lines()).filter(|(_, line)| !line.is_empty() && !line.starts_with('#')).collect();
    let mut entries = "";
    let mut edits = Vec::new();
    let mut rest = &lines[..];
    while let [(line, first), more @ ..] = rest {
        if let Some(named) = first.strip_prefix("= ") {
            (entries, rest) = (named, more);
            continue;
        }
        let [(_, old), (_, new), more @ ..] = more else {
            return Err(format!("edits, line {line}: an edit is a place, an old fragment and a new one"));
        };
        edits.push(Edit::of(*line, entries, first, old, new).ok_or(format!("edits, line {line}: not an edit"))?);
        rest = more;
    }
    Ok(edits)
}

fn edited(place: &str, text: String, edits: &[Edit]) -> Result<String, String> {
    edits.iter().filter(|edit| edit.place == place).try_fold(text, |text, edit| edit.applied(&text))
}

impl Edit {
    fn of(line: usize, entries: &str, first: &str, old: &str, new: &str) -> Option<Edit> {
        let (place, times) = match first.split_once(", ") {
            Some((place, times)) => (place, times.strip_suffix(" times")?.parse().ok()?),
            None => (first, 1),
        };
        let fragment = |line: &str, sign: &str| Some(line.strip_prefix(sign)?.strip_prefix(" |")?.strip_suffix('|')?.replace("\\n", "\n"));
        Some(Edit { line, entries: entries.into(), place: place.into(), times, old: fragment(old, "-")?, new: fragment(new, "+")? })
    }

    fn belongs(&self, rows: &[String]) -> Result<(), String> {
        let Edit { line, entries, place, .. } = self;
        if !MODULES.iter().any(|(module, files)| files.iter().any(|file| format!("{module}/{file}.rs") == *place)) {
            return Err(format!("edits, line {line}: {place} is no file of the copy"));
        }
        match entries.split("; ").find(|entry| !rows.iter().any(|row| row == entry)) {
            Some(entry) => Err(format!("edits, line {line}: {entry:?} is no row of docs/DIFFERENCES.md")),
            None => Ok(()),
        }
    }

    fn applied(&self, text: &str) -> Result<String, String> {
        let Edit { line, place, times, old, new, .. } = self;
        match text.matches(old.as_str()).count() {
            found if found == *times => Ok(text.replace(old.as_str(), new)),
            found => Err(format!("edits, line {line}: {old:?} occurs {found} times in {place}, not {times}")),
        }
    }
}
