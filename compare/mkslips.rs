//! Writes a copy of plain.rs for each slip of slips.txt, and a list of them: mkslips PLAIN SLIPS
//! FOLDER.

use std::fmt::Write;
use std::{env, fs};

struct Slip {
    name: String,
    before: String,
    after: String,
}

fn main() {
    let words: Vec<String> = env::args().skip(1).collect();
    let [plain, slips, folder] = words.as_slice() else {
        panic!("mkslips PLAIN SLIPS FOLDER");
    };
    let plain = fs::read_to_string(plain).expect("the plain reading");
    let slips = fs::read_to_string(slips).expect("the slips");
    let (mut modules, mut entries) = (String::new(), String::new());
    for (index, slip) in parse(&slips).iter().enumerate() {
        let Slip { name, .. } = slip;
        let file = format!("{folder}/slip_{index}.rs");
        fs::write(&file, slipped(&plain, slip)).expect("room for a copy");
        let _ = writeln!(
            modules,
            "#[allow(unused)]\n#[path = {file:?}]\nmod slip_{index};"
        );
        let _ = writeln!(entries, "    ({name:?}, copy!(slip_{index})),");
    }
    let list = format!("{modules}\nconst SLIPS: &[(&str, Slipped)] = &[\n{entries}];\n");
    fs::write(format!("{folder}/list.rs"), list).expect("room for the list");
}

fn parse(text: &str) -> Vec<Slip> {
    let mut slips: Vec<Slip> = Vec::new();
    for line in text.lines() {
        if let Some(name) = line.strip_prefix("= ") {
            slips.push(Slip {
                name: name.to_string(),
                before: String::new(),
                after: String::new(),
            });
        }
        let Some(slip) = slips.last_mut() else {
            continue;
        };
        if let Some(before) = line.strip_prefix("- ") {
            slip.before += before;
            slip.before.push('\n');
        } else if let Some(after) = line.strip_prefix("+ ") {
            slip.after += after;
            slip.after.push('\n');
        }
    }
    slips
}

/// The plain reading with the slip in it; what the slip replaces stands there exactly once.
fn slipped(plain: &str, slip: &Slip) -> String {
    let found = plain.matches(&slip.before).count();
    assert_eq!(
        found, 1,
        "slip '{}': its lines stand {found} times",
        slip.name
    );
    plain.replacen(&slip.before, &slip.after, 1)
}
