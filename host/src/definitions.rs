//! Which definitions of `crates/*/specs` a definition rests on. The files are read as text: a name
//! stands for what the file itself, or the file that its `use` line names, defines.

use std::collections::{BTreeMap, BTreeSet};
use std::fs;
use std::path::{Path, PathBuf};

/// A definition, or a struct or enum of the code that definitions name.
#[derive(Clone, Debug, PartialEq, Eq)]
pub struct Definition {
    pub file: String,
    pub name: String,
    pub lines: usize,
}

/// Where a name is defined: a file below `crates`, and its name there.
type Place = (String, String);

/// A file of definitions: its blocks, and where the names that it imports are defined.
struct Module {
    blocks: Vec<Block>,
    imports: BTreeMap<String, Place>,
}

/// What stands between two blank lines: a definition, with the names that it defines and all words
/// of it.
struct Block {
    names: Vec<String>,
    words: BTreeSet<String>,
    lines: usize,
}

/// All definitions that the named one rests on, itself first.
pub fn rest_on(folder: &str, module: &str, name: &str) -> Result<Vec<Definition>, String> {
    let mut modules = BTreeMap::new();
    let mut found: Vec<Definition> = Vec::new();
    let mut left: Vec<Place> = vec![(format!("{folder}/specs/{module}.antt"), name.to_string())];
    let mut seen: BTreeSet<Place> = BTreeSet::new();
    while let Some((file, name)) = left.pop() {
        if !modules.contains_key(&file) {
            modules.insert(file.clone(), read(&file)?);
        }
        let module: &Module = &modules[&file];
        let Some(block) = module.block(&name) else {
            return Err(format!("{file} does not define {name}"));
        };
        if !seen.insert((file.clone(), block.names[0].clone())) {
            continue;
        }
        found.push(Definition {
            file: file.clone(),
            name: block.names[0].clone(),
            lines: block.lines,
        });
        left.extend(
            block
                .words
                .iter()
                .filter_map(|word| module.place(&file, word)),
        );
    }
    Ok(found)
}

impl Module {
    fn block(&self, name: &str) -> Option<&Block> {
        let defines = |block: &&Block| block.names.iter().any(|known| known == name);
        self.blocks.iter().find(defines)
    }

    fn place(&self, file: &str, word: &str) -> Option<Place> {
        if self.block(word).is_some() {
            return Some((file.to_string(), word.to_string()));
        }
        self.imports.get(word).cloned()
    }
}

fn crates() -> PathBuf {
    Path::new(env!("CARGO_MANIFEST_DIR")).join("../crates")
}

/// Not a library of the kit.
fn is_crate(folder: &str) -> bool {
    crates().join(folder).is_dir()
}

fn read(file: &str) -> Result<Module, String> {
    let path = crates().join(file);
    let text = fs::read_to_string(&path).map_err(|error| format!("{file}: {error}"))?;
    if file.ends_with(".rt") {
        return Ok(declarations(&text));
    }
    let imports = text.lines().filter_map(import).flatten().collect();
    let blocks = text.split("\n\n").filter_map(block).collect();
    Ok(Module { blocks, imports })
}

/// The project's names that a `use` line brings in, with their places.
fn import(line: &str) -> Option<Vec<(String, Place)>> {
    let (path, names) = line.strip_prefix("use Rattle.")?.split_once(".{")?;
    let mut parts = path.split('.').filter(|part| *part != "specs");
    let folder = parts.next().filter(|folder| is_crate(folder))?;
    let modules: Vec<&str> = parts.collect();
    let names = names.trim_end_matches('}').split(", ").map(|name| {
        let (name, here) = name.split_once(" as ").unwrap_or((name, name));
        (word(here), word(name))
    });
    let place = |name: String| match modules[..] {
        ["declared", .., declared] if declared != "TheVariants" => {
            (declaring(folder, declared), declared.to_string())
        }
        ["declared", .., declared, _] => (declaring(folder, declared), declared.to_string()),
        _ => (format!("{folder}/specs/{}.antt", modules.join("/")), name),
    };
    Some(names.map(|(here, name)| (here, place(name))).collect())
}

/// The file of a crate's code that declares a struct or an enum.
fn declaring(folder: &str, name: &str) -> String {
    let source = crates().join(folder).join("src");
    let files = fs::read_dir(source).into_iter().flatten().flatten();
    let names = files.map(|file| file.file_name().to_string_lossy().into_owned());
    let declares = |file: &String| {
        let text = fs::read_to_string(crates().join(file)).unwrap_or_default();
        declarations(&text).block(name).is_some()
    };
    let mut files = names.map(|file| format!("{folder}/src/{file}"));
    files.find(declares).unwrap_or_default()
}

/// The structs and enums of a file of code.
fn declarations(text: &str) -> Module {
    let declared = |part: &str| {
        let lines: Vec<&str> = part.lines().filter(|line| is_said(line)).collect();
        let head = lines.first()?.replacen("pub(crate) ", "pub ", 1);
        let name = ["pub struct ", "pub enum "].iter();
        let name = name.filter_map(|kind| head.strip_prefix(kind)).next()?;
        Some(Block {
            names: vec![name.trim_end_matches(" {").to_string()],
            words: BTreeSet::new(),
            lines: lines.len(),
        })
    };
    Module {
        blocks: text.split("\n\n").filter_map(declared).collect(),
        imports: BTreeMap::new(),
    }
}

/// Neither a comment nor an import, nor an attribute of the code.
fn is_said(line: &str) -> bool {
    let line = line.trim();
    let left_out = ["--", "//", "use ", "ghost use ", "#["];
    !line.is_empty() && !left_out.iter().any(|start| line.starts_with(start))
}

/// What a part of a file between two blank lines defines.
fn block(part: &str) -> Option<Block> {
    let lines: Vec<&str> = part.lines().filter(|line| is_said(line)).collect();
    let heads = ["module", "infix", "mutual", "abbrev mutual"];
    let plain = |line: &&&str| !heads.iter().any(|head| line.trim().starts_with(head));
    let head = lines.iter().find(plain)?;
    let is_word = |word: &&str| !["abbrev", "unfoldable", "pub", "record", "data"].contains(word);
    let mut names = vec![word(head.split_whitespace().find(is_word)?)];
    if head.contains("data ") {
        let constructors = lines.iter().filter_map(|line| line.split_once(" : "));
        let constructors = constructors
            .skip(1)
            .flat_map(|(names, _)| names.split_whitespace());
        names.extend(constructors.map(word));
    }
    Some(Block {
        names,
        words: words(&lines),
        lines: lines.len(),
    })
}

/// An operator without the places of its operands.
fn word(name: &str) -> String {
    match name.trim_matches('◌') {
        "" => name.to_string(),
        operator => operator.to_string(),
    }
}

/// All words of some lines, of `r.f` the one before the dot. `do` stands for the operators that it
/// means.
fn words(lines: &[&str]) -> BTreeSet<String> {
    let separate = |c: char| c.is_whitespace() || "(){};,[]|".contains(c);
    let words = lines.iter().flat_map(|line| line.split(separate));
    let words = words.filter_map(|word| word.split('.').next());
    let mut words: BTreeSet<String> = words.filter(|word| !word.is_empty()).map(word).collect();
    if words.contains("do") {
        words.extend([">>=", ">>"].map(str::to_string));
    }
    words
}

#[cfg(test)]
mod tests {
    use super::*;

    #[test]
    fn safety_rests_on_no_parser_and_no_cover() {
        let found = rest_on("format", "JobBytes", "SafeBytes").expect("the files are read");
        let names: BTreeSet<&str> = found.iter().map(|found| found.name.as_str()).collect();
        for name in [
            "Safe",
            "configurations",
            "Embeds",
            "after",
            "enabled?",
            "decode",
            "Read",
        ] {
            assert!(names.contains(name), "{name} is missing");
        }
        for left_out in ["cover", "backward"] {
            assert!(!found.iter().any(|found| found.file.starts_with(left_out)));
        }
        assert!(!found
            .iter()
            .any(|found| found.file.ends_with("Parser.antt")));
    }
}
