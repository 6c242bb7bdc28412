//! Brings the original's files into the build folder, so that the repository
//! holds no copy of them.
//!
//! The files come from the folder that `TUNE_SRC` names, a checkout of
//! Woyten/tune at 0b79b5a85a, or else from the planning folder beside the
//! repository. A file is compiled as it is, up to its test module, which the
//! planning folder leaves out. A checksum guards against any other text. Three
//! functions of our own are appended, see `APPENDED`.

use std::env;
use std::fs;
use std::path::Path;
use std::path::PathBuf;
use std::process;

const REVISION: &str = "Woyten/tune at 0b79b5a85a";

/// The planning folder, relative to the repository's root.
const PLANNING_FOLDER: &str = "../shared/docs/src";

/// The repository's root, relative to this package.
const REPOSITORY_ROOT: &str = "../..";

/// The original's modules in use, each with the FNV-1a checksum (64 bits) of
/// its source without the test module. The checksums were taken from the
/// planning folder, which publishes that revision's source without tests.
const MODULES: [(&str, u64); 5] = [
    ("math", 0xcea2_2cd6_8c6b_0596),
    ("pergen", 0x30d8_3799_7884_3b11),
    ("layout", 0x8b74_68a5_1213_ca24),
    ("pitch", 0x17b0_bb10_f146_b825),
    ("temperament", 0x4e3a_c937_0ba9_5331),
];

/// All that we add to the original: a module's name and the text that follows
/// its source. `create_layout` is private there, and the public callers choose
/// octave and tritave by floating-point arithmetic, so a layout could not be
/// asked for by its two step counts. The origin is a private field, which the
/// original sets by the chain alone; all of its code reads it from there. The
/// fields of a pattern are private too, and of fractional steps only those from
/// a generator on could be asked for.
const APPENDED: [(&str, &str); 2] = [
    (
        "pergen",
        "
/// Appended by the oracle's build script, to reach a pattern's private fields.
pub fn fractional_mos_for_oracle(
    num_primary_steps: u16,
    num_secondary_steps: u16,
    primary_step: f64,
    secondary_step: f64,
) -> Mos<f64, u16> {
    Mos {
        num_primary_steps,
        num_secondary_steps,
        primary_step,
        secondary_step,
        size: 1,
    }
}
",
    ),
    (
        "layout",
        "
/// Appended by the oracle's build script, to reach the private `create_layout`.
pub fn create_layout_for_oracle(genchain: Genchain, val: &Val) -> Option<IsomorphicLayout> {
    genchain.create_layout(val, false)
}

/// Appended too, to reach the private `genchain_origin` of a layout.
pub fn begin_layout_for_oracle(layout: &mut IsomorphicLayout, genchain_origin: u16) {
    layout.acc_format.genchain_origin = genchain_origin;
}
",
    ),
];

fn main() {
    if let Err(reason) = bring_original() {
        for line in reason.lines() {
            println!("cargo::error={line}");
        }
        process::exit(1);
    }
}

fn bring_original() -> Result<(), String> {
    println!("cargo::rerun-if-changed=build.rs");
    println!("cargo::rerun-if-env-changed=TUNE_SRC");

    let sources = Sources::find()?;
    let target = PathBuf::from(env::var_os("OUT_DIR").ok_or("cargo names no OUT_DIR")?);

    for (module, checksum) in MODULES {
        let mut text = sources.read(module, checksum)?;
        text.extend(
            APPENDED
                .iter()
                .filter(|(extended, _)| *extended == module)
                .map(|(_, appended)| *appended),
        );
        write(&target.join(format!("{module}.rs")), &text)?;
    }

    write(&target.join("original.rs"), &module_list())
}

/// Where the original's files are looked for, and how a message names the place.
struct Sources {
    folder: PathBuf,
    described: String,
}

impl Sources {
    fn find() -> Result<Self, String> {
        let named = env::var_os("TUNE_SRC").filter(|name| !name.is_empty());
        let Some(folder) = named.map(PathBuf::from) else {
            return Ok(Self {
                folder: Path::new(REPOSITORY_ROOT).join(PLANNING_FOLDER),
                described: format!(
                    "{PLANNING_FOLDER}, from the repository's root (TUNE_SRC is not set)"
                ),
            });
        };
        if folder.is_relative() {
            return Err(format!(
                "TUNE_SRC is {}: give an absolute path, since cargo runs this build in another folder.",
                folder.display()
            ));
        }
        Ok(Self {
            described: format!("{} (named by TUNE_SRC)", folder.display()),
            folder,
        })
    }

    /// Reads a module's source, without its tests, and checks that it is the revision's.
    fn read(&self, module: &str, checksum: u64) -> Result<String, String> {
        let path = self.module_file(module)?;
        println!("cargo::rerun-if-changed={}", path.display());

        let text = fs::read_to_string(&path)
            .map_err(|error| format!("{} cannot be read: {error}", path.display()))?;
        let source = without_tests(&text);

        let found = fnv1a_64(source.as_bytes());
        if found == checksum {
            Ok(source)
        } else {
            Err(format!(
                "{} is not the file of {REVISION}: checksum {found:016x}, expected {checksum:016x}.\n\
                 The judge must be the named original: set TUNE_SRC to an unchanged checkout of {REVISION}.",
                path.display()
            ))
        }
    }

    /// A checkout has `src/math.rs`, the planning folder `src/math.rs.txt`.
    fn module_file(&self, module: &str) -> Result<PathBuf, String> {
        ["rs", "rs.txt"]
            .into_iter()
            .map(|extension| self.folder.join(format!("src/{module}.{extension}")))
            .find(|path| path.is_file())
            .ok_or_else(|| {
                format!(
                    "the original's file src/{module}.rs is absent. The repository holds no copy of it.\n\
                     Looked into: {}.\n\
                     Set TUNE_SRC to a checkout of {REVISION}, the folder that holds src/{module}.rs.",
                    self.described
                )
            })
    }
}

/// The lines before the test module, with blank lines at the end dropped. Only
/// this part is published in the planning folder, and only this part answers.
fn without_tests(text: &str) -> String {
    let before_tests: Vec<&str> = text
        .lines()
        .take_while(|line| *line != "#[cfg(test)]")
        .collect();
    format!("{}\n", before_tests.join("\n").trim_end())
}

fn fnv1a_64(bytes: &[u8]) -> u64 {
    bytes.iter().fold(0xcbf2_9ce4_8422_2325, |hash, byte| {
        (hash ^ u64::from(*byte)).wrapping_mul(0x0000_0100_0000_01b3)
    })
}

/// The file that src/lib.rs includes. Module files are looked for beside the
/// file that declares them, so the declarations stand in the build folder too.
fn module_list() -> String {
    MODULES
        .iter()
        .map(|(module, _)| format!("pub mod {module};\n"))
        .collect()
}

fn write(path: &Path, text: &str) -> Result<(), String> {
    fs::write(path, text).map_err(|error| format!("{} cannot be written: {error}", path.display()))
}
