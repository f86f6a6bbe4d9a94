// SPDX-License-Identifier: Apache-2.0
//! Builds libhll.a as bindings/c/Makefile does, from assembler text and C, or finds an installed libhll by pkg-config.
//!
//! Environment: HLL_SYSTEM=1 takes the installed library, as the feature `system` does. CC, LD, OBJCOPY, AR and CFLAGS are read
//! as the crate `cc` reads them: first with the target in the name (CC_aarch64_unknown_linux_gnu), then TARGET_CC or HOST_CC,
//! then CC. When another processor or system is built for, the plain names are not read, and the defaults are the tools of its
//! cross compiler. PKG_CONFIG names pkg-config.
//!
//! Where there is no text for a system, the crate is built without a library, and its calls panic with a message.

use std::env;
use std::error::Error;
use std::fs;
use std::path::{Path, PathBuf};
use std::process::{self, Command, Stdio};

type Outcome<T = ()> = Result<T, Box<dyn Error>>;

const SOURCES: [&str; 6] = ["estimate", "optional", "state", "counter", "heap", "processor"];

fn main() {
    for name in ["HLL_SYSTEM", "PKG_CONFIG", "PKG_CONFIG_PATH", "PKG_CONFIG_LIBDIR"] {
        println!("cargo:rerun-if-env-changed={name}");
    }
    let wants_system = env::var_os("CARGO_FEATURE_SYSTEM").is_some() || env::var("HLL_SYSTEM").as_deref() == Ok("1");
    let outcome = if wants_system { link_installed() } else { build_static() };
    if let Err(error) = outcome {
        eprintln!("hll-sketches: {error}");
        process::exit(1);
    }
}

// ---- an installed library

fn link_installed() -> Outcome {
    let version = pkg_config("--modversion")?;
    let (major_minor, _) = env!("CARGO_PKG_VERSION").rsplit_once('.').ok_or("the version has no dots")?;
    if !version.trim().starts_with(&format!("{major_minor}.")) {
        return Err(format!("libhll {} is installed; this crate needs {major_minor}", version.trim()).into());
    }
    for flag in pkg_config("--libs")?.split_whitespace() {
        if let Some(folder) = flag.strip_prefix("-L") {
            println!("cargo:rustc-link-search=native={folder}");
        } else if let Some(library) = flag.strip_prefix("-l") {
            println!("cargo:rustc-link-lib={library}");
        }
    }
    Ok(())
}

fn pkg_config(question: &str) -> Outcome<String> {
    let command = env::var("PKG_CONFIG").unwrap_or_else(|_| "pkg-config".into());
    let output =
        Command::new(&command).args([question, "hll"]).output().map_err(|error| format!("{command}: {error}"))?;
    if !output.status.success() {
        return Err(format!("no libhll is installed: {}", String::from_utf8_lossy(&output.stderr).trim()).into());
    }
    Ok(String::from_utf8(output.stdout)?)
}

// ---- a library of its own

fn build_static() -> Outcome {
    let text = match text()? {
        Some(text) => text,
        None => {
            println!("cargo:rustc-cfg=hll_missing");
            println!(
                "cargo:warning=there is no libhll for this system here, only for {}: calls will panic",
                texts()?.join(", ")
            );
            return Ok(());
        }
    };
    println!("cargo:rustc-cfg=hll_versioned");
    let out = PathBuf::from(env::var_os("OUT_DIR").ok_or("OUT_DIR is not set")?);
    let c = folder("c", "../c")?;
    println!("cargo:rerun-if-changed={}", c.display());
    println!("cargo:rerun-if-changed={}", text.display());
    let text_v3 = Some(text.with_file_name("libhll_c_v3.s")).filter(|text| text.is_file());
    let flags: &[&str] = if text_v3.is_some() { &["-DHLL_WITH_V3"] } else { &[] };

    let text_flags = text_flags(&out)?;
    let proved = compile(&text, &out.join("libhll_c.o"), &text_flags)?;
    let mut objects = Vec::new();
    for name in SOURCES {
        objects.push(compile(&c.join(name).with_extension("c"), &out.join(name).with_extension("o"), flags)?);
    }
    rename_proved_calls(&proved, &c, text_v3.is_some())?;
    objects.push(proved);
    if let Some(text) = text_v3 {
        println!("cargo:rerun-if-changed={}", text.display());
        objects.push(compile(&text, &out.join("libhll_c_v3.o"), &text_flags)?);
    }
    if is_windows()? {
        rename_all(&objects, &c)?;
    } else {
        objects = vec![join(&objects, &c, &out)?];
    }
    archive(&objects, &out)?;
    println!("cargo:rustc-link-search=native={}", out.display());
    println!("cargo:rustc-link-lib=static=hll");
    Ok(())
}

/// The folder of a package, or of a checkout.
fn folder(packaged: &str, checkout: &str) -> Outcome<PathBuf> {
    let here = PathBuf::from(env::var_os("CARGO_MANIFEST_DIR").ok_or("CARGO_MANIFEST_DIR is not set")?);
    let found = [packaged, checkout].iter().map(|name| here.join(name)).find(|folder| folder.is_dir());
    found.ok_or_else(|| format!("{packaged}/ is missing in {}", here.display()).into())
}

fn processor() -> Outcome<String> {
    Ok(env::var("CARGO_CFG_TARGET_ARCH")?)
}

fn is_windows() -> Outcome<bool> {
    Ok(env::var("CARGO_CFG_TARGET_OS")? == "windows")
}

/// The text of the proved library for the target, if prebuilt/ has it.
fn text() -> Outcome<Option<PathBuf>> {
    let (system, environment) =
        (env::var("CARGO_CFG_TARGET_OS")?, env::var("CARGO_CFG_TARGET_ENV").unwrap_or_default());
    let place = match (system.as_str(), processor()?.as_str(), environment.as_str()) {
        ("linux", "x86_64" | "aarch64", _) => processor()?,
        ("linux", "riscv64", _) => "riscv64-linux-gnu".to_string(),
        ("windows", "x86_64", "gnu") => "x86_64-windows-gnu".to_string(),
        _ => return Ok(None),
    };
    Ok(Some(folder("prebuilt", "../../prebuilt")?.join(place).join("libhll_c.s")).filter(|text| text.is_file()))
}

/// The systems for which prebuilt/ has texts.
fn texts() -> Outcome<Vec<String>> {
    let mut found = Vec::new();
    for entry in fs::read_dir(folder("prebuilt", "../../prebuilt")?)? {
        let entry = entry?;
        if entry.path().join("libhll_c.s").is_file() {
            found.push(entry.file_name().to_string_lossy().replace("86_64", "86-64"));
        }
    }
    found.sort();
    Ok(found)
}

fn is_cross() -> Outcome<bool> {
    let kind = |triple: String| (triple.split('-').next().map(str::to_string), triple.contains("windows"));
    Ok(kind(env::var("HOST")?) != kind(env::var("TARGET")?))
}

/// How the names of a cross compiler's tools begin.
fn cross() -> Outcome<String> {
    Ok(if is_windows()? { format!("{}-w64-mingw32-", processor()?) } else { format!("{}-linux-gnu-", processor()?) })
}

/// What the environment says of a tool or of flags for the target.
fn from_environment(variable: &str) -> Outcome<Option<String>> {
    let (target, is_native) = (env::var("TARGET")?, !is_cross()?);
    let kind = if is_native { "HOST" } else { "TARGET" };
    let mut names = vec![format!("{variable}_{target}"), format!("{variable}_{}", target.replace('-', "_"))];
    names.push(format!("{kind}_{variable}"));
    if is_native {
        names.push(variable.to_string());
    }
    for name in &names {
        println!("cargo:rerun-if-env-changed={name}");
    }
    Ok(names.iter().find_map(|name| env::var(name).ok()))
}

/// A command with the tool that the environment names, or else its default.
fn tool(variable: &str, default: &str) -> Outcome<Command> {
    let default = match (is_cross()?, default) {
        (false, _) => default.to_string(),
        (true, "cc") => cross()? + "gcc",
        (true, _) => cross()? + default,
    };
    let line = from_environment(variable)?.unwrap_or(default);
    let mut words = line.split_whitespace();
    let mut command = Command::new(words.next().ok_or_else(|| format!("{variable} is empty"))?);
    command.args(words);
    Ok(command)
}

fn run(command: &mut Command) -> Outcome {
    let status = command.status().map_err(|error| format!("{command:?}: {error}"))?;
    if !status.success() {
        return Err(format!("{command:?} ended with {status}").into());
    }
    Ok(())
}

fn compile(source: &Path, object: &Path, own: &[&str]) -> Outcome<PathBuf> {
    let flags = ["-O2", "-std=c99", "-fPIC", "-Wall", "-c", "-o"];
    let more = from_environment("CFLAGS")?.unwrap_or_default();
    run(tool("CC", "cc")?.args(more.split_whitespace()).args(own).args(flags).arg(object).arg(source))?;
    Ok(object.to_path_buf())
}

/// Flags to assemble a text with. On x86-64 one asks that no jump crosses a multiple of 32 bytes or ends at one, since Intel's
/// processors from Skylake to Comet Lake run such jumps slowly. The assembler of GNU has a flag for it, and clang another. Older ones
/// have none.
fn text_flags(out: &Path) -> Outcome<Vec<&'static str>> {
    if processor()? != "x86_64" {
        return Ok(Vec::new());
    }
    let empty = out.join("empty.s");
    fs::write(&empty, "")?;
    for flag in ["-Wa,-mbranches-within-32B-boundaries", "-mbranches-within-32B-boundaries"] {
        let mut command = tool("CC", "cc")?;
        command.args([flag, "-c", "-o"]).arg(out.join("empty.o")).arg(&empty).stderr(Stdio::null());
        if matches!(command.status(), Ok(status) if status.success()) {
            return Ok(vec![flag]);
        }
    }
    Ok(Vec::new())
}

/// The C files define some calls of hll.h over the proved ones, which get the prefix `proved_` here. If there is also a text for
/// x86-64-v3, processor.c defines all calls over both, and those of the first get the suffix `_v2`.
fn rename_proved_calls(object: &Path, c: &Path, has_v3: bool) -> Outcome {
    let mut command = tool("OBJCOPY", "objcopy")?;
    for line in fs::read_to_string(c.join("proved_calls.h"))?.lines() {
        let call = |rest: &str| rest.split(", ").nth(1).unwrap_or_default().to_string();
        if has_v3 {
            let found = line.strip_prefix("CALL(").or_else(|| line.strip_prefix("WRAPPED(")).map(call);
            command.args(found.map(|call| format!("--redefine-sym={call}={call}_v2")));
        } else {
            let found = line.strip_prefix("WRAPPED(").map(call);
            command.args(found.map(|call| format!("--redefine-sym={call}=proved_{call}")));
        }
    }
    run(command.arg(object))
}

/// The calls of hll.map.
fn calls(c: &Path) -> Outcome<Vec<String>> {
    let map = fs::read_to_string(c.join("hll.map"))?;
    let names = map.lines().filter_map(|line| line.trim().strip_suffix(';')).filter(|name| name.starts_with("hll_"));
    Ok(names.map(str::to_string).collect())
}

/// A name with MINOR in it, as src/libhll.rs has those of calls.
fn versioned(name: &str) -> String {
    let (major, minor) = (env!("CARGO_PKG_VERSION_MAJOR"), env!("CARGO_PKG_VERSION_MINOR"));
    format!("hll_{major}_{minor}_{}", name.strip_prefix("hll_").unwrap_or(name))
}

/// Puts MINOR into all names that the objects share. On Windows they stay objects of their own, as one object of all would spoil
/// what the stack is unwound by.
fn rename_all(objects: &[PathBuf], c: &Path) -> Outcome {
    let calls = calls(c)?;
    let proved = calls.iter().map(|name| format!("proved_{name}"));
    let heap = ["rattle_alloc", "rattle_realloc", "rattle_dealloc"].iter().map(|name| name.to_string());
    let names: Vec<_> = calls.iter().cloned().chain(proved).chain(heap).collect();
    let renamed: Vec<_> = names.iter().map(|name| format!("--redefine-sym={name}={}", versioned(name))).collect();
    for object in objects {
        run(tool("OBJCOPY", "objcopy")?.args(&renamed).arg(object))?;
    }
    Ok(())
}

/// Makes one object, in which all names but the calls of hll.map are local. The calls get MINOR into their names, as
/// src/libhll.rs has them.
fn join(objects: &[PathBuf], c: &Path, out: &Path) -> Outcome<PathBuf> {
    let (joined, kept, names) = (out.join("hll.o"), out.join("calls"), calls(c)?);
    fs::write(&kept, names.join("\n"))?;
    let mut link = tool("LD", "ld")?;
    if processor()? == "x86_64" {
        link.args(["-z", "x86-64-v2"]); // the loader refuses the program on older processors, which lack instructions
    }
    run(link.arg("-r").arg("-o").arg(&joined).args(objects))?;
    run(tool("OBJCOPY", "objcopy")?.arg(format!("--keep-global-symbols={}", kept.display())).arg(&joined))?;
    let renamed = names.iter().map(|name| format!("--redefine-sym={name}={}", versioned(name)));
    run(tool("OBJCOPY", "objcopy")?.args(renamed).arg(&joined))?;
    Ok(joined)
}

fn archive(objects: &[PathBuf], out: &Path) -> Outcome {
    let library = out.join("libhll.a");
    if library.exists() {
        fs::remove_file(&library)?;
    }
    run(tool("AR", "ar")?.arg("rcsD").arg(&library).args(objects))
}
