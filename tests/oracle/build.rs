//! Finds the reference Rust and writes a file of module declarations that
//! point at it. The source is used where it lies, but for a copy of the
//! compiler with the edits that the change requests name; an edit that doesn't
//! apply ends the build.

use std::env;
use std::fmt::Write as _;
use std::fs;
use std::path::{Path, PathBuf};

/// The files that the reference compiler and its edits are made of.
const FILES: [&str; 7] = [
    "builtins.rs",
    "parser/ast.rs",
    "semantic/mod.rs",
    "vm/bytecode.rs",
    "vm/compiler.rs",
    "vm/type_def.rs",
    "vm/value.rs",
];

fn main() {
    println!("cargo::rustc-check-cfg=cfg(have_rust)");
    println!("cargo::rerun-if-env-changed=RULKETOOS_RUST_SRC");
    println!("cargo::rerun-if-changed=build.rs");
    let (root, place) = source_root();
    let missing: Vec<&str> = FILES
        .into_iter()
        .filter(|file| !root.join(file).is_file())
        .collect();
    for file in FILES {
        println!("cargo::rerun-if-changed={}", root.join(file).display());
    }
    if !missing.is_empty() {
        println!(
            "cargo::rustc-env=RULKETOOS_RUST_MISSING={} below {place}",
            missing.join(", ")
        );
        return;
    }
    println!("cargo::rustc-cfg=have_rust");
    match edited_compiler(&root) {
        Ok(text) => fs::write(edited_path(), text).expect("compiler.rs"),
        Err(message) => println!("cargo::error={message}"),
    }
    fs::write(out_dir().join("reference.rs"), declarations(&root)).expect("reference.rs");
}

/// Where the edited copy of the compiler is written.
fn edited_path() -> PathBuf {
    out_dir().join("compiler.rs")
}

/// The compiler with the edits, or which of them doesn't apply.
fn edited_compiler(root: &Path) -> Result<String, String> {
    let read = |file: &str| fs::read_to_string(root.join(file)).map_err(|e| format!("{file}: {e}"));
    let mut text = read("vm/compiler.rs")?;
    captures_by_scope(&mut text, &read("semantic/mod.rs")?)?;
    slots_of_tuples(&mut text)?;
    iterators_in_slots(&mut text)?;
    Ok(text)
}

/// Puts the new text in the place of the old, which has to be there once.
fn replace(text: &mut String, request: &str, old: &str, new: &str) -> Result<(), String> {
    replace_all(text, request, 1, old, new)
}

/// The same of an old text that has to be there so many times.
fn replace_all(
    text: &mut String,
    request: &str,
    times: usize,
    old: &str,
    new: &str,
) -> Result<(), String> {
    let found = text.matches(old).count();
    if found != times {
        return Err(format!(
            "the edit of vm/compiler.rs for {request} doesn't apply: `{old}` is there {found} times, not {times}"
        ));
    }
    *text = text.replace(old, new);
    Ok(())
}

/// the references of a lambda's body are gathered by the function of
/// document 005, which takes them from there.
fn captures_by_scope(compiler: &mut String, semantic: &str) -> Result<(), String> {
    let gather = "collect_referenced_vars(body, &mut referenced_vars)";
    let by_scope = "by_scope::collect_free_vars(body, &params.to_vec(), &mut referenced_vars)";
    replace(compiler, "R-9", gather, by_scope)?;
    let head = "\nfn collect_free_vars(";
    let function = semantic.split_once(head).and_then(|(_, rest)| {
        let (function, _) = rest.split_once("\n}\n")?;
        Some(function)
    });
    let function = function
        .ok_or("the edit of vm/compiler.rs for R-9 doesn't apply: semantic/mod.rs has no function collect_free_vars")?;
    compiler.push_str("\nmod by_scope {\nuse crate::parser::ast::{Expr, ExprS};\nuse std::collections::HashSet;\n");
    write!(compiler, "pub fn collect_free_vars({function}\n}}\n}}\n").expect("text");
    Ok(())
}

/// The folder that holds `vm/compiler.rs`, and words that say where it is.
fn source_root() -> (PathBuf, &'static str) {
    if let Some(given) = env::var_os("RULKETOOS_RUST_SRC") {
        return (
            with_src(PathBuf::from(given)),
            "the folder in RULKETOOS_RUST_SRC",
        );
    }
    let manifest = PathBuf::from(env::var_os("CARGO_MANIFEST_DIR").expect("manifest folder"));
    let beside = manifest.join("../../../shared/docs/src");
    (with_src(beside), "../shared/docs/src beside the repository")
}

/// The published folder holds the files below `src`; a bare one is taken too.
fn with_src(folder: PathBuf) -> PathBuf {
    let folder = folder.canonicalize().unwrap_or(folder);
    if folder.join("vm/compiler.rs").is_file() {
        folder
    } else {
        folder.join("src")
    }
}

fn out_dir() -> PathBuf {
    PathBuf::from(env::var_os("OUT_DIR").expect("output folder"))
}

/// `walk` calls the function that takes the names of tuple targets, which
/// the compiler has and doesn't use.
fn slots_of_tuples(compiler: &mut String) -> Result<(), String> {
    let variable = "if let Expr::Variable(name) = &target.0 {";
    let call = format!("collect_locals_from_target(&target.0, seen);\n{variable}");
    replace(compiler, "R-1", variable, &call)
}

/// a loop of a def or method keeps its iterator in the slot after those
/// that its function has so far; one of main in the global, as before.
fn iterators_in_slots(compiler: &mut String) -> Result<(), String> {
    let symbol = "= self.intern(&iter_temp_name);";
    let kept = "= if locals.is_some() {
        fun.num_locals += 1;
        let slot = fun.num_locals - 1;
        [I::StoreLocal(slot), I::LoadLocal(slot)]
    } else {
        let symbol = self.intern(&iter_temp_name);
        [I::StoreGlobal(symbol), I::LoadGlobal(symbol)]
    };";
    replace(compiler, "R-7", symbol, kept)?;
    for (times, place, op) in [(1, 0, "StoreGlobal"), (2, 1, "LoadGlobal")] {
        let by_symbol = format!("I::{op}(iter_temp_sym)");
        let as_kept = format!("iter_temp_sym[{place}].clone()");
        replace_all(compiler, "R-7", times, &by_symbol, &as_kept)?;
    }
    Ok(())
}

/// Module declarations in the shape that the source's own paths expect.
fn declarations(root: &Path) -> String {
    let mut text = String::new();
    declare(&mut text, &root.join("builtins.rs"), "builtins");
    text.push_str("pub mod parser {\n");
    declare(&mut text, &root.join("parser/ast.rs"), "ast");
    text.push_str("}\npub mod vm {\n");
    for name in ["bytecode", "type_def", "value"] {
        declare(&mut text, &root.join(format!("vm/{name}.rs")), name);
    }
    declare(&mut text, &edited_path(), "compiler");
    text.push_str("pub use crate::standins::utils;\n}\n");
    text.push_str("pub use crate::standins::types;\n");
    text
}

fn declare(text: &mut String, path: &Path, name: &str) {
    writeln!(
        text,
        "#[allow(warnings)]\n#[path = {path:?}]\npub mod {name};"
    )
    .expect("text");
}
