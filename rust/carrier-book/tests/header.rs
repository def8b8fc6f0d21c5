//! The C header: a program over it is compiled with `cc`, linked with the archive and run, and C++ reads it. Left out, with a line that
//! says so, where the compiler is missing.
use std::path::{Path, PathBuf};
use std::process::Command;

fn here() -> PathBuf {
    PathBuf::from(env!("CARGO_MANIFEST_DIR"))
}

fn is_there(compiler: &str) -> bool {
    let found = Command::new(compiler).arg("--version").output().map_or(false, |o| o.status.success());
    if !found {
        println!("there is no {compiler}: its test is left out");
    }
    found
}

fn compile(compiler: &str, words: &[&str], out: &Path) {
    let include = here().join("../../include");
    let done = Command::new(compiler)
        .args(["-Wall", "-Wextra", "-Werror", "-pedantic", "-I"])
        .arg(include)
        .args(words)
        .arg("-o")
        .arg(out)
        .output();
    let done = done.unwrap();
    assert!(done.status.success(), "{}", String::from_utf8_lossy(&done.stderr));
}

#[test]
fn a_program_in_c() {
    if !is_there("cc") {
        return;
    }
    let source = here().join("tests/c/book.c");
    let archive = Path::new(env!("CARRIER_ARCHIVE"));
    let program = Path::new(env!("CARGO_TARGET_TMPDIR")).join("book_in_c");
    compile("cc", &["-std=c99", "-O1", source.to_str().unwrap(), archive.to_str().unwrap()], &program);
    let run = Command::new(&program).output().unwrap();
    assert!(run.status.success(), "{}", String::from_utf8_lossy(&run.stderr));
    assert_eq!(run.stdout, b"book.c: all holds\n");
}

#[test]
fn the_header_in_cpp() {
    if !is_there("c++") {
        return;
    }
    let source = Path::new(env!("CARGO_TARGET_TMPDIR")).join("book.cpp");
    let main = "int main() { int64_t word = 0; return carrier_open(&word, 1, 0, 0) == CARRIER_CAPACITY ? 0 : 1; }";
    std::fs::write(&source, format!("#include \"carrier_book.h\"\n{main}\n")).unwrap();
    let archive = Path::new(env!("CARRIER_ARCHIVE"));
    let program = Path::new(env!("CARGO_TARGET_TMPDIR")).join("book_in_cpp");
    compile("c++", &["-std=c++11", source.to_str().unwrap(), archive.to_str().unwrap()], &program);
    assert!(Command::new(&program).status().unwrap().success());
}
