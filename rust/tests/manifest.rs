//! Whether `build` names the code that runs, and whether the files of dist/ that become a part of the crate, and all
//! others, are those that dist/MANIFEST names, by the program sha256sum, or shasum on a Mac.
use std::path::Path;
use std::process::Command;

#[test]
fn build_names_a_file_of_manifest() {
    let dist = Path::new(env!("CARGO_MANIFEST_DIR")).join("dist");
    let (_, name) = vulfsjor::build().split_once("  ").expect("a hash and a name");
    let sum = |program: &str, words: &[&str]| Command::new(program).args(words).arg(name).current_dir(&dist).output();
    let summed = sum("sha256sum", &[]).or_else(|_| sum("shasum", &["-a", "256"])).expect("sha256sum or shasum");
    assert_eq!(String::from_utf8_lossy(&summed.stdout), format!("{}\n", vulfsjor::build()));
    let level = Command::new(dist.join("../tests/processor.sh")).output().expect("processor.sh").stdout;
    let level = String::from_utf8_lossy(&level).trim().replace("x86-64-", "x86_64/vulfsjor-");
    let wanted = [level.replace("aarch64", "aarch64/vulfsjor") + ".s", "rust/vulfsjor.rs".into()];
    let is_other = cfg!(any(vulfsjor_build = "v2", vulfsjor_build = "v3"));
    assert!(wanted.iter().any(|it| it == name) || is_other, "{name}, and not {wanted:?}");
}

#[test]
fn dist_files_have_the_manifest_hashes() {
    let dist = Path::new(env!("CARGO_MANIFEST_DIR")).join("dist");
    let check = |program: &str| Command::new(program).args(["-c", "MANIFEST"]).current_dir(&dist).output();
    let checked = check("sha256sum").or_else(|_| check("shasum")).expect("sha256sum or shasum");
    let said = String::from_utf8_lossy(&checked.stdout).into_owned();
    let wrong = said.lines().filter(|line| !line.ends_with(": OK"));
    let wrong: Vec<_> = wrong.map(|line| format!("dist/{line}")).collect();
    assert!(checked.status.success() && wrong.is_empty(), "not as in dist/MANIFEST: {wrong:?}");
    for folder in ["x86_64", "aarch64", "rust"] {
        for entry in std::fs::read_dir(dist.join(folder)).unwrap() {
            let name = format!("{folder}/{}", entry.unwrap().file_name().to_str().unwrap());
            assert!(said.contains(&format!("{name}: OK\n")), "dist/MANIFEST does not name dist/{name}");
        }
    }
}
