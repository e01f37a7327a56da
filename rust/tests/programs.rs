//! Programs that depend on the crate, each built by cargo as a package of its own: what they hold,
//! in each profile, next to another version of the crate and to the library for C, and on other
//! processors.
#![cfg(feature = "std")]
use std::collections::BTreeSet;
use std::path::{Path, PathBuf};
use std::process::{Command, Output};
use std::{env, fs};

// The digest of `abc` of RFC 7693, appendix A.
const ABC: &str = "ba80a53f981c4d0d6a2797b69f12f6e94c212f14685ac4b74b12bb6fdbffa2d1\
                   7d87c5392aab792dc252d5de4533cc9518d38aa8dbf1925ab92386edd4009923\n";
const PRINT_ABC: &str = r#"println!("{}", a::Blake2b::digest(b"abc"));"#;
const TOP: &str = env!("CARGO_MANIFEST_DIR");
const VERSION: &str = env!("CARGO_PKG_VERSION");

// These builds, or without VULFSJOR_TEST_HUGE only the first of them: others take seconds.
fn builds_to_test<T>(builds: &[T]) -> &[T] {
    let all = env::var_os("VULFSJOR_TEST_HUGE").is_some();
    &builds[..if all { builds.len() } else { 1 }]
}

// A new folder for the test of this name.
fn folder(name: &str) -> PathBuf {
    let folder = Path::new(env!("CARGO_TARGET_TMPDIR")).join("programs").join(name);
    let _ = fs::remove_dir_all(&folder);
    fs::create_dir_all(folder.join("src")).unwrap();
    folder
}

// A new package with these lines of Cargo.toml and this text of a file of src/.
fn package(name: &str, lines: &str, file: &str, text: &str) -> PathBuf {
    let folder = folder(name);
    let head = format!("[package]\nname = \"{name}\"\nversion = \"0.1.0\"\nedition = \"2021\"\n");
    fs::write(folder.join("Cargo.toml"), head + lines).unwrap();
    fs::write(folder.join("src").join(file), text).unwrap();
    folder
}

// That of this test, which has the crate.
fn target_folder() -> PathBuf {
    Path::new(env!("CARGO_TARGET_TMPDIR")).parent().unwrap().into()
}

fn cargo(words: &[&str], folder: &Path) -> Command {
    let mut command = Command::new(env!("CARGO"));
    command.arg(words[0]).arg("--offline").args(&words[1..]).current_dir(folder);
    command.env("CARGO_TARGET_DIR", target_folder());
    command
}

// What a command prints, which has to succeed.
fn output_of_success(command: &mut Command) -> String {
    let Output { status, stdout, stderr } = command.output().unwrap();
    assert!(status.success(), "{command:?}: {}", String::from_utf8_lossy(&stderr));
    String::from_utf8(stdout).unwrap()
}

struct Program {
    name: String,
    folder: PathBuf,
}

impl Program {
    // A program of these lines of `main`, which depends on the crates of these folders as a, b and
    // so on.
    fn new(name: &str, lines: &str, crates: &[&Path]) -> Self {
        let mut manifest = String::new();
        for lto in ["thin", "fat"] {
            manifest += &format!("[profile.{lto}]\ninherits = \"release\"\nlto = \"{lto}\"\nopt-level = 1\n");
        }
        manifest.push_str("[dependencies]\n");
        for (name, path) in ["a", "b"].into_iter().zip(crates) {
            let path = path.display();
            manifest += &format!("{name} = {{ package = \"vulfsjor\", path = \"{path}\" }}\n");
        }
        let folder = package(name, &manifest, "main.rs", &format!("fn main() {{\n{lines}\n}}\n"));
        Program { name: name.into(), folder }
    }

    // Builds it in a profile, for the processor that RUSTFLAGS names if they do.
    fn build(&self, profile: &str, flags: &str) -> PathBuf {
        let mut cargo = cargo(&["build", "--profile", profile], &self.folder);
        if !flags.is_empty() {
            cargo.env("CARGO_PROFILE_RELEASE_OPT_LEVEL", "1"); // quicker, and enough to leave out what is never called
        }
        output_of_success(cargo.env("RUSTFLAGS", flags));
        let built = target_folder().join(profile.replace("dev", "debug")).join(&self.name);
        let copy = self.folder.join(profile);
        fs::copy(built, &copy).unwrap();
        copy
    }
}

// The number of the code.
fn code() -> String {
    let text = fs::read_to_string(Path::new(TOP).join("c/choose.c")).unwrap();
    let (_, rest) = text.split_once("\n#define CODE \"").unwrap();
    rest.split_once('"').unwrap().0.into()
}

// The functions of a build in a program, of the crate of this version with the code of this number.
// Each has the name of its text, which ends in the number, and the one by which the crate of that
// version calls it. All names are local: those of the texts are labels, and the others are hidden.
fn library_functions_in_program(program: &Path, version: &str, code: &str, build: &str) -> Vec<String> {
    let names = output_of_success(Command::new("nm").arg(program));
    let end = format!("_{code}_{build}");
    let start = format!("vulfsjor_{version}_vulfsjor_ffi_");
    let (mut held, mut called) = (Vec::new(), Vec::new());
    for line in names.lines() {
        let words: Vec<&str> = line.split_whitespace().rev().collect();
        let (name, letter) = (words[0], words[1]);
        if name.starts_with("vulfsjor_") || name.ends_with(&end) {
            assert_eq!(letter, "t", "{line}");
        }
        let after = |start| name.strip_prefix(start)?.strip_suffix(&end[..]);
        held.extend(after("vulfsjor_ffi_").map(String::from));
        called.extend(after(&start[..]).map(String::from));
    }
    held.sort();
    called.sort();
    assert_eq!(held, called, "{version} {code} {build}");
    held
}

#[cfg(target_arch = "x86_64")]
const BUILDS: &[&str] = &["v2", "v3", "v4"];
#[cfg(target_arch = "aarch64")]
const BUILDS: &[&str] = &["arm"];

// A library with its own panic handler and without an allocator, which links neither std nor alloc.
#[test]
fn library_without_std_links() {
    let manifest = "[lib]\ncrate-type = [\"staticlib\"]\n[profile.dev]\npanic = \"abort\"\n\
                    [dependencies.vulfsjor]\ndefault-features = false\n";
    let lines = r#"#![no_std]
        #[no_mangle]
        pub extern "C" fn hash(out: &mut [u8; 64]) {
            out.copy_from_slice(vulfsjor::Blake2b::digest(b"abc").as_bytes());
        }
        #[panic_handler]
        fn panic(_: &core::panic::PanicInfo) -> ! {
            loop {}
        }"#;
    let folder = package("bare", &format!("{manifest}path = \"{TOP}\"\n"), "lib.rs", lines);
    output_of_success(&mut cargo(&["build"], &folder));
}

// If the compiler may assume AVX2 or AVX-512, the other builds are left out. Earlier versions of
// rustc do not name all these features.
#[test]
#[cfg(target_arch = "x86_64")]
fn one_build_is_linked_for_its_target() {
    for (cpu, last) in builds_to_test(&[("v3", "\"movbe\""), ("v4", "\"avx512vl\"")]) {
        let flag = format!("-Ctarget-cpu=x86-64-{cpu}");
        if !output_of_success(Command::new("rustc").args(["--print", "cfg", &flag])).contains(*last) {
            continue;
        }
        let program = Program::new(&format!("only_{cpu}"), PRINT_ABC, &[TOP.as_ref()]);
        let built = program.build("release", &flag);
        for build in BUILDS {
            let wanted: &[&str] = if build == cpu { &["blake2b"] } else { &[] };
            assert_eq!(library_functions_in_program(&built, VERSION, &code(), build), wanted, "{flag}");
        }
    }
}

// The first calls of a program, by its arguments, on processors that qemu emulates: with AVX2, with
// SSE4.2, and with neither, where each panics.
#[test]
#[cfg(target_arch = "x86_64")]
#[ignore = "needs qemu-x86_64"]
fn first_call_works_on_other_processors() {
    let lines = r#"let (new, tree) = (a::Params::new(), a::TreeParams::new(1));
        let (key, mut digests) = (new.key(b"k"), [[0; 64]; 1]);
        for call in std::env::args().skip(1) {
            let call = std::panic::AssertUnwindSafe(|| match call.as_str() {
                "digest" => drop(a::Blake2b::digest(b"abc")),
                "new" => drop(a::Blake2b::new()),
                "new of blake2s" => drop(a::Blake2s::new()),
                "load" => drop(a::Blake2b::load(b"")),
                "mac" => drop(a::Blake2bMac::with_params(&key).unwrap()),
                "tag" => drop(a::Blake2sMac::tag(b"k", b"abc").unwrap()),
                "many" => a::Blake2b::digest_many(&new, &[b"abc"], &mut digests).unwrap(),
                "none of many" => a::Blake2b::digest_many::<64>(&new, &[b""; 0], &mut []).unwrap(),
                "tree" => drop(tree.hasher().unwrap()),
                "root" => drop(tree.root(b"abc").unwrap()),
                "threads" => drop(tree.root_threads(b"abc", 2).unwrap()),
                "count" => drop(tree.leaf_count(1)),
                "leaves" => tree.leaves(b"a", 0, true, &mut digests[0]).unwrap(),
                "root of leaves" => drop(tree.root_of_leaves(&digests[0]).unwrap()),
                _ => unreachable!(),
            });
            println!("{}", if std::panic::catch_unwind(call).is_ok() { "returned" } else { "panicked" });
        }
        println!("{}", a::Blake2b::digest(b"abc"));"#;
    let program = Program::new("first_call", lines, &[TOP.as_ref()]).build("dev", "");
    let on = |processor: &str, calls: &[&str]| {
        let mut qemu = Command::new("qemu-x86_64");
        let Output { status, stdout, stderr } =
            qemu.args(["-cpu", processor]).arg(&program).args(calls).output().unwrap();
        (status.code(), String::from_utf8(stdout).unwrap(), String::from_utf8(stderr).unwrap())
    };
    let calls = lines.lines().filter_map(|line| line.trim().split_once("\" =>"));
    let calls: Vec<&str> = calls.map(|(call, _)| &call[1..]).collect();
    let (status, said, errors) = on("core2duo", &calls);
    assert_eq!((status, said), (Some(101), "panicked\n".repeat(14)));
    let why = "this processor is below x86-64-v2, which vulfsjor needs";
    assert_eq!(errors.matches(why).count(), 15, "{errors}");
    for processor in ["Haswell", "Nehalem"] {
        for call in ["digest", "tree"] {
            assert_eq!(on(processor, &[call]).1, format!("returned\n{ABC}"));
        }
    }
}

// Writes MANIFEST in a folder anew for the files that are there.
fn renew_sums(dist: &Path) {
    let manifest = fs::read_to_string(dist.join("MANIFEST")).unwrap();
    let lines = manifest.lines().map(|line| match line.split_once("  ") {
        Some((_, name)) if dist.join(name).exists() => {
            output_of_success(Command::new("sha256sum").arg(name).current_dir(dist))
        }
        _ => format!("{line}\n"),
    });
    fs::write(dist.join("MANIFEST"), lines.collect::<String>()).unwrap();
}

// The crate's package has what it needs and nothing else, and is built without a registry, next to another
// version of the crate in the same program, in each profile. The code of that is another too, and so is its
// number in the names of its texts, as in those of dist/. The program contains of the assembly what it calls,
// and no name that another object could see.
#[test]
fn package_links_next_to_another_version() {
    let folder = folder("package");
    // Without a build of cargo's: one of what is in the package follows.
    let mut package = cargo(&["package", "--allow-dirty", "--no-verify"], TOP.as_ref());
    output_of_success(package.env("CARGO_HOME", folder.join("home")));
    let file = target_folder().join(format!("package/vulfsjor-{VERSION}.crate"));
    output_of_success(Command::new("tar").arg("-C").arg(&folder).arg("-xzf").arg(&file));
    let root = folder.join(format!("vulfsjor-{VERSION}"));
    let listed = fs::read_to_string(Path::new(TOP).join("packaging/files.txt")).unwrap();
    let listed = listed.lines().filter_map(|line| line.strip_prefix("vulfsjor.crate: vulfsjor-VERSION/"));
    let mut find = Command::new("find");
    let found = output_of_success(find.args(["-type", "f", "-printf", "%P\\n"]).current_dir(&root));
    let in_folders = |file: &&str| file.contains('/');
    let found: BTreeSet<_> = found.lines().filter(in_folders).collect();
    assert_eq!(found, listed.filter(in_folders).collect());

    let (other, code) = (folder.join("other"), code());
    output_of_success(Command::new("cp").arg("-r").arg(&root).arg(&other));
    let replace = |file: &str, from: &str, to: &str| {
        let file = other.join(file);
        let text = fs::read_to_string(&file).unwrap();
        assert!(text.contains(from));
        fs::write(file, text.replace(from, to)).unwrap();
    };
    replace("Cargo.toml", &format!("version = \"{VERSION}\""), "version = \"99.8.7\"");
    replace("rust/src/library.rs", &format!("\"_{code}_\""), "\"_789_\"");
    for (text, build) in [("aarch64/vulfsjor", "arm"), ("x86_64/vulfsjor-v2", "v2"), ("x86_64/vulfsjor-v3", "v3"),
        ("x86_64/vulfsjor-v4", "v4")]
    {
        for before in ["_", ".L"] {
            replace(&format!("dist/{text}.s"), &format!("{before}{code}_{build}"), &format!("{before}789_{build}"));
        }
    }
    renew_sums(&other.join("dist"));
    let same = ["a", "b"].map(|name| format!("{name}::Blake2b::digest(b\"abc\").as_bytes()"));
    let lines = format!("{PRINT_ABC} assert_eq!({});", same.join(", "));
    let program = Program::new("two_versions", &lines, &[&root, &other]);
    for profile in builds_to_test(&["dev", "release", "thin", "fat"]) {
        let built = program.build(profile, "");
        assert_eq!(output_of_success(&mut Command::new(&built)), ABC);
        for build in BUILDS {
            for (version, code) in [(VERSION, &code[..]), ("99.8.7", "789")] {
                assert_eq!(library_functions_in_program(&built, version, code, build), ["blake2b"], "{profile}");
            }
        }
    }
}

// Both builds of the library for C in the same program.
#[test]
fn crate_links_next_to_the_c_library() {
    let lines = format!(
        "{PRINT_ABC} extern \"C\" {{ fn vulfsjor_library_version() -> u32; }}
        assert!(unsafe {{ vulfsjor_library_version() }} > 0);"
    );
    let program = Program::new("next_to_c", &lines, &[TOP.as_ref()]);
    let given = env::var_os("VULFSJOR_INSTALLED").filter(|folder| !folder.is_empty());
    let installed = given.as_ref().map_or(program.folder.join("installed"), PathBuf::from);
    if given.is_none() {
        output_of_success(Command::new(Path::new(TOP).join("c/install.sh")).arg(&installed));
    }
    let script = format!(
        "fn main() {{ println!(\"cargo:rustc-link-search=native={}/lib\");
        println!(\"cargo:rustc-link-lib=static=vulfsjor\"); }}",
        installed.display()
    );
    fs::write(program.folder.join("build.rs"), script).unwrap();
    for profile in builds_to_test(&["dev", "release"]) {
        let built = program.build(profile, "");
        assert_eq!(output_of_success(&mut Command::new(built)), ABC);
    }
}

// A shared library of Rust contains the crate, and a program calls it through that.
#[test]
#[ignore = "another build, for the full test"]
fn crate_works_in_a_rust_shared_library() {
    let manifest = "[lib]\ncrate-type = [\"dylib\"]\n[dependencies]\nvulfsjor = { path = \"TOP\" }\n";
    package("middle", &manifest.replace("TOP", TOP), "lib.rs", "pub use vulfsjor;\n");
    let lines = r#"let digest = middle::vulfsjor::Blake2b::new().update(b"abc").finalize();
        println!("{digest}");"#;
    let outer = Program::new("outer", lines, &[]);
    let file = outer.folder.join("Cargo.toml");
    let text = fs::read_to_string(&file).unwrap() + "middle = { path = \"../middle\" }\n";
    fs::write(&file, text).unwrap();
    let built = outer.build("release", "-Cprefer-dynamic");
    let of_rust = output_of_success(Command::new("rustc").args(["--print", "target-libdir"]));
    let folders = format!("{}:{}", target_folder().join("release").display(), of_rust.trim());
    assert_eq!(output_of_success(Command::new(built).env("LD_LIBRARY_PATH", folders)), ABC);
}

// The lines of b2sum, and an error for a file that is absent.
#[test]
fn example_sum_prints_b2sum_lines() {
    let folder = folder("sum");
    let long: Vec<u8> = (0..100_000u64).map(|i| ((i * i) >> 7) as u8).collect();
    fs::write(folder.join("long"), long).unwrap();
    fs::write(folder.join("empty"), "").unwrap();
    output_of_success(&mut cargo(&["build", "--example", "sum"], TOP.as_ref()));
    let sums = |program: &Path| {
        Command::new(program).args(["long", "absent", "empty"]).current_dir(&folder).output().unwrap()
    };
    let (sum, wanted) = (sums(&target_folder().join("debug/examples/sum")), sums("b2sum".as_ref()));
    assert_eq!((sum.status.code(), sum.stdout), (Some(1), wanted.stdout));
    assert!(sum.stderr.starts_with(b"absent: "));
}

// The instructions of a comparison do not depend on the place where the bytes differ.
#[test]
#[ignore = "needs valgrind"]
fn a_comparison_takes_equal_time() {
    output_of_success(&mut cargo(&["build", "--release", "--example", "equal_time"], TOP.as_ref()));
    let example = target_folder().join("release/examples/equal_time");
    for call in ["digest", "verify"] {
        let counts = ["00", "31", "63"].map(|place| {
            let mut valgrind = Command::new("valgrind");
            valgrind.args(["--tool=callgrind", "--callgrind-out-file=/dev/null"]);
            let Output { status, stderr, .. } = valgrind.arg(&example).args([call, place]).output().unwrap();
            let said = String::from_utf8(stderr).unwrap();
            assert!(status.success(), "{said}");
            let (_, count) = said.split_once("Collected : ").unwrap();
            count.lines().next().unwrap().parse::<u64>().unwrap()
        });
        assert!(counts[0] > 100_000 && counts == [counts[0]; 3], "{call}: {counts:?}");
    }
}
