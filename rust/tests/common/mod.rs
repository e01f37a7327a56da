//! The conformance cases (tests/conformance/README.md), and the lines that tests/vectors.py prints.
use std::any::Any;
use std::collections::{BTreeMap, HashMap};
use std::fmt::Debug;
use std::path::{Path, PathBuf};
use std::process::Command;
use std::{env, fs};
use vulfsjor::{Params, Tree};

/// What a call returns, or None if there is no such call.
pub type Outcome<E> = Option<Result<String, E>>;

pub fn no_value<E>() -> Outcome<E> {
    Some(Ok(String::new()))
}

/// Bytes as the value of a call.
pub fn hex(bytes: &[u8]) -> String {
    let digits: String = bytes.iter().map(|byte| format!("{byte:02x}")).collect();
    format!("= {}", if digits.is_empty() { "-" } else { &digits })
}

pub fn yes_or_no<E>(is_yes: bool) -> Outcome<E> {
    Some(Ok(String::from(if is_yes { "= yes" } else { "= no" })))
}

/// The bytes of a word, or None for `none`, which no argument of Rust is.
pub fn bytes(word: &str) -> Option<Vec<u8>> {
    let Some((start, end)) = word.split_once(':') else {
        let digits = if word == "-" { "" } else { word };
        let pairs = (0..digits.len()).step_by(2);
        return (word != "none")
            .then(|| pairs.map(|i| u8::from_str_radix(&digits[i..i + 2], 16).unwrap()).collect());
    };
    let places = start.parse::<usize>().unwrap()..end.parse().unwrap();
    Some(places.map(|i| (i + (i >> 8) + (i >> 16)) as u8).collect())
}

/// The arguments of a hash in a line.
pub struct Given<'a>(HashMap<&'a str, &'a str>);

impl<'a> Given<'a> {
    pub fn of(call: &'a str) -> Self {
        Given(call.split(' ').filter_map(|word| word.split_once('=')).collect())
    }

    pub fn text(&self, name: &str) -> Option<Vec<u8>> {
        bytes(self.0.get(name).unwrap_or(&"-"))
    }

    pub fn number<T: std::str::FromStr>(&self, name: &str, otherwise: T) -> Option<T> {
        self.0.get(name).map_or(Some(otherwise), |word| word.parse().ok())
    }

    pub fn has(&self, name: &str) -> bool {
        self.0.contains_key(name)
    }

    /// Whether it has these arguments at most.
    pub fn has_only(&self, names: &[&str]) -> bool {
        self.0.keys().all(|name| names.contains(name))
    }

    /// The number that an argument has, or its length.
    pub fn value(&self, name: &str) -> u64 {
        let is_text = ["key", "salt", "person"].contains(&name);
        if is_text { self.text(name).unwrap().len() as u64 } else { self.number(name, 0).unwrap() }
    }

    /// Calls with the parameters, if Rust has types for their values.
    pub fn params<R>(&self, call: impl FnOnce(&Params) -> Option<R>) -> Option<R> {
        let [key, salt, persona] = [self.text("key")?, self.text("salt")?, self.text("person")?];
        let tree = Tree {
            fanout: self.number("fanout", 1)?,
            depth: self.number("depth", 1)?,
            leaf_length: self.number("leaf", 0)?,
            node_offset: self.number("offset", 0)?,
            node_depth: self.number("node", 0)?,
            inner_length: self.number("inner", 0)?,
        };
        let mut params = Params::new().salt(&salt).persona(&persona).allow_short(true);
        if !self.has_only(&["size", "key", "salt", "person"]) {
            params = params.tree(tree).last_node(self.number("last", 0)? == 1);
        }
        if self.has("size") && self.0["size"] != "unknown" {
            params = params.output_size(self.number("size", 0)?);
        }
        call(&if self.has("key") { params.key(&key) } else { params })
    }
}

macro_rules! calls_that_may_be_absent {
    ($($call:ident($($argument:ident: $type:ty),*))*) => {
        $(fn $call(&mut self, $($argument: $type),*) -> Outcome<E> {
            None
        })*
    };
}

/// A hash in pieces.
pub trait Hash<E>: Copies<E> {
    fn update(&mut self, message: &[u8]) -> Outcome<E>;
    calls_that_may_be_absent! {
        digest() verify(_tag: &[u8]) reset() last(_on: bool) save() count() left() read(_count: u64)
        next(_skip: u64, _leaves: &[u8]) absorb(_leaves: &[u8], _message: &[u8])
    }
}

/// The copy of a hash, which is its clone, and the hash with its type.
pub trait Copies<E> {
    fn copy(&self) -> Box<dyn Hash<E>>;
    fn any(&mut self) -> &mut dyn Any;
}

impl<E, T: Hash<E> + Clone + 'static> Copies<E> for T {
    fn copy(&self) -> Box<dyn Hash<E>> {
        Box::new(self.clone())
    }
    fn any(&mut self) -> &mut dyn Any {
        self
    }
}

/// A hash that was made, or its error, if there is such a hash.
pub type Made<E> = Option<Result<Box<dyn Hash<E>>, E>>;

pub type Hashes<E> = HashMap<String, Box<dyn Hash<E>>>;

/// The outcome of a call of one of these hashes.
fn outcome_of_hash_call<E>(hashes: &mut Hashes<E>, call: &[&str]) -> Outcome<E> {
    let hash = hashes.get_mut(call[1])?;
    match call[0] {
        "update" => hash.update(&bytes(call[2])?),
        "copy" => {
            let copy = hash.copy();
            hashes.insert(call[2].into(), copy);
            no_value()
        }
        "reset" => hash.reset(),
        "last" => hash.last(call[2] == "1"),
        "save" => hash.save(),
        "count" => hash.count(),
        "left" => hash.left(),
        "read" => hash.read(call[2].parse().unwrap()),
        "next" => hash.next(call[2].parse().unwrap(), &bytes(call[3])?),
        "absorb" => hash.absorb(&bytes(call[2])?, &bytes(call[3])?),
        "digest" => hashes.remove(call[1])?.digest(),
        "verify" => {
            let tag = bytes(call[2])?;
            hashes.remove(call[1])?.verify(&tag)
        }
        _ => None,
    }
}

/// The outcome of the call in which several hashes absorb.
fn outcome_of_update_many_call<D: Driver>(
    driver: &D,
    hashes: &mut Hashes<D::Error>,
    call: &[&str],
) -> Outcome<D::Error> {
    let messages = call[2..].iter().map(|word| bytes(word)).collect::<Option<Vec<_>>>()?;
    let names: Vec<_> = call[1].chars().map(String::from).collect();
    if !names.iter().all(|name| hashes.contains_key(name)) {
        return None;
    }
    let mut several: Vec<_> = names.iter().map(|name| hashes.remove(name).unwrap()).collect();
    let outcome = driver.update_many(&mut several, &messages);
    hashes.extend(names.into_iter().zip(several));
    outcome
}

/// What a driver has: how a hash is made, how one is loaded and how several absorb in one call, which may be absent, the
/// calls without a state, and whether an error is the one of an argument of this call.
pub trait Driver {
    type Error: Debug;
    fn make(&self, hash: &str, given: &Given) -> Made<Self::Error>;
    fn load(&self, _hash: &str, _saved: &[u8]) -> Option<Option<Box<dyn Hash<Self::Error>>>> {
        None
    }
    fn update_many(&self, _hashes: &mut [Box<dyn Hash<Self::Error>>], _messages: &[Vec<u8>]) -> Outcome<Self::Error> {
        None
    }
    fn call(&self, call: &[&str], given: &Given) -> Outcome<Self::Error>;
    fn is_error(&self, error: &Self::Error, argument: &str, call: &[&str], given: &Given) -> bool;
}

/// Makes the calls of the cases of some hashes, and compares their outcomes. `all` is how many calls, and how many
/// cases end early, by the call that is not there, or not with these values. A call that is to be refused is then left
/// out.
/// With VULFSJOR_SHARE=N in the environment it takes each Nth case only.
pub fn run<D: Driver>(driver: &D, names: &[&str], all: (usize, &[(&str, usize)])) {
    let share = env::var("VULFSJOR_SHARE").map_or(1, |share| share.parse().unwrap());
    let (folder, mut number, mut calls, mut skipped) = (folder(), 0, 0, BTreeMap::new());
    for name in names {
        let (mut case, mut hashes, mut goes_on) = ("", HashMap::new(), true);
        let text = fs::read_to_string(folder.join(format!("{name}.txt"))).unwrap();
        for line in text.lines().filter(|line| !line.is_empty() && !line.starts_with('#')) {
            if let Some(name) = line.strip_prefix("case ") {
                number += 1;
                (case, goes_on) = (name, number % share == 0);
                hashes.clear();
            }
            if line.starts_with("case ") || !goes_on {
                continue;
            }
            let end = line.find(" = ").or_else(|| line.find(" ! ")).unwrap_or(line.len());
            let (words, wanted) = (&line[..end], line[end..].trim_start());
            let given = Given::of(words);
            let call: Vec<_> = words.split(' ').filter(|word| !word.contains('=')).collect();
            let got = match call[0] {
                "new" => {
                    hashes.remove(call[1]);
                    let made = driver.make(call[2], &given);
                    made.map(|made| made.map(|hash| drop(hashes.insert(call[1].into(), hash))).map(|()| String::new()))
                }
                "load" => {
                    hashes.remove(call[1]);
                    let loaded = bytes(call[3]).and_then(|saved| driver.load(call[2], &saved));
                    loaded.map(|hash| Ok(String::from(match hash.map(|hash| hashes.insert(call[1].into(), hash)) {
                        Some(_) => "",
                        None => "! saved",
                    })))
                }
                "wipe" => {
                    hashes.remove(call[1]);
                    no_value()
                }
                "hash" | "many" | "equal" | "derive" | "leaves" | "top" => driver.call(&call, &given),
                "updates" => outcome_of_update_many_call(driver, &mut hashes, &call),
                _ => outcome_of_hash_call(&mut hashes, &call),
            };
            let is_right = match &got {
                Some(Ok(text)) => text == wanted,
                Some(Err(error)) => wanted.strip_prefix("! ").map_or(false, |names| {
                    names.split(',').any(|name| driver.is_error(error, name, &call, &given))
                }),
                None => {
                    if !wanted.starts_with('!') && !["count", "left"].contains(&call[0]) {
                        *skipped.entry(call[0].to_string()).or_insert(0) += 1;
                        goes_on = false;
                    }
                    continue;
                }
            };
            assert!(is_right, "{case}: {line:.200}\n  gives {got:?}");
            calls += 1;
        }
    }
    println!("{calls} calls, cases that end early by a call: {skipped:?}");
    let is_all = calls == all.0 && skipped.iter().map(|(call, cases)| (&**call, *cases)).eq(all.1.iter().copied());
    assert!(is_all || share > 1 && calls * share > all.0 / 2);
}

// A script of this repository.
fn script(path: &str) -> PathBuf {
    let folders = Path::new(env!("CARGO_MANIFEST_DIR")).ancestors();
    folders.map(|folder| folder.join(path)).find(|script| script.exists()).unwrap()
}

/// The folder of the cases, which Python writes unless VULFSJOR_CONFORMANCE names it.
fn folder() -> PathBuf {
    if let Some(folder) = env::var_os("VULFSJOR_CONFORMANCE") {
        return folder.into();
    }
    let folder = Path::new(env!("CARGO_TARGET_TMPDIR")).join("conformance");
    fs::create_dir_all(&folder).unwrap();
    let mut write = Command::new("python3");
    write.arg(script("tests/conformance/write.py")).arg(&folder);
    assert!(write.status().expect("python3").success());
    folder
}

/// The fields of a family's lines that tests/vectors.py prints, without their kind, which is this.
pub fn lines(family: &str, kind: &str) -> Vec<Vec<String>> {
    let mut print = Command::new("python3");
    let output = print.arg(script("tests/vectors.py")).args(["--lines", family]).output().expect("python3");
    assert!(output.status.success(), "{output:?}");
    let text = String::from_utf8(output.stdout).unwrap();
    let lines = text.lines().filter_map(|line| line.strip_prefix(kind)?.strip_prefix(' '));
    let fields: Vec<_> = lines.map(|line| line.split(' ').map(String::from).collect()).collect();
    assert!(fields.len() >= 3);
    fields
}
