// Makes a map of sorted forms, and looks the words of a text up in one: the peer of `bench/images.py`.
//
//     fst_map build FORMS MAP     one form a line, in the order of its bytes; its value is the number of its line
//     fst_map look MAP TEXT       each word of the text as it is written, and else in lower case; prints how many were
//                                 found, and how many different words there are
//     fst_map split MAP TEXT      the same without a look-up: reads both files, and counts the different words
//     fst_map report MAP DICTIONARY TEXT
//                                 the report of `dico`: the dictionary's lines of each word, those of each longer span,
//                                 and the words without a line; the dictionary's lines are those of the map's forms
use std::collections::{BTreeSet, HashMap};
use std::env;
use std::fs::{read, File};
use std::io::{stdout, BufRead, BufReader, BufWriter, Write};

use fst::raw::{Fst, Output};
use fst::{Map, MapBuilder};

fn build(forms: &str, map: &str) {
    let mut builder = MapBuilder::new(BufWriter::new(File::create(map).unwrap())).unwrap();
    for (number, line) in BufReader::new(File::open(forms).unwrap()).lines().enumerate() {
        builder.insert(line.unwrap(), number as u64).unwrap();
    }
    builder.finish().unwrap();
}

fn look(map: &str, text: &str) {
    let map = Map::from_bytes(read(map).unwrap()).unwrap();
    let text = String::from_utf8(read(text).unwrap()).unwrap();
    let mut known: HashMap<&str, bool> = HashMap::new();
    let mut found = 0;
    for word in text.split(|c: char| !c.is_alphabetic()).filter(|word| !word.is_empty()) {
        let is_there = *known.entry(word).or_insert_with(|| {
            map.get(word).is_some() || map.get(word.to_lowercase()).is_some()
        });
        found += is_there as usize;
    }
    println!("{} {}", found, known.len());
}

fn split(map: &str, text: &str) {
    let map = Map::from_bytes(read(map).unwrap()).unwrap();
    let text = String::from_utf8(read(text).unwrap()).unwrap();
    let mut known: HashMap<&str, bool> = HashMap::new();
    let mut found = 0;
    for word in text.split(|c: char| !c.is_alphabetic()).filter(|word| !word.is_empty()) {
        found += *known.entry(word).or_insert(true) as usize;
    }
    println!("{} {} {}", map.len(), found, known.len());
}

/// Puts the numbers of the forms that the text begins with, up to the end of a word after the first one.
fn put_spans(fst: &Fst, text: &str, lower: bool, found: &mut Vec<u64>) {
    let mut node = fst.root();
    let mut out = Output::zero();
    let mut words = 0;
    let mut bytes = [0; 4];
    let mut chars = text.chars().peekable();
    while let Some(c) = chars.next() {
        let c = if lower { c.to_lowercase().next().unwrap() } else { c };
        for byte in c.encode_utf8(&mut bytes).bytes() {
            match node.find_input(byte) {
                Some(place) => {
                    let transition = node.transition(place);
                    out = out.cat(transition.out);
                    node = fst.node(transition.addr);
                }
                None => return,
            }
        }
        if c.is_alphabetic() && chars.peek().map_or(true, |next| !next.is_alphabetic()) {
            words += 1;
            if words > 1 && node.is_final() {
                found.push(out.cat(node.final_output()).value());
            }
        }
    }
}

fn put(section: &str, lines: &BTreeSet<&str>, into: &mut impl Write) {
    writeln!(into, "{} {}", section, lines.len()).unwrap();
    for line in lines {
        writeln!(into, "{}", line).unwrap();
    }
}

fn report(map: &str, dictionary: &str, text: &str) {
    let map = Map::from_bytes(read(map).unwrap()).unwrap();
    let dictionary = String::from_utf8(read(dictionary).unwrap()).unwrap();
    let lines: Vec<&str> = dictionary.lines().collect();
    let text = String::from_utf8(read(text).unwrap()).unwrap();
    let mut known: HashMap<&str, Vec<u64>> = HashMap::new();
    let mut spans = Vec::new();
    let mut rest = text.as_str();
    while let Some(start) = rest.find(char::is_alphabetic) {
        rest = &rest[start..];
        let end = rest.find(|c: char| !c.is_alphabetic()).unwrap_or(rest.len());
        let word = &rest[..end];
        let lowered = word.to_lowercase();
        known.entry(word).or_insert_with(|| {
            let mut numbers: Vec<u64> = map.get(word).into_iter().collect();
            if lowered != word {
                numbers.extend(map.get(&lowered));
            }
            numbers
        });
        put_spans(map.as_fst(), rest, false, &mut spans);
        if lowered != word {
            put_spans(map.as_fst(), rest, true, &mut spans);
        }
        rest = &rest[end..];
    }
    let out = &mut BufWriter::new(stdout());
    let numbers = |all: &mut dyn Iterator<Item = &u64>| all.map(|number| lines[*number as usize]).collect();
    put("#DLF", &numbers(&mut known.values().flatten()), out);
    put("#DLC", &numbers(&mut spans.iter()), out);
    let unknown = known.iter().filter(|(_, numbers)| numbers.is_empty());
    put("#ERR", &unknown.map(|(word, _)| *word).collect(), out);
}

fn main() {
    let words: Vec<String> = env::args().collect();
    match words[1].as_str() {
        "build" => build(&words[2], &words[3]),
        "look" => look(&words[2], &words[3]),
        "split" => split(&words[2], &words[3]),
        "report" => report(&words[2], &words[3], &words[4]),
        other => panic!("build, look, split or report, and not {}", other),
    }
}
