//! What docs/TOOLS.md says of words, records and histories, line by line.
use fuzzing::answers::{answer, edges, entries, verdict, Answer};
use fuzzing::reading::{lawful, records, Tool};
use std::ffi::OsString;
use std::fs;
use std::path::Path;

/// The status and the text of an input that has one answer.
fn written(tool: &str, input: &[u8]) -> (u8, Vec<u8>) {
    match answer(&[tool.into()], input) {
        Answer::Text(status, text) => (status, text),
        _ => panic!("{tool} has many answers to {}", input.escape_ascii()),
    }
}

#[test]
fn the_examples_have_their_answers() {
    let folder = Path::new(env!("CARGO_MANIFEST_DIR")).join("../../examples");
    for file in fs::read_dir(folder).expect("the examples") {
        let path = file.expect("a file").path();
        let name = path.file_stem().and_then(|stem| stem.to_str()).expect("a name");
        if path.extension().map_or(true, |end| end != "csv") {
            continue;
        }
        let (script, stored) = (fs::read(&path).expect("a script"), fs::read(path.with_extension("out")).expect("an answer"));
        match Tool::of_name(name) {
            Some(Tool::Serve) => assert_eq!(verdict(&entries(&records(&script)), &stored), None),
            Some(Tool::Gserve) => assert_eq!(verdict(&edges(&records(&script)), &stored), None),
            Some(_) => assert_eq!(written(name, &script), (0, stored), "{name}"),
            None => assert_eq!(written("map", &script), (0, stored), "{name}"),
        }
    }
}

fn has_records(input: &[u8], wanted: &[&[&[u8]]]) {
    let found = records(input);
    assert!(found.iter().eq(wanted), "{}: {found:?}", input.escape_ascii());
}

#[test]
fn records_are_parted_as_told() {
    has_records(b"a,b\nc", &[&[b"a", b"b"], &[b"c"]]);
    has_records(b"a\r\nb\rc\n", &[&[b"a"], &[b"b"], &[b"c"]]);
    has_records(b"\n\r\n\ra\n\n", &[&[b"a"]]);
    has_records(b"\xef\xbb\xbfa", &[&[b"a"]]);
    has_records(b"\xef\xbb\xbf\"a\"", &[&[b"a"]]);
    has_records(b"a,", &[&[b"a", b""]]);
    has_records(b"\"\"", &[&[b""]]);
    has_records(b"\"a,\nb\"\"c\"", &[&[b"a,\nb\"c"]]);
    has_records(b"\"a\"b\"c,d", &[&[b"ab\"c", b"d"]]);
    has_records(b"a\"b, \"c\"", &[&[b"a\"b", b" \"c\""]]);
    has_records(b"\"a,b\n", &[&[b"a,b\n"]]);
    has_records(b"\"", &[&[b""]]);
}

#[test]
fn the_first_fault_of_a_record_names_the_code() {
    let rows = [
        ("map", "get,0,1\nput,0,1", "error,2,fields"),
        ("map", "Put,16", "error,1,verb"),
        ("map", "put,16,x,1", "error,1,register"),
        ("map", "put,015,x,1", "error,1,register"),
        ("map", "put,15,x,1", "error,1,number"),
        ("map", "put,0,1,01", "error,1,number"),
        ("map", "put,0,1,18446744073709551616", "error,1,number"),
        ("map", "union,0,1,2,Sum", "error,1,how"),
        ("map", "build,0,1", "error,1,fields"),
        ("map", "mput,0", "error,1,fields"),
        ("seq", "push,0", "error,1,fields"),
        ("interval", "add,2,1", "error,1,interval"),
        ("interval", "over,2,1", "error,1,interval"),
        ("interval", "add,2,x", "error,1,number"),
        ("points", "add,1,2,3,4,5", "error,1,fields"),
        ("index", "and,a,b-c", "error,1,term"),
        ("index", "doc,x,b-c", "error,1,number"),
        ("graph", "add,1,2,3", "error,1,fields"),
        ("graph", "comp,1", "error,1,fields"),
        ("serve", "b,0,del,1", "error,1,verb"),
        ("serve", "serve,2\nserve,2", "error,2,verb"),
        ("serve", "serve,65", "error,1,callers"),
        ("serve", "serve,0,1", "error,1,fields"),
        ("serve", "serve,2\nb,2,dell", "error,2,caller"),
        ("serve", "serve,2\nb,2", "error,2,fields"),
        ("serve", "serve,2\nb,1,del,1,dell", "error,2,op"),
        ("serve", "serve,2\nb,1,put,x", "error,2,fields"),
        ("serve", "serve,2\nb,1,put,x,1,dell", "error,2,number"),
        ("serve", "serve,2\nr,1,get,1,2", "error,2,fields"),
        ("serve", "serve,2\nround,1", "error,2,fields"),
        ("gserve", "serve,2\nr,1,get,1", "error,2,op"),
        ("check", "serve,1\nr,0,siz", "error,2,op"),
        ("check", "serve,1\nr,0,size\n", "error,3,run"),
        ("check", "", "error,1,run"),
    ];
    for (tool, input, wanted) in rows {
        assert_eq!(written(tool, input.as_bytes()), (3, format!("{wanted}\n").into_bytes()), "{tool} {input}");
    }
}

#[test]
fn the_least_point_that_fails_is_named() {
    let input = "serve,2\nb,0,put,1,1\nb,0,put,1,2\nb,1,put,1,3\nr,1,get,1\nround\nb,0,del,1\nr,1,size\nrun\n";
    let rows = [
        ("r,5,1,some,1\nr,8,4,size,0\nj,1,2\nj,2,3\nj,3,4\nj,4,7\nfinal,0,0,0\n", "yes"),
        ("r,5,2,some,3\nr,8,3,size,1\nj,1,2\nj,2,4\nj,3,3\nj,4,7\nfinal,0,0,0\n", "yes"),
        ("r,5,1,some,1\nr,8,4,size,0\nj,1,2\nj,2,3\nj,3,4\nj,4,7\nfinal,0,0,0", "no,0"),
        ("r,5,01,some,1\nr,8,4,size,0\nj,1,2\nj,2,3\nj,3,4\nj,4,7\nfinal,0,0,0\n", "no,0"),
        ("r,5,9,\nr,8,9,\nj,1,2\nj,2,3\nj,3,4\nj,4,8\nfinal,\n", "no,1"),
        ("r,5,9,\nr,8,9,\nj,1,3\nj,2,2\nj,3,4\nj,4,7\nfinal,\n", "no,2"),
        ("r,5,9,\nr,8,9,\nj,1,2\nj,2,3\nj,3,7\nj,4,4\nfinal,\n", "no,3"),
        ("r,5,4,\nr,8,4,\nj,1,2\nj,2,3\nj,3,4\nj,4,7\nfinal,\n", "no,4"),
        ("r,5,1,some,2\nr,8,4,size,0\nj,1,2\nj,2,3\nj,3,4\nj,4,7\nfinal,0,0,0\n", "no,6"),
        ("r,5,1,some,1\nr,8,4,size,0\nj,1,2\nj,2,3\nj,3,4\nj,4,7\nfinal,0,0,1\n", "no,6"),
    ];
    for (text, wanted) in rows {
        assert_eq!(written("check", [input, text].concat().as_bytes()), (0, format!("{wanted}\n").into_bytes()), "{text}");
    }
    let falling = "serve,1\nb,0,del,1\nr,0,size\nr,0,size\nrun\nr,3,1,size,0\nr,4,0,size,0\nj,1,2\nfinal,0,0,0\n";
    assert_eq!(written("check", falling.as_bytes()), (0, b"no,5\n".to_vec()));
}

#[test]
fn words_are_lawful_as_told() {
    let rows = [
        ("map", true),
        ("--workers 64 map", true),
        ("map --grain=4294967296 --seed 0", true),
        ("--size 1 -- sample", true),
        ("map --", true),
        ("", false),
        ("map map", false),
        ("Map", false),
        ("--workers 65 map", false),
        ("--workers= map", false),
        ("--workers 04 map", false),
        ("--work 4 map", false),
        ("--seed 1 --seed 1 map", false),
        ("map -- --seed 1", false),
        ("-- -- map", false),
        ("--help", false),
    ];
    for (line, wanted) in rows {
        let words: Vec<OsString> = line.split(' ').filter(|word| !word.is_empty()).map(Into::into).collect();
        assert_eq!(lawful(&words).is_some(), wanted, "{line}");
    }
}
