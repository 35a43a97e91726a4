//! The verdict as JSON.
use super::super::object::{object, refusal_object};
use super::said::{refused, told, ASKED};
use super::table;
use crate::engine::Engine;
use crate::names::Names;
use crate::origin::{Naming, Origin, Read};
use crate::required::Required;

/// A verdict of two files, of which nothing else is known.
fn origin() -> Origin {
    let read = |file: &str, sha256: Option<&str>| Read {
        file: file.to_string(),
        sha256: sha256.map(str::to_string),
    };
    Origin {
        table: read("a.svt", Some("11aa")),
        text: None,
        record: read("b.svw", None),
        recorded: None,
        names: Names::none(),
        naming: Naming::Nobody,
    }
}

const FILES: &str = concat!(
    r#""table":{"file":"a.svt","sha256":"11aa"},"record":{"file":"b.svw","sha256":null},"#,
    r#""recorded":null,"kit":""#,
    env!("CARGO_PKG_VERSION"),
    "\"}\n"
);

#[test]
fn a_judged_record_as_json() {
    let required = Required {
        level: Some(3),
        tested: false,
        asked: true,
        named: false,
    };
    let whole = "ack |-> strong(strobe ##1 strobe)";
    let expected = format!(
        r#"{{"line":"level 1 tested yes","engine":"both","level":1,"name":"weak","meaning":"nothing broken, still waiting","tested":true,"implications":[{{"node":7,"part":"{whole}","left":"ack","reached":[0],"matched":[0],"asked":true}}],"once":true,"assertion":"{whole}","signals":[{{"number":0,"name":"ack"}},{{"number":1,"name":"strobe"}}],"names":"none","samples":1,"times":[],"levels":[2,1],"closed":null,"decisive":{{"node":6,"part":"strong(strobe ##1 strobe)","from":0,"level":1,"turned":false,"closed":null,"matched":null}},"required":{{"level":3,"tested":false,"asked":true,"named":false,"reached":false}},"refused":null,{FILES}"#
    );
    let told = told(&ASKED, &[3]);
    assert_eq!(object(&told, required, &origin()).line(), expected);
}

#[test]
fn a_closed_record_as_json() {
    let written = |samples: &[u64]| {
        let told = told(&ASKED, samples);
        object(&told, Required::default(), &origin()).line()
    };
    let closed = r#""from":0,"level":3,"turned":false,"closed":1,"matched":[0,1]}"#;
    assert!(written(&[3, 2]).contains(closed));
    let untested = written(&[0]);
    for expected in [
        r#""tested":false,"implications":"#,
        r#""reached":[0],"matched":[],"asked":false}]"#,
        r#""required":{"level":null,"tested":false,"asked":false,"named":false,"reached":true}"#,
    ] {
        assert!(untested.contains(expected), "{untested}");
    }
}

#[test]
fn a_refusal_as_json() {
    // strong(ack[*0]) is refused with 9 at node 3, before the record, which is too short.
    let hollow = table(&[[1, 0, 0], [16, 0, 0], [20, 1, 0], [32, 2, 0]]);
    let refused = refused(&hollow, b"SVW");
    let origin = origin();
    let files = [&origin.table, &origin.record];
    let written = refusal_object(refused, Engine::Fast, Required::default(), files).line();
    let expected = format!(
        r#"{{"line":"refused 9 at 3","engine":"fast","level":null,"name":null,"meaning":null,"tested":null,"implications":[],"once":null,"assertion":null,"signals":[],"names":null,"samples":null,"times":[],"levels":[],"closed":null,"decisive":null,"required":{{"level":null,"tested":false,"asked":false,"named":false,"reached":false}},"refused":{{"file":"table","number":9,"node":3,"reason":"strong, weak or |-> over a sequence that matches no k letters ⊤, k at least 1"}},{FILES}"#
    );
    assert_eq!(written, expected);
}
