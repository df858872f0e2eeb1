//! The macros of the headers say what is so: the version, the limits and the lengths of `out`.

use std::collections::BTreeMap;
use std::fs;
use std::path::Path;

use vorruda_host::library;
#[cfg(feature = "carrying")]
use vorruda_host::library::carry;
use vorruda_host::list_library;
use vorruda_host::reference::certificate::MOST_MEMBERS;
use vorruda_host::reference::checker::MOST_BYTES;
use vorruda_host::reference::facts::MOST_FACTS;
use vorruda_host::reference::job::{MOST_FORBIDDEN, MOST_STATES, MOST_TRANSITIONS, MOST_VARIABLES};
use vorruda_host::reference::listing::{MARKS, MOST_OPEN, NO_STATE};
use vorruda_host::reference::shape::MOST_CELLS;
#[cfg(feature = "carrying")]
use vorruda_host::reference::version::Direction;

/// The macros of a header without parameters, by their names behind VORRUDA_.
fn macros(header: &str) -> BTreeMap<String, String> {
    let path = Path::new(env!("CARGO_MANIFEST_DIR")).join("../include");
    let text = fs::read_to_string(path.join(header)).unwrap();
    let defined = text.lines().filter_map(|line| {
        let (name, rest) = line.strip_prefix("#define VORRUDA_")?.split_once(' ')?;
        Some((
            name.to_string(),
            rest.split_whitespace().next()?.to_string(),
        ))
    });
    defined.collect()
}

fn number(macros: &BTreeMap<String, String>, name: &str) -> usize {
    let value = macros.get(name).unwrap_or_else(|| panic!("no {name}"));
    value.parse().unwrap()
}

#[test]
fn the_version_is_that_of_the_package() {
    for header in ["vorruda.h", "vorruda_list.h"] {
        let version = &macros(header)["VERSION"];
        assert_eq!(version, concat!('"', env!("CARGO_PKG_VERSION"), '"'));
    }
}

#[test]
fn the_limits_are_those_of_the_rules() {
    let macros = macros("vorruda.h");
    let limits = [
        ("MOST_NUMBER", 65_535),
        ("MOST_BYTES", MOST_BYTES),
        ("MOST_VARIABLES", MOST_VARIABLES as usize),
        ("MOST_STATES", MOST_STATES as usize),
        ("MOST_TRANSITIONS", MOST_TRANSITIONS as usize),
        ("MOST_FORBIDDEN", MOST_FORBIDDEN as usize),
        ("MOST_MEMBERS", MOST_MEMBERS as usize),
        ("MOST_CELLS", MOST_CELLS as usize),
        ("MOST_FACTS", MOST_FACTS as usize),
        ("MOST_OPEN", MOST_OPEN),
        ("MARKS", MARKS),
        ("NO_MARK", NO_STATE.into()),
    ];
    for (name, limit) in limits {
        assert_eq!(number(&macros, name), limit, "{name}");
    }
    let most = macros.keys().filter(|name| name.starts_with("MOST_"));
    assert_eq!(most.count() + 2, limits.len());
}

/// A call with an array of some length; what it tells goes there.
type Call = fn(&mut [u64]);

/// State 0, new of variable 1, state 1; forbidden there: variable 1 at #. And its certificate.
const JOB: [u8; 15] = [2, 1, 2, 0, 1, 0, 6, 1, 0, 1, 1, 1, 0, 1, 0];
const CERTIFICATE: [u8; 7] = [2, 1, 1, 0, 1, 0, 0];

/// The same in version 1.
#[cfg(feature = "carrying")]
const OLD_JOB: [u8; 14] = [1, 1, 2, 0, 1, 0, 6, 1, 0, 1, 1, 1, 0, 1];
#[cfg(feature = "carrying")]
const OLD_CERTIFICATE: [u8; 6] = [1, 1, 1, 0, 1, 0];

const CALLS: &[(&str, Call)] = &[
    ("READ_NUMBER_OUT", |out| {
        library::read_number(&[5], 0, out);
    }),
    ("WRITE_NUMBERS_OUT", |out| {
        library::write_numbers(&[5], &mut [0; 1], out);
    }),
    ("VERDICT_OUT", |out| {
        library::verdict(&JOB, &CERTIFICATE, out);
    }),
    #[cfg(feature = "carrying")]
    ("CARRY_JOB_OUT", |out| {
        carry::job(Direction::Up, &OLD_JOB, &mut [0; 64], out);
    }),
    #[cfg(feature = "carrying")]
    ("CARRY_JOB_OUT", |out| {
        carry::job(Direction::Down, &JOB, &mut [0; 64], out);
    }),
    #[cfg(feature = "carrying")]
    ("CARRY_CERT_OUT", |out| {
        carry::certificate(Direction::Up, (&OLD_JOB, &OLD_CERTIFICATE), &mut [], out);
    }),
    #[cfg(feature = "carrying")]
    ("CARRY_CERT_OUT", |out| {
        carry::certificate(Direction::Down, (&JOB, &CERTIFICATE), &mut [0; 64], out);
    }),
    ("JOIN_OUT", |out| {
        library::join((&JOB, &CERTIFICATE), (&JOB, &CERTIFICATE), 0, out);
    }),
    ("TALLY_VERDICT_OUT", |out| {
        library::tally_verdict(&JOB, &CERTIFICATE, &mut [0; 35], out);
    }),
    ("TALLY_REPORT_OUT", |out| {
        library::tally_report(&[0; 35], &mut [0; 56], out);
    }),
    ("FORBID_OUT", |out| {
        library::forbid_bad_steps(&JOB, &mut [0; 64], out);
    }),
    ("FORBID_OUT", |out| {
        library::forbid_not_list(&JOB, 1, 0, &mut [0; 64], out);
    }),
    ("FORBID_OUT", |out| {
        library::forbid_lost_block(&JOB, 1, 0, &mut [0; 64], out);
    }),
    ("TRANSLATE_OUT", |out| {
        library::translate(b"new(x)\n", &mut [0; 64], &mut [0; 64], out);
    }),
];

/// As many entries are written as the macro says; with one less none is.
fn tells(name: &str, length: usize, call: Call) {
    const UNTOUCHED: u64 = u64::MAX;
    let mut out = vec![UNTOUCHED; length + 1];
    call(&mut out);
    let written = out.iter().filter(|&&entry| entry != UNTOUCHED).count();
    assert_eq!(written, length, "{name}");
    let mut short = vec![UNTOUCHED; length - 1];
    call(&mut short);
    assert!(short.iter().all(|&entry| entry == UNTOUCHED), "{name}");
}

#[test]
fn out_is_as_long_as_the_macros_say() {
    let macros = macros("vorruda.h");
    for &(name, call) in CALLS {
        tells(name, number(&macros, name), call);
    }
    let lengths = macros.keys().filter(|name| name.ends_with("_OUT"));
    for name in lengths {
        assert!(CALLS.iter().any(|(called, _)| called == name), "{name}");
    }
}

#[test]
fn the_list_tells_as_many() {
    let length = number(&macros("vorruda_list.h"), "LIST_COUNT_OUT");
    tells("LIST_COUNT_OUT", length, |out| {
        let mut heap = [0; 137];
        heap[..4].copy_from_slice(&[3, 1, 1, 1]);
        assert_eq!(list_library::count(&mut heap, &mut [0; 64], out), 0);
    });
}
