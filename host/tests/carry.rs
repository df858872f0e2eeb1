//! Files carried between the versions: by the library's calls, and by the command.

mod command_line;

use std::fs;
use std::path::PathBuf;

use command_line::{files_in, folder, vorruda_in, Ran};
use vorruda_host::check::check;
use vorruda_host::library;
use vorruda_host::pairs::{accepted_pairs, long_pair, Pair};
use vorruda_host::reference::version::{Direction, Version};

use Direction::{Down, Up};

/// State 0, new of variable 1, state 1; forbidden there: variable 1 at #. And a certificate.
const JOB: [u8; 14] = [1, 1, 2, 0, 1, 0, 6, 1, 0, 1, 1, 1, 0, 1];
const CERTIFICATE: [u8; 6] = [1, 1, 1, 0, 1, 0];

/// The same in version 2.
const JOB_UP: [u8; 15] = [2, 1, 2, 0, 1, 0, 6, 1, 0, 1, 1, 1, 0, 1, 0];
const CERTIFICATE_UP: [u8; 7] = [2, 1, 1, 0, 1, 0, 0];

/// Version 2: the kind is read, of which version 1 knows nothing; and a member that has a value.
const VALUED_JOB: [u8; 15] = [2, 1, 2, 0, 1, 0, 13, 1, 0, 1, 1, 1, 0, 1, 0];
const VALUED_CERTIFICATE: [u8; 12] = [2, 1, 1, 1, 1, 0, 1, 1, 0, 0, 0, 0];

#[test]
fn the_calls_write_what_the_rules_say() {
    for (direction, from, to) in [
        (
            Up,
            (&JOB[..], &CERTIFICATE[..]),
            (&JOB_UP[..], &CERTIFICATE_UP[..]),
        ),
        (Down, (&JOB_UP, &CERTIFICATE_UP), (&JOB, &CERTIFICATE)),
    ] {
        let (mut bytes, mut out) = ([9; 20], [7; 2]);
        assert_eq!(
            library::carry::job(direction, from.0, &mut bytes, &mut out),
            0
        );
        let filled = to.0.len();
        assert_eq!((&bytes[..filled], out), (to.0, [filled as u64, 7]));
        assert!(bytes[filled..].iter().all(|&byte| byte == 9));

        let (mut bytes, mut out) = ([9; 20], [7; 3]);
        let number = library::carry::certificate(direction, from, &mut bytes, &mut out);
        let filled = to.1.len();
        assert_eq!(number, 0);
        assert_eq!((&bytes[..filled], out), (to.1, [filled as u64, 0, 7]));
        assert!(bytes[filled..].iter().all(|&byte| byte == 9));
    }
}

#[test]
fn refusals_are_told_with_place_and_file() {
    let told = |direction, job: &[u8], certificate: &[u8], room| {
        let (mut bytes, mut out) = (vec![9; room], [7; 2]);
        let files = (job, certificate);
        let number = library::carry::certificate(direction, files, &mut bytes, &mut out);
        assert!(bytes.iter().all(|&byte| byte == 9));
        (number, out)
    };
    assert_eq!(told(Up, &[], &[], 20), (1, [0, 0]));
    assert_eq!(told(Up, &[0], &[], 20), (2, [0, 1]));
    assert_eq!(told(Up, &JOB_UP, &CERTIFICATE, 20), (4, [0, 0]));
    assert_eq!(told(Up, &JOB, &CERTIFICATE_UP, 20), (7, [0, 1]));
    assert_eq!(told(Up, &JOB, &CERTIFICATE[..5], 20), (6, [5, 1]));
    assert_eq!(told(Up, &JOB, &CERTIFICATE, 6), (12, [7, 0]));
    assert_eq!(told(Up, &JOB, &CERTIFICATE, 0), (12, [7, 0]));
    assert_eq!(told(Down, &VALUED_JOB, &CERTIFICATE_UP, 0), (21, [6, 0]));
    let with_cell = [&JOB_UP[..12], &[1, 1, 0, 0]].concat();
    assert_eq!(told(Down, &with_cell, &VALUED_CERTIFICATE, 0), (21, [6, 1]));
}

/// A pair in a folder, as job.bin and cert.bin, and names for it in the other version.
struct OnDisk {
    folder: PathBuf,
}

/// The names of a pair, and those that it gets.
const NAMES: [&str; 4] = ["job.bin", "new_job.bin", "cert.bin", "new_cert.bin"];

impl OnDisk {
    fn new(name: &str, job: &[u8], certificate: &[u8]) -> OnDisk {
        let folder = folder(name);
        fs::write(folder.join("job.bin"), job).unwrap();
        fs::write(folder.join("cert.bin"), certificate).unwrap();
        OnDisk { folder }
    }

    fn carry(&self, direction: Direction, names: &[&str]) -> Ran {
        let subcommand = match direction {
            Up => "up",
            Down => "down",
        };
        vorruda_in(&self.folder, &[&[subcommand], names].concat())
    }

    fn read(&self, name: &str) -> Vec<u8> {
        fs::read(self.folder.join(name)).unwrap()
    }
}

#[test]
fn a_pair_on_disk_goes_up_and_comes_back() {
    let pair = accepted_pairs(Version::One, 5).nth(3).unwrap();
    let disk = OnDisk::new("up_and_down", &pair.job, &pair.certificate);
    let ran = disk.carry(Up, &NAMES);
    let carried = Pair {
        job: disk.read("new_job.bin"),
        certificate: disk.read("new_cert.bin"),
    };
    let told = format!(
        "new_job.bin: {} bytes, version 2\nnew_cert.bin: {} bytes, version 2\n",
        carried.job.len(),
        carried.certificate.len()
    );
    assert_eq!((ran.status, ran.text), (0, told), "{}", ran.said);
    let verdict = |pair: &Pair| check(&pair.job, &pair.certificate);
    assert_eq!(verdict(&carried), verdict(&pair));
    assert_eq!((carried.job[0], carried.certificate[0]), (2, 2));
    let all = ["cert.bin", "job.bin", "new_cert.bin", "new_job.bin"];
    assert_eq!(files_in(&disk.folder), all);

    // Back in its own place.
    let own = ["new_job.bin", "new_job.bin", "new_cert.bin", "new_cert.bin"];
    assert_eq!(disk.carry(Down, &own).status, 0);
    assert_eq!(disk.read("new_job.bin"), pair.job);
    assert_eq!(disk.read("new_cert.bin"), pair.certificate);
    assert_eq!(disk.read("job.bin"), pair.job);
    assert_eq!(disk.read("cert.bin"), pair.certificate);
    assert_eq!(files_in(&disk.folder), all);
}

#[test]
fn a_job_goes_alone() {
    let disk = OnDisk::new("job_alone", &JOB, &[]);
    let ran = disk.carry(Up, &NAMES[..2]);
    let told = "new_job.bin: 15 bytes, version 2\n";
    assert_eq!((ran.status, &ran.text[..]), (0, told), "{}", ran.said);
    assert_eq!(disk.read("new_job.bin"), JOB_UP);
    assert_eq!(
        files_in(&disk.folder),
        ["cert.bin", "job.bin", "new_job.bin"]
    );
    let three = disk.carry(Up, &NAMES[..3]);
    let said = "vorruda: a certificate needs a new name, too\n";
    assert_eq!((three.status, &three.said[..]), (2, said));
}

#[test]
fn errors_name_the_file_and_say_why() {
    let long = long_pair(512, 65_536);
    let with_cell = [&JOB_UP[..12], &[1, 1, 0, 0]].concat();
    let rows: [(Direction, &[u8], &[u8], &str); 8] = [
        (
            Up,
            &JOB_UP,
            &CERTIFICATE_UP,
            "job.bin: it is of version 2 already, and not of version 1",
        ),
        (
            Down,
            &JOB_UP,
            &CERTIFICATE,
            "cert.bin: it is of version 1 already, and not of version 2",
        ),
        (
            Up,
            &[3],
            &CERTIFICATE,
            "job.bin: refused 4 at 0: a number of the job is out of its range",
        ),
        (
            Up,
            &JOB,
            &CERTIFICATE[..5],
            "cert.bin: refused 6 at 5: a number of the certificate can't be read",
        ),
        (
            Up,
            &JOB,
            &[],
            "cert.bin: refused 2 at 0: the certificate is empty or longer than 65,536 bytes",
        ),
        (
            Down,
            &VALUED_JOB,
            &CERTIFICATE_UP,
            "job.bin: refused 21 at 6: a kind above 7, or facts, which version 1 hasn't",
        ),
        (
            Down,
            &with_cell,
            &VALUED_CERTIFICATE,
            "cert.bin: refused 21 at 6: a kind above 7, or facts, which version 1 hasn't",
        ),
        (
            Up,
            &long.job,
            &long.certificate,
            "cert.bin: it would have 66,048 bytes in version 2, and a file has at most 65,536",
        ),
    ];
    for (number, (direction, job, certificate, expected)) in rows.into_iter().enumerate() {
        let disk = OnDisk::new(&format!("refused{number}"), job, certificate);
        fs::write(disk.folder.join("new_job.bin"), "there before").unwrap();
        let ran = disk.carry(direction, &NAMES);
        assert_eq!((ran.status, ran.text), (1, format!("{expected}\n")));
        assert_eq!(disk.read("new_job.bin"), b"there before");
        assert_eq!(
            files_in(&disk.folder),
            ["cert.bin", "job.bin", "new_job.bin"]
        );
    }
}

#[test]
fn files_that_are_missing_or_too_long() {
    let disk = OnDisk::new("missing", &JOB, &vec![1; 65_600]);
    let ran = disk.carry(Up, &NAMES);
    assert!(
        ran.text.starts_with("cert.bin: refused 2 at 0: "),
        "{ran:?}"
    );
    fs::remove_file(disk.folder.join("cert.bin")).unwrap();
    let ran = disk.carry(Up, &NAMES);
    assert_eq!((ran.status, &ran.text[..]), (2, ""));
    assert!(ran.said.starts_with("cert.bin: "), "{ran:?}");
    assert_eq!(files_in(&disk.folder), ["job.bin"]);
}

/// The certificate can't be written, so that the job, which could, isn't either.
#[test]
fn nothing_is_left_where_a_file_cant_be_written() {
    let disk = OnDisk::new("unwritten", &JOB, &CERTIFICATE);
    fs::write(disk.folder.join("new_job.bin"), "there before").unwrap();
    fs::create_dir(disk.folder.join("new_cert.bin")).unwrap();
    let twice = ["job.bin", "new_job.bin", "cert.bin", "new_job.bin"];
    for (names, said) in [(NAMES, "new_cert.bin: "), (twice, "new_job.bin: ")] {
        let ran = disk.carry(Up, &names);
        assert_eq!((ran.status, &ran.text[..]), (2, ""));
        assert!(ran.said.starts_with(said), "{ran:?}");
        assert_eq!(disk.read("new_job.bin"), b"there before");
        let all = ["cert.bin", "job.bin", "new_cert.bin", "new_job.bin"];
        assert_eq!(files_in(&disk.folder), all);
    }
}
