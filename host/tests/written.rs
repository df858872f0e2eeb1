//! Files that the command writes are there whole or not at all.

mod command_line;

use std::fs;
use std::os::unix::fs::PermissionsExt as _;
use std::path::Path;

use command_line::{file, files_in, folder, shell_in, vorruda, vorruda_in};

/// Where a file can't grow beyond 512 bytes, nothing is left of it, and what was there stays.
#[test]
fn a_file_that_cannot_be_written_stays_as_it_was() {
    let lines = [
        ("try reverse -o .", vec!["cert.bin", "job.bin"]),
        ("report reverse -o .", vec!["reverse.html"]),
        ("release reverse -o .", vec!["release.html"]),
        ("pack text job.bin", vec!["job.bin"]),
    ];
    for (line, files) in lines {
        let folder = folder("too_small");
        for file in &files {
            fs::write(folder.join(file), "as it was").unwrap();
        }
        let numbers = "1 ".repeat(1_000);
        fs::write(folder.join("text"), format!("job\n{numbers}\n")).unwrap();
        let before = files_in(&folder);
        let ran = shell_in(
            &folder,
            &format!("trap '' XFSZ; ulimit -f 1; \"$vorruda\" {line}"),
        );
        assert_eq!((ran.status, &ran.text[..]), (2, ""), "{ran:?}");
        assert!(ran.said.contains("File too large"), "{ran:?}");
        let left: Vec<String> = files_in(&folder);
        let left: Vec<&String> = left
            .iter()
            .filter(|name| !folder.join(name).is_dir())
            .collect();
        assert_eq!(left, before.iter().collect::<Vec<_>>(), "{line}");
        for file in &files {
            assert_eq!(
                fs::read(folder.join(file)).unwrap(),
                b"as it was",
                "{line}: {file}"
            );
        }
        // With room the same line writes them.
        let ran = shell_in(&folder, &format!("\"$vorruda\" {line}"));
        assert_eq!(ran.status, 0, "{ran:?}");
        for file in &files {
            assert_ne!(
                fs::read(folder.join(file)).unwrap(),
                b"as it was",
                "{line}: {file}"
            );
        }
    }
}

/// A folder stands where a file is to be: nothing is left beside it, and the other file of the pair stays.
#[test]
fn one_of_two_files_cannot_be_written() {
    let folder = folder("in_the_way");
    fs::create_dir(folder.join("cert.bin")).unwrap();
    fs::write(folder.join("job.bin"), "as it was").unwrap();
    let ran = vorruda_in(&folder, &["try", "append", "-o", "."]);
    assert_eq!(ran.status, 2, "{ran:?}");
    assert_eq!(ran.said, "./cert.bin: it is a folder\n");
    assert_eq!(files_in(&folder), ["cert.bin", "job.bin"]);
    assert_eq!(fs::read(folder.join("job.bin")).unwrap(), b"as it was");
    fs::write(folder.join("text"), "job\n1\ncertificate\n2\n").unwrap();
    let twice = vorruda_in(&folder, &["pack", "text", "same.bin", "same.bin"]);
    let said = "same.bin: it is to be written twice\n";
    assert_eq!((twice.status, &twice.said[..]), (2, said));
    assert!(!folder.join("same.bin").exists());
}

/// A link leads to the file that is written, permissions stay, and a device isn't replaced.
#[test]
fn links_permissions_and_devices() {
    let folder = folder("linked");
    let target = folder.join("target.bin");
    fs::write(&target, "as it was").unwrap();
    fs::set_permissions(&target, fs::Permissions::from_mode(0o640)).unwrap();
    std::os::unix::fs::symlink(&target, folder.join("link.bin")).unwrap();
    let ran = vorruda_in(&folder, &["translate", "append", "-o", "link.bin"]);
    assert_eq!(ran.status, 0, "{ran:?}");
    assert!(fs::symlink_metadata(folder.join("link.bin"))
        .unwrap()
        .is_symlink());
    assert_ne!(fs::read(&target).unwrap(), b"as it was");
    assert_eq!(
        fs::metadata(&target).unwrap().permissions().mode() & 0o777,
        0o640
    );
    let ran = vorruda(&["translate", "append", "-o", "/dev/null"]);
    assert_eq!(ran.status, 0, "{ran:?}");
    assert!(!fs::metadata("/dev/null").unwrap().is_file());
}

#[test]
fn folders_are_made() {
    let folder = folder("made");
    let ran = vorruda_in(&folder, &["try", "append", "-o", "a/b"]);
    assert_eq!(ran.status, 0, "{ran:?}");
    assert_eq!(files_in(&folder.join("a/b")), ["cert.bin", "job.bin"]);
    let way = file("no_folder", "");
    let ran = vorruda(&["try", "append", "-o", way.join("in").to_str().unwrap()]);
    assert_eq!(ran.status, 2, "{ran:?}");
    assert!(Path::new(&way).is_file());
}

/// What goes on is shown to a person at a terminal alone.
#[test]
fn no_progress_without_a_terminal() {
    let ran = vorruda(&["try", "append"]);
    assert_eq!((ran.status, &ran.said[..]), (0, ""), "{ran:?}");
}
