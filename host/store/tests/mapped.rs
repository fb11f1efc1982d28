//! Buffers in a file: another mapping, and another process after one that was killed, find what was
//! stored.

use std::fs;
use std::io::{ErrorKind, Read};
use std::path::PathBuf;
use std::process::{Command, Stdio};

use domain_store::{Innermost, Kind, Label, MappedBuffers, Refusal};

/// A file of a test's own, which ends with it.
struct Scratch(PathBuf);

impl Scratch {
    fn new(name: &str) -> Scratch {
        let path = std::env::temp_dir().join(format!("domain_store_{name}_{}", std::process::id()));
        let _ = fs::remove_file(&path);
        Scratch(path)
    }
}

impl Drop for Scratch {
    fn drop(&mut self) {
        let _ = fs::remove_file(&self.0);
    }
}

#[test]
fn the_file_is_laid_out_as_documented() {
    let file = Scratch::new("layout");
    // 65 cells are 4,160 bytes: two pages. 3 bodies are one page. The table is one page too.
    let mut buffers = MappedBuffers::create(&file.0, 65, 2, 3).unwrap();
    let mut store = buffers.store();
    store.make().unwrap();
    store.memory_mut().fill(7);
    store.create().unwrap();
    store
        .add(Innermost, 64..65, Kind::Copy, Label::ReadOnly)
        .unwrap();
    let (bodies, table) = (store.bodies().to_vec(), store.table().to_vec());
    buffers.sync().unwrap();
    drop(buffers);
    let bytes = fs::read(&file.0).unwrap();
    assert_eq!(bytes.len(), 4 * 4_096);
    assert_eq!(bytes[..65 * 64], [7; 65 * 64]);
    assert!(bytes[65 * 64..8_192].iter().all(|byte| *byte == 0));
    assert_eq!(bytes[8_192..][..3 * 64], bodies);
    let words: Vec<u32> = bytes[12_288..][..48 * 4]
        .chunks_exact(4)
        .map(|word| u32::from_le_bytes(word.try_into().unwrap()))
        .collect();
    assert_eq!(words, table);
    assert_eq!(words[..4], [0xCD51_1E01, 65, 2, 3]);
}

#[test]
fn sizes_and_files_are_checked() {
    let file = Scratch::new("checked");
    assert_eq!(
        MappedBuffers::open(&file.0, 4, 8, 8).unwrap_err().kind(),
        ErrorKind::NotFound
    );
    assert_eq!(
        MappedBuffers::create(&file.0, 4, 0, 8).unwrap_err().kind(),
        ErrorKind::InvalidInput
    );
    assert!(!file.0.exists());
    let buffers = MappedBuffers::create(&file.0, 4, 8, 8).unwrap();
    assert_eq!(
        MappedBuffers::create(&file.0, 4, 8, 8).unwrap_err().kind(),
        ErrorKind::AlreadyExists
    );
    assert!(file.0.exists(), "a refused create leaves the file alone");
    let error = MappedBuffers::open(&file.0, 4, 8, 8).unwrap_err();
    assert_eq!(error.kind(), ErrorKind::WouldBlock);
    drop(buffers);
    let error = MappedBuffers::open(&file.0, 4, 4_096, 8).unwrap_err();
    assert_eq!(error.kind(), ErrorKind::InvalidData);
    assert!(error.to_string().contains("12288 bytes"), "{error}");
    // Sizes that round up to the same pages pass the file's length, and the table tells them apart.
    MappedBuffers::open(&file.0, 4, 8, 8)
        .unwrap()
        .store()
        .make()
        .unwrap();
    let mut buffers = MappedBuffers::open(&file.0, 5, 8, 8).unwrap();
    assert_eq!(buffers.store().open(), Err(Refusal::NoStore));
}

/// The child of the test below: it maps the file, works, and waits to be killed. It is a test so
/// that the test program can be its own child.
#[test]
fn child_that_waits() {
    let Some(path) = std::env::var_os("DOMAIN_STORE_TEST_CHILD") else {
        return;
    };
    let mut buffers = MappedBuffers::create(&path, 4, 8, 8).unwrap();
    let mut store = buffers.store();
    store.make().unwrap();
    store.cell_mut(0).fill(7);
    let cycle = store.create().unwrap();
    store
        .add(cycle, 0..1, Kind::Copy, Label::ReadWrite)
        .unwrap();
    store.cell_mut(0).fill(9);
    // Stopped inside the journal: the next process has to finish it.
    assert!(store.advance_with_budget(cycle, 70).unwrap().is_stopped());
    // The parent waits for this line. It is written past the capture of tests.
    std::io::Write::write_all(&mut std::io::stdout(), b"\nready\n").unwrap();
    loop {
        std::thread::park();
    }
}

#[test]
fn a_store_outlives_a_killed_process() {
    let file = Scratch::new("killed");
    let mut child = Command::new(std::env::current_exe().unwrap())
        .args([
            "child_that_waits",
            "--exact",
            "--nocapture",
            "--test-threads=1",
        ])
        .env("DOMAIN_STORE_TEST_CHILD", &file.0)
        .stdout(Stdio::piped())
        .spawn()
        .unwrap();
    let mut said = Vec::new();
    let mut output = child.stdout.take().unwrap();
    let mut buffer = [0; 256];
    while !String::from_utf8_lossy(&said).contains("ready") {
        let length = output.read(&mut buffer).unwrap();
        assert!(
            length > 0,
            "the child ended early: {}",
            String::from_utf8_lossy(&said)
        );
        said.extend_from_slice(&buffer[..length]);
    }
    // While it lives, the file is its own.
    assert_eq!(
        MappedBuffers::open(&file.0, 4, 8, 8).unwrap_err().kind(),
        ErrorKind::WouldBlock
    );
    child.kill().unwrap(); // SIGKILL: no handler, no cleaning up
    child.wait().unwrap();

    let mut buffers = MappedBuffers::open(&file.0, 4, 8, 8).unwrap();
    let mut store = buffers.store();
    assert_eq!(store.list(), Err(Refusal::Pending));
    assert_eq!(store.open(), Ok(3));
    store.cell_mut(0).fill(0);
    store.restore(Innermost).unwrap();
    assert_eq!(store.cell(0), &[9; 64]);
}

#[test]
fn mapped_buffers_go_to_another_thread() {
    let file = Scratch::new("thread");
    let mut buffers = MappedBuffers::create(&file.0, 4, 8, 8).unwrap();
    buffers.store().make().unwrap();
    std::thread::spawn(move || assert_eq!(buffers.store().list().unwrap().len(), 0))
        .join()
        .unwrap();
}
