//! Nothing is lost: whatever goes wrong, the target is the old file or the whole new one, and no other file is left.

use crate::{finish, noise_picture, Folder, WORKED};
use std::fs;
use std::io::Write;
use std::os::unix::fs::{symlink, MetadataExt, PermissionsExt};
use std::os::unix::process::{CommandExt, ExitStatusExt};
use std::process::{Child, Command, Stdio};
use std::time::{Duration, Instant};

const HANGUP: i32 = 1;
const INTERRUPT: i32 = 2;
const TERMINATE: i32 = 15;
const DEFAULT: usize = 0;

extern "C" {
    /// The C library's: sends a signal to a process.
    fn kill(process: i32, signal: i32) -> i32;
    /// The C library's: sets what a signal does.
    fn signal(number: i32, action: usize) -> usize;
}

/// The program, to be ended by each of the signals: tests that run in the background, or under nohup, would hand on
/// that some are ignored.
fn interruptible(here: &Folder, line: &str) -> Command {
    let mut command = here.program(line);
    let as_usual = || {
        for number in [HANGUP, INTERRUPT, TERMINATE] {
            // SAFETY: the action runs no code.
            unsafe { signal(number, DEFAULT) };
        }
        Ok(())
    };
    // SAFETY: `signal` may be called between the fork and the program's start.
    unsafe { command.pre_exec(as_usual) };
    command
}

fn send(child: &Child, signal: i32) {
    // SAFETY: the child has not been waited for, so that the number is still its own.
    unsafe { kill(child.id() as i32, signal) };
}

/// A folder with a picture, whose stream takes the program some time, and an older file in the place of that stream.
fn long_work() -> (Folder, Vec<u8>) {
    let here = Folder::new();
    here.put("in.pgm", noise_picture(600, 500));
    here.ends("encode in.pgm out", 0, "");
    let new = here.get("out");
    here.put("out", "old");
    (here, new)
}

fn start(here: &Folder) -> Child {
    let mut command = interruptible(here, "encode in.pgm out");
    command.stdout(Stdio::null()).stderr(Stdio::null()).spawn().unwrap()
}

/// The target is the old file or the whole new one, and there is no other.
fn nothing_is_lost(here: &Folder, new: &[u8]) {
    let found = here.get("out");
    assert!(found == b"old" || found == new, "{} bytes", found.len());
    assert_eq!(here.names(), ["in.pgm", "out"]);
}

#[test]
fn an_interrupt_at_any_moment() {
    let (here, new) = long_work();
    let began = Instant::now();
    start(&here).wait().unwrap();
    let whole = began.elapsed();
    for moment in 0..40 {
        here.put("out", "old");
        let mut child = start(&here);
        std::thread::sleep(whole * moment / 40);
        send(&child, [HANGUP, INTERRUPT, TERMINATE][moment as usize % 3]);
        child.wait().unwrap();
        nothing_is_lost(&here, &new);
    }
}

/// The signal is sent once the temporary file is seen.
#[test]
fn an_interrupt_while_the_output_is_written() {
    let (here, new) = long_work();
    let mut interrupted = 0;
    for run in 0..12 {
        here.put("out", "old");
        let mut child = start(&here);
        while here.names().len() < 3 && child.try_wait().unwrap().is_none() {
            std::thread::sleep(Duration::from_micros(20));
        }
        send(&child, [HANGUP, INTERRUPT, TERMINATE][run % 3]);
        // It dies of the interrupt, so that a shell ends the loop that runs it.
        if child.wait().unwrap().signal() == Some(INTERRUPT) {
            interrupted += 1;
        }
        nothing_is_lost(&here, &new);
    }
    println!("{interrupted} of 12 runs were interrupted");
}

#[test]
fn an_interrupt_while_the_input_is_awaited() {
    let here = Folder::new();
    for signal in [HANGUP, INTERRUPT, TERMINATE] {
        let mut command = interruptible(&here, "info -");
        let mut child = command.stdin(Stdio::piped()).spawn().unwrap();
        let pipe = child.stdin.take();
        // Before the program has taken up its work, the signal ends it as it would any program.
        std::thread::sleep(Duration::from_millis(50));
        send(&child, signal);
        let status = child.wait().unwrap();
        assert!(status.signal().is_some(), "{status}");
        drop(pipe);
    }
}

/// As under nohup: a signal that is ignored when the program starts stays ignored.
#[test]
fn an_ignored_signal_stays_ignored() {
    let here = Folder::new();
    let mut command = here.command("sh");
    command.args(["-c", "trap '' HUP INT; exec \"$0\" info -", program_path()]);
    let mut child = command.stdin(Stdio::piped()).stdout(Stdio::null()).spawn().unwrap();
    std::thread::sleep(Duration::from_millis(50));
    send(&child, HANGUP);
    send(&child, INTERRUPT);
    child.stdin.take().unwrap().write_all(&WORKED).unwrap();
    assert_eq!(child.wait().unwrap().code(), Some(0));
}

#[test]
fn a_folder_that_does_not_exist() {
    let here = Folder::new();
    here.put("s", WORKED);
    here.ends(
        "show s nowhere/out.pgm",
        4,
        "nowhere/out.pgm: no file can be made in nowhere: no such file or directory",
    );
    assert_eq!(here.names(), ["s"]);
}

#[test]
fn a_device_without_room() {
    let here = Folder::new();
    here.put("s", WORKED);
    here.ends("show s /dev/full", 4, "/dev/full: no space left on device");
    here.put("in.pbm", "P1 2 1 01");
    here.ends("mask in.pbm /dev/full", 4, "/dev/full: no space left on device");
    here.ends("join in.pbm in.pbm /dev/full", 4, "/dev/full: no space left on device");
    let full = fs::OpenOptions::new().write(true).open("/dev/full").unwrap();
    let status = here.program("show s -").stdout(full.try_clone().unwrap()).status().unwrap();
    assert_eq!(status.code(), Some(4));
    for line in ["brightness s", "--help"] {
        let status = here.program(line).stdout(full.try_clone().unwrap()).status().unwrap();
        assert_eq!(status.code(), Some(4), "{line}");
    }
}

/// A file system of its own with room for 64 KiB, where the machine lets a user make one.
#[test]
fn a_full_disk() {
    let here = Folder::new();
    here.put("in.pgm", noise_picture(600, 500));
    fs::create_dir(here.path("disk")).unwrap();
    let script = "mount -t tmpfs -o size=64k none disk || exit 99
        printf old > disk/out
        \"$0\" encode in.pgm disk/out; first=$?
        \"$0\" encode in.pgm disk/new; second=$?
        echo \"$first $second $(cat disk/out) $(ls -A disk)\"";
    let output = here.command("unshare").args(["-rm", "sh", "-c", script]).arg(program_path()).output();
    match output {
        Ok(output) if output.status.success() => {
            let err = String::from_utf8_lossy(&output.stderr);
            assert_eq!(String::from_utf8_lossy(&output.stdout), "4 4 old out\n", "{err}");
            assert!(err.contains("disk/out: no space left on device\n"), "{err}");
        }
        _ => println!("this machine makes no file system for a test"),
    }
}

fn program_path() -> &'static str {
    env!("CARGO_BIN_EXE_dhiirqobaal")
}

#[test]
fn a_limit_of_the_size_of_files() {
    let here = Folder::new();
    here.put("in.pgm", noise_picture(600, 500));
    here.put("out", "old");
    let mut command = here.command("sh");
    command.args(["-c", "ulimit -f 8; exec \"$0\" encode in.pgm out", program_path()]);
    let answer = finish(command, b"");
    assert_eq!((answer.status, answer.err.as_str()), (4, "dhiirqobaal: out: file too large\n"));
    assert_eq!(here.get("out"), b"old");
    assert_eq!(here.names(), ["in.pgm", "out"]);
}

#[test]
fn a_refusal_leaves_the_old_file() {
    let here = Folder::new();
    here.put("in.pgm", noise_picture(8, 8));
    here.put("bad", &WORKED[..20]);
    here.put("out", "old");
    here.ends("encode in.pgm out --levels 9", 3, "refused 2");
    here.ends("show bad out", 3, "refused 12");
    here.ends("cut bad out --mark", 3, "refused 12");
    here.ends("encode bad out", 4, "bad: ");
    here.put("in.pbm", "P1 2 1 01");
    here.put("other.pbm", "P1 1 2 01");
    here.ends("mask in.pbm out --levels 9", 3, "refused 2");
    here.ends("mask bad out", 4, "bad: ");
    here.ends("join in.pbm other.pbm out", 3, "refused 5");
    here.ends("join in.pbm out --rect 2,0,1,1", 3, "refused 8");
    here.ends("join in.pbm bad out", 4, "bad: ");
    assert_eq!(here.get("out"), b"old");
    assert_eq!(here.names(), ["bad", "in.pbm", "in.pgm", "other.pbm", "out"]);
}

#[test]
fn input_and_output_that_are_the_same_file() {
    let here = Folder::new();
    here.put("s", WORKED);
    fs::hard_link(here.path("s"), here.path("hard")).unwrap();
    symlink("s", here.path("soft")).unwrap();
    symlink(".", here.path("folder")).unwrap();
    for output in ["s", "./s", "hard", "soft", "folder/s", "folder/hard"] {
        here.ends(&format!("show s {output}"), 2, "are the same file");
        here.ends(&format!("cut s {output} --mark"), 2, "are the same file");
        here.ends(&format!("show {output} s"), 2, "are the same file");
    }
    here.ends("cut --into . s --mark", 2, "are the same file");
    here.ends("cut --into folder soft --mark", 2, "are the same file");
    here.put("in.pgm", noise_picture(8, 8));
    here.put("list", "0,0,1,1\n");
    here.ends("encode in.pgm list --rects list", 2, "list and list are the same file");
    here.ends("encode in.pgm in.pgm", 2, "in.pgm and in.pgm are the same file");
    here.ends("mask s soft", 2, "s and soft are the same file");
    here.ends("join in.pgm s folder/hard", 2, "s and folder/hard are the same file");
    here.ends("join s list --rects list", 2, "list and list are the same file");
    assert_eq!(here.get("s"), WORKED);
    assert_eq!(here.get("list"), b"0,0,1,1\n");
}

#[test]
fn standard_input_and_output_that_are_the_same_file() {
    let here = Folder::new();
    here.put("s", WORKED);
    for (script, words) in [
        ("\"$0\" show - s < s", "standard input and s are the same file"),
        ("\"$0\" show s - >> s", "s and standard output are the same file"),
        ("\"$0\" show - - < s >> s", "standard input and standard output are the same file"),
        ("\"$0\" brightness s >> s", "s and standard output are the same file"),
        ("\"$0\" brightness - < s >> s", "standard input and standard output are the same file"),
    ] {
        let mut command = here.command("sh");
        command.args(["-c", script, program_path()]);
        let answer = finish(command, b"");
        assert_eq!(answer.status, 2, "{script}: {}", answer.err);
        assert!(answer.err.contains(words), "{script}: {}", answer.err);
    }
    assert_eq!(here.get("s"), WORKED);
}

#[test]
fn what_a_symbolic_link_leads_to_is_replaced() {
    let here = Folder::new();
    here.put("s", WORKED);
    fs::create_dir(here.path("d")).unwrap();
    here.put("d/old.pgm", "old");
    symlink("d/old.pgm", here.path("link.pgm")).unwrap();
    symlink("link.pgm", here.path("second.pgm")).unwrap();
    here.ends("show s second.pgm", 0, "");
    assert_eq!(here.get("d/old.pgm"), b"P5\n2 2\n255\n\x0a\x07\x04\x04");
    symlink("d/new.pgm", here.path("dangling.pgm")).unwrap();
    here.ends("show s dangling.pgm", 0, "");
    assert_eq!(here.get("d/new.pgm"), here.get("d/old.pgm"));
    for name in ["link.pgm", "second.pgm", "dangling.pgm"] {
        assert!(fs::symlink_metadata(here.path(name)).unwrap().is_symlink());
    }
    symlink("round", here.path("round")).unwrap();
    here.ends("show s round", 4, "round: too many");
}

/// Through a link two outputs are one file: the first would be lost.
#[test]
fn two_outputs_that_are_one_file() {
    let here = Folder::new();
    here.put("a.pgm", noise_picture(4, 4));
    here.put("b.pgm", noise_picture(5, 5));
    fs::create_dir(here.path("out")).unwrap();
    symlink("a.stream", here.path("out/b.stream")).unwrap();
    here.ends("encode --into out a.pgm b.pgm", 2, "two inputs would be written to out/b.stream");
    here.put("out/a.stream", "old");
    here.ends("encode --into out a.pgm b.pgm", 2, "two inputs would be written to out/b.stream");
    assert_eq!(here.get("out/a.stream"), b"old");
}

#[test]
fn what_is_not_a_regular_file_is_written_directly() {
    let here = Folder::new();
    here.put("s", WORKED);
    here.ends("show s /dev/null", 0, "");
    assert!(!fs::metadata("/dev/null").unwrap().is_file());
    assert!(here.command("mkfifo").arg("pipe").status().unwrap().success());
    let reader = here.command("cat").arg("pipe").stdout(Stdio::piped()).spawn().unwrap();
    here.ends("show s pipe", 0, "");
    assert_eq!(reader.wait_with_output().unwrap().stdout, b"P5\n2 2\n255\n\x0a\x07\x04\x04");
    assert_eq!(here.names(), ["pipe", "s"]);
}

#[test]
fn permissions() {
    let here = Folder::new();
    here.put("s", WORKED);
    let mode = |name: &str| fs::metadata(here.path(name)).unwrap().mode() & 0o7777;
    for (mask, given) in [("022", 0o644), ("077", 0o600), ("002", 0o664)] {
        let mut command = here.command("sh");
        command.args(["-c", &format!("umask {mask}; exec \"$0\" show s new{mask}"), program_path()]);
        assert_eq!(finish(command, b"").status, 0);
        assert_eq!(mode(&format!("new{mask}")), given);
    }
    for kept in [0o600, 0o640, 0o666, 0o755] {
        here.put("old", "old");
        fs::set_permissions(here.path("old"), fs::Permissions::from_mode(kept)).unwrap();
        here.ends("show s old", 0, "");
        assert_eq!(mode("old"), kept);
    }
}

/// Where the user is not one who may write everything.
#[test]
fn a_file_protected_against_writing_is_not_replaced() {
    let here = Folder::new();
    here.put("s", WORKED);
    here.put("old", "old");
    fs::set_permissions(here.path("old"), fs::Permissions::from_mode(0o444)).unwrap();
    if fs::OpenOptions::new().write(true).open(here.path("old")).is_err() {
        here.ends("show s old", 4, "old: permission denied");
        assert_eq!(here.get("old"), b"old");
    }
}

#[test]
fn standard_input_and_output_are_a_dash() {
    let here = Folder::new();
    here.put("in.pgm", noise_picture(31, 17));
    here.ends("encode in.pgm file --rect 3,2,9,5", 0, "");
    let stream = here.get("file");
    let answer = here.fed("encode - - --rect 3,2,9,5", &here.get("in.pgm"));
    assert_eq!((answer.status, answer.out.as_slice()), (0, stream.as_slice()));
    assert!(answer.err.contains("standard output: ") && answer.err.contains("region mark"), "{}", answer.err);
    here.ends("show file file.pgm", 0, "");
    let answer = here.fed("show - -", &stream);
    assert_eq!((answer.status, answer.out), (0, here.get("file.pgm")));
    assert!(answer.err.contains("standard output: shown from standard input; all"), "{}", answer.err);
    here.ends("cut file cut --mark", 0, "");
    let answer = here.fed("cut - - --mark", &stream);
    assert_eq!((answer.status, answer.out), (0, here.get("cut")));
    assert_eq!(here.fed("info -", &stream).status, 0);
    assert_eq!(here.fed("compare - file.pgm", &here.get("in.pgm")).status, 0);
    assert_eq!(here.fed("compare in.pgm file.pgm --stream -", &stream).status, 0);
    let answer = here.fed("encode in.pgm - --rects -", b"3,2,9,5\n");
    assert_eq!((answer.status, answer.out), (0, stream));
    for line in ["compare - -", "encode - out --rects -", "info - -", "compare - in.pgm --stream -"] {
        here.ends(line, 2, "standard input ('-') can be one input alone");
    }
    here.ends("show --into . -", 2, "--into takes no '-'");
}

/// Standard output under a name of the system's: what stands in front of the data stays, and no report behind it.
#[test]
fn standard_output_under_another_name() {
    let here = Folder::new();
    here.put("s", WORKED);
    let picture = b"P5\n2 2\n255\n\x0a\x07\x04\x04";
    let mut command = here.command("sh");
    command.args([
        "-c",
        "{ printf first; \"$0\" show s /dev/stdout; } > file; \"$0\" show s /dev/stdout",
        program_path(),
    ]);
    let answer = finish(command, b"");
    assert_eq!((answer.status, answer.out.as_slice()), (0, &picture[..]));
    assert_eq!(here.get("file"), [b"first", &picture[..]].concat());
    assert_eq!(answer.err.matches("/dev/stdout: shown from s").count(), 2);
}

/// A name that begins with a dash stands behind two of them.
#[test]
fn a_file_named_dash() {
    let here = Folder::new();
    here.put("s", WORKED);
    here.ends("show s ./-", 0, "");
    assert_eq!(here.get("-"), b"P5\n2 2\n255\n\x0a\x07\x04\x04");
    here.ends("show -- s --b", 0, "");
    assert!(here.path("--b").exists());
}

/// A reader that goes away is told of, and does not end the program by a signal.
/// Who reads a report may have read enough: that is no failure.
#[test]
fn a_report_that_is_not_read_to_its_end() {
    let here = Folder::new();
    here.put("s", WORKED);
    for line in ["info s", "show s out.pgm"] {
        let mut child = here.program(line).stdout(Stdio::piped()).stderr(Stdio::piped()).spawn().unwrap();
        drop(child.stdout.take());
        let output = child.wait_with_output().unwrap();
        assert_eq!((output.status.code(), output.stderr.as_slice()), (Some(0), &b""[..]), "{line}");
    }
}

#[test]
fn a_closed_standard_output() {
    let here = Folder::new();
    here.put("s", WORKED);
    let mut command = here.program("show - -");
    let mut child = command.stdin(Stdio::piped()).stdout(Stdio::piped()).stderr(Stdio::piped()).spawn().unwrap();
    drop(child.stdout.take());
    child.stdin.take().unwrap().write_all(&WORKED).unwrap();
    let output = child.wait_with_output().unwrap();
    assert_eq!(output.status.code(), Some(4));
    assert_eq!(String::from_utf8_lossy(&output.stderr), "dhiirqobaal: standard output: broken pipe\n");
}
