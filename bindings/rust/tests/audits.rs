//! Audits: pieces of any size, each fault, and what is in the way.
#![allow(clippy::cast_possible_truncation, reason = "no test has so many")]
use folugben::{AuditError, Auditor, JournalError, Location, Storage, Value, audit};
use std::io::{self, Read, Write};

fn count() -> Location {
    Location::new("count")
}

/// Two parts with 3 calls and 3 moves, and 2 calls and 1 move.
fn two_parts() -> (Vec<u8>, Vec<u8>) {
    let storage = Storage::open([(count(), 0.into())], 3).unwrap();
    let mut agent = storage.agent(0).unwrap();
    for _ in 0..3 {
        agent.play(|step| step.inc(count(), 1)).unwrap();
    }
    agent.follow().unwrap();
    let next = agent.go_on(9).unwrap();
    drop(agent);
    let mut agent = next.agent(7).unwrap();
    agent.read(&[count()]).unwrap();
    agent.play(|step| step.put(count(), 10)).unwrap();
    drop(agent);
    (storage.close().unwrap().into_bytes(), next.close().unwrap().into_bytes())
}

/// Returns the result of the audit of the run, written in pieces of this size.
fn audit_in_pieces(run: &[u8], size: usize) -> Result<folugben::Counts, AuditError> {
    let mut auditor = Auditor::new();
    for piece in run.chunks(size) {
        if let Err(error) = auditor.write_all(piece) {
            let fault = error.downcast().expect("an AuditError");
            assert_eq!(auditor.finish(), Err(fault));
            assert_eq!(auditor.write_all(b"more").unwrap_err().downcast::<AuditError>().unwrap(), fault);
            return Err(fault);
        }
    }
    auditor.finish()
}

#[test]
fn pieces_of_each_size_are_audited_alike() {
    let (one, other) = two_parts();
    let run = [one.as_slice(), &other].concat();
    for size in [1, 2, 61, run.len()] {
        let counts = audit_in_pieces(&run, size).unwrap();
        assert_eq!((counts.parts, counts.calls, counts.moves), (2, 5, 4), "{size}");
    }
    assert_eq!(audit(&run[..]).unwrap(), audit_in_pieces(&run, 1).unwrap());
    assert_eq!(audit(&run[..]).unwrap().to_string(), "5 calls, 4 moves, 2 parts");
}

#[test]
fn a_byte_at_a_time_counts_and_state_follow_the_lines() {
    let (one, other) = two_parts();
    let mut auditor = Auditor::new();
    assert_eq!((auditor.counts(), auditor.state().unwrap()), (folugben::Counts::default(), None));
    assert_eq!(auditor.finish(), Err(AuditError::Journal { part: 0, fault: JournalError::Cut }));
    let mut lines = 0;
    for byte in [one.as_slice(), &other].concat() {
        auditor.write_all(&[byte]).unwrap();
        lines += u64::from(byte == b'\n');
        let counts = auditor.counts();
        // The second header is line 5.
        assert_eq!(counts.parts, u64::from(lines >= 4) + u64::from(lines >= 7));
        assert_eq!(counts.calls, [0, 0, 1, 2, 3, 3, 4, 5][lines as usize]);
        let value = [None, Some(0), Some(1), Some(2), Some(3), Some(3), Some(3), Some(10)][lines as usize];
        let state = value.map(|it: i64| vec![(count(), it.into())]);
        assert_eq!(auditor.state().unwrap(), state);
        let is_complete = byte == b'\n' && (lines == 4 || lines == 7);
        assert_eq!(auditor.finish().is_ok(), is_complete, "line {lines}");
    }
}

#[test]
fn the_first_fault_is_reported_with_its_place() {
    let (one, other) = two_parts();
    let (one, other) = (String::from_utf8(one).unwrap(), String::from_utf8(other).unwrap());
    let journal = |part, fault| AuditError::Journal { part, fault };
    let cases = [
        (other.clone() + &one, AuditError::Apart { part: 1 }),
        (one.clone() + &one, AuditError::Apart { part: 1 }),
        (one.replacen("\"fired\":2", "\"fired\":3", 1) + &other, AuditError::Illegal { part: 0, call: 1 }),
        (one.clone() + &other.replace("\"values\":[3]", "\"values\":[4]"), AuditError::Illegal { part: 1, call: 0 }),
        (one.clone() + "what is this?\n", journal(1, JournalError::NotJson(1))),
        (one.replacen("{\"agent\":", "[\"agent\":", 1) + &other, journal(0, JournalError::NotJson(2))),
        (one.clone() + &other.replace("\"read\"", "\"reed\""), journal(1, JournalError::Shape(2))),
        (one.clone() + &other.replace("\"version\":2", "\"version\":3"), journal(1, JournalError::Version)),
        (one.clone() + &other[..other.len() - 1], journal(1, JournalError::Cut)),
        (one[..one.len() - 9].to_owned(), journal(0, JournalError::NotJson(4))),
    ];
    for (run, fault) in cases {
        assert_eq!(audit_in_pieces(run.as_bytes(), run.len()), Err(fault), "{run}");
        assert_eq!(audit_in_pieces(run.as_bytes(), 1), Err(fault), "{run}");
        let error = audit(run.as_bytes()).unwrap_err();
        assert_eq!(error.kind(), io::ErrorKind::InvalidData);
        assert_eq!(error.to_string(), fault.to_string());
        assert_eq!(error.downcast::<AuditError>().unwrap(), fault);
        assert_eq!(folugben::Error::from(audit(run.as_bytes()).unwrap_err()), folugben::Error::Audit(fault));
    }
}

#[test]
fn a_write_returns_how_much_it_took_before_a_fault() {
    let (one, _) = two_parts();
    let mut auditor = Auditor::new();
    let run = [one.as_slice(), b"[]\n"].concat();
    assert_eq!(auditor.write(&run).unwrap(), one.len() + 2);
    assert_eq!((auditor.counts().parts, auditor.counts().calls), (1, 3));
    assert_eq!(auditor.finish(), Err(AuditError::Journal { part: 1, fault: JournalError::Shape(1) }));
    assert!(auditor.write(b"\n").is_err());
    assert_eq!(auditor.state().unwrap(), Some(vec![(count(), Value::from(3))]));
    auditor.flush().unwrap();
}

#[test]
fn a_line_may_be_longer_than_a_complete_journal_that_is_checked() {
    let mut auditor = Auditor::new();
    auditor.write_all(&vec![b' '; 16_777_217]).unwrap();
    let error = auditor.write_all(b"\n").unwrap_err();
    let expected = AuditError::Journal { part: 0, fault: JournalError::NotJson(1) };
    assert_eq!(error.downcast::<AuditError>().unwrap(), expected);
}

#[test]
#[ignore = "asks for 2 GiB of memory"]
fn a_line_without_end_is_refused_in_its_part() {
    for (before, part) in [(Vec::new(), 0), (two_parts().0, 1)] {
        let mut auditor = Auditor::new();
        auditor.write_all(&before).unwrap();
        auditor.write_all(&vec![b' '; 1 << 30]).unwrap();
        let error = auditor.write_all(b" ").unwrap_err();
        assert_eq!(error.downcast::<AuditError>().unwrap(), AuditError::LongLine { part });
        assert_eq!(auditor.counts().parts, part);
    }
}

#[test]
fn a_fault_of_the_reader_is_handed_on() {
    struct Broken;
    impl Read for Broken {
        fn read(&mut self, _: &mut [u8]) -> io::Result<usize> {
            Err(io::Error::new(io::ErrorKind::ConnectionReset, "gone"))
        }
    }
    let error = audit((&two_parts().0[..]).chain(Broken)).unwrap_err();
    assert_eq!((error.kind(), error.to_string().as_str()), (io::ErrorKind::ConnectionReset, "gone"));
    assert!(error.downcast::<AuditError>().is_err());
}
