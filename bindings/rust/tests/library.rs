//! The calls, on the bundles of examples/.

use dm::{check, Error, Fault, Kinds, Limits, Policy, Refusal, Repo, Verdict};

const FIRST: &[u8] = include_bytes!("../../../examples/first.bundle");
const BASE: &[u8] = include_bytes!("../../../examples/walk-through/base.bundle");
const CONFLICTS: &[u8] = include_bytes!("../../../examples/walk-through/conflicts.bundle");
const ALL_KINDS: &[u8] = include_bytes!("../../../examples/all-kinds.dpatch");

fn repo_of(text: &[u8]) -> Repo {
    let mut repo = Repo::new().unwrap();
    assert!(repo.take(text, Limits::STANDARD, Policy::Refuse).unwrap().is_accepted());
    repo
}

#[test]
fn a_bundle_is_checked() {
    assert_eq!(check(FIRST, Limits::STANDARD).unwrap(), FIRST);
    let fault = |fault, at| Err(Error::Rejected(Verdict::Malformed { fault, at }));
    assert_eq!(check(b"", Limits::STANDARD), fault(Fault::NoNewPatches, 0));
    assert_eq!(check(b"hello", Limits::STANDARD), fault(Fault::NoNewPatches, 5));
    assert_eq!(check(FIRST, Limits { bytes: 9, ..Limits::STANDARD }), fault(Fault::TooLarge, 9));
    let six = check(ALL_KINDS, Limits::STANDARD);
    assert!(matches!(six, Err(Error::Rejected(Verdict::Malformed { fault: Fault::Unsupported, .. }))));
    assert!(check(ALL_KINDS, Limits::STANDARD.with_kinds(Kinds::All)).is_ok());
    assert_eq!(check(b"hello", Limits::STANDARD).unwrap_err().to_string(), "malformed no-new-patches 5");
}

#[test]
fn replaces_are_counted() {
    let text = b"New patches:\n\n[a\np**20240101000000] {\naddfile ./a\nhunk ./a 1\n+x\nreplace ./a [a-z] x y\n}\n\nContext:\n\n";
    let all = Limits::STANDARD.with_kinds(Kinds::All);
    assert_eq!(check(text, all).unwrap(), text);
    let why = |limits| match check(text, limits) {
        Err(Error::Rejected(Verdict::Malformed { fault, .. })) => Some(fault),
        _ => None,
    };
    assert_eq!(why(Limits::STANDARD), Some(Fault::Unsupported));
    assert_eq!(why(Limits { replaces: 0, ..all }), Some(Fault::TooMany));
    assert_eq!(why(Limits { replaces: 1, ..all }), None);
    let mut repo = Repo::new().unwrap();
    assert_eq!(repo.take(text, all, Policy::Refuse), Ok(Verdict::Taken(1)));
    assert_eq!(repo.file(b"./a").unwrap().unwrap(), b"y\n");
}

#[test]
fn a_bundle_is_taken() {
    let mut repo = repo_of(FIRST);
    assert_eq!((repo.len(), repo.is_empty()), (Ok(1), Ok(false)));
    assert_eq!(repo.listing().unwrap(), b"file ./a 2\n");
    assert_eq!(repo.file(b"./a").unwrap().unwrap(), b"x\n");
    assert_eq!(repo.file(b"./b"), Ok(None));
    assert_eq!(repo.bundle().unwrap(), FIRST);
    assert_eq!((repo.names().unwrap().len(), repo.name(1)), (1, Ok(None)));
    assert_eq!(repo.take(FIRST, Limits::STANDARD, Policy::Refuse), Ok(Verdict::NothingNew));
}

#[test]
fn a_conflict_changes_nothing() {
    let mut repo = repo_of(BASE);
    let before = repo.bundle();
    let verdict = repo.take(CONFLICTS, Limits::STANDARD, Policy::Refuse).unwrap();
    assert_eq!(verdict, Verdict::Refused { refusal: Refusal::Conflicts, place: 1, other: 1 });
    assert_eq!(verdict.line().unwrap(), b"refused conflicts 1 1\n");
    assert_eq!(repo.bundle(), before);
    let said = repo.explain(CONFLICTS, Limits::STANDARD, Policy::Refuse, &verdict).unwrap().unwrap();
    assert!(String::from_utf8(said).unwrap().contains("conflicts with the held patch:"));
    let skipped = repo.take(CONFLICTS, Limits::STANDARD, Policy::Skip);
    assert_eq!(skipped, Ok(Verdict::TakenSome { taken: 1, skipped: 1 }));
}

#[test]
fn what_somebody_lacks_is_sent() {
    let repo = repo_of(BASE);
    let sent = repo.send(b"Context:\n\n", Limits::OWN, false).unwrap().unwrap();
    assert_eq!(repo_of(&sent).listing(), repo.listing());
    assert_eq!(repo.send(&repo.context().unwrap(), Limits::OWN, true), Ok(None));
    assert!(matches!(
        repo.send(b"Context:\n\n[a\nx", Limits::OWN, true),
        Err(Error::Rejected(Verdict::Malformed { fault: Fault::BadInfo, .. }))
    ));
}

#[test]
fn a_repository_goes_to_another_thread() {
    let mut repo = repo_of(FIRST);
    let handle = std::thread::spawn(move || repo.take(BASE, Limits::STANDARD, Policy::Refuse).map(|it| (it, repo.len())));
    assert_eq!(handle.join().unwrap(), Ok((Verdict::Taken(3), Ok(4))));
}

#[test]
fn the_version() {
    assert_eq!(dm::version().unwrap(), env!("CARGO_PKG_VERSION").as_bytes());
}
