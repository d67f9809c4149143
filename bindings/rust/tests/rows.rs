//! The worked rows, through the crate: each a test of the row's name, by the bytes of the report's lines. The rows are
//! those of the Python package (`../python/tests/rows.txt`).

use std::collections::HashMap;
use std::sync::{Arc, Mutex};

use skewguard::{Error, Fault, Manager, Options, Transaction};

const ROWS: &str = include_str!("../../python/tests/rows.txt");
const LEFT_OPEN: &str = "ROLLBACK AT END";

/// What a row says, each part by the word that begins its lines.
struct Row<'a>(Vec<(&'a str, &'a str)>);

impl<'a> Row<'a> {
    fn named(name: &str) -> Row<'a> {
        let mut lines = ROWS.lines().skip_while(|line| line.strip_prefix("row ") != Some(name)).skip(1);
        let parts = lines.by_ref().take_while(|line| !line.is_empty()).map(|line| line.split_once(' ').unwrap());
        let row = Row(parts.collect());
        assert!(!row.0.is_empty(), "there is no row {name}");
        row
    }

    fn part(&self, word: &'a str) -> impl Iterator<Item = &'a str> + '_ {
        self.0.iter().filter(move |(it, _)| *it == word).map(|(_, rest)| *rest)
    }

    fn joined(&self, word: &'a str) -> String {
        self.part(word).collect::<Vec<_>>().join("\n")
    }

    fn max_commits(&self) -> u32 {
        self.part("commits").next().map_or(1_000_000, |it| it.parse().unwrap())
    }
}

/// The events of a script, each behind its session.
fn events(script: &str) -> Vec<(&str, &str)> {
    let pieces = script.split(';').map(str::trim).filter(|it| !it.is_empty());
    pieces.map(|it| it.split_once(": ").unwrap()).collect()
}

/// A transaction for each session, on a manager whose trace is kept.
struct Run<'m> {
    manager: &'m Manager,
    open: HashMap<String, Transaction<'m>>,
}

impl<'m> Run<'m> {
    /// Runs an event. What is refused is told by the trace.
    fn event(&mut self, session: &str, text: &str) -> Result<(), Error> {
        let builder = self.manager.transaction().session(session);
        let begun = match text {
            "BEGIN" => builder.begin()?,
            "BEGIN READ ONLY" => builder.read_only().begin()?,
            "COMMIT" => return self.ended(session)?.commit().map(drop).map_err(Error::from),
            "ROLLBACK" => return self.ended(session)?.rollback(),
            text => return self.open.get_mut(session).ok_or(Error::Ended)?.execute(text, &[]).map(drop),
        };
        self.open.insert(session.to_owned(), begun);
        Ok(())
    }

    fn ended(&mut self, session: &str) -> Result<Transaction<'m>, Error> {
        self.open.remove(session).ok_or(Error::Ended)
    }
}

/// What a trace was told.
type Lines = Arc<Mutex<Vec<String>>>;

/// A manager on the row's definitions, and what its trace is told.
fn traced(row: &Row<'_>) -> Result<(Manager, Lines), Error> {
    let told = Arc::new(Mutex::new(Vec::new()));
    let lines = Arc::clone(&told);
    let options = Options::new().max_commits(row.max_commits());
    let manager = options.trace(move |line| lines.lock().unwrap().push(line.to_owned())).open(&row.joined("defs"))?;
    Ok((manager, told))
}

fn check(name: &str) {
    let row = Row::named(name);
    let refused = row.joined("refused");
    if refused.starts_with("DEFS") {
        match traced(&row) {
            Err(Error::Refused(refusal)) => assert_eq!(refusal.report, refused),
            other => panic!("{:?}", other.map(drop)),
        }
        return;
    }
    let (manager, told) = traced(&row).unwrap();
    let mut run = Run { manager: &manager, open: HashMap::new() };
    let script = row.joined("events");
    let mut wanted = row.joined("line");
    for (session, text) in events(&script) {
        match run.event(session, text) {
            // The text breaks off: its place is that of the quote, and the manager is asked for nothing.
            Err(Error::Refused(refusal)) if matches!(refusal.fault, Fault::Syntax { .. }) => {
                let Fault::Syntax { line, column, .. } = refusal.fault else { unreachable!() };
                assert_eq!((line, column), (1, text.find('\'').unwrap() + 1));
                assert!(!refused.is_empty());
                return;
            }
            // The crate knows that the transaction has ended, and the manager is not asked.
            Err(Error::Ended) => {
                let line = format!("{session}: REFUSED 14 - NO TRANSACTION");
                told.lock().unwrap().push(line);
            }
            _ => {}
        }
    }
    while let Some((front, last)) = wanted.rsplit_once('\n') {
        let Some(session) = last.strip_suffix(LEFT_OPEN) else { break };
        run.event(session.trim_end_matches(": "), "ROLLBACK").unwrap();
        assert_eq!(told.lock().unwrap().pop().unwrap(), format!("{session}ROLLBACK"));
        wanted = front.to_owned();
    }
    assert_eq!(told.lock().unwrap().join("\n"), wanted);
    let closing = row.joined("closing");
    if !closing.is_empty() {
        assert_eq!(manager.report().unwrap(), closing + "\n");
    }
}

macro_rules! rows {
    ($($name:ident,)*) => {
        $(#[test]
        fn $name() {
            check(stringify!($name));
        })*

        #[test]
        fn all_rows_are_tests() {
            let names: Vec<&str> = ROWS.lines().filter_map(|line| line.strip_prefix("row ")).collect();
            assert_eq!(names, [$(stringify!($name)),*]);
        }
    };
}

rows! {
    grouped_count,
    grouped_count_false_at_creation,
    empty_script,
    sum_of_nothing_is_unknown,
    immediate_refusal_undone,
    deferred_pair,
    deferred_violation_at_commit,
    shift_write_skew,
    disjoint_shifts,
    ledger_write_skew,
    reader_before_writer,
    harmless_pivot,
    pivot_refused,
    reader_refused,
    late_reader,
    null_group,
    low_balance_verdicts,
    same_key_inserted_twice,
    update_out_of_range,
    attribute_clash,
    not_deferrable,
    deferred_then_immediate,
    too_wide,
    too_wide_by_little,
    unfinished_text,
    commit_twice,
    false_at_creation,
    epoch_full,
    unknown_keeps_no_row,
    least_balance_removed,
    null_group_write_skew,
    read_only_reader_passes,
    read_only_before_pivot,
    read_only_reader_refused,
    read_only_insert,
    known_shift,
    known_shift_write_skew,
}
