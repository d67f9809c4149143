//! The manager, and transactions on it.

use std::fmt;
use std::path::PathBuf;
use std::sync::{Condvar, Mutex, MutexGuard, PoisonError};

use crate::answers::Answer;
use crate::errors::{Error, StepFault};
use crate::library::{Library, Seat, Trace};
use crate::values::Value;

/// At most so many commits, where nothing else is said.
const MAX_COMMITS: u32 = 1_000_000;

/// A transaction of more statements is made by a call for each: not all of them might be kept prepared at once.
const MOST_STEPS: usize = 200;

/// Tables in memory, with assertions that no committed tables make false, and transactions that have a serial order.
///
/// Threads may share it: each call takes the lock that lies within, for its own time alone. With a journal a call waits
/// for the disk without the lock, and those that wait share a sync.
pub struct Manager {
    library: Mutex<Library>,
    synced: Condvar,
}

/// How a manager is opened.
///
/// ```
/// use skewguard::Options;
///
/// let manager = Options::new()
///     .max_commits(1_000)
///     .trace(|line| eprintln!("{line}"))
///     .open("CREATE TABLE T (ID INTEGER PRIMARY KEY);")?;
/// # drop(manager);
/// # Ok::<(), skewguard::Error>(())
/// ```
#[derive(Default)]
pub struct Options {
    journal: Option<PathBuf>,
    checkpoint_bytes: Option<u64>,
    max_commits: Option<u32>,
    trace: Option<Trace>,
}

impl Options {
    /// A million commits, and no trace.
    pub fn new() -> Options {
        Options::default()
    }

    /// With a journal in this file, which is made where there is none: each COMMIT is on the disk before it is
    /// answered, and the next manager goes on from there. The tables are then those that the file holds, and the rows
    /// of the definitions are passed over. No other process may have it open.
    pub fn journal(mut self, path: impl Into<PathBuf>) -> Options {
        self.journal = Some(path.into());
        self
    }

    /// Where the commits in the journal's file become longer than that, and than the rows in front of them, an image of
    /// the newest rows takes the file's place by itself; 0: never. Without this it is 16 MiB.
    pub fn checkpoint_bytes(mut self, most: u64) -> Options {
        self.checkpoint_bytes = Some(most);
        self
    }

    /// At most so many commits, until a checkpoint begins a new epoch.
    pub fn max_commits(mut self, most: u32) -> Options {
        self.max_commits = Some(most);
        self
    }

    /// What is told the line of the report for each event, as `skewguard replay` prints it. It is called under the
    /// lock, in the order of the events, and may not call the manager.
    pub fn trace(mut self, trace: impl FnMut(&str) + Send + 'static) -> Options {
        self.trace = Some(Box::new(trace));
        self
    }

    /// A manager on what the definitions define: as [`Manager::open`]. With a journal also [`Error::Journal`], where
    /// its file can't be opened, is damaged or of other definitions.
    pub fn open(self, definitions: &str) -> Result<Manager, Error> {
        let max_commits = self.max_commits.unwrap_or(MAX_COMMITS);
        let mut library = Library::open(definitions, self.journal.as_deref(), max_commits, self.trace)?;
        if let Some(most) = self.checkpoint_bytes {
            library.set_checkpoint_bytes(most);
        }
        Ok(Manager { library: Mutex::new(library), synced: Condvar::new() })
    }
}

impl Manager {
    /// A manager on the tables, assertions and rows that the definitions define: CREATE TABLE, CREATE ASSERTION and
    /// INSERT, each with its `;`. Refused are a text that is not of the language, what does not fit together, and an
    /// assertion that is false on the rows to begin with ([`Fault::FalseAtCreation`](crate::Fault::FalseAtCreation)).
    pub fn open(definitions: &str) -> Result<Manager, Error> {
        Options::new().open(definitions)
    }

    /// A transaction to be: what it is like, and then [`begin`](TransactionBuilder::begin) or
    /// [`run`](TransactionBuilder::run).
    pub fn transaction(&self) -> TransactionBuilder<'_, 'static> {
        TransactionBuilder { manager: self, read_only: false, session: None, retry: 0 }
    }

    /// A transaction that has begun.
    pub fn begin(&self) -> Result<Transaction<'_>, Error> {
        self.transaction().begin()
    }

    /// Begins a new epoch on the newest tables, and gives the closing part of the report of the one that ended.
    ///
    /// The assertions of these names are dropped, and those of the text are created behind the ones that are left; a
    /// name that is dropped may be created anew. The numbers of commits begin anew, and the memory of the epoch's
    /// history is given back. Refused while a transaction is open
    /// ([`Fault::TransactionOpen`](crate::Fault::TransactionOpen)), and for what [`open`](Manager::open) is refused
    /// for; nothing has changed then.
    ///
    /// With a journal an image of the newest rows takes the place of its file first, also where a transaction is open.
    /// Where that can't be, as on a full disk, it is [`Error::Journal`], and the manager goes on with the file as it
    /// is. No assertion is dropped or created then ([`Error::Journaled`]).
    pub fn checkpoint(&self, create: &str, drop: &[&str]) -> Result<String, Error> {
        if create.is_empty() && drop.is_empty() {
            self.shorten()?;
        }
        self.ask(|library| library.checkpoint(create, drop))
    }

    /// The closing part of the report: the commits, their serial order, the refused COMMITs, and each assertion's
    /// truth.
    pub fn report(&self) -> Result<String, Error> {
        self.ask(|library| library.report())
    }

    /// The library, under its lock. A thread that panicked there had a trace that did: what the library holds is
    /// whole.
    fn library(&self) -> MutexGuard<'_, Library> {
        self.library.lock().unwrap_or_else(PoisonError::into_inner)
    }

    /// What a call of the library answers, once all that it tells of is on the disk.
    fn ask<T, E: From<Error>>(&self, call: impl FnOnce(&mut Library) -> Result<T, E>) -> Result<T, E> {
        let mut library = self.library();
        let answer = call(&mut library);
        let number = library.count_call();
        while library.must_wait(number) {
            library = if library.is_syncing() {
                self.synced.wait(library).unwrap_or_else(PoisonError::into_inner)
            } else {
                self.sync(library)
            };
        }
        match library.failure() {
            None => answer,
            Some(error) => Err(error.into()),
        }
    }

    /// Puts an image in the place of the journal's file, if there is a journal.
    fn shorten(&self) -> Result<(), Error> {
        let mut library = self.library();
        while library.is_syncing() {
            library = self.synced.wait(library).unwrap_or_else(PoisonError::into_inner);
        }
        library.shorten()
    }

    /// Syncs for all calls so far, without the lock.
    fn sync<'m>(&'m self, mut library: MutexGuard<'m, Library>) -> MutexGuard<'m, Library> {
        let (calls, sync) = library.begin_sync();
        let mut error = 0;
        if let Some(sync) = sync {
            drop(library);
            error = sync.make();
            library = self.library();
        }
        library.end_sync(calls, error);
        self.synced.notify_all();
        library
    }
}

impl fmt::Debug for Manager {
    fn fmt(&self, to: &mut fmt::Formatter<'_>) -> fmt::Result {
        to.write_str("Manager")
    }
}

/// What a transaction is to be like.
#[derive(Clone, Copy, Debug)]
#[must_use = "it begins by `begin` or `run`"]
pub struct TransactionBuilder<'m, 's> {
    manager: &'m Manager,
    read_only: bool,
    session: Option<&'s str>,
    retry: u32,
}

impl<'m, 's> TransactionBuilder<'m, 's> {
    /// INSERT, UPDATE and DELETE are refused, and the transaction is refused less often.
    pub fn read_only(mut self) -> Self {
        self.read_only = true;
        self
    }

    /// The name under which reports tell of it; without one the manager gives it one. There may be any number of names;
    /// 256 transactions may be open at once.
    pub fn session<'n>(self, name: &'n str) -> TransactionBuilder<'m, 'n> {
        TransactionBuilder { manager: self.manager, read_only: self.read_only, session: Some(name), retry: self.retry }
    }

    /// How many times more [`run`](TransactionBuilder::run) runs it, where others were in its way.
    pub fn retry(mut self, times: u32) -> Self {
        self.retry = times;
        self
    }

    /// Begins it.
    pub fn begin(self) -> Result<Transaction<'m>, Error> {
        let (seat, snapshot) = self.manager.ask(|library| library.begin(self.session, self.read_only))?;
        Ok(Transaction { manager: self.manager, seat: Some(seat), snapshot })
    }

    /// A whole transaction of these statements with their values, made in one call: the number of its commit, and the
    /// answer to each statement.
    ///
    /// ```
    /// # use skewguard::{values, Manager};
    /// # let manager = Manager::open("CREATE TABLE T (ID INTEGER PRIMARY KEY, N INTEGER);")?;
    /// let (commit, answers) = manager.transaction().retry(3).run_steps(&[
    ///     ("INSERT INTO T VALUES (?, ?)", values![1, 10].into()),
    ///     ("UPDATE T SET N = N + 1 WHERE ID = ?", values![1].into()),
    /// ])?;
    /// assert_eq!((commit, answers.len()), (1, 2));
    /// # Ok::<(), skewguard::Error>(())
    /// ```
    ///
    /// It begins, runs the statements as [`Transaction::execute`] does, and commits. The first statement that is
    /// refused is the fault; none is run behind it, and the transaction is rolled back. Where others were in the way of
    /// its COMMIT, the whole is run again, as by [`run`](TransactionBuilder::run).
    pub fn run_steps(self, steps: &[(&str, Vec<Value>)]) -> Result<(u64, Vec<Answer>), StepFault> {
        for left in (0..=self.retry).rev() {
            let answered = if self.read_only || steps.len() > MOST_STEPS {
                self.run_each(steps)
            } else {
                self.manager.ask(|library| library.transact(self.session, steps))
            };
            match answered {
                Err(fault) if left > 0 && fault.error.is_retryable() => {}
                answered => return answered,
            }
        }
        unreachable!("the last attempt returns")
    }

    /// The same by a call for each of its events.
    fn run_each(self, steps: &[(&str, Vec<Value>)]) -> Result<(u64, Vec<Answer>), StepFault> {
        let mut transaction = self.begin()?;
        let mut answers = Vec::with_capacity(steps.len());
        for (place, (sql, values)) in steps.iter().enumerate() {
            match transaction.execute(sql, values) {
                Ok(answer) => answers.push(answer),
                Err(error) => return Err(StepFault { place: Some(place), answers, error }),
            }
        }
        match transaction.commit() {
            Ok(number) => Ok((number, answers)),
            Err(fault) => Err(StepFault { place: None, answers, error: fault.error }),
        }
    }

    /// What the function gives, called with a transaction, once that transaction has committed.
    ///
    /// Where others were in the way of its COMMIT, the whole is run again, on the tables as they are then; the last
    /// refusal is handed out. Each of them means that another transaction committed, so of transactions that try again
    /// one is always getting on. The function should do nothing that can't be done twice, but for what it does by its
    /// transaction. An error of the function rolls the transaction back, and is handed out.
    pub fn run<T, E: From<Error>>(
        self,
        mut function: impl FnMut(&mut Transaction<'m>) -> Result<T, E>,
    ) -> Result<T, E> {
        for left in (0..=self.retry).rev() {
            let mut transaction = self.begin()?;
            let answer = function(&mut transaction)?;
            if transaction.seat.is_none() {
                return Ok(answer);
            }
            match transaction.commit() {
                Ok(_) => return Ok(answer),
                Err(fault) if left > 0 && fault.error.is_retryable() => {}
                Err(fault) => return Err(fault.error.into()),
            }
        }
        unreachable!("the last attempt returns")
    }
}

/// A transaction: statements on the tables of its begin, with its own changes. It is rolled back when it is dropped.
///
/// COMMIT and ROLLBACK take it, so nothing is run in it afterwards:
///
/// ```compile_fail,E0382
/// # use skewguard::{Error, Manager};
/// let manager = Manager::open("CREATE TABLE T (ID INTEGER PRIMARY KEY);")?;
/// let mut t = manager.begin()?;
/// t.commit()?;
/// t.execute("SELECT * FROM T", &[])?;
/// # Ok::<(), Error>(())
/// ```
///
/// Nor does it outlive its manager:
///
/// ```compile_fail,E0505
/// # use skewguard::{Error, Manager};
/// let manager = Manager::open("CREATE TABLE T (ID INTEGER PRIMARY KEY);")?;
/// let t = manager.begin()?;
/// drop(manager);
/// t.commit()?;
/// # Ok::<(), Error>(())
/// ```
#[must_use = "it is rolled back when it is dropped"]
pub struct Transaction<'m> {
    manager: &'m Manager,
    /// None once it has ended.
    seat: Option<Seat>,
    snapshot: u64,
}

impl<'m> Transaction<'m> {
    /// How many commits its tables hold.
    pub fn snapshot(&self) -> u64 {
        self.snapshot
    }

    /// Runs a statement, in which each `?` stands for the next of the values; they never become a part of the text.
    ///
    /// After an error nothing of the statement is left, and the transaction goes on; COMMIT and ROLLBACK as texts end
    /// it, as the calls do, and what is run behind them is [`Error::Ended`].
    pub fn execute(&mut self, sql: &str, values: &[Value]) -> Result<Answer, Error> {
        let seat = self.seat.as_ref().ok_or(Error::Ended)?;
        let mut is_over = false;
        let answer = self.manager.ask(|library| {
            let answer = library.run(seat, sql, values).map(Answer::of);
            let (has_ended, error) = match &answer {
                Ok(answer) => (answer.has_ended(), None),
                Err(error) => (error.has_ended(), Some(error)),
            };
            is_over = library.note_end(seat, has_ended, error);
            answer
        });
        if is_over {
            self.seat = None;
        }
        answer
    }

    /// Runs a statement once with each of these rows of values, in one call: each as
    /// [`execute`](Transaction::execute) runs it.
    ///
    /// ```
    /// # use skewguard::{values, Manager};
    /// # let manager = Manager::open("CREATE TABLE T (ID INTEGER PRIMARY KEY, N INTEGER);")?;
    /// let mut t = manager.begin()?;
    /// let answers = t.run_all("INSERT INTO T VALUES (?, ?)", &[values![1, 10], values![2, 20]])?;
    /// assert_eq!(answers.len(), 2);
    /// # Ok::<(), skewguard::Error>(())
    /// ```
    ///
    /// The first that is refused, or whose values the statement does not take, is the fault; those before it have been,
    /// and none is run behind it.
    pub fn run_all<R: AsRef<[Value]>>(&mut self, sql: &str, rows: &[R]) -> Result<Vec<Answer>, StepFault> {
        let seat = self.seat.as_ref().ok_or(Error::Ended)?;
        let mut is_over = false;
        let answers = self.manager.ask(|library| {
            let answers = library.run_all(seat, sql, rows);
            let (done, error) = match &answers {
                Ok(answers) => (answers, None),
                Err(fault) => (&fault.answers, Some(&fault.error)),
            };
            let has_ended = done.iter().any(Answer::has_ended) || error.is_some_and(Error::has_ended);
            is_over = library.note_end(seat, has_ended, error);
            answers
        });
        if is_over {
            self.seat = None;
        }
        answers
    }

    /// How an assertion stands on the transaction's own tables; none for unknown.
    pub fn verdict(&mut self, rule: &str) -> Result<Option<bool>, Error> {
        match self.execute(&format!("VERDICT {rule}"), &[])? {
            Answer::Verdict(truth) => Ok(truth),
            _ => Ok(None),
        }
    }

    /// Commits, and gives the number of the commit. The fault gives the transaction back where there was no memory, or
    /// where the commit could not be kept (25); any other has ended it.
    pub fn commit(mut self) -> Result<u64, CommitFault<'m>> {
        let Some(seat) = self.seat.take() else {
            return Err(CommitFault { error: Error::Ended, transaction: None });
        };
        let answer = self.manager.ask(|library| library.commit(&seat));
        answer.map_err(|error| match error {
            error if error.leaves_open() => {
                self.seat = Some(seat);
                CommitFault { error, transaction: Some(self) }
            }
            error => CommitFault { error, transaction: None },
        })
    }

    /// Ends the transaction, and nothing of it is left.
    pub fn rollback(mut self) -> Result<(), Error> {
        match self.seat.take() {
            Some(seat) => self.manager.ask(|library| library.rollback(&seat)),
            None => Err(Error::Ended),
        }
    }
}

impl Drop for Transaction<'_> {
    fn drop(&mut self) {
        if let Some(seat) = self.seat.take() {
            // A rollback takes no memory, and what it answers is of no use to anyone here.
            let _ = self.manager.library().rollback(&seat);
        }
    }
}

impl fmt::Debug for Transaction<'_> {
    fn fmt(&self, to: &mut fmt::Formatter<'_>) -> fmt::Result {
        let state = if self.seat.is_some() { "open" } else { "ended" };
        write!(to, "Transaction({state}, on {} commits)", self.snapshot)
    }
}

/// A COMMIT that was refused.
#[derive(Debug)]
pub struct CommitFault<'m> {
    /// Why.
    pub error: Error,
    /// The transaction, as it was, where there was no memory or the commit could not be kept. It may be committed again.
    pub transaction: Option<Transaction<'m>>,
}

impl fmt::Display for CommitFault<'_> {
    fn fmt(&self, to: &mut fmt::Formatter<'_>) -> fmt::Result {
        self.error.fmt(to)
    }
}

impl std::error::Error for CommitFault<'_> {}

/// The error alone; a transaction that was given back is rolled back.
impl From<CommitFault<'_>> for Error {
    fn from(fault: CommitFault<'_>) -> Error {
        fault.error
    }
}
