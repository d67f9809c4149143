//! The C library: its functions, and one opened library with its sessions and statements.

use std::collections::HashMap;
use std::ffi::{c_char, c_int, c_void, CString};
use std::os::unix::ffi::OsStrExt;
use std::path::Path;
use std::ptr;
use std::sync::Arc;

use crate::answers::Answer;
use crate::errors::{Error, JournalFault, StepFault};
use crate::layout::{add_number, add_text, add_text_value, add_value, journal_fault, refusal, Reader};
use crate::numbers::{kind, status, Operation, LAYOUT};
use crate::values::Value;

extern "C" {
    fn skewguard_library_open(request: *const u8, length: usize, library: *mut *mut c_void) -> i32;
    fn skewguard_library_call(
        library: *mut c_void,
        operation: u32,
        request: *const u8,
        length: usize,
        reply: *mut u8,
        capacity: usize,
        reply_length: *mut usize,
    ) -> i32;
    fn skewguard_library_close(library: *mut c_void);
    fn skewguard_library_draw(
        request: *const u8,
        length: usize,
        reply: *mut u8,
        capacity: usize,
        reply_length: *mut usize,
    ) -> i32;
    fn skewguard_journal_open(
        path: *const c_char,
        request: *const u8,
        length: usize,
        journal: *mut *mut c_void,
        error: *mut c_int,
    ) -> i32;
    fn skewguard_journal_call(
        journal: *mut c_void,
        operation: u32,
        request: *const u8,
        length: usize,
        reply: *mut u8,
        capacity: usize,
        reply_length: *mut usize,
    ) -> i32;
    fn skewguard_journal_start(
        journal: *mut c_void,
        operation: u32,
        request: *const u8,
        length: usize,
        reply: *mut u8,
        capacity: usize,
        reply_length: *mut usize,
    ) -> i32;
    fn skewguard_journal_take(journal: *mut c_void) -> c_int;
    fn skewguard_journal_make(journal: *const c_void) -> c_int;
    fn skewguard_journal_made(journal: *mut c_void, error: c_int) -> c_int;
    fn skewguard_journal_checkpoint(journal: *mut c_void) -> c_int;
    fn skewguard_journal_checkpoint_bytes(journal: *mut c_void, bytes: u64);
    fn skewguard_journal_close(journal: *mut c_void);
}

/// The status of a call on a journal whose file failed; the errno is in the reply.
const IO_ERROR: i32 = -16;

/// The errno of a path that none can be: it has a zero in it.
const EINVAL: c_int = 22;

/// What a text was to be that was refused.
#[derive(Clone, Copy)]
enum Role {
    Definitions = 0,
    Rules = 1,
    Statement = 2,
}

/// So many prepared statements are kept, those that were used last.
const STATEMENTS: usize = 256;

/// A reply that there was no memory for is asked for so often.
const FETCHES: u32 = 3;

/// A statement with its values.
type Step<'a> = (&'a str, &'a [Value]);

/// What is told the line of each event.
pub type Trace = Box<dyn FnMut(&str) + Send>;

/// The fault of a session more than may be open.
const TOO_MANY_SESSIONS: u32 = 24;

/// The fault of an assertion that is false on the rows that are there.
const FALSE_AT_CREATION: u32 = 21;

/// A session of the library, while it has one transaction: its name, and its number.
#[derive(Clone)]
pub struct Seat {
    name: Arc<str>,
    session: u64,
}

/// What is known of an open session.
struct Session {
    number: u64,
    is_pooled: bool,
    has_transaction: bool,
    /// When it was used last, as a count of uses.
    used: u64,
}

struct Statement {
    number: u64,
    parameters: u64,
    used: u64,
}

/// Who keeps commits, and when.
#[derive(Clone, Copy, PartialEq, Eq)]
enum Keeping {
    /// Memory alone.
    Nowhere,
    /// A journal, in each call: so a line that is traced is on the disk, and in its order.
    InEachCall,
    /// A journal, for all threads that wait, by [`Library::begin_sync`].
    Shared,
}

/// What has to be on the disk before it is told.
#[derive(Default)]
struct Waiting {
    /// How many calls were made, and of how many all that they tell of is on the disk.
    calls: u64,
    kept: u64,
    is_syncing: bool,
    /// The errno of a sync that failed.
    failure: c_int,
}

/// Calls on a journal's file that have to be made. No other call of the library touches them until they are.
pub struct FileCalls {
    handle: *const c_void,
}

// SAFETY: what is made of the handle reads what `begin_sync` has taken over, and calls the system.
unsafe impl Send for FileCalls {}

impl FileCalls {
    /// Makes them: 0, or an errno.
    pub fn make(self) -> c_int {
        // SAFETY: the handle is an open journal's, since the manager that waits for this call has it.
        unsafe { skewguard_journal_make(self.handle) }
    }
}

/// One opened library. Its calls are made one at a time, since each takes `&mut self`.
pub struct Library {
    handle: *mut c_void,
    keeping: Keeping,
    waiting: Waiting,
    /// What it was opened with.
    definitions: String,
    request: Vec<u8>,
    reply: Vec<u8>,
    length: usize,
    /// The status of the last call that made several events.
    status: i32,
    statements: HashMap<String, Statement>,
    uses: u64,
    /// The open sessions, by their names.
    sessions: HashMap<Arc<str>, Session>,
    /// The pooled sessions without a transaction.
    free: Vec<Seat>,
    lost: Vec<Seat>,
    trace: Option<Trace>,
}

// SAFETY: the header allows the calls of one library to come from any threads, one at a time, and nothing else has the
// handle.
unsafe impl Send for Library {}

impl Drop for Library {
    fn drop(&mut self) {
        // SAFETY: the handle is an open library's, of this kind, and is used no more.
        unsafe {
            match self.keeping {
                Keeping::Nowhere => skewguard_library_close(self.handle),
                Keeping::InEachCall | Keeping::Shared => skewguard_journal_close(self.handle),
            }
        }
    }
}

impl Library {
    pub fn open(
        definitions: &str,
        journal: Option<&Path>,
        max_commits: u32,
        trace: Option<Trace>,
    ) -> Result<Library, Error> {
        let mut request = Vec::with_capacity(8 + definitions.len());
        add_number(&mut request, max_commits.into());
        request.extend_from_slice(definitions.as_bytes());
        let mut library = Library {
            handle: opened(&request, journal)?,
            keeping: match (journal, &trace) {
                (None, _) => Keeping::Nowhere,
                (Some(_), Some(_)) => Keeping::InEachCall,
                (Some(_), None) => Keeping::Shared,
            },
            waiting: Waiting::default(),
            definitions: definitions.to_owned(),
            request: Vec::new(),
            reply: vec![0; 4096],
            length: 0,
            status: status::DONE,
            statements: HashMap::new(),
            uses: 0,
            sessions: HashMap::new(),
            free: Vec::new(),
            lost: Vec::new(),
            trace,
        };
        library.call_in(Role::Definitions, Operation::Again, definitions).map_err(unheard)?;
        let layout = Reader::new(library.reply()).number();
        if library.reply().first() != Some(&kind::OPENED) || layout != LAYOUT {
            return Err(Error::OtherLibrary { layout });
        }
        Ok(library)
    }

    /// The number of a call that was made.
    pub fn count_call(&mut self) -> u64 {
        self.waiting.calls += 1;
        self.waiting.calls
    }

    /// Whether what a call tells of is not on the disk yet.
    pub fn must_wait(&self, call: u64) -> bool {
        self.keeping == Keeping::Shared && self.waiting.kept < call && self.waiting.failure == 0
    }

    /// Whether a thread makes calls on the journal's file.
    pub fn is_syncing(&self) -> bool {
        self.waiting.is_syncing
    }

    /// Begins a sync for all calls so far, and gives how many they are. Without calls on the file it has ended.
    pub fn begin_sync(&mut self) -> (u64, Option<FileCalls>) {
        // SAFETY: the handle is an open journal's, since only of one calls must wait, and `&mut self` keeps other calls
        // away. No thread makes what was taken before, or it would be syncing.
        let takes = unsafe { skewguard_journal_take(self.handle) } != 0;
        self.waiting.is_syncing = takes;
        let sync = takes.then_some(FileCalls { handle: self.handle });
        (self.waiting.calls, sync)
    }

    /// That a sync for so many calls has ended, with an errno or 0.
    pub fn end_sync(&mut self, calls: u64, error: c_int) {
        // SAFETY: as in `begin_sync`.
        self.waiting.failure = unsafe { skewguard_journal_made(self.handle, error) };
        self.waiting.is_syncing = false;
        self.waiting.kept = calls;
    }

    /// Puts an image in the place of a journal's file, while no thread syncs.
    pub fn shorten(&mut self) -> Result<(), Error> {
        if self.keeping == Keeping::Nowhere {
            return Ok(());
        }
        // SAFETY: the handle is an open journal's, `&mut self` keeps other calls away, and no thread syncs.
        match unsafe { skewguard_journal_checkpoint(self.handle) } {
            0 => Ok(()),
            errno => Err(Error::Journal(JournalFault::File { errno })),
        }
    }

    /// How long the commits in a journal's file may become.
    pub fn set_checkpoint_bytes(&mut self, bytes: u64) {
        if self.keeping != Keeping::Nowhere {
            // SAFETY: the handle is an open journal's, and `&mut self` keeps other calls away.
            unsafe { skewguard_journal_checkpoint_bytes(self.handle, bytes) }
        }
    }

    /// Why nothing may be told any more.
    pub fn failure(&self) -> Option<Error> {
        let errno = self.waiting.failure;
        (errno != 0).then_some(Error::Journal(JournalFault::File { errno }))
    }

    /// The status of a call with the request that was made; the reply is then in `self.reply()`.
    fn ask(&mut self, operation: Operation) -> i32 {
        let status = self.ask_once(operation);
        if self.length <= self.reply.len() && status != status::REPLY_WAITS {
            return status;
        }
        self.fetch(if operation == Operation::Line { operation } else { Operation::Again })
    }

    /// The status of a reply that has not come yet; REPLY_WAITS where there is no memory for it.
    fn fetch(&mut self, operation: Operation) -> i32 {
        self.request.clear();
        for _ in 0..FETCHES {
            if self.length > self.reply.len() {
                let more = 2 * self.length - self.reply.len();
                if self.reply.try_reserve_exact(more).is_err() {
                    break;
                }
                self.reply.resize(2 * self.length, 0);
            }
            let status = self.ask_once(operation);
            if self.length <= self.reply.len() && status != status::REPLY_WAITS {
                return status;
            }
        }
        self.length = 0;
        status::REPLY_WAITS
    }

    fn ask_once(&mut self, operation: Operation) -> i32 {
        let call = match self.keeping {
            Keeping::Nowhere => skewguard_library_call,
            Keeping::InEachCall => skewguard_journal_call,
            Keeping::Shared => skewguard_journal_start,
        };
        // SAFETY: the handle is an open library's of this kind, request and reply are as long as is said and do not
        // overlap, and `&mut self` keeps other calls away. A vector's pointer is never null.
        unsafe {
            call(
                self.handle,
                operation as u32,
                self.request.as_ptr(),
                self.request.len(),
                self.reply.as_mut_ptr(),
                self.reply.len(),
                &mut self.length,
            )
        }
    }

    fn reply(&self) -> &[u8] {
        &self.reply[..self.length.min(self.reply.len())]
    }

    /// A call with the request that was made. A fault of a statement's text is shown in it.
    fn call(&mut self, operation: Operation, text: &str) -> Result<(), Error> {
        self.call_in(Role::Statement, operation, text)
    }

    /// The same of another text.
    fn call_in(&mut self, role: Role, operation: Operation, text: &str) -> Result<(), Error> {
        match self.ask(operation) {
            status::DONE => Ok(()),
            other => Err(self.explained(role, error(other, self.reply(), text), text)),
        }
    }

    fn error(&self, status: i32, text: &str) -> Error {
        self.explained(Role::Statement, error(status, self.reply(), text), text)
    }

    /// An error with what is known of the fault in its text.
    fn explained(&self, role: Role, mut error: Error, text: &str) -> Error {
        if let Error::Refused(refusal) = &mut error {
            let definitions = if let Role::Definitions = role { "" } else { self.definitions.as_str() };
            if !text.is_empty() && (refusal.fault.is_of_text() || refusal.number == FALSE_AT_CREATION) {
                refusal.explanation = drawn(role, refusal.number, definitions, text);
            }
        }
        error
    }

    /// The reply to an event, of which the trace is told, also where it was refused.
    fn event(&mut self, operation: Operation, text: &str) -> Result<&[u8], Error> {
        let status = self.ask(operation);
        let is_answered = matches!(status, status::DONE | status::REFUSED | status::NOT_KEPT);
        let error = (status != status::DONE).then(|| self.error(status, text));
        if is_answered && self.trace.is_some() {
            let reply = self.reply().to_vec();
            self.tell();
            self.reply[..reply.len()].copy_from_slice(&reply);
            self.length = reply.len();
        }
        match error {
            None => Ok(self.reply()),
            Some(error) => Err(error),
        }
    }

    /// Hands the line of the last answer on. Where there is no memory for it, the trace lacks that line: the event has
    /// been.
    fn tell(&mut self) {
        self.request.clear();
        let _ = self.ask(Operation::Line); // its status is the event's own
        let mut lines = Vec::new();
        let mut reader = Reader::new(self.reply());
        match self.reply().first() {
            Some(&kind::TEXT) => lines.push(reader.text()),
            Some(&kind::SEVERAL) => {
                for _ in 0..reader.number() {
                    reader.kind();
                    lines.push(reader.text());
                }
            }
            _ => {}
        }
        if let Some(trace) = &mut self.trace {
            lines.iter().for_each(|line| trace(line.trim_end_matches('\n')));
        }
    }

    /// A seat in the session of a name, or in one that no transaction uses.
    fn seat(&mut self, name: Option<&str>) -> Result<Seat, Error> {
        let Some(name) = name else {
            return match self.free.pop() {
                Some(seat) => Ok(seat),
                None => self.open_session(self.pooled_name(), true),
            };
        };
        let key = name.to_ascii_uppercase();
        match self.sessions.get_key_value(key.as_str()) {
            Some((_, session)) if session.is_pooled => Err(Error::NameTaken { name: name.to_owned() }),
            Some((name, session)) => Ok(Seat { name: name.clone(), session: session.number }),
            None => self.open_session(key, false).map_err(|error| match error {
                Error::BadRuleName => Error::BadSessionName { name: name.to_owned() },
                error => error,
            }),
        }
    }

    /// The first name of the pool that no open session has.
    fn pooled_name(&self) -> String {
        let mut names = (1..).map(|number: u64| format!("RUST{number}"));
        names.find(|name| !self.sessions.contains_key(name.as_str())).unwrap_or_default()
    }

    /// Opens the session of a new name. Where as many are open as may be, one without a transaction makes room.
    fn open_session(&mut self, name: String, is_pooled: bool) -> Result<Seat, Error> {
        let opened = match self.opened(&name) {
            Err(Error::Refused(refusal)) if refusal.number == TOO_MANY_SESSIONS && self.close_idle() => {
                self.opened(&name)
            }
            opened => opened,
        };
        let (number, name): (_, Arc<str>) = (opened?, name.into());
        let session = Session { number, is_pooled, has_transaction: false, used: self.uses };
        self.sessions.insert(name.clone(), session);
        Ok(Seat { name, session: number })
    }

    /// The number of a new session.
    fn opened(&mut self, name: &str) -> Result<u64, Error> {
        self.request.clear();
        self.request.extend_from_slice(name.as_bytes());
        self.call(Operation::OpenSession, "").map_err(unheard)?;
        Ok(Reader::new(self.reply()).number())
    }

    /// Closes the session that was used longest ago, of those without a transaction; false where there is none.
    fn close_idle(&mut self) -> bool {
        let idle = self.sessions.iter().filter(|(_, it)| !it.has_transaction);
        let Some(name) = idle.min_by_key(|(_, it)| it.used).map(|(name, _)| name.clone()) else {
            return false;
        };
        if let Some(session) = self.sessions.remove(&name) {
            self.free.retain(|seat| seat.name != name);
            self.request.clear();
            add_number(&mut self.request, session.number);
            let _ = self.ask(Operation::CloseSession);
        }
        true
    }

    /// Notes by what a statement was answered whether its transaction is over: it has ended, or nobody can tell.
    pub fn note_end(&mut self, seat: &Seat, has_ended: bool, error: Option<&Error>) -> bool {
        if has_ended {
            self.give_back(seat);
        } else if error == Some(&Error::ReplyLost) {
            self.lose(seat);
        } else {
            return false;
        }
        true
    }

    /// Begins a transaction, and tells how many commits it sees.
    pub fn begin(&mut self, name: Option<&str>, read_only: bool) -> Result<(Seat, u64), Error> {
        self.settle();
        let seat = self.seat(name)?;
        let operation = if read_only { Operation::BeginReadOnly } else { Operation::Begin };
        self.request.clear();
        add_number(&mut self.request, seat.session);
        let has_transaction = self.sessions.get(&seat.name).is_some_and(|it| it.has_transaction);
        let begun = self.event(operation, "").map(|reply| Reader::new(reply).number());
        if has_transaction {
            return begun.map(|snapshot| (seat, snapshot)); // it is refused, and goes on
        }
        self.note_use(&seat);
        match begun {
            Ok(snapshot) => Ok((seat, snapshot)),
            Err(Error::ReplyLost) => {
                self.lose(&seat);
                Err(Error::NoMemory)
            }
            Err(error) => {
                self.give_back(&seat);
                Err(error)
            }
        }
    }

    /// That a transaction has a session.
    fn note_use(&mut self, seat: &Seat) {
        self.uses += 1;
        if let Some(session) = self.sessions.get_mut(&seat.name) {
            session.has_transaction = true;
            session.used = self.uses;
        }
    }

    /// Commits, and gives the commit's number. Its session is free, but where the transaction is still open.
    pub fn commit(&mut self, seat: &Seat) -> Result<u64, Error> {
        self.request.clear();
        add_number(&mut self.request, seat.session);
        let answer = self.event(Operation::Commit, "").map(|reply| Reader::new(reply).number());
        match &answer {
            Err(error) if error.leaves_open() => {}
            Err(Error::ReplyLost) => self.lose(seat),
            _ => self.give_back(seat),
        }
        answer
    }

    /// Rolls back.
    pub fn rollback(&mut self, seat: &Seat) -> Result<(), Error> {
        self.request.clear();
        add_number(&mut self.request, seat.session);
        let answer = self.event(Operation::Rollback, "").map(|_| ());
        self.give_back(seat);
        answer
    }

    /// That a reply was lost. Whatever it said, a ROLLBACK leaves no transaction in the session: it comes before the
    /// next begin.
    pub fn lose(&mut self, seat: &Seat) {
        self.lost.push(seat.clone());
    }

    /// Rolls back what was lost with a reply.
    fn settle(&mut self) {
        while let Some(seat) = self.lost.pop() {
            self.request.clear();
            add_number(&mut self.request, seat.session);
            let _ = self.ask(Operation::Rollback);
            self.give_back(&seat);
        }
    }

    /// That a transaction has ended, and its session is free.
    pub fn give_back(&mut self, seat: &Seat) {
        if let Some(session) = self.sessions.get_mut(&seat.name) {
            session.has_transaction = false;
            if session.is_pooled {
                self.free.push(seat.clone());
            }
        }
    }

    /// The reply to a statement.
    pub fn run(&mut self, seat: &Seat, text: &str, values: &[Value]) -> Result<&[u8], Error> {
        let (number, wanted) = self.statement(text)?;
        let given = values.len() as u64;
        if given != wanted {
            return Err(Error::WrongCount { wanted, given });
        }
        self.request.clear();
        add_number(&mut self.request, seat.session);
        add_number(&mut self.request, number);
        add_number(&mut self.request, given);
        for value in values {
            add_value(&mut self.request, value);
        }
        self.event(Operation::Run, text).map_err(|error| match error {
            Error::NullNotAllowed { parameter } => unfit(parameter, values),
            error => error,
        })
    }

    /// The answers to a statement with each of these rows of values, up to the first that is not done.
    pub fn run_all<R: AsRef<[Value]>>(
        &mut self,
        seat: &Seat,
        text: &str,
        rows: &[R],
    ) -> Result<Vec<Answer>, StepFault> {
        let steps: Vec<Step<'_>> = rows.iter().map(|row| (text, row.as_ref())).collect();
        let (steps, unfit) = self.request_steps(seat, &steps);
        self.several(Operation::RunAll)?;
        let answers = self.read_steps(&mut self.replies(), steps)?;
        match unfit {
            None => Ok(answers),
            Some(error) => Err(StepFault { place: Some(answers.len()), answers, error }),
        }
    }

    /// A whole transaction: the number of its commit, and the answers to its statements.
    pub fn transact(
        &mut self,
        name: Option<&str>,
        steps: &[(&str, Vec<Value>)],
    ) -> Result<(u64, Vec<Answer>), StepFault> {
        self.settle();
        let seat = self.seat(name)?;
        let steps: Vec<Step<'_>> = steps.iter().map(|(text, values)| (*text, values.as_slice())).collect();
        let answered = self.transact_in(&seat, &steps);
        let has_transaction = self.sessions.get(&seat.name).is_some_and(|it| it.has_transaction);
        if !has_transaction {
            self.note_use(&seat);
            self.give_back(&seat);
        }
        answered
    }

    fn transact_in(&mut self, seat: &Seat, steps: &[Step<'_>]) -> Result<(u64, Vec<Answer>), StepFault> {
        if let (steps, Some(error)) = self.request_steps(seat, steps) {
            return Err(StepFault { place: Some(steps.len()), answers: Vec::new(), error });
        }
        self.several(Operation::Transact)?;
        let mut replies = self.replies();
        replies.next("")?;
        let answers = self.read_steps(&mut replies, steps)?;
        match replies.next("") {
            Ok(Answer::Committed(number)) => Ok((number, answers)),
            Ok(_) => Err(StepFault { place: None, answers, error: Error::Ended }),
            Err(error) => Err(StepFault { place: None, answers, error }),
        }
    }

    /// Makes the request to run statements with their values in a session, up to the first that does not take its own:
    /// those before it, and why it does not.
    fn request_steps<'s>(&mut self, seat: &Seat, steps: &'s [Step<'s>]) -> (&'s [Step<'s>], Option<Error>) {
        let mut made = Vec::with_capacity(16 + 32 * steps.len());
        let mut unfit = None;
        add_number(&mut made, seat.session);
        add_number(&mut made, 0);
        let mut count = 0;
        for (text, values) in steps {
            match self.statement(text) {
                Ok((number, wanted)) if wanted == values.len() as u64 => add_number(&mut made, number),
                Ok((_, wanted)) => unfit = Some(Error::WrongCount { wanted, given: values.len() as u64 }),
                Err(error) => unfit = Some(error),
            }
            if unfit.is_some() {
                break;
            }
            add_number(&mut made, values.len() as u64);
            values.iter().for_each(|value| add_value(&mut made, value));
            count += 1;
        }
        made[8..16].copy_from_slice(&(count as u64).to_le_bytes());
        self.request = made;
        (&steps[..count], unfit)
    }

    /// A call that makes several events, of which the trace is told.
    fn several(&mut self, operation: Operation) -> Result<(), Error> {
        self.status = self.ask(operation);
        if self.reply().first() != Some(&kind::SEVERAL) {
            return Err(self.error(self.status, ""));
        }
        if self.trace.is_some() {
            let reply = self.reply().to_vec();
            self.tell();
            self.reply[..reply.len()].copy_from_slice(&reply);
            self.length = reply.len();
        }
        Ok(())
    }

    /// The replies to the last call that made several events.
    fn replies(&self) -> Replies<'_> {
        let mut reader = Reader::new(self.reply());
        reader.number();
        Replies { status: self.status, reader }
    }

    /// The answers to statements, up to the first that was not done.
    fn read_steps(&self, replies: &mut Replies<'_>, steps: &[Step<'_>]) -> Result<Vec<Answer>, StepFault> {
        let mut answers = Vec::with_capacity(steps.len());
        for (place, (text, values)) in steps.iter().enumerate() {
            let error = match replies.next(text) {
                Ok(answer) => {
                    answers.push(answer);
                    continue;
                }
                Err(Error::NullNotAllowed { parameter }) => unfit(parameter, values),
                Err(error) => self.explained(Role::Statement, error, text),
            };
            return Err(StepFault { place: Some(place), answers, error });
        }
        Ok(answers)
    }

    /// The prepared statement of a text, and its parameters: as it was kept, or a new one, for which the one that was
    /// used longest ago may go.
    fn statement(&mut self, text: &str) -> Result<(u64, u64), Error> {
        self.uses += 1;
        if let Some(kept) = self.statements.get_mut(text) {
            kept.used = self.uses;
            return Ok((kept.number, kept.parameters));
        }
        if self.statements.len() >= STATEMENTS {
            self.forget_oldest();
        }
        self.request.clear();
        self.request.extend_from_slice(text.as_bytes());
        self.call(Operation::Prepare, text).map_err(unheard)?;
        let mut reader = Reader::new(self.reply());
        let (number, parameters) = (reader.number(), reader.number());
        let used = self.uses;
        self.statements.insert(text.to_owned(), Statement { number, parameters, used });
        Ok((number, parameters))
    }

    fn forget_oldest(&mut self) {
        let oldest = self.statements.iter().min_by_key(|(_, it)| it.used).map(|(text, _)| text.clone());
        if let Some(statement) = oldest.and_then(|text| self.statements.remove(&text)) {
            self.request.clear();
            add_number(&mut self.request, statement.number);
            let _ = self.ask(Operation::Forget);
        }
    }

    /// The closing part of the report.
    pub fn report(&mut self) -> Result<String, Error> {
        self.request.clear();
        self.call(Operation::Report, "")?;
        Ok(Reader::new(self.reply()).text())
    }

    /// Begins a new epoch, and gives the closing part of the one that ended.
    pub fn checkpoint(&mut self, create: &str, drop: &[&str]) -> Result<String, Error> {
        self.settle();
        self.request.clear();
        add_text(&mut self.request, create);
        add_number(&mut self.request, drop.len() as u64);
        for name in drop {
            add_text_value(&mut self.request, name);
        }
        self.call_in(Role::Rules, Operation::Checkpoint, create)?;
        Ok(Reader::new(self.reply()).text())
    }
}

/// Several replies, of which the first that is not done has the status of the call.
struct Replies<'a> {
    status: i32,
    reader: Reader<'a>,
}

impl Replies<'_> {
    /// The answer to the next event, whose text is this.
    fn next(&mut self, text: &str) -> Result<Answer, Error> {
        let reply = self.reader.rest();
        match self.reader.kind() {
            kind::NOTHING | kind::REFUSAL | kind::MISUSED => Err(error(self.status, reply, text)),
            kind::BEGUN => {
                self.reader.number();
                Ok(Answer::ModesSet)
            }
            kind => Ok(Answer::read(kind, &mut self.reader)),
        }
    }
}

/// The handle of a library, over the journal in a file where one is given.
fn opened(request: &[u8], journal: Option<&Path>) -> Result<*mut c_void, Error> {
    let mut handle = ptr::null_mut();
    let mut errno = 0;
    let status = match journal {
        // SAFETY: the request is as long as it says, and the handle a place of this function's own.
        None => unsafe { skewguard_library_open(request.as_ptr(), request.len(), &mut handle) },
        Some(path) => {
            let invalid = Error::Journal(JournalFault::File { errno: EINVAL });
            let path = CString::new(path.as_os_str().as_bytes()).map_err(|_| invalid)?;
            // SAFETY: the same, and the path ends in a zero.
            unsafe { skewguard_journal_open(path.as_ptr(), request.as_ptr(), request.len(), &mut handle, &mut errno) }
        }
    };
    match status {
        status::DONE => Ok(handle),
        IO_ERROR => Err(Error::Journal(JournalFault::File { errno })),
        _ => Err(Error::NoMemory),
    }
}

/// The drawing of the fault of this number in a text; empty where there is none, or no memory for it.
fn drawn(role: Role, number: u32, definitions: &str, text: &str) -> String {
    let mut request = Vec::new();
    add_number(&mut request, role as u64);
    add_number(&mut request, number.into());
    add_text(&mut request, definitions);
    request.extend_from_slice(text.as_bytes());
    let mut reply = vec![0; 2048];
    loop {
        let mut length = 0;
        // SAFETY: the request and the reply are as long as is said, and do not overlap.
        let status = unsafe {
            skewguard_library_draw(request.as_ptr(), request.len(), reply.as_mut_ptr(), reply.len(), &mut length)
        };
        if status != status::DONE {
            return String::new();
        }
        if length <= reply.len() {
            return String::from_utf8_lossy(&reply[..length]).trim_end().to_owned();
        }
        reply.resize(length, 0);
    }
}

/// The error of a status and a reply. A fault of a text is shown in that text.
fn error(status: i32, reply: &[u8], text: &str) -> Error {
    let misused = || match reply.first() {
        Some(&kind::MISUSED) => Reader::new(reply).number(),
        _ => 0,
    };
    match status {
        status::REFUSED | status::NOT_KEPT => refusal(reply, text),
        status::UNRESTORED => Error::Journal(journal_fault(reply)),
        status::JOURNALED => Error::Journaled,
        IO_ERROR => Error::Journal(JournalFault::File { errno: misused() as i32 }),
        status::NO_MEMORY => Error::NoMemory,
        status::REPLY_WAITS => Error::ReplyLost,
        status::BAD_VALUE => Error::NullNotAllowed { parameter: misused() },
        status::WRONG_COUNT => Error::WrongCount { wanted: misused(), given: 0 },
        status::BAD_NAME => Error::BadRuleName, // of a session `seat` says so
        status => Error::Library { status },
    }
}

/// Why a value may not stand where it was given.
fn unfit(parameter: u64, values: &[Value]) -> Error {
    let value = usize::try_from(parameter).ok().and_then(|place| values.get(place.wrapping_sub(1)));
    match value {
        Some(Value::Int(_) | Value::Numeric(_)) => Error::NumberOutOfRange { parameter },
        Some(Value::Text(text)) => {
            let odd = text.chars().position(|it| it.is_ascii_control());
            Error::TextNotPlain { parameter, character: odd.map_or(0, |place| place + 1) }
        }
        _ => Error::NullNotAllowed { parameter },
    }
}

/// The error of a call that has changed nothing that anyone can see.
fn unheard(error: Error) -> Error {
    match error {
        Error::ReplyLost => Error::NoMemory,
        error => error,
    }
}
