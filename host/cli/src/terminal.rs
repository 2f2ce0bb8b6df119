//! A line typed at a terminal that does not show it. The terminal's own keys mend the line. While it is typed, signals that
//! end or stop the tool first put the terminal back as it was. And a line that is drawn on standard error, which signals that
//! end the tool end first. Unsafe code, for Linux on x86-64.
use mivrozh::Secret;
use std::cell::UnsafeCell;
use std::fs::File;
use std::io::{self, Read, Write};
use std::os::fd::AsRawFd;
use std::ptr;
use std::sync::atomic::{AtomicBool, AtomicPtr, Ordering::SeqCst};

extern "C" {
    fn tcgetattr(file: i32, settings: *mut Settings) -> i32;
    fn tcsetattr(file: i32, when: i32, settings: *const Settings) -> i32;
    fn tcdrain(file: i32) -> i32;
    fn tcflush(file: i32, queue: i32) -> i32;
    fn tcgetpgrp(file: i32) -> i32;
    fn getpgrp() -> i32;
    fn ioctl(file: i32, request: u64, ...) -> i32;
    fn sigaction(number: i32, new: *const Action, old: *mut Action) -> i32;
    fn raise(number: i32) -> i32;
    fn write(file: i32, bytes: *const u8, length: usize) -> isize;
    fn poll(files: *mut Polled, count: u64, milliseconds: i32) -> i32;
    fn __errno_location() -> *mut i32;
}

// The longest line that a terminal gives, with its newline.
const LONGEST_LINE: usize = 4096;

/// Asks for a line; nothing where the end of the input was typed at its beginning.
pub fn typed(terminal: &File, prompt: &str) -> io::Result<Option<Secret>> {
    let prompt = Prompt::new(terminal, prompt);
    let silence = Silence::begin(&prompt)?;
    let line = line(terminal);
    drop(silence);
    line
}

// A terminal gives a whole line at once.
fn line(mut terminal: &File) -> io::Result<Option<Secret>> {
    let mut secret = Secret::zeroed(LONGEST_LINE);
    let length = loop {
        match terminal.read(secret.expose_mut()) {
            Err(error) if error.kind() == io::ErrorKind::Interrupted => {}
            read => break read?,
        }
    };
    terminal.write_all(b"\n")?;
    let newline = secret.expose()[..length].ends_with(b"\n");
    secret.truncate(length - usize::from(newline));
    Ok((length > 0).then_some(secret))
}

// A terminal's settings: `struct termios` of the C library.
#[repr(C)]
#[derive(Clone, Copy, Default)]
struct Settings {
    input: u32,
    output: u32,
    control: u32,
    local: u32,
    line: u8,
    characters: [u8; 32],
    speeds: [u32; 2],
}

const ICRNL: u32 = 0o400;
const IUTF8: u32 = 0o40000;
const ISIG: u32 = 0o1;
const ICANON: u32 = 0o2;
const ECHO: u32 = 0o10;
const ECHONL: u32 = 0o100;
const TCSANOW: i32 = 0;
const TCSAFLUSH: i32 = 2;
const TCIFLUSH: i32 = 0;

impl Settings {
    // Whole lines, without echo, with the keys that the terminal has; one erase takes a whole character of UTF-8.
    fn silent(mut self) -> Settings {
        self.input |= ICRNL | IUTF8;
        self.local |= ICANON | ISIG;
        self.local &= !(ECHO | ECHONL);
        self
    }
}

// What is asked now. The handlers below share it with the code that they interrupt: `before` is written only while `silent`
// is false, and read only while it is true.
struct Prompt {
    terminal: i32,
    text: String,
    before: UnsafeCell<Settings>,
    silent: AtomicBool,
}

// The methods run in handlers too: they call only what a handler may call, take no memory and no lock.
impl Prompt {
    fn new(terminal: &File, text: &str) -> Prompt {
        let (terminal, text) = (terminal.as_raw_fd(), text.to_owned());
        Prompt { terminal, text, before: UnsafeCell::default(), silent: AtomicBool::new(false) }
    }

    // Makes the terminal silent and shows the text.
    fn show(&self) -> io::Result<()> {
        let silent = self.silent.load(SeqCst);
        // In the background this stops the tool, before it has looked at settings that are the shell's.
        // SAFETY: the file is open as long as the prompt.
        done(|| unsafe { tcdrain(self.terminal) })?;
        if self.silent.load(SeqCst) != silent {
            // The tool was continued, and the handler has shown the text.
            return Ok(());
        }
        if !silent {
            let mut now = Settings::default();
            // SAFETY: the file is open, and the settings have the C library's layout.
            done(|| unsafe { tcgetattr(self.terminal, &mut now) })?;
            // SAFETY: nobody reads the settings while `silent` is false; a handler that interrupts this writes the same ones.
            unsafe { *self.before.get() = now };
            self.silent.store(true, SeqCst);
        }
        // SAFETY: the settings are written, and stay as they are while `silent` is true.
        let settings = unsafe { *self.before.get() }.silent();
        // SAFETY: the file is open, and the settings have the C library's layout.
        done(|| unsafe { tcsetattr(self.terminal, TCSAFLUSH, &settings) })?;
        self.print(self.text.as_bytes());
        Ok(())
    }

    // Puts the terminal back, without what is left of a line: the shell must not get a part of a passphrase. Waits for
    // nothing, such as output that the user has halted.
    fn hide(&self) {
        if self.silent.load(SeqCst) {
            // SAFETY: the file is open; the settings are written, and have the C library's layout. A terminal that is gone
            // by now needs nothing more.
            unsafe {
                tcflush(self.terminal, TCIFLUSH);
                tcsetattr(self.terminal, TCSANOW, self.before.get());
            }
            self.silent.store(false, SeqCst);
        }
    }

    fn print(&self, bytes: &[u8]) {
        // SAFETY: the file is open, and the bytes are as many as is said.
        unsafe { write(self.terminal, bytes.as_ptr(), bytes.len()) };
    }

    fn is_in_foreground(&self) -> bool {
        is_in_foreground(self.terminal) == Some(true)
    }
}

// Whether this process is in the foreground of its terminal; nothing where that file is another one.
fn is_in_foreground(file: i32) -> Option<bool> {
    // SAFETY: both only look.
    let (there, own) = unsafe { (tcgetpgrp(file), getpgrp()) };
    (there != -1).then_some(there == own)
}

// A file to be looked at, and for what: `struct pollfd` of the C library.
#[repr(C)]
struct Polled {
    file: i32,
    wanted: i16,
    found: i16,
}

const POLLOUT: i16 = 4;

// Whether the file takes a short text within this time; a terminal whose output is halted does not. A handler may call it.
fn is_writable(file: i32, milliseconds: i32) -> bool {
    let mut polled = Polled { file, wanted: POLLOUT, found: 0 };
    // SAFETY: it is one file, with the C library's layout.
    unsafe { poll(&mut polled, 1, milliseconds) == 1 && polled.found & POLLOUT != 0 }
}

// Calls until the call is not interrupted.
fn done(mut call: impl FnMut() -> i32) -> io::Result<()> {
    while call() != 0 {
        let error = io::Error::last_os_error();
        if error.kind() != io::ErrorKind::Interrupted {
            return Err(error);
        }
    }
    Ok(())
}

// What happens at a signal: `struct sigaction` of the C library.
#[repr(C)]
struct Action {
    handler: usize,
    blocked: [u64; 16],
    flags: i32,
    restorer: usize,
}

const DEFAULT: usize = 0;
const IGNORED: usize = 1;
const SIGHUP: i32 = 1;
const SIGINT: i32 = 2;
const SIGQUIT: i32 = 3;
const SIGTERM: i32 = 15;
const SIGCONT: i32 = 18;
const SIGTSTP: i32 = 20;
const SA_RESTART: i32 = 0x1000_0000;
const SA_NODEFER: i32 = 0x4000_0000;
const SA_RESETHAND: i32 = 1 << 31;

// In the order in which the old actions come back: a stop that came while the terminal is put back would make it silent again.
const STOPPING: [i32; 2] = [SIGTSTP, SIGCONT];
const ENDING: [i32; 4] = [SIGHUP, SIGINT, SIGQUIT, SIGTERM];

impl Action {
    // What happens at a signal while a prompt is shown. A second signal waits until the first has put the terminal back.
    fn at_prompt(number: i32) -> Action {
        let (handler, flags): (extern "C" fn(i32), i32) = match number {
            SIGTSTP => (stop, SA_RESTART | SA_NODEFER | SA_RESETHAND),
            SIGCONT => (go_on, SA_RESTART | SA_NODEFER),
            _ => (end, 0),
        };
        let action = Action { flags, ..Action::of(handler as usize) };
        if ENDING.contains(&number) {
            action.alone()
        } else {
            action
        }
    }

    // What happens at a signal that ends the tool while a line is drawn.
    fn at_line(_: i32) -> Action {
        let handler: extern "C" fn(i32) = end_line;
        Action::of(handler as usize).alone()
    }

    // The other signals wait meanwhile.
    fn alone(mut self) -> Action {
        self.blocked[0] = STOPPING.iter().chain(&ENDING).map(|number| 1u64 << (number - 1)).sum();
        self
    }

    fn of(handler: usize) -> Action {
        Action { handler, blocked: [0; 16], flags: 0, restorer: 0 }
    }

    fn now(number: i32) -> Action {
        let mut now = Action::of(IGNORED);
        // SAFETY: the action has the C library's layout. The call fails for no signal that stands here.
        unsafe { sigaction(number, ptr::null(), &mut now) };
        now
    }

    fn set(&self, number: i32) {
        // SAFETY: the action has the C library's layout; it is one of this file's, or was there before.
        unsafe { sigaction(number, self, ptr::null_mut()) };
    }
}

// The prompt for the handlers.
static PROMPT: AtomicPtr<Prompt> = AtomicPtr::new(ptr::null_mut());

fn prompt<'a>() -> Option<&'a Prompt> {
    // SAFETY: the pointer is null, or to a prompt that outlives the handlers; it is only shared.
    unsafe { PROMPT.load(SeqCst).as_ref() }
}

// Ends the tool. In the background the terminal's settings are the shell's, and stay.
extern "C" fn end(number: i32) {
    if let Some(prompt) = prompt().filter(|prompt| prompt.silent.load(SeqCst) && prompt.is_in_foreground()) {
        prompt.hide();
        prompt.print(b"\n");
    }
    end_by(number);
}

// Has the signal end the tool, when its handler has returned.
fn end_by(number: i32) {
    // Only now: a second signal that came before it is blocked would end the tool at once, and SA_RESETHAND is as early.
    Action::of(DEFAULT).set(number);
    // SAFETY: the signal waits until the handler returns, and then has its default action.
    unsafe { raise(number) };
}

// Stops the tool, until it is continued.
extern "C" fn stop(number: i32) {
    let Some(prompt) = prompt() else { return };
    keeping_errno(|| {
        if prompt.silent.load(SeqCst) {
            prompt.hide();
            prompt.print(b"\n");
        }
        // SAFETY: the signal has its default action now and is not blocked: the tool stops here.
        unsafe { raise(number) };
        Action::at_prompt(number).set(number);
        // Where no shell is there to continue it, the system does not stop the tool.
        if !prompt.silent.load(SeqCst) {
            let _ = prompt.show();
        }
    });
}

// Asks again.
extern "C" fn go_on(_: i32) {
    if let Some(prompt) = prompt() {
        keeping_errno(|| {
            let _ = prompt.show();
        });
    }
}

// The code that was interrupted may be about to look at its error number.
fn keeping_errno(act: impl FnOnce()) {
    // SAFETY: the C library's error number of this thread can be read and written at any time.
    let number = unsafe { *__errno_location() };
    act();
    // SAFETY: as above.
    unsafe { *__errno_location() = number };
}

// What signals did before there were handlers for them. A signal that was ignored stays ignored, and is not among them.
struct Before(Vec<(i32, Action)>);

impl Before {
    fn handlers(numbers: impl IntoIterator<Item = i32>, action: fn(i32) -> Action) -> Before {
        let mut before = Vec::new();
        for number in numbers {
            let old = Action::now(number);
            if old.handler != IGNORED {
                action(number).set(number);
                before.push((number, old));
            }
        }
        Before(before)
    }

    fn put_back(&self, numbers: &[i32]) {
        for (number, old) in self.0.iter().filter(|(number, _)| numbers.contains(number)) {
            old.set(*number);
        }
    }
}

// The time of a prompt: the handlers stand, and the terminal is silent.
struct Silence<'a> {
    prompt: &'a Prompt,
    before: Before,
}

impl Silence<'_> {
    fn begin(prompt: &Prompt) -> io::Result<Silence<'_>> {
        PROMPT.store(ptr::from_ref(prompt).cast_mut(), SeqCst);
        let before = Before::handlers(STOPPING.into_iter().chain(ENDING), Action::at_prompt);
        let silence = Silence { prompt, before };
        prompt.show()?;
        Ok(silence)
    }
}

impl Drop for Silence<'_> {
    fn drop(&mut self) {
        self.before.put_back(&STOPPING);
        self.prompt.hide();
        self.before.put_back(&ENDING);
        PROMPT.store(ptr::null_mut(), SeqCst);
    }
}

const STANDARD_ERROR: i32 = 2;
const TIOCGWINSZ: u64 = 0x5413;

/// How many columns the terminal of standard error has; none where it does not say.
pub fn columns() -> Option<usize> {
    // Rows, columns, and both in pixels: `struct winsize` of the C library.
    let mut size = [0u16; 4];
    // SAFETY: the size has the C library's layout.
    let told = unsafe { ioctl(STANDARD_ERROR, TIOCGWINSZ, &mut size) } == 0;
    Some(usize::from(size[1])).filter(|&columns| told && columns > 0)
}

// Whether a line is drawn that is not ended yet.
static DRAWN: AtomicBool = AtomicBool::new(false);

/// The time in which a line is drawn on standard error. A signal that ends the tool ends the line first.
pub struct DrawnLine {
    before: Before,
}

impl DrawnLine {
    pub fn begin() -> DrawnLine {
        DrawnLine { before: Before::handlers(ENDING, Action::at_line) }
    }

    /// Puts these bytes on standard error, after which a drawn line stands there or not, and says whether it did. In the
    /// background nothing is drawn: the terminal is another program's. Nor where its output is halted: the work would wait for
    /// it. A terminal that is gone by now is no reason to stop.
    pub fn draw(&self, bytes: &[u8], stands: bool) -> bool {
        let can_draw = can_draw(if stands { 0 } else { PATIENCE });
        if can_draw {
            DRAWN.store(stands, SeqCst);
            let _ = io::stderr().write_all(bytes);
        }
        can_draw
    }
}

impl Drop for DrawnLine {
    fn drop(&mut self) {
        self.before.put_back(&ENDING);
        DRAWN.store(false, SeqCst);
    }
}

// How many milliseconds a slow terminal gets for the last text of a line.
const PATIENCE: i32 = 300;

// Whether something can be drawn, within this time.
fn can_draw(milliseconds: i32) -> bool {
    is_in_foreground(STANDARD_ERROR) != Some(false) && is_writable(STANDARD_ERROR, milliseconds)
}

// Ends the tool, on a new line of the terminal.
extern "C" fn end_line(number: i32) {
    if DRAWN.swap(false, SeqCst) && can_draw(0) {
        // SAFETY: the bytes are as many as is said.
        unsafe { write(STANDARD_ERROR, b"\n".as_ptr(), 1) };
    }
    end_by(number);
}
