//! The store under test.
//!
//! Every request of every test goes through [`Store`]. It runs the reference implementation and,
//! if the library is linked, the library on a copy of the same image, and compares answer, steps,
//! offset, length and every byte of the image. It also holds each reply to what document 01 says
//! of all requests. So each test is a property of the reference without the library, and a
//! comparison with it.

use crate::account;
use crate::reference::{self, Geometry, ReadReply, Reply, Request, CUT, DAMAGED, DONE, SIZE};
use std::cell::Cell;
use std::io::Write;

/// A put as a value.
pub fn put_of(block: u16, contents: &[u8]) -> Request {
    Request::Put {
        block,
        contents: contents.to_vec(),
    }
}

pub struct Store {
    test: &'static str,
    requests: Cell<u64>,
}

impl Store {
    pub fn new(test: &'static str) -> Store {
        Store {
            test,
            requests: Cell::new(0),
        }
    }

    pub fn count(&self) {
        self.requests.set(self.requests.get() + 1);
    }

    /// A request that writes.
    pub fn perform(
        &self,
        image: &mut [u8],
        g: Geometry,
        request: &Request,
        allowance: u64,
    ) -> Reply {
        self.count();
        let before = image.to_vec();
        let reply = reference::perform(image, g, request, allowance);
        match reply.code {
            DONE => assert!(reply.steps <= allowance),
            CUT => assert_eq!(reply.steps, allowance, "a cut request does what is allowed"),
            _ => {
                assert_eq!(reply.steps, 0, "a refused request takes no step");
                assert!(before == image, "a refused request changes no byte");
            }
        }
        #[cfg(qbx_lib)]
        library::compare(before, image, g, request, allowance, reply);
        reply
    }

    /// A read, in both forms.
    pub fn read(&self, image: &[u8], g: Geometry, block: u16) -> ReadReply {
        self.count();
        let reply = reference::read(image, g, block);
        #[cfg(qbx_lib)]
        library::compare_read(image, g, block, reply);
        reply
    }

    /// The blank test of request #103: whether all bytes are 255, and the groups looked at.
    pub fn blank_test(&self, bytes: &[u8]) -> (bool, u64) {
        self.count();
        let reply = reference::blank_test(bytes);
        #[cfg(qbx_lib)]
        {
            let told = qanbillox::blank_test(bytes);
            assert_eq!((told.blank, told.groups), reply, "{} bytes", bytes.len());
        }
        reply
    }

    /// The account of request #101. Its last line is held to what recovery does.
    pub fn account(&self, image: &[u8], g: Geometry) -> String {
        self.count();
        let text = account::account(image, g);
        let last = text.lines().last().expect("a line at least");
        let recovery = Request::Recover;
        match reference::perform(&mut image.to_vec(), g, &recovery, reference::UNLIMITED) {
            Reply { code: DONE, steps } => assert_eq!(last, format!("recover 0 steps {steps}")),
            Reply { code: SIZE, .. } => assert_eq!(text, "fails 0\n"),
            Reply { code, .. } => {
                assert_eq!(code, DAMAGED);
                assert!(last.starts_with("fails ") && last != "fails 0");
            }
        }
        #[cfg(qbx_lib)]
        {
            // A buffer of the text's length each time, and in turn one that is too short, none, and one
            // that is longer, with the string that the binding allocates.
            let whole = text.len();
            let turn = library::TURN.fetch_add(1, std::sync::atomic::Ordering::Relaxed) % 3;
            let other = [whole - 1, 0, whole + 100][turn];
            library::compare_account(image, g, &text, &[whole, other]);
            if other > whole {
                library::compare_string(image, g, &text);
            }
        }
        text
    }

    /// A request that has to be done whole. Its steps.
    pub fn done(&self, image: &mut [u8], g: Geometry, request: &Request) -> u64 {
        let reply = self.perform(image, g, request, reference::UNLIMITED);
        assert_eq!(reply.code, DONE, "{request:?}");
        reply.steps
    }
}

impl Drop for Store {
    /// Written to standard error itself, so that it shows without `--nocapture`.
    fn drop(&mut self) {
        if !std::thread::panicking() {
            let with = if cfg!(qbx_lib) {
                "compared with the library"
            } else {
                "on the reference alone"
            };
            let requests = self.requests.get();
            let _ = writeln!(
                std::io::stderr(),
                "{}: {requests} requests {with}",
                self.test
            );
        }
    }
}

#[cfg(qbx_lib)]
pub mod library {
    use crate::account;
    use crate::reference::{self, ReadReply, Reply};
    use qanbillox::{Block, Geometry, Request};
    use std::sync::atomic::AtomicUsize;

    /// So that the accounts of all tests take their turn.
    pub static TURN: AtomicUsize = AtomicUsize::new(0);

    fn geometry(g: reference::Geometry) -> Geometry {
        Geometry {
            segments: g.n,
            slots: g.b,
        }
    }

    /// Runs the library on the image as it was before, and compares.
    pub fn compare(
        mut image: Vec<u8>,
        after: &[u8],
        g: reference::Geometry,
        request: &reference::Request,
        allowance: u64,
        reply: Reply,
    ) {
        let typed = match request {
            reference::Request::Format => Request::Format,
            reference::Request::Put { block, contents } => Request::Put {
                block: Block(*block),
                contents,
            },
            reference::Request::Delete { block } => Request::Delete {
                block: Block(*block),
            },
            reference::Request::Recover => Request::Recover,
        };
        let outcome = geometry(g).perform(&mut image, typed, allowance);
        let library = Reply {
            code: outcome.answer.number(),
            steps: outcome.steps,
        };
        assert_eq!(
            library, reply,
            "left the library, right the reference: {request:?} with allowance {allowance}, {g:?}"
        );
        // The place is looked for only if there is one: going byte by byte takes long.
        if image != after {
            let differs = |&at: &usize| image[at] != after[at];
            let at = (0..after.len()).find(differs).expect("equal lengths");
            panic!(
                "byte {at}: the library has {:02X}, the reference {:02X}; \
                 {request:?} with allowance {allowance}, {g:?}",
                image[at], after[at]
            );
        }
    }

    /// Runs both forms of reading on the library, and compares.
    pub fn compare_read(image: &[u8], g: reference::Geometry, block: u16, reply: ReadReply) {
        let read = geometry(g).read(image, Block(block));
        let library = ReadReply {
            code: read.answer.number(),
            offset: read.offset,
            length: read.contents.len(),
        };
        assert_eq!(
            library, reply,
            "left the library, right the reference: read {block}, {g:?}"
        );

        // Not only equal bytes: the same piece of the same slice.
        let factory = b"factory record";
        let (answer, piece) = geometry(g).read_or(image, Block(block), factory);
        let (code, expected) = reference::read_or(image, g, block, factory);
        assert_eq!(answer.number(), code);
        assert_eq!(piece.as_ptr_range(), expected.as_ptr_range());
    }

    /// Runs the account on the library with buffers of these lengths, and compares every byte of them. The image lent is a copy, which must stay as it was.
    pub fn compare_account(image: &[u8], g: reference::Geometry, text: &str, lengths: &[usize]) {
        let lent = image.to_vec();
        for &length in lengths {
            // A pattern, so that a byte out of its place shows too.
            let mut buffer: Vec<u8> = (0..length).map(|i| (i * 7 + 131) as u8).collect();
            let mut expected = buffer.clone();
            let reply = account::lend(text, &mut expected);
            let told = geometry(g).account_into(&lent, &mut buffer);
            assert_eq!(
                (told.answer.number(), told.length),
                reply,
                "left the library, right the reference: account in {length} bytes, {g:?}:\n{text}"
            );
            if buffer != expected {
                let differs = |&at: &usize| buffer[at] != expected[at];
                let at = (0..length).find(differs).expect("equal lengths");
                let shown = String::from_utf8_lossy(&buffer);
                panic!(
                    "byte {at} of a buffer of {length}, {g:?}: the library has\n{shown}\nthe \
                     reference\n{text}"
                );
            }
        }
        assert!(lent == image, "the account writes to the image");
    }

    /// The form that allocates.
    pub fn compare_string(image: &[u8], g: reference::Geometry, text: &str) {
        assert!(geometry(g).account(image) == text);
    }
}
