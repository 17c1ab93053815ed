//! Tests of libtest-mimic that share a server: whichever needs it first starts it, the others find it, and when all have ended it is stopped.
#![forbid(unsafe_code)]
use extension_store::{Key, Lanes, Limits, Store, StoreValue};
use libtest_mimic::{Arguments, Failed, Trial};
use std::io::{self, Read, Write};
use std::net::{TcpListener, TcpStream};
use std::sync::Arc;

const ENGINE: usize = 0;

/// A server that greets each caller who connects.
struct Server {
    listener: TcpListener,
}

impl StoreValue for Server {
    type Fault = io::Error;

    fn closeable(&self) -> bool {
        true
    }
}

impl Server {
    fn start() -> io::Result<Server> {
        let listener = TcpListener::bind("127.0.0.1:0")?;
        println!("started");
        Ok(Server { listener })
    }

    fn greeting(&self) -> io::Result<String> {
        let mut caller = TcpStream::connect(self.listener.local_addr()?)?;
        self.listener.accept()?.0.write_all(b"hello")?;
        let mut greeting = String::new();
        caller.read_to_string(&mut greeting)?;
        Ok(greeting)
    }
}

/// What all tests have: lanes, of which each takes one while it asks the store, and the server's key.
struct Shared {
    lanes: Lanes<Server>,
    server: Key,
}

impl Shared {
    fn server(&self) -> Result<Arc<Server>, Failed> {
        let mut lane = self.lanes.take();
        let found = lane.compute(ENGINE, &self.server, Server::start);
        let server = found.map(|it| it.share());
        Ok(server.map_err(|fault| fault.to_string())?)
    }
}

fn test(shared: &Arc<Shared>, name: String) -> Trial {
    let shared = Arc::clone(shared);
    Trial::test(name, move || match shared.server()?.greeting()?.as_str() {
        "hello" => Ok(()),
        other => Err(format!("the server says {other}").into()),
    })
}

fn main() {
    let words = Arguments::from_args();
    let opened = Store::open(&["[engine:shared_server]"], Limits::default());
    let (_store, lanes, closers) = opened.expect("an id, and limits in their ranges");
    let lanes = Lanes::from(lanes);
    let key = lanes.take().key(&[], "server");
    let server = key.expect("the first key");
    let shared = Arc::new(Shared { lanes, server });
    let tests = (1..=20).map(|it| test(&shared, format!("test{it}")));
    let ended = libtest_mimic::run(&words, tests.collect());
    for closer in closers {
        closer.close(|_server| println!("stopped"));
    }
    ended.exit();
}
