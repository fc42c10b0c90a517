//! The library under test, behind `bridge.c`: a small program for x86-64 that has the library linked in, reads
//! questions from its input and writes the replies and the lent buffers back. It is for machines with another
//! processor, where the bridge runs under an emulator. The words on the command line after `--` start it.

#![allow(dead_code)]

use std::io::{BufReader, Read, Write};
use std::process::{Child, ChildStdin, ChildStdout, Command, Stdio};

pub struct Desk {
    _child: Child,
    ask: ChildStdin,
    hear: BufReader<ChildStdout>,
    /// The question that is being asked, as bytes.
    question: Vec<u8>,
}

impl Desk {
    pub fn open(runner: &[String]) -> Desk {
        if runner.is_empty() {
            eprintln!("the piped program wants the command of its bridge after --");
            std::process::exit(2);
        }
        let mut child = Command::new(&runner[0])
            .args(&runner[1..])
            .stdin(Stdio::piped())
            .stdout(Stdio::piped())
            .spawn()
            .expect("the bridge does not start");
        let ask = child.stdin.take().unwrap();
        let hear = BufReader::with_capacity(1 << 17, child.stdout.take().unwrap());
        Desk { _child: child, ask, hear, question: Vec::new() }
    }

    fn say(&mut self, numbers: &[u64]) {
        for number in numbers {
            self.question.extend(number.to_le_bytes());
        }
    }

    fn say_serials(&mut self, serials: &[u32]) {
        for serial in serials {
            self.question.extend(serial.to_le_bytes());
        }
    }

    fn say_bytes(&mut self, bytes: &[u8]) {
        self.question.extend(bytes);
    }

    /// The library ended the bridge: that is a difference, and the question is its input.
    fn ended(&self) -> ! {
        println!("DIFFERENCE: the bridge ended at this question (bytes as piped.rs says them)");
        println!("  {:02x?}", self.question);
        std::process::exit(1);
    }

    fn send(&mut self) {
        if self.ask.write_all(&self.question).is_err() {
            self.ended();
        }
    }

    fn fill(&mut self, bytes: &mut [u8]) {
        if self.hear.read_exact(bytes).is_err() {
            self.ended();
        }
    }

    fn get(&mut self, numbers: &mut [u64]) {
        let mut word = [0; 8];
        for number in numbers {
            self.fill(&mut word);
            *number = u64::from_le_bytes(word);
        }
    }

    fn get_serials(&mut self, serials: &mut [u32]) {
        let mut word = [0; 4];
        for serial in serials {
            self.fill(&mut word);
            *serial = u32::from_le_bytes(word);
        }
    }

    fn get_bytes(&mut self, bytes: &mut [u8]) {
        self.fill(bytes);
    }

    pub fn routes(&mut self, n: usize, table: &[u64], a: usize, b: usize) -> [u64; 3] {
        self.question.clear();
        self.say(&[1, n as u64, table.len() as u64, a as u64, b as u64]);
        self.say(table);
        self.send();
        let mut out = [0; 3];
        self.get(&mut out);
        out
    }

    /// The holding question, and then the verdict alone.
    pub fn holding(&mut self, n: usize, table: &[u64], k: usize, set: &[u64]) -> [u64; 8] {
        self.question.clear();
        self.say(&[2, n as u64, table.len() as u64, k as u64, set.len() as u64]);
        self.say(table);
        self.say(set);
        self.send();
        let mut out = [0; 8];
        self.get(&mut out);
        out
    }

    pub fn list(&mut self, n: usize, table: &[u64], k: usize, list: &mut [u64], lent: usize) -> [u64; 2] {
        self.question.clear();
        self.say(&[3, n as u64, table.len() as u64, k as u64, lent as u64, list.len() as u64]);
        self.say(table);
        self.say(list);
        self.send();
        let mut out = [0; 2];
        self.get(&mut out);
        self.get(list);
        out
    }

    pub fn station_standing(&mut self, n: usize, table: &[u64], a: usize) -> [u64; 2] {
        self.question.clear();
        self.say(&[4, n as u64, table.len() as u64, a as u64]);
        self.say(table);
        self.send();
        let mut out = [0; 2];
        self.get(&mut out);
        out
    }

    pub fn pair_standing(&mut self, n: usize, table: &[u64], a: usize, b: usize) -> [u64; 2] {
        self.question.clear();
        self.say(&[5, n as u64, table.len() as u64, a as u64, b as u64]);
        self.say(table);
        self.send();
        let mut out = [0; 2];
        self.get(&mut out);
        out
    }

    pub fn read(
        &mut self,
        bytes: &[u8],
        serials: &mut [u32],
        serials_lent: usize,
        table: &mut [u64],
        table_lent: usize,
    ) -> [u64; 4] {
        self.question.clear();
        self.say(&[6, bytes.len() as u64, serials_lent as u64, serials.len() as u64, table_lent as u64, table.len() as u64]);
        self.say_bytes(bytes);
        self.say_serials(serials);
        self.say(table);
        self.send();
        let mut out = [0; 4];
        self.get(&mut out);
        self.get_serials(serials);
        self.get(table);
        out
    }

    pub fn write(&mut self, n: usize, serials: &[u32], table: &[u64], bytes: &mut [u8], lent: usize) -> [u64; 2] {
        self.question.clear();
        self.say(&[7, n as u64, serials.len() as u64, table.len() as u64, lent as u64, bytes.len() as u64]);
        self.say_serials(serials);
        self.say(table);
        self.say_bytes(bytes);
        self.send();
        let mut out = [0; 2];
        self.get(&mut out);
        self.get_bytes(bytes);
        out
    }
    pub fn first_row(&mut self, x: &[u64], y: &[u64]) -> [u64; 2] {
        self.question.clear();
        self.say(&[8, x.len() as u64, y.len() as u64]);
        self.say(x);
        self.say(y);
        self.send();
        let mut out = [0; 2];
        self.get(&mut out);
        out
    }

    /// The bridge fills the buffer with `old` and looks at the bytes past the page, so that they need not be sent.
    pub fn night(&mut self, bytes: &[u8], lent: usize, guard: usize, old: u8) -> ([u64; 3], Vec<u8>) {
        self.question.clear();
        self.say(&[9, bytes.len() as u64, lent as u64, (lent + guard) as u64, old as u64]);
        self.say_bytes(bytes);
        self.send();
        let mut out = [0; 3];
        self.get(&mut out);
        let mut page = vec![0; out[1].min((lent + guard) as u64) as usize];
        self.get_bytes(&mut page);
        (out, page)
    }
}
